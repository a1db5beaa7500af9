//! Texts and tables, tasks and their PDDL, lists and their unfoldings, there and
//! back.

use checks::{read_table, report, without_parts};
use generate::limits::LONGEST_PDDL;
use generate::split_lists::split_list;
use generate::steps::{list, words};
use generate::tables::table;
use generate::tasks::{any_task, parted_anew};
use generate::Random;
use reference::pddl_reader::read_pddl;
use reference::run::STEP_WORDS;
use reference::table::{Task, MAX_PARTS};
use reference::tokens;

/// Writes the table and requires that reading gives it back, and that writing
/// what was read gives the text back.
fn round_trip(table: &[u16]) {
    let written = |table: &[u16]| {
        let mut text = vec![b'x'; 1 << 16];
        let bytes = reference::write(table, &mut text).expect("a table");
        text.truncate(bytes as usize);
        text
    };
    let text = written(table);
    let back = read_table(&text);
    assert!(back == table, "{}", String::from_utf8_lossy(&text));
    assert!(written(&back) == text, "{}", String::from_utf8_lossy(&text));
}

#[test]
fn tables_and_texts() {
    let mut random = Random::new(61);
    let [mut splits, mut with_pairs] = [0; 2];
    let tasks = 8000;
    for _ in 0..tasks {
        let task = any_task(&mut random);
        let table = table(&task);
        assert_eq!(Task::from_words(&table).as_ref(), Some(&task));
        round_trip(&table);
        with_pairs += usize::from(task.pairs() > 0);
        let mut split = vec![7; table.len()];
        if reference::split(&table, &mut split).is_ok() {
            round_trip(&split);
            splits += 1;
        }
    }
    report("round trips of tasks", tasks);
    report("round trips of tasks with pairs", with_pairs);
    report("round trips of splits", splits);
    assert!((tasks / 5..tasks - tasks / 5).contains(&with_pairs));
}

/// The PDDL of a task, which must fit where the longest does and read as that
/// task less its parts; so tasks with the same PDDL differ in no more than these.
fn pddl_round_trip(task: &Task) -> String {
    let mut text = vec![b'x'; LONGEST_PDDL];
    let bytes = reference::write_pddl(&table(task), &mut text).expect("enough bytes");
    text.truncate(bytes as usize);
    let text = String::from_utf8(text).expect("text");
    assert_eq!(read_pddl(&text), Ok(without_parts(task)), "{text}");
    text
}

#[test]
fn tasks_and_pddl() {
    let mut random = Random::new(63);
    let [mut splits, mut parted] = [0; 2];
    let tasks = 8000;
    for _ in 0..tasks {
        let task = any_task(&mut random);
        let text = pddl_round_trip(&task);
        let other = parted_anew(&mut random, &task);
        assert_eq!(pddl_round_trip(&other), text);
        parted += usize::from(other != task);
        if let Ok(split) = tokens::split(&task) {
            pddl_round_trip(&split.task);
            splits += 1;
        }
    }
    report("PDDL round trips of tasks", tasks);
    report("PDDL round trips of other parts", parted);
    report("PDDL round trips of splits", splits);
    assert!(parted.min(splits) > tasks / 2);
}

#[test]
fn lists_and_unfoldings() {
    let mut random = Random::new(62);
    let [mut unfolded, mut folded] = [0; 2];
    for _ in 0..6000 {
        let task = any_task(&mut random);
        let Ok(split) = tokens::split(&task) else {
            continue;
        };
        let table = table(&task);
        let length = random.below(8);
        let steps = words(&list(&mut random, &task, length));
        assert_eq!(unfold_and_fold(&table, &steps).1, Some(steps));
        unfolded += 1;

        let given = words(&split_list(&mut random, &task, &split));
        let mut out = vec![7; given.len()];
        if let Ok(answer) = reference::fold(&table, &given, &mut out) {
            let steps = &out[..STEP_WORDS * answer.steps as usize];
            assert!(out[steps.len()..].iter().all(|word| *word == 7));
            assert_eq!(unfold_and_fold(&table, steps).0, given);
            folded += 1;
        }
    }
    report("unfolded and folded", unfolded);
    report("folded and unfolded", folded);
}

/// The unfolding of a list, and what it folds to.
fn unfold_and_fold(table: &[u16], steps: &[u16]) -> (Vec<u16>, Option<Vec<u16>>) {
    let mut unfolded = vec![7; MAX_PARTS * steps.len()];
    let split_steps = reference::unfold(table, steps, &mut unfolded).expect("steps");
    unfolded.truncate(STEP_WORDS * split_steps as usize);
    let mut back = vec![7; steps.len()];
    let folded = reference::fold(table, &unfolded, &mut back).ok();
    let back = folded.map(|folded| {
        assert_eq!(folded.split_steps, split_steps);
        back[..STEP_WORDS * folded.steps as usize].to_vec()
    });
    (unfolded, back)
}
