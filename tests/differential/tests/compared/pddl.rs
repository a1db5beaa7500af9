//! Writing as PDDL.

use checks::answers::each_answer;
use checks::inputs::table_or_damaged;
use checks::rows::write_row;
use checks::vectors::pddl_cases;
use checks::{report, without_parts};
use differential::beside::{compare, lent_bytes, short_or_long, shown};
use differential::pddl::{write_pddl, ENOUGH};
use generate::differing::any_differing_task;
use generate::limits::{largest, longest_pddl, reading, splitting, Limit, LONGEST_PDDL};
use generate::tasks::{parted_anew, task_or_split};
use generate::{tables, Random};
use reference::pddl::Pddl;
use reference::pddl_reader::read_pddl;
use reference::table::Task;

fn compared(table: &[u16], lent: &[u8]) -> u64 {
    compare(
        lent,
        |text| write_row(reference::write_pddl(table, text)),
        |text| write_pddl(table, text),
        || format!("{} bytes lent, table {}", lent.len(), shown(table)),
    )
}

/// The answers with one byte too few, with just enough and with one more.
fn around_its_length(task: &Task) -> [u64; 3] {
    let (table, length) = (tables::table(task), Pddl(task).to_string().len());
    [length - 1, length, length + 1].map(|bytes| compared(&table, &vec![b'x'; bytes]))
}

#[test]
fn sound_and_damaged_tables() {
    each_answer("PDDL compared", 189, 40_000, &[0, 1, 2, 18], |random| {
        let task = task_or_split(random);
        let table = table_or_damaged(random, &task);
        let table = short_or_long(random, table);
        some_bytes(random, &task, &table)
    });
}

/// Compares writing into about as many bytes as the task needs.
fn some_bytes(random: &mut Random, task: &Task, table: &[u16]) -> u64 {
    compared(table, &lent_bytes(random, Pddl(task).to_string().len()))
}

#[test]
fn parameters_that_differ() {
    let entry = "PDDL with pairs compared";
    each_answer(entry, 201, 10_000, &[0, 18], |random| {
        let task = any_differing_task(random);
        some_bytes(random, &task, &tables::table(&task))
    });
}

/// What the proved code writes of a task.
fn written(task: &Task) -> String {
    let mut text = vec![b'x'; LONGEST_PDDL];
    let [answer, place, bytes, _] = write_pddl(&tables::table(task), &mut text);
    assert_eq!([answer, place], [0; 2]);
    text.truncate(bytes as usize);
    String::from_utf8(text).expect("text")
}

/// What is written reads as the task less its parts, so tasks that differ in
/// more have other texts; those that differ in their parts alone have the same.
#[test]
fn read_back_and_parted_anew() {
    let mut random = Random::new(190);
    let tasks = 10_000;
    let [mut parted, mut with_pairs] = [0; 2];
    for _ in 0..tasks {
        let task = task_or_split(&mut random);
        with_pairs += usize::from(task.pairs() > 0);
        let text = written(&task);
        assert_eq!(read_pddl(&text), Ok(without_parts(&task)), "{text}");
        let other = parted_anew(&mut random, &task);
        assert_eq!(written(&other), text);
        parted += usize::from(other != task);
    }
    report("PDDL of the proved code read back", tasks);
    report("PDDL of the proved code with pairs read back", with_pairs);
    report("PDDL of other parts compared", parted);
    assert!(parted > tasks / 2 && with_pairs > tasks / 10);
}

#[test]
fn tables_at_their_limits() {
    let limits = reading();
    for Limit {
        name,
        inside,
        outside,
        ..
    } in &limits
    {
        assert_eq!(around_its_length(inside), [18, 0, 0], "{name}");
        let outside = compared(&tables::table(outside), &[b'x'; LONGEST_PDDL]);
        assert_eq!(outside, 2, "{name}");
    }
    report("tables at their limits as PDDL", 4 * limits.len());
    let limits = splitting();
    for limit in &limits {
        for task in [&limit.inside, &limit.outside] {
            assert_eq!(around_its_length(task), [18, 0, 0], "{}", limit.name);
        }
    }
    report("tables at a split's limits as PDDL", 6 * limits.len());
}

#[test]
fn the_longest_text() {
    for task in [longest_pddl(), largest()] {
        assert_eq!(around_its_length(&task), [18, 0, 0]);
    }
    assert_eq!(written(&longest_pddl()).len(), LONGEST_PDDL);
}

/// With so many bytes lent the code need not count before it writes: at both
/// sides the answer is the same.
#[test]
fn bytes_enough_for_every_task() {
    let mut random = Random::new(191);
    let usual = std::iter::repeat_with(|| task_or_split(&mut random)).take(500);
    let tasks: Vec<Task> = usual.chain([longest_pddl(), largest()]).collect();
    for task in &tasks {
        let table = tables::table(task);
        for bytes in ENOUGH - 1..=ENOUGH + 1 {
            assert_eq!(compared(&table, &vec![b'x'; bytes]), 0);
        }
    }
    report("PDDL into bytes enough for every task", 3 * tasks.len());
}

#[test]
fn vectors() {
    pddl_cases(write_pddl);
}
