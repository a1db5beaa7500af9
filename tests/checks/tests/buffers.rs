//! Every entry point on sound and damaged input: it always answers, and leaves
//! each lent word as document 01 says.

use checks::answers::each_answer;
use checks::inputs::{junk, lent_state, lent_table, step_words, table_or_damaged, task_and_table};
use checks::{read_table, report, without_parts};
use generate::proposing::any_request;
use generate::sizing::any_sizing_task;
use generate::split_lists::split_list;
use generate::tasks::{any_task, task_or_split};
use generate::{limits, steps, texts, Random};
use reference::pddl::Pddl;
use reference::pddl_reader::read_pddl;
use reference::propose::SCRATCH_WORDS;
use reference::run::{RECORD_WORDS, STEP_WORDS};
use reference::table::{Task, TABLE_WORDS};
use reference::{tokens, Answer};

const CASES: usize = 5000;

/// The refusal's number, or 0 for a result.
fn number<Value>(answer: &Answer<Value>) -> u64 {
    answer
        .as_ref()
        .err()
        .map_or(0, |refusal| refusal.number().into())
}

#[test]
fn reading() {
    let expected = [0, 1, 3, 4, 5, 6, 7, 8, 19, 21];
    each_answer("reading", 71, CASES, &expected, |random| {
        let task = if random.chance(1, 32) {
            limits::any_side(random)
        } else {
            any_task(random)
        };
        let mut text = task.to_string().into_bytes();
        if random.chance(7, 8) {
            text = texts::damaged(random, &text);
        }
        let found = lent_table(random);
        let mut table = found.clone();
        let number = number(&reference::read(&text, &mut table));
        match number {
            0 => {
                let task = Task::from_words(&table).expect("a table");
                assert!(task.to_string().as_bytes() == text);
            }
            1 => assert!(table == found),
            _ => assert!(table[..TABLE_WORDS] == [0; TABLE_WORDS]),
        }
        assert!(table.get(TABLE_WORDS..) == found.get(TABLE_WORDS..));
        number
    });
}

#[test]
fn writing() {
    each_answer("writing", 72, CASES, &[0, 1, 2, 11], |random| {
        let (task, table) = task_and_table(random);
        let length = task.to_string().len();
        let lent = random.pick(&[length - 1, length, length + 1, 2 * length]);
        let mut text = vec![b'x'; lent];
        let answer = reference::write(&table, &mut text);
        let written = answer.unwrap_or(0) as usize;
        assert!(text[written..].iter().all(|byte| *byte == b'x'));
        if written > 0 {
            assert!(read_table(&text[..written]) == table[..TABLE_WORDS]);
        }
        number(&answer)
    });
}

#[test]
fn writing_pddl() {
    each_answer("writing PDDL", 78, CASES, &[0, 1, 2, 18], |random| {
        let task = task_or_split(random);
        let table = table_or_damaged(random, &task);
        let length = Pddl(&task).to_string().len();
        let lent = random.pick(&[length - 1, length, length + 1, 2 * length]);
        let mut text = vec![b'x'; lent];
        let answer = reference::write_pddl(&table, &mut text);
        let (written, rest) = text.split_at(answer.unwrap_or(0) as usize);
        assert!(rest.iter().all(|byte| *byte == b'x'));
        if answer.is_ok() {
            let task = Task::from_words(&table).expect("a table");
            let written = std::str::from_utf8(written).expect("text");
            assert_eq!(read_pddl(written), Ok(without_parts(&task)));
        }
        number(&answer)
    });
}

#[test]
fn splitting() {
    each_answer("splitting", 73, CASES, &[0, 1, 2, 9, 10, 20], |random| {
        let (_, table) = task_and_table(random);
        let found = lent_table(random);
        let mut out = found.clone();
        let answer = reference::split(&table, &mut out);
        match answer {
            Ok(()) => assert!(Task::from_words(&out).is_some()),
            Err(_) => assert!(out == found),
        }
        assert!(out.get(TABLE_WORDS..) == found.get(TABLE_WORDS..));
        number(&answer)
    });
}

/// "All 0 after a result or 23", else as found.
fn require_scratch(scratch: &[u64], found: &[u64], number: u64) {
    let cleared = if matches!(number, 0 | 23) {
        SCRATCH_WORDS
    } else {
        0
    };
    assert!(scratch[..cleared].iter().all(|word| *word == 0));
    assert!(scratch[cleared..] == found[cleared..]);
}

#[test]
fn proposing() {
    each_answer("proposing", 79, CASES, &[0, 1, 2, 22, 23], |random| {
        let request = any_request(random);
        let table = table_or_damaged(random, &request.task);
        let found = lent_table(random);
        let mut proposed = found.clone();
        let mut scratch = request.scratch.clone();
        let answer = reference::propose(&table, request.width, &mut proposed, &mut scratch);
        require_scratch(&scratch, &request.scratch, number(&answer));
        match answer {
            Ok(()) => {
                let tasks = [&proposed, &table].map(|words| Task::from_words(words));
                let [proposed, task] = tasks.map(|task| without_parts(&task.expect("a table")));
                assert_eq!(proposed, task);
            }
            Err(_) => assert!(proposed == found),
        }
        assert!(proposed.get(TABLE_WORDS..) == found.get(TABLE_WORDS..));
        number(&answer)
    });
}

/// Refused as splitting is, and by 24 only where it is not.
#[test]
fn telling_sizes() {
    let expected = [0, 1, 2, 9, 10, 20, 24];
    let seen = each_answer("telling sizes", 80, 2 * CASES, &expected, |random| {
        let task = any_sizing_task(random);
        let table = table_or_damaged(random, &task);
        let mut split = vec![7; TABLE_WORDS];
        let refused = reference::split(&table, &mut split).err();
        let sizes = reference::sizes(&table);
        match sizes {
            Ok(sizes) => {
                let counts = [sizes.predicates, sizes.schemas, sizes.schema_atoms];
                assert_eq!(counts, [1, 2, 3].map(|at| u64::from(split[at])));
                let written = reference::write(&split, &mut [0; 1 << 16]);
                assert_eq!(written, Ok(sizes.text_bytes));
            }
            Err(refusal) if refusal.number() == 24 => assert_eq!(refused, None),
            Err(refusal) => assert_eq!(refused, Some(refusal)),
        }
        number(&sizes)
    });
    assert!(seen.values().all(|times| *times > 10), "{seen:?}");
}

/// Requires that the lent words hold so many ascending records, then zeros.
fn require_records(lent: &[u16], records: u64) {
    let (records, rest) = lent.split_at(RECORD_WORDS * records as usize);
    let records: Vec<&[u16]> = records.chunks(RECORD_WORDS).collect();
    assert!(records.is_sorted_by(|a, b| a < b));
    assert!(rest.iter().all(|word| *word == 0));
}

#[test]
fn running() {
    let expected = [0, 1, 2, 12, 15, 16, 17];
    each_answer("running", 74, 2 * CASES, &expected, |random| {
        let (task, table) = task_and_table(random);
        let (state, list) = generate::cases::run(random, &task);
        let steps = step_words(random, &task, &list);
        let found = lent_state(random, &state);
        let mut lent = found.words.clone();
        let answer = reference::run(&table, &steps, &mut lent, found.records);
        match answer {
            Ok(ran) => require_records(&lent, ran.records),
            Err(refusal) if matches!(refusal.number(), 16 | 17) => {
                require_records(&lent, refusal.records);
                let before = &steps[..STEP_WORDS * refusal.place.number() as usize];
                let mut state = found.words;
                let ran = reference::run(&table, before, &mut state, found.records);
                assert_eq!(ran.map(|ran| ran.records), Ok(refusal.records));
                assert_eq!(lent, state);
            }
            Err(_) => assert_eq!(lent, found.words),
        }
        number(&answer)
    });
}

/// Requires that so many steps were written over the sevens lent, and no more.
fn require_steps(out: &[u16], task: &Task, steps: u64) {
    let (list, rest) = out.split_at(STEP_WORDS * steps as usize);
    assert!(reference::run::steps_from_words(task, list).is_ok());
    assert!(rest.iter().all(|word| *word == 7));
}

#[test]
fn unfolding() {
    let expected = [0, 1, 2, 9, 10, 12, 13, 20];
    each_answer("unfolding", 75, CASES, &expected, |random| {
        let (task, table) = task_and_table(random);
        let length = random.below(6);
        let list = steps::list(random, &task, length);
        let steps = step_words(random, &task, &list);
        let mut out = vec![7; random.below(30 * STEP_WORDS)];
        let answer = reference::unfold(&table, &steps, &mut out);
        let task = Task::from_words(&table).unwrap_or(task);
        match (answer, tokens::split(&task)) {
            (Ok(steps), Ok(split)) => require_steps(&out, &split.task, steps),
            _ => require_steps(&out, &task, 0),
        }
        number(&answer)
    });
}

#[test]
fn folding() {
    let expected = [0, 1, 2, 9, 10, 12, 13, 14, 20];
    each_answer("folding", 76, 2 * CASES, &expected, |random| {
        let (task, table) = task_and_table(random);
        let steps = match tokens::split(&task) {
            Ok(split) => {
                let list = split_list(random, &task, &split);
                step_words(random, &split.task, &list)
            }
            Err(_) => steps::words(&steps::list(random, &task, 3)),
        };
        let mut out = vec![7; random.below(8 * STEP_WORDS)];
        let answer = reference::fold(&table, &steps, &mut out);
        let task = Task::from_words(&table).unwrap_or(task);
        require_steps(&out, &task, answer.map_or(0, |folded| folded.steps));
        if let Ok(folded) = answer {
            assert_eq!(STEP_WORDS * folded.split_steps as usize, steps.len());
        }
        number(&answer)
    });
}

/// Words of any length and value, which are mostly no table.
#[test]
fn anything() {
    let mut random = Random::new(77);
    for _ in 0..CASES {
        let words = |random: &mut Random| {
            let length = random.below(40);
            junk(random, length)
        };
        let mut table = words(&mut random);
        if random.chance(1, 2) {
            let small = |word: &mut u16| *word %= 3;
            table.iter_mut().for_each(small);
            table.resize(TABLE_WORDS, 0);
        }
        let steps = words(&mut random);
        let mut lent = words(&mut random);
        let records = random.bits();
        let bytes: Vec<u8> = steps.iter().map(|word| *word as u8).collect();
        let _ = reference::write(&table, &mut [0; 100]);
        let _ = reference::write_pddl(&table, &mut [0; 100]);
        let _ = reference::run(&table, &steps, &mut lent, records);
        let _ = reference::unfold(&table, &steps, &mut lent);
        let _ = reference::fold(&table, &steps, &mut lent);
        let _ = reference::propose(
            &table,
            records % 16,
            &mut [0; TABLE_WORDS],
            &mut [0; SCRATCH_WORDS],
        );
        let _ = reference::sizes(&table);
        let _ = reference::split(&table.clone(), &mut table);
        assert!(reference::read(&bytes, &mut table).is_err());
    }
    report("anything", CASES);
}
