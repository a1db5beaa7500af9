//! Proposing.

use checks::answers::each_answer;
use checks::inputs::table_or_damaged;
use checks::rows::plain_row;
use checks::unparted::{barred_by_the_last, tests_of_one_parameter};
use checks::vectors::propose_cases;
use checks::{read_table, report};
use differential::beside::{compare_lent_two, short_or_long, shown, table_to_write};
use differential::proposing::propose;
use generate::differing::any_differing_task;
use generate::proposing::{
    any_proposing_task, any_request, any_width, crowded_task, dirty_words, full_task, Request,
    SCRATCH_LENGTHS,
};
use generate::tasks::{parted_anew, task};
use generate::{limits, tables, Random, Shape};
use reference::propose::{MAX_WIDTH, SCRATCH_WORDS};
use reference::table::{Task, TABLE_WORDS};

fn compared(table: &[u16], width: u64, proposed: &[u16], scratch: &[u64]) -> u64 {
    compare_lent_two(
        (proposed, scratch),
        |proposed, scratch| plain_row(reference::propose(table, width, proposed, scratch)),
        |proposed, scratch| propose(table, width, proposed, scratch),
        || {
            format!(
                "width {width}, {} and {} words lent, table {}",
                proposed.len(),
                scratch.len(),
                shown(table)
            )
        },
    )
}

/// Compares with words enough. The scratch is found with every bit set, so that one
/// taken for an arc would be seen.
fn compared_table(table: &[u16], width: u64) -> u64 {
    compared(table, width, &[7; TABLE_WORDS], &[u64::MAX; SCRATCH_WORDS])
}

fn compared_task(task: &Task, width: u64) -> u64 {
    compared_table(&tables::table(task), width)
}

#[test]
fn sound_and_damaged_tables() {
    let expected = [0, 1, 2, 22, 23];
    each_answer("proposing compared", 203, 20_000, &expected, |random| {
        let Request {
            task,
            width,
            scratch,
        } = any_request(random);
        let table = table_or_damaged(random, &task);
        let table = short_or_long(random, table);
        compared(&table, width, &table_to_write(random), &scratch)
    });
}

/// Scratches of all lengths, with 64 parts in play, for a result, for 23, and for a
/// width too wide.
#[test]
fn every_scratch() {
    let mut random = Random::new(210);
    let table = read_table(barred_by_the_last(64).as_bytes());
    let lengths: Vec<usize> = (0..200).chain(SCRATCH_LENGTHS.concat()).collect();
    for length in &lengths {
        for (width, expected) in [(1, 0), (0, 23), (13, 22)] {
            let scratch = dirty_words(&mut random, *length);
            let number = compared(&table, width, &[7; TABLE_WORDS], &scratch);
            let expected = if *length < 128 { 22 } else { expected };
            assert_eq!(number, expected, "{length} words, width {width}");
        }
    }
    report("scratches of all lengths", 3 * lengths.len());
}

#[test]
fn parameters_that_differ() {
    let entry = "proposing with pairs compared";
    each_answer(entry, 204, 8_000, &[0, 23], |random| {
        let task = any_differing_task(random);
        let width = any_width(random, &task).min(MAX_WIDTH);
        compared_task(&task, width)
    });
}

/// Schemas of up to 64 atoms or just so many, which often end with too many
/// parts.
#[test]
fn many_atoms() {
    let entry = "proposing for many atoms compared";
    each_answer(entry, 205, 500, &[0, 23], |random| {
        let task = if random.chance(1, 2) {
            task(random, &Shape::WIDE_PROPOSING)
        } else {
            full_task(random)
        };
        let width = random.below(8) as u64;
        compared_task(&task, width)
    });
}

/// Up to 64 parts in play, whose arcs decide what is proposed, at every width.
#[test]
fn crowded_schemas() {
    let mut random = Random::new(211);
    let [tasks, mut proposals] = [24, 0];
    for _ in 0..tasks {
        let task = crowded_task(&mut random);
        let answers = (0..=MAX_WIDTH).map(|width| compared_task(&task, width));
        proposals += answers.filter(|number| *number == 0).count();
    }
    report("crowded tasks at every width", tasks);
    report("their proposals", proposals);
    assert!(proposals > 5 * tasks);
    for atoms in 3..=64 {
        let table = read_table(barred_by_the_last(atoms).as_bytes());
        assert_eq!(compared_table(&table, 1), 0);
    }
}

/// Also one task at every width, and with other parts.
#[test]
fn every_width() {
    let mut random = Random::new(206);
    let tasks = 200;
    for _ in 0..tasks {
        let task = any_proposing_task(&mut random);
        let other = parted_anew(&mut random, &task);
        for width in 0..=MAX_WIDTH {
            assert_eq!(compared_task(&task, width), compared_task(&other, width));
        }
        assert_eq!(compared_task(&task, MAX_WIDTH + 1), 22);
    }
    report("tasks at every width, with two partitions", tasks);
}

/// 16 parts pass and 17 don't; a table at any of its limits is taken.
#[test]
fn tables_at_their_limits() {
    for (schemas, expected) in [
        (&[16][..], 0),
        (&[17], 23),
        (&[64], 23),
        (&[16, 64], 23),
        (&[64; 15], 23),
    ] {
        let text = tests_of_one_parameter(schemas);
        let task = reference::text::read_task(text.as_bytes()).expect("a task");
        let answers = [0, 1, MAX_WIDTH].map(|width| compared_task(&task, width));
        assert_eq!(answers, [expected, 0, 0], "{schemas:?}");
    }
    let limits = limits::reading();
    for limit in &limits {
        let inside = [0, 1, 3, MAX_WIDTH].map(|width| compared_task(&limit.inside, width));
        assert!(inside.iter().all(|answer| matches!(answer, 0 | 23)));
        assert_eq!(compared_task(&limit.outside, 3), 2, "{}", limit.name);
    }
    report("tables at their limits proposed for", 5 * limits.len());
    for task in [limits::largest(), limits::longest_pddl()] {
        for width in 0..=MAX_WIDTH {
            assert_eq!(compared_task(&task, width), 0);
        }
    }
}

#[test]
fn vectors() {
    propose_cases(propose);
}
