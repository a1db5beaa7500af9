//! Running.

use checks::answers::each_answer;
use checks::inputs::{lent_state, step_words, task_and_table};
use checks::report;
use checks::rows::run_row;
use checks::vectors::{run_cases, table_cases};
use differential::beside::{compare, short_or_long, shown};
use differential::running::run;
use generate::differing::any_differing_task;
use generate::{limits, steps, tables, Random};
use reference::run::Step;
use reference::table::{ObjectNumber, Task};
use reference::text::read_task;
use reference::tokens;

fn compared(table: &[u16], steps: &[u16], lent: &[u16], records: u64) -> u64 {
    compare(
        lent,
        |state| run_row(reference::run(table, steps, state, records)),
        |state| run(table, steps, state, records),
        || {
            format!(
                "table {}, steps {steps:?}, {records} records {lent:?}",
                shown(table)
            )
        },
    )
}

/// The task with its table or, often, its split with that.
fn original_or_split(random: &mut Random, task: Task, table: Vec<u16>) -> (Task, Vec<u16>) {
    match tokens::split(&task) {
        Ok(split) if random.chance(1, 2) => {
            let table = tables::table(&split.task);
            (split.task, table)
        }
        _ => (task, table),
    }
}

#[test]
fn sound_and_damaged_input() {
    let expected = [0, 1, 2, 12, 15, 16, 17];
    each_answer("running compared", 174, 50_000, &expected, |random| {
        let (task, table) = task_and_table(random);
        let (task, table) = original_or_split(random, task, table);
        let table = short_or_long(random, table);
        some_run(random, &task, &table)
    });
}

/// Compares a run of some list from some state, sound or damaged.
fn some_run(random: &mut Random, task: &Task, table: &[u16]) -> u64 {
    let (state, list) = generate::cases::run(random, task);
    let steps = step_words(random, task, &list);
    let lent = lent_state(random, &state);
    compared(table, &steps, &lent.words, lent.records)
}

/// Steps with equal objects at a pair among them.
#[test]
fn parameters_that_differ() {
    let entry = "running with pairs compared";
    each_answer(entry, 199, 30_000, &[0, 12, 15, 16, 17], |random| {
        let task = any_differing_task(random);
        let table = tables::table(&task);
        let (task, table) = original_or_split(random, task, table);
        some_run(random, &task, &table)
    });
}

#[test]
fn tables_at_their_limits() {
    let limits = limits::reading();
    for limit in &limits {
        let answer = |task: &Task| compared(&tables::table(task), &[], &[7; 8], 0);
        assert_eq!(
            [answer(&limit.inside), answer(&limit.outside)],
            [0, 2],
            "{}",
            limit.name
        );
    }
    report("tables at their limits compared", 2 * limits.len());
}

/// A logger moves from a pier to a free one.
const MOVES: &str = "task=1\nobjects=1000\narity=2,1\nschema=3\npre=0:0,1\npre=1:2\nadd=0:0,2\n\
                     add=1:1\ndel=0:0,1\ndel=1:2\npart=0,1,1,0,0,1\nend=1\n";

/// Each logger at an even pier, and the odd piers free.
fn piers(loggers: u16) -> Vec<u16> {
    let at_piers = (0..loggers).flat_map(|logger| [0, logger, 2 * logger, 0, 0]);
    let free = (0..loggers).flat_map(|logger| [1, 2 * logger + 1, 0, 0, 0]);
    at_piers.chain(free).collect()
}

/// Moves that run from there, one after another.
fn moves(random: &mut Random, loggers: u16, length: usize) -> Vec<Step> {
    let mut at: Vec<u16> = (0..loggers).map(|logger| 2 * logger).collect();
    let mut free: Vec<u16> = (0..loggers).map(|logger| 2 * logger + 1).collect();
    (0..length)
        .map(|_| {
            let [logger, to] = [(); 2].map(|()| random.below(loggers.into()));
            let objects = [logger as u16, at[logger], free[to]].map(ObjectNumber);
            std::mem::swap(&mut at[logger], &mut free[to]);
            Step::new(0, &objects)
        })
        .collect()
}

/// Long lists in states of hundreds of records, some with a last step that
/// cannot run.
#[test]
fn long_lists_in_large_states() {
    let task = read_task(MOVES.as_bytes()).expect("a task");
    let table = tables::table(&task);
    each_answer("long runs compared", 175, 200, &[0, 16], |random| {
        let loggers = random.within(&(1..=500)) as u16;
        let length = random.below(500);
        let mut list = moves(random, loggers, length);
        if random.chance(1, 4) {
            list.push(Step::new(0, &[0, 999, 999].map(ObjectNumber)));
        }
        let records = 2 * u64::from(loggers);
        compared(&table, &steps::words(&list), &piers(loggers), records)
    });
}

#[test]
fn vectors() {
    table_cases(|table| run(table, &[], &mut [], 0)[0] as u32);
    run_cases(run);
}
