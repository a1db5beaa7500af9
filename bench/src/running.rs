//! Running: 20 to 20,000 records, lists of up to 10,000 steps, and the checks
//! alone.

use checks::{read_table, step};
use differential::running::run;
use reference::run::RECORD_WORDS;

use crate::timing::{heading, row};

/// A logger moves from a pier to another: 1,000 objects serve as both.
const TASK: &str =
    "task=1\nobjects=1000\narity=2,1\nschema=3\npre=0:0,1\npre=1:2\nadd=0:0,2\nadd=1:1\n\
     del=0:0,1\ndel=1:2\npart=0,1,1,0,0,1\ninit=0:0,0\ngoal=0:0,0\nend=1\n";

/// The pier that is free at first.
const FREE: u16 = 999;

/// Loggers at piers, as many records as asked, the last one the free pier.
fn state(records: usize) -> Vec<u16> {
    let loggers = records - 1;
    let piers = loggers / 1000 + 1;
    let mut words: Vec<u16> = (0..loggers)
        .flat_map(|k| [0, (k / piers) as u16, (k % piers) as u16, 0, 0])
        .collect();
    words.extend([1, FREE, 0, 0, 0]);
    words
}

/// A logger in the middle goes to the free pier and back, over and over.
fn steps(state: &[u16], length: usize) -> Vec<u16> {
    let middle = state.len() / RECORD_WORDS / 2 * RECORD_WORDS;
    let (logger, pier) = (state[middle + 1], state[middle + 2]);
    let there_and_back = [step(0, [logger, pier, FREE]), step(0, [logger, FREE, pier])];
    there_and_back
        .into_iter()
        .cycle()
        .take(length)
        .flatten()
        .collect()
}

/// Times both on a list from a state, which must give this number.
fn bench_run(what: &str, units: usize, number: u64, steps: &[u16], state: &[u16]) {
    let table = read_table(TASK.as_bytes());
    let records = (state.len() / RECORD_WORDS) as u64;
    let mut expected = state.to_vec();
    let mut found = state.to_vec();
    row(
        what,
        units,
        || {
            expected.copy_from_slice(state);
            let answer = reference::run(&table, steps, &mut expected, records);
            assert_eq!(answer.is_ok(), number == 0);
        },
        || {
            found.copy_from_slice(state);
            assert_eq!(run(&table, steps, &mut found, records)[0], number);
        },
    );
    assert!(found == expected, "{what}");
}

/// What is checked before a step runs: the table, then the steps (of which the
/// last is refused), then the records.
fn bench_checks() {
    heading("running: the checks alone", "each");
    for length in [0, 100, 10_000] {
        let mut list = steps(&state(20), length);
        list.extend(step(1, []));
        let what = format!("the table and {length} steps");
        bench_run(&what, length, 12, &list, &[]);
    }
    for records in [20, 200, 2_000, 20_000] {
        let what = format!("the table and {records} records");
        bench_run(&what, records, 0, &[], &state(records));
    }
}

pub fn bench() {
    bench_checks();
    heading("running", "step");
    for records in [20, 200, 2_000, 20_000] {
        let state = state(records);
        for length in [1, 10, 100, 1_000, 10_000] {
            let what = format!("{records} records, {length} steps");
            bench_run(&what, length, 0, &steps(&state, length), &state);
        }
    }
}
