//! Words to lend, sound and damaged.

use generate::tasks::any_task;
use generate::{states, steps, tables, LentState, Random};
use reference::run::{State, Step};
use reference::table::{Task, TABLE_WORDS};

/// Words of any value.
pub fn junk(random: &mut Random, length: usize) -> Vec<u16> {
    (0..length).map(|_| random.word()).collect()
}

/// A lent table full of junk, sometimes too short or too long.
pub fn lent_table(random: &mut Random) -> Vec<u16> {
    let length = match random.below(20) {
        0 => random.below(TABLE_WORDS),
        1 => TABLE_WORDS + 3,
        _ => TABLE_WORDS,
    };
    junk(random, length)
}

/// A task and its table, or a damaged one.
pub fn task_and_table(random: &mut Random) -> (Task, Vec<u16>) {
    let task = any_task(random);
    let table = table_or_damaged(random, &task);
    (task, table)
}

/// The table of a task, or a damaged one.
pub fn table_or_damaged(random: &mut Random, task: &Task) -> Vec<u16> {
    if random.chance(1, 8) {
        tables::damaged(random, task)
    } else {
        tables::table(task)
    }
}

/// The words of steps of a task, or damaged ones, or such as have equal objects
/// at a pair.
pub fn step_words(random: &mut Random, task: &Task, list: &[Step]) -> Vec<u16> {
    match random.below(9) {
        0..=2 => steps::damaged(random, list),
        3 => steps::words(&steps::equal_at_a_pair(random, task, list)),
        _ => steps::words(list),
    }
}

/// A state with some words to spare, or a damaged one.
pub fn lent_state(random: &mut Random, state: &State) -> LentState {
    let spare = random.below(40);
    if random.chance(1, 8) {
        states::damaged(random, state, spare)
    } else {
        states::lent(random, state, spare)
    }
}
