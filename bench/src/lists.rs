//! What unfolding and folding share: lists of M's steps and their unfoldings.

use checks::step;
use reference::run::STEP_WORDS;

use crate::tasks::small;

/// A list of M's steps and its unfolding, three times as long.
pub struct Lists {
    pub table: Vec<u16>,
    pub steps: Vec<u16>,
    pub unfolding: Vec<u16>,
}

impl Lists {
    /// The number of split steps.
    pub fn split_steps(&self) -> usize {
        self.unfolding.len() / STEP_WORDS
    }
}

/// One of M's 27 steps.
fn nth_step(number: usize) -> Vec<u16> {
    step(0, [1, 3, 9].map(|place| (number / place % 3) as u16))
}

/// A list of so many steps.
fn list(table: &[u16], length: usize) -> Lists {
    let steps: Vec<u16> = (0..length).flat_map(nth_step).collect();
    let mut unfolding = vec![0; 3 * steps.len()];
    let split_steps = reference::unfold(table, &steps, &mut unfolding);
    assert_eq!(split_steps, Ok(3 * length as u64));
    Lists {
        table: table.to_vec(),
        steps,
        unfolding,
    }
}

/// Lists of up to a million split steps.
pub fn lists() -> impl Iterator<Item = Lists> {
    let table = small().table;
    let lengths = [0, 1, 10, 100, 1_000, 10_000, 100_000, 333_333];
    lengths.into_iter().map(move |length| list(&table, length))
}
