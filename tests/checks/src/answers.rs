//! Many cases put to an entry point, and how often it gave each answer.

use std::collections::BTreeMap;

use generate::Random;

use crate::report;

/// How often each answer was given, by its number: 0 for a result.
pub type Counts = BTreeMap<u64, usize>;

/// Puts an entry point to many cases, each of which gives its answer's number,
/// and requires that exactly the expected numbers were given.
pub fn each_answer(
    entry: &str,
    seed: u64,
    cases: usize,
    expected: &[u64],
    mut case: impl FnMut(&mut Random) -> u64,
) -> Counts {
    let mut random = Random::new(seed);
    let mut given = Counts::new();
    for _ in 0..cases {
        *given.entry(case(&mut random)).or_default() += 1;
    }
    let numbers: Vec<u64> = given.keys().copied().collect();
    assert_eq!(numbers, expected, "{entry}");
    for (number, count) in &given {
        report(&format!("{entry}, answer {number}"), *count);
    }
    given
}
