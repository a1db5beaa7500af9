//! "Two steps may have equal ground sets and differ."

use crate::subject::EntryPoints;
use crate::{read_table, step};

/// Two schemas with equal atoms, each with two parameters that stand in the same
/// places: whichever of the two a step is of, and whichever way round its
/// objects stand, its ground sets are the same.
fn twins() -> Vec<u16> {
    let schema = "schema=2\npre=0:0\npre=0:1\nadd=1:0\nadd=1:1\npart=0,0,1,1\n";
    read_table(format!("task=1\nobjects=2\narity=1,1\n{schema}{schema}end=1\n").as_bytes())
}

/// Unfolding and folding keep such steps apart.
pub fn are_two_steps(given: &impl EntryPoints) {
    let list = [(1, [0, 1]), (0, [0, 1]), (1, [1, 0]), (0, [1, 0])];
    let steps = list.map(|(schema, objects)| step(schema, objects)).concat();
    let block = |(schema, objects)| [2 * schema, 2 * schema + 1].map(|part| step(part, objects));
    let blocks = list.map(block).concat().concat();
    let table = twins();

    let mut unfolded = vec![7; blocks.len()];
    assert_eq!(given.unfold(&table, &steps, &mut unfolded), [0, 0, 8, 0]);
    assert_eq!(unfolded, blocks);
    let mut folded = vec![7; steps.len()];
    assert_eq!(given.fold(&table, &blocks, &mut folded), [0, 0, 8, 4]);
    assert_eq!(folded, steps);
}
