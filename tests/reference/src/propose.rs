//! Document 02, note 5, "Propose a partition": the procedure as it is told
//! there, each partition that it tries being built and put to the order rule.
//! By note 7, "A narrow scratch for proposals", "the proposed partitions are
//! those of Note 5 for every task and width"; what is lent is narrower.

use crate::answer::{Answer, Place, Reason, Refusal};
use crate::arcs::{arcs, order, parameters, RULES};
use crate::table::{PartNumber, Schema, SchemaAtom, Task, MAX_PARAMETERS, MAX_PARTS};

/// "A width from 0 to 12."
pub const MAX_WIDTH: u64 = MAX_PARAMETERS as u64;
/// Note 7: "What is lent falls to 128 words of 64 bits."
pub const SCRATCH_WORDS: usize = 128;

/// The task "with fresh parts". Refusal 23: "when a schema ends with more than
/// 16 parts, with the first such schema".
pub fn propose(task: &Task, width: u64) -> Answer<Task> {
    let mut proposed = task.clone();
    for (number, schema) in (0..).zip(&mut proposed.schemas) {
        part(schema, &task.arities, width);
        if part_count(schema) > MAX_PARTS as u16 {
            return Err(Refusal::new(Reason::TooManyParts, Place::Schema(number)));
        }
    }
    Ok(proposed)
}

/// "Each schema starts with every atom in its own part, numbered in file order.
/// While some pair of parts can be merged .., merge the first such pair."
fn part(schema: &mut Schema, arities: &[u16], width: u64) {
    for (number, atom) in (0..).zip(&mut schema.atoms) {
        atom.part = PartNumber(number);
    }
    while let Some(merged) = first_merge(schema, arities, width) {
        *schema = merged;
    }
}

/// The schema with the first pair merged, "by lower and then higher part
/// number", that can be merged "so that together they have at most that many
/// parameters and some order still complies"; `None` where there is no such
/// pair.
fn first_merge(schema: &Schema, arities: &[u16], width: u64) -> Option<Schema> {
    let parts = part_count(schema);
    (0..parts)
        .flat_map(|lower| (lower + 1..parts).map(move |higher| [lower, higher].map(PartNumber)))
        .filter(|pair| parameters_together(schema, arities, *pair) <= width)
        .map(|pair| merged(schema, pair))
        .find(|merged| order(merged, arities, &arcs(merged, &RULES)).is_some())
}

/// How many different parameters two parts have together.
fn parameters_together(schema: &Schema, arities: &[u16], pair: [PartNumber; 2]) -> u64 {
    let of_either = |atom: &&SchemaAtom| pair.contains(&atom.part);
    let atoms = schema.atoms.iter().filter(of_either);
    parameters(atoms, arities).len() as u64
}

/// "The merged part takes the lower number and higher ones close up."
fn merged(schema: &Schema, [lower, higher]: [PartNumber; 2]) -> Schema {
    let mut schema = schema.clone();
    for SchemaAtom { part, .. } in &mut schema.atoms {
        if *part == higher {
            *part = lower;
        } else if *part > higher {
            *part = PartNumber(part.0 - 1);
        }
    }
    schema
}

/// How many parts there are, which may be more than a table takes.
fn part_count(schema: &Schema) -> u16 {
    let parts = schema.atoms.iter().map(|atom| atom.part.0 + 1);
    parts.max().unwrap_or(0)
}
