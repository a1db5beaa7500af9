//! What the wrong variants of proposing's procedure start from, and what they are
//! held against.

use std::collections::BTreeSet;

use reference::arcs::{arcs, RULES};
use reference::propose::propose;
use reference::table::{PartNumber, Schema, Task};

/// Arcs between atoms, or between parts.
pub type Arcs = BTreeSet<(usize, usize)>;

/// The arcs between a schema's atoms.
pub fn atom_arcs(mut schema: Schema) -> Arcs {
    for (number, atom) in (0..).zip(&mut schema.atoms) {
        atom.part = PartNumber(number);
    }
    let arcs = arcs(&schema, &RULES).into_iter();
    arcs.map(|(from, to)| (from.index(), to.index())).collect()
}

/// The parts that the reference proposes for a schema by itself, an atom each;
/// `None` where there are more than a table takes.
pub fn proposed_alone(schema: &Schema, task: &Task, width: usize) -> Option<Vec<usize>> {
    let alone = Task {
        schemas: vec![schema.clone()],
        ..task.clone()
    };
    let proposed = propose(&alone, width as u64).ok()?;
    let atoms = proposed.schemas[0].atoms.iter();
    Some(atoms.map(|atom| atom.part.index()).collect())
}
