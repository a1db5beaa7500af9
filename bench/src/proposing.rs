//! Proposing for one schema: 64 atoms at every width, and how it grows with
//! atoms.

use checks::rows::plain_row;
use differential::proposing::propose;
use generate::proposing::filled_task;
use generate::tables::table;
use generate::Random;
use reference::propose::{MAX_WIDTH, SCRATCH_WORDS};
use reference::table::{Task, MAX_ATOMS_OF_SCHEMA, TABLE_WORDS};

use crate::timing::{heading, row};

/// Atoms of these predicates, in any role, with any of 12 parameters.
struct Kind {
    name: &'static str,
    arities: &'static [u16],
}

const KINDS: [Kind; 3] = [
    Kind {
        name: "random",
        arities: &[0, 1, 1, 1, 2, 2, 2, 2, 3, 3, 3, 4],
    },
    // One predicate: each two roles that give arcs do so for all their atoms, and
    // most pairs that are narrow enough are circular.
    Kind {
        name: "dense",
        arities: &[2],
    },
    // Below width 4 hardly any pair is narrow enough.
    Kind {
        name: "wide",
        arities: &[4; 6],
    },
];

impl Kind {
    fn task(&self, atoms: usize) -> Task {
        filled_task(&mut Random::new(209), self.arities, atoms)
    }
}

/// How many parts are proposed, or how the task is refused.
fn told(task: &Task, width: u64) -> String {
    match reference::propose::propose(task, width) {
        Ok(proposed) => {
            let parts = proposed.schemas[0].part_count();
            format!("{} parts", parts.expect("a partition"))
        }
        Err(refusal) => format!("refused by {}", refusal.number()),
    }
}

fn bench_task(name: &str, task: &Task, width: u64) {
    let table = &table(task);
    let atoms = task.schema_atoms();
    let mut expected = (vec![7; TABLE_WORDS], vec![7; SCRATCH_WORDS]);
    let mut found = expected.clone();
    let (proposed, scratch) = &mut expected;
    let answer = plain_row(reference::propose(table, width, proposed, scratch));
    row(
        &format!(
            "{name}, {atoms} atoms, width {width}, {}",
            told(task, width)
        ),
        atoms,
        || {
            let (proposed, scratch) = &mut expected;
            assert_eq!(
                plain_row(reference::propose(table, width, proposed, scratch)),
                answer
            );
        },
        || {
            let (proposed, scratch) = &mut found;
            assert_eq!(propose(table, width, proposed, scratch), answer);
        },
    );
    assert!(found == expected, "{name}, width {width}");
}

pub fn bench() {
    heading("proposing", "atom");
    for kind in KINDS {
        let task = kind.task(MAX_ATOMS_OF_SCHEMA);
        for width in 0..=MAX_WIDTH {
            bench_task(kind.name, &task, width);
        }
    }
    for kind in KINDS {
        for atoms in [4, 8, 16, 32, 64] {
            bench_task(kind.name, &kind.task(atoms), 4);
        }
    }
}
