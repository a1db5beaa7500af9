//! What a split will need, counted on the task without making the split, so that
//! wrong counts can be put in the same form.

use std::collections::BTreeSet;

use generate::sizing::any_sizing_task;
use generate::tables::table;
use generate::Random;
use reference::sizes::{instances, INSTANCES_BOUND};
use reference::table::{used_arguments, ParameterNumber, PartNumber, Schema, Task};
use reference::{tokens, Answer};

use crate::rows::{sizes_row, SizesRow};
use crate::shows_in;

const SEED: u64 = 46;
const TASKS: usize = 6000;

/// Tasks of one seed.
pub fn cases() -> impl Iterator<Item = Case> {
    let mut random = Random::new(SEED);
    (0..TASKS).map(move |_| Case::of(any_sizing_task(&mut random)))
}

/// What is told where nothing is refused, with totals of any size.
#[derive(Clone, Debug)]
pub struct Needs {
    pub predicates: usize,
    pub schemas: usize,
    pub atoms: usize,
    pub bytes: usize,
    pub before: u128,
    pub after: u128,
}

/// A task, its split with its needs or the refusal of it, and what the reference
/// tells.
pub struct Case {
    pub task: Task,
    pub split: Answer<(Task, Needs)>,
    pub right: SizesRow,
}

/// The row of refusal 24.
pub const TOO_MANY: SizesRow = [24, 0, 0, 0, 0, 0, 0, 0];

impl Case {
    fn of(task: Task) -> Case {
        let right = sizes_row(reference::sizes(&table(&task)));
        let split = tokens::split(&task).map(|split| {
            let needs = Needs::of(&task, &split.task);
            (split.task, needs)
        });
        Case { task, split, right }
    }

    /// What is told where the needs are changed, given the task and its split, and
    /// where 24 is refused when this holds of them.
    pub fn told(
        &self,
        change: impl FnOnce(&mut Needs, &Task, &Task),
        too_many: impl FnOnce(&Needs) -> bool,
    ) -> SizesRow {
        match &self.split {
            Err(refusal) => sizes_row(Err(*refusal)),
            Ok((split, needs)) => {
                let mut needs = needs.clone();
                change(&mut needs, &self.task, split);
                if too_many(&needs) {
                    TOO_MANY
                } else {
                    needs.row()
                }
            }
        }
    }

    /// What is told where the needs are changed, refused as the note says.
    pub fn changed(&self, change: impl FnOnce(&mut Needs, &Task, &Task)) -> SizesRow {
        self.told(change, |needs| needs.reach(INSTANCES_BOUND))
    }
}

impl Needs {
    /// Counted on the task, but for the text: the predicates, procnone, a do for
    /// each later part, and the pars up to the largest shared one; the atoms,
    /// procnone or three tokens for each part, and one more than its parts for
    /// each parameter that is shared.
    fn of(task: &Task, split: &Task) -> Needs {
        let mut needs = Needs {
            predicates: task.arities.len() + 1,
            schemas: 0,
            atoms: task.schema_atoms(),
            bytes: split.to_string().len(),
            before: instances(task),
            after: 0,
        };
        for schema in &task.schemas {
            let parts = parts(schema, &task.arities);
            needs.schemas += parts.len();
            needs.predicates += parts.len() - 1;
            needs.atoms += if parts.len() == 1 { 1 } else { 3 * parts.len() };
            let counts = parts_of_parameters(schema, &task.arities);
            let shared = counts.iter().filter(|count| **count > 1);
            needs.atoms += shared.map(|count| count + 1).sum::<usize>();
            for part in parts {
                needs.after += u128::from(task.objects).pow(part.len() as u32);
            }
        }
        let largest = shared_parameters(task).last().copied();
        needs.predicates += largest.map_or(0, |number| number + 1);
        needs
    }

    /// Whether either total is so large.
    pub fn reach(&self, bound: u128) -> bool {
        self.before.max(self.after) >= bound
    }

    fn row(&self) -> SizesRow {
        let sizes = [self.predicates, self.schemas, self.atoms, self.bytes];
        let [predicates, schemas, atoms, bytes] = sizes.map(|size| size as u64);
        let [before, after] = [self.before, self.after].map(|total| total as u64);
        [0, 0, predicates, schemas, atoms, bytes, before, after]
    }
}

/// The parameters of each part of a schema.
fn parts(schema: &Schema, arities: &[u16]) -> Vec<BTreeSet<ParameterNumber>> {
    let count = schema.part_count().expect("a partition") as u16;
    let of_part = |part: PartNumber| {
        let atoms = schema.atoms.iter().filter(move |atom| atom.part == part);
        let arguments = atoms.flat_map(|atom| used_arguments(&atom.atom, arities));
        arguments.copied().collect()
    };
    (0..count).map(PartNumber).map(of_part).collect()
}

/// In how many parts each parameter of a schema is, by its number.
fn parts_of_parameters(schema: &Schema, arities: &[u16]) -> Vec<usize> {
    let parts = parts(schema, arities);
    let parts_of = |parameter: u16| {
        let has = |part: &&BTreeSet<_>| part.contains(&ParameterNumber(parameter));
        parts.iter().filter(has).count()
    };
    (0..schema.parameters).map(parts_of).collect()
}

/// The numbers of parameters that some schema has in several parts.
pub fn shared_parameters(task: &Task) -> BTreeSet<usize> {
    let shared_by = |schema: &Schema| {
        let counts = parts_of_parameters(schema, &task.arities);
        let counts = counts.into_iter().enumerate();
        let shared = counts.filter(|(_, count)| *count > 1);
        shared.map(|(number, _)| number).collect::<Vec<_>>()
    };
    task.schemas.iter().flat_map(shared_by).collect()
}

/// A wrong variant, with its name and the number of cases that it must pass.
pub type Wrong<Variant> = (&'static str, Variant, usize);

/// Requires that each wrong variant tells something else for many cases.
pub fn each_shows<Variant: Copy>(
    wrong: &[Wrong<Variant>],
    told: impl Fn(Variant, &Case) -> SizesRow,
) {
    let mut others = vec![0; wrong.len()];
    for case in cases() {
        for (other, (_, variant, _)) in others.iter_mut().zip(wrong) {
            *other += usize::from(told(*variant, &case) != case.right);
        }
    }
    for ((name, _, least), other) in wrong.iter().zip(others) {
        shows_in(name, other, *least);
    }
}
