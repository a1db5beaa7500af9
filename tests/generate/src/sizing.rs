//! Tasks whose sizes are asked for before a split: many of them have nearly as
//! many ground instances as are told, or just too many.

use std::collections::BTreeSet;

use reference::sizes::INSTANCES_BOUND;
use reference::table::{
    Atom, GroundAtom, ParameterNumber, PartNumber, Role, Schema, SchemaAtom, Task, MAX_ARITY,
    MAX_PARAMETERS, MAX_PARTS, MAX_PREDICATES, MAX_SCHEMAS,
};

use crate::differing::{any_differing_task, differing_task, with_pairs};
use crate::limits;
use crate::random::Random;
use crate::shape::Shape;
use crate::tasks::{any_task, ground_atom};

/// A task of any kind; some have too many instances, a split that is refused,
/// or both.
pub fn any_sizing_task(random: &mut Random) -> Task {
    match random.below(16) {
        0..=4 => any_task(random),
        5 => limits::any_table(random),
        6 => any_differing_task(random),
        7 => differing_task(random, &Shape::FREELY_DIFFERING),
        _ => near_the_bound(random),
    }
}

/// The parameters of a part.
pub type Part = Vec<u16>;

/// A schema whose parts have these parameters. Each has a predicate of its own,
/// so that there is no arc: of arity 4 for parameters, else of arity 0.
pub fn parted_schema(parts: &[Part]) -> Schema {
    let atoms_of = |number: usize, part: &Part| -> Vec<SchemaAtom> {
        let predicate = |arity: usize| (number + if arity == 0 { MAX_PARTS } else { 0 }) as u16;
        let with_arguments = |chunk: &[u16]| {
            let last = *chunk.last().expect("a parameter");
            let arguments: [u16; MAX_ARITY] =
                std::array::from_fn(|at| *chunk.get(at).unwrap_or(&last));
            Atom::new(predicate(MAX_ARITY), &arguments.map(ParameterNumber))
        };
        let atoms: Vec<Atom<ParameterNumber>> = if part.is_empty() {
            vec![Atom::new(predicate(0), &[])]
        } else {
            part.chunks(MAX_ARITY).map(with_arguments).collect()
        };
        let in_part = |atom| SchemaAtom {
            role: Role::ALL[number % Role::ALL.len()],
            part: PartNumber(number as u16),
            atom,
        };
        atoms.into_iter().map(in_part).collect()
    };
    let numbered = parts.iter().enumerate();
    let mut atoms: Vec<SchemaAtom> = numbered
        .flat_map(|(number, part)| atoms_of(number, part))
        .collect();
    atoms.sort_by_key(|atom| atom.role);
    let highest = parts.iter().flatten().max();
    Schema {
        parameters: highest.map_or(0, |highest| highest + 1),
        pairs: Vec::new(),
        atoms,
    }
}

/// A schema of one part with so many parameters.
pub fn undivided_schema(parameters: u16) -> Schema {
    parted_schema(&[(0..parameters).collect()])
}

/// A task of schemas whose parts have predicates of their own.
pub fn task_over(objects: u16, schemas: Vec<Schema>) -> Task {
    let arities = [MAX_ARITY as u16, 0].map(|arity| [arity; MAX_PARTS]);
    Task {
        objects,
        arities: arities.concat(),
        schemas,
        initial: Vec::new(),
        goal: Vec::new(),
    }
}

/// The parameter counts, highest first, of schemas that have so many instances
/// together; or fewer, where there would be more schemas than `most`.
pub fn counts_up_to(total: u128, objects: u16, most: usize) -> Vec<u16> {
    let mut counts = Vec::new();
    let mut left = total;
    for parameters in (0..=MOST_PARAMETERS).rev() {
        let instances = u128::from(objects).pow(parameters.into());
        while instances <= left && counts.len() < most {
            counts.push(parameters);
            left -= instances;
        }
    }
    counts
}

const MOST_PARAMETERS: u16 = MAX_PARAMETERS as u16;

/// Numbers of objects of which some powers together are just one less than 2 to
/// the power 63, with no more schemas than there may be.
const TELLING_OBJECTS: [u16; 10] = [28, 29, 30, 31, 33, 36, 38, 39, 49, 511];

/// A task that has about 2 to the power 63 or 64 instances, before its split,
/// after it or both.
pub fn near_the_bound(random: &mut Random) -> Task {
    let objects = match random.below(4) {
        0 => random.pick(&[32, 64, 128, 256, 512]),
        1 => random.pick(&TELLING_OBJECTS),
        _ => random.within(&(25..=1000)) as u16,
    };
    let total = match random.below(8) {
        0 | 1 => 2 * INSTANCES_BOUND + u128::from(random.bits() % 3),
        2 => INSTANCES_BOUND + u128::from(random.bits() >> 40),
        3 | 4 => INSTANCES_BOUND,
        _ => INSTANCES_BOUND - 1,
    };
    let most = random.pick(&[3, 20, 150, 190, MAX_SCHEMAS]);
    let mut counts = counts_up_to(total, objects, most);
    match (random.below(8), counts.last_mut()) {
        // Just more than the total.
        (0..=2, Some(last @ 0..MOST_PARAMETERS)) => *last += 1,
        (3, _) => counts.push(random.within(&(0..=MAX_PARAMETERS)) as u16),
        (4, _) => drop(counts.remove(random.below(counts.len()))),
        _ => {}
    }
    counts.truncate(MAX_SCHEMAS);
    let mut schemas = match random.below(3) {
        0 => counts.into_iter().map(undivided_schema).collect(),
        1 => some_in_narrow_parts(random, &counts),
        _ => some_together(random, &counts),
    };
    random.shuffle(&mut schemas);
    let task = task_over(objects, schemas);
    perhaps_refused(random, task)
}

/// Schemas with so many parameters, some of them in parts with fewer, so that a
/// split has fewer instances.
fn some_in_narrow_parts(random: &mut Random, counts: &[u16]) -> Vec<Schema> {
    let parted = random.within(&(1..=6));
    let in_parts = |(number, parameters): (usize, &u16)| {
        let all: Part = (0..*parameters).collect();
        let most = random.within(&(1..=MAX_PARAMETERS));
        if number < parted && !all.is_empty() {
            let parts: Vec<Part> = all.chunks(most).map(Part::from).collect();
            parted_schema(&parts)
        } else {
            undivided_schema(*parameters)
        }
    };
    counts.iter().enumerate().map(in_parts).collect()
}

/// Schemas whose parts have so many parameters, the first few several together,
/// so that a split has more instances.
fn some_together(random: &mut Random, counts: &[u16]) -> Vec<Schema> {
    let mut left = counts;
    let mut schemas = Vec::new();
    for _ in 0..random.within(&(1..=6)) {
        let (together, rest) = left.split_at(random.within(&(1..=8)).min(left.len()));
        let Some(&parameters) = together.first() else {
            break;
        };
        // The first part has every parameter, the others any of them.
        let parts: Vec<Part> = together
            .iter()
            .map(|&count| {
                let mut part: Vec<usize> = random.permutation(parameters.into());
                part.truncate(count.into());
                part.sort_unstable();
                part.into_iter().map(|parameter| parameter as u16).collect()
            })
            .collect();
        schemas.push(parted_schema(&parts));
        left = rest;
    }
    schemas.extend(left.iter().copied().map(undivided_schema));
    schemas
}

/// The task as it is or with pairs, and with something for which its split is
/// refused now and then: a schema without an order, a pair in no part or too
/// many predicates.
fn perhaps_refused(random: &mut Random, mut task: Task) -> Task {
    if random.chance(1, 12) {
        let schema = random.pick(&[circular_schema as fn() -> Schema, schema_with_pair_apart])();
        task.schemas.truncate(MAX_SCHEMAS - 1);
        let place = random.below(task.schemas.len() + 1);
        task.schemas.insert(place, schema);
    }
    if random.chance(1, 12) {
        let predicates = MAX_PREDICATES - random.below(30);
        task.arities.resize(predicates, 0);
    }
    let count = random.below(6);
    let atoms: BTreeSet<GroundAtom> = (0..count)
        .map(|_| ground_atom(random, &task.arities, task.objects))
        .collect();
    task.initial = atoms.into_iter().collect();
    if random.chance(1, 4) {
        with_pairs(random, task)
    } else {
        task
    }
}

/// Each of two parts tests what the other deletes.
fn circular_schema() -> Schema {
    let tests = parted_schema(&[vec![0], vec![0]]).atoms;
    let mut atoms = Vec::new();
    for role in [Role::Precondition, Role::Delete] {
        for SchemaAtom { part, atom, .. } in &tests {
            let other = PartNumber(1 - part.0);
            let part = if role == Role::Delete { other } else { *part };
            let atom = *atom;
            atoms.push(SchemaAtom { role, part, atom });
        }
    }
    Schema {
        parameters: 1,
        pairs: Vec::new(),
        atoms,
    }
}

fn schema_with_pair_apart() -> Schema {
    let schema = parted_schema(&[vec![0], vec![1]]);
    Schema {
        pairs: crate::differing::every_pair(schema.parameters),
        ..schema
    }
}
