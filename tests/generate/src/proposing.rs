//! What is lent for proposing: tasks on which a wrong step of the procedure
//! shows, widths and scratches.

use std::collections::BTreeSet;

use reference::arcs::RULES;
use reference::propose::{MAX_WIDTH, SCRATCH_WORDS};
use reference::table::{
    used_arguments, LiftedAtom, PartNumber, Role, SchemaAtom, Task, MAX_ATOMS_OF_SCHEMA,
    MAX_PARAMETERS,
};

use crate::differing::{any_differing_task, with_pairs};
use crate::random::Random;
use crate::shape::Shape;
use crate::tasks::{
    any_task, arities, atoms_in_any_role, finished, lifted_atom, mostly, of_parameters,
    part_freely, push, task, task_of,
};

/// A task with the width and the scratch that go with it.
#[derive(Clone, Debug)]
pub struct Request {
    pub task: Task,
    pub width: u64,
    pub scratch: Vec<u64>,
}

/// Any task, width and scratch; about one of five is refused by 22.
pub fn any_request(random: &mut Random) -> Request {
    let task = any_proposing_task(random);
    let width = any_width(random, &task);
    let length = any_scratch_length(random);
    let scratch = dirty_words(random, length);
    Request {
        task,
        width,
        scratch,
    }
}

/// A width from 0 to 13, often that of an atom; now and then one far above,
/// often with low digits that are none too wide.
pub fn any_width(random: &mut Random, task: &Task) -> u64 {
    match random.below(24) {
        0 => random.pick(&[14, 64, 1 << 8, 1 << 16, 1 << 32, 1 << 63]) + random.bits() % 13,
        1 => u64::MAX,
        2..=13 if !task.schemas.is_empty() => width_of_an_atom(random, task),
        _ => random.bits() % (MAX_WIDTH + 2),
    }
}

/// How many parameters some atom of the task's schemas has.
fn width_of_an_atom(random: &mut Random, task: &Task) -> u64 {
    let schema = &task.schemas[random.below(task.schemas.len())];
    let SchemaAtom { atom, .. } = random.pick(&schema.atoms);
    let arguments = used_arguments(&atom, &task.arities).iter();
    arguments.collect::<BTreeSet<_>>().len() as u64
}

/// Lengths of scratches that are too short, and of longer ones than needed. 16 or
/// 32 words are 128 bytes or words of 16 bits; 128 words are 512 of 16 bits, or
/// 1,024 bytes; 4,096 words of 16 bits were needed before note 7.
pub const SCRATCH_LENGTHS: [&[usize]; 2] = [
    &[0, 1, 15, 16, 31, 32, 63, 64, 65, 127],
    &[129, 255, 256, 511, 512, 1023, 1024, 4095, 4096],
];

/// Just enough words, mostly; else a word too few or one more, a length of those
/// above, or any.
fn any_scratch_length(random: &mut Random) -> usize {
    let [short, long] = SCRATCH_LENGTHS;
    match random.below(24) {
        0 => random.pick(short),
        1 => SCRATCH_WORDS - 1,
        2 => random.below(SCRATCH_WORDS),
        3 => SCRATCH_WORDS + 1,
        4 => SCRATCH_WORDS + random.below(100),
        5 => random.pick(long),
        _ => SCRATCH_WORDS,
    }
}

/// Words of 64 bits, none of them 0; most have no low bits, so that it is seen
/// where only these are cleared.
pub fn dirty_words(random: &mut Random, length: usize) -> Vec<u64> {
    let dirty_word = |_| (random.bits() | 1) << random.below(64);
    (0..length).map(dirty_word).collect()
}

/// A task of any kind, most of them small; about one in four has pairs.
pub fn any_proposing_task(random: &mut Random) -> Task {
    let shape = mostly(random, &Shape::PROPOSING, &Shape::WIDE_PROPOSING);
    let task = match random.below(16) {
        0 | 1 => return any_task(random),
        2 | 3 => return any_differing_task(random),
        4..=7 => task(random, shape),
        _ => proposing_task(random, shape),
    };
    perhaps_with_pairs(random, task)
}

fn perhaps_with_pairs(random: &mut Random, task: Task) -> Task {
    if random.chance(1, 4) {
        with_pairs(random, task)
    } else {
        task
    }
}

/// A task of one schema with as many atoms and parameters as it may have.
pub fn full_task(random: &mut Random) -> Task {
    let arities: Vec<u16> = (0..random.within(&(1..=6)))
        .map(|_| random.within(&(2..=4)) as u16)
        .collect();
    let task = filled_task(random, &arities, MAX_ATOMS_OF_SCHEMA);
    perhaps_with_pairs(random, task)
}

/// A task of one schema with so many different atoms of these predicates, which
/// must have that many, in any role.
pub fn filled_task(random: &mut Random, arities: &[u16], count: usize) -> Task {
    filled_with(random, arities, count, |random, predicate| {
        lifted_atom(random, arities, predicate, MAX_PARAMETERS)
    })
}

/// A task of one schema with 64, 63 or any number from 33 to 62 atoms, each with
/// parameters of one group: many parts are in play, and where the width takes a
/// group in they end as so few that their partition is told.
pub fn crowded_task(random: &mut Random) -> Task {
    let fewer = random.within(&(33..=62));
    let count = random.pick(&[MAX_ATOMS_OF_SCHEMA, 63, fewer, fewer]);
    let predicates = random.pick(&[1, 2, 3, 5, 8, 16]);
    let arities: Vec<u16> = (0..predicates)
        .map(|_| random.within(&(2..=4)) as u16)
        .collect();
    let together = random.pick(&[2, 3, 4, 6]);
    let task = filled_with(random, &arities, count, |random, predicate| {
        let first = together * random.below(MAX_PARAMETERS / together);
        let arguments: Vec<usize> = (0..arities[predicate])
            .map(|_| first + random.below(together))
            .collect();
        of_parameters(&arities, predicate, &arguments)
    });
    perhaps_with_pairs(random, task)
}

/// A task of one schema with so many different atoms, made so for a predicate, in
/// any role.
fn filled_with(
    random: &mut Random,
    arities: &[u16],
    count: usize,
    atom_of: impl Fn(&mut Random, usize) -> LiftedAtom,
) -> Task {
    let mut atoms = Vec::new();
    while atoms.len() < count {
        let role = random.pick(&Role::ALL);
        let predicate = random.below(arities.len());
        let atom = atom_of(random, predicate);
        push(&mut atoms, role, PartNumber(0), atom);
    }
    Task {
        objects: 1,
        arities: arities.to_vec(),
        schemas: vec![finished(random, atoms, Vec::new(), arities)],
        initial: Vec::new(),
        goal: Vec::new(),
    }
}

/// A task with schemas in which merges are often circular.
fn proposing_task(random: &mut Random, shape: &Shape) -> Task {
    let arities = arities(random, shape);
    task_of(random, shape, arities, |random, shape, arities| {
        let parameters = random.within(&shape.parameters);
        let mut atoms = if random.chance(1, 2) {
            ring(random, arities, parameters)
        } else {
            barred(random, arities, parameters)
        };
        let others = random.pick(&[0, 1, 3]);
        for SchemaAtom { role, atom, .. } in atoms_in_any_role(random, shape, arities, parameters) {
            if random.chance(others, 8) {
                push(&mut atoms, role, PartNumber(0), atom);
            }
        }
        atoms.truncate(MAX_ATOMS_OF_SCHEMA);
        random.shuffle(&mut atoms);
        let parts = random.within(&shape.parts);
        part_freely(random, &mut atoms, parts);
        finished(random, atoms, Vec::new(), arities)
    })
}

/// A predicate in two roles that give an arc, for each of some groups of
/// parameters: the first with its own, the second with those of the next group.
/// Parts of one group each would have arcs all around, so that the last merge
/// makes a circle of as many parts.
fn ring(random: &mut Random, arities: &[u16], parameters: usize) -> Vec<SchemaAtom> {
    let mut predicates = random.permutation(arities.len());
    predicates.sort_by_key(|predicate| arities[*predicate] == 0);
    let together = random.within(&(1..=parameters.div_ceil(3)));
    let numbers: Vec<usize> = (0..parameters).collect();
    let groups: Vec<&[usize]> = numbers.chunks(together).take(predicates.len()).collect();
    let next = groups.iter().cycle().skip(1);
    let mut atoms = Vec::new();
    for ((own, next), predicate) in groups.iter().zip(next).zip(predicates) {
        let (first, second) = random.pick(&RULES);
        for (role, group) in [(first, own), (second, next)] {
            let atom = of_parameters(arities, predicate, group);
            push(&mut atoms, role, PartNumber(0), atom);
        }
    }
    atoms
}

/// A predicate tested and added with one parameter and deleted with as many as
/// it takes: as long as the delete is too wide to join them, the test and the
/// add can't be merged.
fn barred(random: &mut Random, arities: &[u16], parameters: usize) -> Vec<SchemaAtom> {
    let mut atoms = Vec::new();
    for parameter in 0..parameters {
        let predicate = random.below(arities.len());
        let narrow = of_parameters(arities, predicate, &[parameter]);
        let wide = of_parameters(arities, predicate, &random.permutation(parameters));
        for (role, atom) in [
            (Role::Precondition, narrow),
            (Role::Add, narrow),
            (Role::Delete, wide),
        ] {
            push(&mut atoms, role, PartNumber(0), atom);
        }
    }
    atoms
}
