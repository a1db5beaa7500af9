//! Random tasks. Each is a table; its split may be refused.

use std::collections::{BTreeMap, BTreeSet};

use reference::arcs::RULES;
use reference::table::{
    used_arguments, Atom, GroundAtom, LiftedAtom, ObjectNumber, Pair, ParameterNumber, PartNumber,
    Role, Schema, SchemaAtom, Task, MAX_PARTS,
};
use reference::tokens;

use crate::differing::{any_differing_task, differing_task, with_pairs};
use crate::limits;
use crate::random::Random;
use crate::shape::{Range, Shape};

pub fn task(random: &mut Random, shape: &Shape) -> Task {
    let arities = arities(random, shape);
    task_of(random, shape, arities, schema)
}

/// A task whose schemas are made so.
pub(crate) fn task_of(
    random: &mut Random,
    shape: &Shape,
    arities: Vec<u16>,
    schema: fn(&mut Random, &Shape, &[u16]) -> Schema,
) -> Task {
    let schemas = (0..random.within(&shape.schemas))
        .map(|_| schema(random, shape, &arities))
        .collect();
    with_ground_atoms(random, shape, arities, schemas)
}

/// A task of any size, most of them small; about one in four has pairs.
pub fn any_task(random: &mut Random) -> Task {
    let task = match random.below(64) {
        0 => task(random, &Shape::LARGE),
        1 => return limits::any_table(random),
        2..=7 => task(random, &Shape::USUAL),
        8..=15 => telling_task(random),
        16..=23 => return any_differing_task(random),
        24..=27 => return differing_task(random, &Shape::FREELY_DIFFERING),
        _ => task(random, &Shape::SMALL),
    };
    if random.chance(1, 4) {
        with_pairs(random, task)
    } else {
        task
    }
}

/// A task of any size, or the split of one where it has a split.
pub fn task_or_split(random: &mut Random) -> Task {
    let task = any_task(random);
    if random.chance(1, 2) {
        return task;
    }
    tokens::split(&task).map_or(task, |split| split.task)
}

/// The task with other parts, from one to as many as a schema may have.
pub fn parted_anew(random: &mut Random, task: &Task) -> Task {
    let mut task = task.clone();
    for schema in &mut task.schemas {
        let parts = random.within(&(1..=schema.atoms.len().min(MAX_PARTS)));
        let places = random.permutation(schema.atoms.len());
        for (atom, place) in schema.atoms.iter_mut().zip(places) {
            atom.part = PartNumber((place % parts) as u16);
        }
    }
    task
}

pub(crate) fn arities(random: &mut Random, shape: &Shape) -> Vec<u16> {
    (0..random.within(&shape.predicates))
        .map(|_| random.within(&shape.arity) as u16)
        .collect()
}

fn with_ground_atoms(
    random: &mut Random,
    shape: &Shape,
    arities: Vec<u16>,
    schemas: Vec<Schema>,
) -> Task {
    let objects = random.within(&shape.objects) as u16;
    let mut atoms = |range: &Range| -> Vec<GroundAtom> {
        let count = random.within(range);
        let atoms: BTreeSet<GroundAtom> = (0..count)
            .map(|_| ground_atom(random, &arities, objects))
            .collect();
        atoms.into_iter().collect()
    };
    let initial = atoms(&shape.initial);
    let goal = atoms(&shape.goal);
    Task {
        objects,
        arities,
        schemas,
        initial,
        goal,
    }
}

pub fn ground_atom(random: &mut Random, arities: &[u16], objects: u16) -> GroundAtom {
    let predicate = random.below(arities.len());
    let arguments: Vec<ObjectNumber> = (0..arities[predicate])
        .map(|_| ObjectNumber(random.below(objects.into()) as u16))
        .collect();
    Atom::new(predicate as u16, &arguments)
}

fn schema(random: &mut Random, shape: &Shape, arities: &[u16]) -> Schema {
    let parameters = random.within(&shape.parameters).max(1);
    let mut atoms: Vec<SchemaAtom> = Vec::new();
    for _ in 0..random.within(&shape.atoms) {
        let role = random.pick(&Role::ALL);
        let atom = if random.chance(1, 2) && !atoms.is_empty() {
            random.pick(&atoms).atom
        } else {
            let predicate = random.below(arities.len());
            lifted_atom(random, arities, predicate, parameters)
        };
        push(&mut atoms, role, PartNumber(0), atom);
    }
    let parts = random.within(&shape.parts);
    if random.chance(shape.free, 8) {
        part_freely(random, &mut atoms, parts);
    } else {
        part_along_arcs(random, &mut atoms, parts);
    }
    finished(random, atoms, Vec::new(), arities)
}

pub(crate) fn lifted_atom(
    random: &mut Random,
    arities: &[u16],
    predicate: usize,
    parameters: usize,
) -> LiftedAtom {
    let arguments: Vec<ParameterNumber> = (0..arities[predicate])
        .map(|_| ParameterNumber(random.below(parameters) as u16))
        .collect();
    Atom::new(predicate as u16, &arguments)
}

/// The atom of a predicate with these parameters, over and over.
pub(crate) fn of_parameters(arities: &[u16], predicate: usize, parameters: &[usize]) -> LiftedAtom {
    let over_and_over = parameters.iter().cycle();
    let arguments: Vec<ParameterNumber> = over_and_over
        .take(arities[predicate].into())
        .map(|parameter| ParameterNumber(*parameter as u16))
        .collect();
    Atom::new(predicate as u16, &arguments)
}

/// Adds the atom unless its role has it.
pub(crate) fn push(atoms: &mut Vec<SchemaAtom>, role: Role, part: PartNumber, atom: LiftedAtom) {
    if !atoms
        .iter()
        .any(|other| (other.role, other.atom) == (role, atom))
    {
        atoms.push(SchemaAtom { role, part, atom });
    }
}

/// Parts the atoms without regard to arcs.
pub(crate) fn part_freely(random: &mut Random, atoms: &mut [SchemaAtom], parts: usize) {
    for atom in atoms {
        atom.part = PartNumber(random.below(parts) as u16);
    }
}

/// Parts the atoms so that an order complies: each predicate is tested up to a
/// first part, deleted up to a second and added from there on.
fn part_along_arcs(random: &mut Random, atoms: &mut [SchemaAtom], parts: usize) {
    let mut cuts: BTreeMap<u16, (usize, usize)> = BTreeMap::new();
    for atom in atoms {
        let (first, second) = *cuts.entry(atom.atom.predicate).or_insert_with(|| {
            let first = random.below(parts);
            (first, random.within(&(first..=parts - 1)))
        });
        let part = random.within(&match atom.role {
            Role::Precondition => 0..=first,
            Role::Delete => first..=second,
            Role::Add => second..=parts - 1,
        });
        atom.part = PartNumber(part as u16);
    }
}

/// The schema of these atoms: sorted by role, its parameters without an unused
/// one and its parts without a gap, numbered at random. Pairs with an unused
/// parameter are left out.
pub(crate) fn finished(
    random: &mut Random,
    mut atoms: Vec<SchemaAtom>,
    mut pairs: Vec<Pair>,
    arities: &[u16],
) -> Schema {
    atoms.sort_by_key(|atom| atom.role);
    let parts: BTreeSet<PartNumber> = atoms.iter().map(|atom| atom.part).collect();
    let new_parts = random.permutation(parts.len());
    let parts: BTreeMap<PartNumber, usize> = parts.into_iter().zip(new_parts).collect();
    let parameters: BTreeSet<ParameterNumber> = atoms
        .iter()
        .flat_map(|atom| used_arguments(&atom.atom, arities))
        .copied()
        .collect();
    let parameters: Vec<ParameterNumber> = parameters.into_iter().collect();
    let renumber = |parameter: &mut ParameterNumber| {
        let number = parameters.partition_point(|other| *other < *parameter);
        *parameter = ParameterNumber(number as u16);
    };
    pairs.retain(|pair| pair.is_within(&parameters));
    for pair in &mut pairs {
        renumber(&mut pair.lower);
        renumber(&mut pair.higher);
    }
    for atom in &mut atoms {
        atom.part = PartNumber(parts[&atom.part] as u16);
        let arity = usize::from(arities[usize::from(atom.atom.predicate)]);
        atom.atom.arguments[..arity].iter_mut().for_each(renumber);
    }
    Schema {
        parameters: parameters.len() as u16,
        pairs,
        atoms,
    }
}

/// A small task with schemas in which a missing arc would be seen: without it,
/// the part it leads to would mostly come first, since it has more
/// preconditions than the part it comes from.
pub fn telling_task(random: &mut Random) -> Task {
    let shape = Shape {
        predicates: 3..=5,
        ..Shape::SMALL_SPLITTABLE
    };
    let arities = arities(random, &shape);
    let mut schemas: Vec<Schema> = (0..random.within(&(1..=2)))
        .map(|_| telling_schema(random, &arities))
        .collect();
    if random.chance(1, 3) {
        schemas.push(schema(random, &shape, &arities));
    }
    random.shuffle(&mut schemas);
    with_ground_atoms(random, &shape, arities, schemas)
}

/// One predicate stands in both roles of an arc, in an early and a late part;
/// all the others are only tested, most often in the late part.
fn telling_schema(random: &mut Random, arities: &[u16]) -> Schema {
    const EARLY: PartNumber = PartNumber(0);
    const LATE: PartNumber = PartNumber(1);
    const APART: PartNumber = PartNumber(2);
    let parameters = random.within(&(1..=3));
    let told = random.below(arities.len());
    let mut told_atom = || lifted_atom(random, arities, told, parameters);
    let (first, other) = (told_atom(), told_atom());
    let second = if random.chance(1, 2) { first } else { other };
    let (first_role, second_role) = random.pick(&RULES);
    let mut atoms = Vec::new();
    push(&mut atoms, first_role, EARLY, first);
    push(&mut atoms, second_role, LATE, second);
    let tested_in = [LATE, LATE, LATE, EARLY, APART];
    for part in &tested_in[..random.within(&(3..=tested_in.len()))] {
        let skip = random.within(&(1..=arities.len() - 1));
        let predicate = (told + skip) % arities.len();
        let atom = lifted_atom(random, arities, predicate, parameters);
        push(&mut atoms, Role::Precondition, *part, atom);
    }
    finished(random, atoms, Vec::new(), arities)
}

/// A task with schemas whose ready parts often have equally many preconditions
/// and name different numbers of parameters in them.
pub fn tying_task(random: &mut Random, shape: &Shape) -> Task {
    let arities = arities(random, shape);
    task_of(random, shape, arities, tying_schema)
}

/// A task whose parts tie, most of them small.
pub fn any_tying_task(random: &mut Random) -> Task {
    let shape = mostly(random, &Shape::TYING, &Shape::WIDE_TYING);
    tying_task(random, shape)
}

/// The usual shape, now and then the other.
pub(crate) fn mostly<'a>(random: &mut Random, usual: &'a Shape, other: &'a Shape) -> &'a Shape {
    if random.chance(1, 8) {
        other
    } else {
        usual
    }
}

/// The first predicates stand in any role, parted along their arcs. The others
/// are only tested, so that they give no arc, and fill every part up to the
/// same number of preconditions, but for a part that has more already or is
/// given an atom twice.
fn tying_schema(random: &mut Random, shape: &Shape, arities: &[u16]) -> Schema {
    let parameters = random.within(&shape.parameters);
    let parts = random.within(&shape.parts);
    let in_any_role = arities.len() / 2;
    let mut atoms = atoms_in_any_role(random, shape, &arities[..in_any_role], parameters);
    part_along_arcs(random, &mut atoms, parts);
    let equally_many = random.within(&(1..=3));
    for part in (0..parts as u16).map(PartNumber) {
        let tests = |atom: &&SchemaAtom| atom.role == Role::Precondition && atom.part == part;
        for _ in atoms.iter().filter(tests).count()..equally_many {
            let predicate = random.within(&(in_any_role..=arities.len() - 1));
            let atom = lifted_atom(random, arities, predicate, parameters);
            push(&mut atoms, Role::Precondition, part, atom);
        }
    }
    finished(random, atoms, Vec::new(), arities)
}

/// Atoms of these predicates in any role, all in part 0.
pub(crate) fn atoms_in_any_role(
    random: &mut Random,
    shape: &Shape,
    arities: &[u16],
    parameters: usize,
) -> Vec<SchemaAtom> {
    let mut atoms = Vec::new();
    for _ in 0..random.within(&shape.atoms) {
        let role = random.pick(&Role::ALL);
        let predicate = random.below(arities.len());
        let atom = lifted_atom(random, arities, predicate, parameters);
        push(&mut atoms, role, PartNumber(0), atom);
    }
    atoms
}
