//! Random tasks with pairs of parameters that must differ.

use std::collections::BTreeSet;

use reference::arcs::{hold_a_pair, RULES};
use reference::table::{
    used_arguments, Atom, Pair, ParameterNumber, PartNumber, Role, Schema, SchemaAtom, Task,
    MAX_ATOMS_OF_SCHEMA, MAX_PAIRS,
};
use reference::tokens;

use crate::random::Random;
use crate::shape::Shape;
use crate::tasks::{
    arities, atoms_in_any_role, finished, mostly, of_parameters, part_freely, push, task_of,
};

/// The task with random pairs, in most schemas only such as stand together in
/// some part; with another one its split is refused by 20.
pub(crate) fn with_pairs(random: &mut Random, mut task: Task) -> Task {
    let mut room = MAX_PAIRS;
    for schema in &mut task.schemas {
        let any = random.chance(1, 3);
        let mut pairs = every_pair(schema.parameters);
        pairs.retain(|pair| {
            (any || stand_together(&schema.atoms, &task.arities, pair)) && random.chance(1, 3)
        });
        pairs.truncate(room);
        room -= pairs.len();
        schema.pairs = pairs;
    }
    task
}

/// All pairs of so many parameters, ascending.
pub(crate) fn every_pair(parameters: u16) -> Vec<Pair> {
    (0..parameters)
        .flat_map(|lower| {
            (lower + 1..parameters).map(move |higher| Pair {
                lower: ParameterNumber(lower),
                higher: ParameterNumber(higher),
            })
        })
        .collect()
}

/// Whether some part of these atoms has both parameters.
fn stand_together(atoms: &[SchemaAtom], arities: &[u16], pair: &Pair) -> bool {
    let parts_of = |parameter: ParameterNumber| -> BTreeSet<PartNumber> {
        let stands_in =
            |atom: &&SchemaAtom| used_arguments(&atom.atom, arities).contains(&parameter);
        let atoms = atoms.iter().filter(stands_in);
        atoms.map(|atom| atom.part).collect()
    };
    !parts_of(pair.lower).is_disjoint(&parts_of(pair.higher))
}

/// A task with schemas whose pairs take arcs away, most of which would have
/// another order with these arcs, or none.
pub fn differing_task(random: &mut Random, shape: &Shape) -> Task {
    let mut arities = arities(random, shape);
    arities.extend([2, 2]);
    task_of(random, shape, arities, |random, shape, arities| {
        if random.chance(1, 4) {
            late_schema(random, shape, arities)
        } else {
            differing_schema(random, shape, arities)
        }
    })
}

/// A task with pairs, most of them small.
pub fn any_differing_task(random: &mut Random) -> Task {
    let shape = mostly(random, &Shape::DIFFERING, &Shape::WIDE_DIFFERING);
    differing_task(random, shape)
}

/// A task with pairs that has a split.
pub fn splittable_differing_task(random: &mut Random) -> Task {
    loop {
        let task = any_differing_task(random);
        if tokens::split(&task).is_ok() {
            return task;
        }
    }
}

/// The last predicates, of arity 2, give no arc: one is only tested, so that the
/// part goes early, one only added. Each pair without a part that has both its
/// parameters stands in one so, but for a few, and for more where parts are free
/// of arcs, with which the split is refused by 20.
fn differing_schema(random: &mut Random, shape: &Shape, arities: &[u16]) -> Schema {
    let parameters = random.within(&shape.parameters);
    let parts = random.within(&shape.parts);
    let mut pairs = every_pair(parameters as u16);
    pairs.retain(|_| random.chance(2, parameters));
    pairs.truncate(MAX_ATOMS_OF_SCHEMA - shape.atoms.end());
    let in_any_role = arities.len() - 2;
    let mut atoms = atoms_in_any_role(random, shape, &arities[..in_any_role], parameters);
    let freely = random.chance(shape.free, 8);
    if freely {
        part_freely(random, &mut atoms, parts);
    } else {
        part_along_arcs_left(random, &mut atoms, &pairs, parts);
    }
    let times = if freely { 8 } else { 15 };
    for pair in &pairs {
        if !stand_together(&atoms, arities, pair) && random.chance(times, 16) {
            let mut arguments = [pair.lower, pair.higher];
            random.shuffle(&mut arguments);
            let in_role = [(0, Role::Precondition), (1, Role::Add)];
            let (behind, role) = random.pick(&in_role);
            let atom = Atom::new(in_any_role as u16 + behind, &arguments);
            let part = PartNumber(random.below(parts) as u16);
            push(&mut atoms, role, part, atom);
        }
    }
    finished(random, atoms, pairs, arities)
}

/// A schema whose last part alone has both parameters of each pair. Parts before
/// it test parameters by themselves, and arcs lead from them to it, so that a
/// block may begin with equal objects at a pair.
fn late_schema(random: &mut Random, shape: &Shape, arities: &[u16]) -> Schema {
    let parameters = random.within(&shape.parameters) as u16;
    let last = random.within(&shape.parts) - 1;
    let [last_part, only_added] = [last, arities.len() - 1].map(|number| number as u16);
    let mut pairs = every_pair(parameters);
    pairs.retain(|_| random.chance(2, parameters.into()));
    pairs.truncate(MAX_ATOMS_OF_SCHEMA / 2);
    let mut atoms = Vec::new();
    for parameter in 0..usize::from(parameters) {
        let predicate = random.below(arities.len() - 2);
        let atom = of_parameters(arities, predicate, &[parameter]);
        let part = PartNumber(random.below(last) as u16);
        push(&mut atoms, Role::Precondition, part, atom);
        push(&mut atoms, Role::Delete, PartNumber(last_part), atom);
    }
    for Pair { lower, higher } in &pairs {
        let atom = Atom::new(only_added, &[*lower, *higher]);
        push(&mut atoms, Role::Add, PartNumber(last_part), atom);
    }
    finished(random, atoms, pairs, arities)
}

/// Parts the atoms so that an order complies with the arcs that the pairs leave:
/// each atom stands no earlier than those with an arc to it, and often no later
/// than it must, so that it stands before others that a pair keeps apart.
fn part_along_arcs_left(
    random: &mut Random,
    atoms: &mut [SchemaAtom],
    pairs: &[Pair],
    parts: usize,
) {
    for role in [Role::Precondition, Role::Delete, Role::Add] {
        for at in 0..atoms.len() {
            let SchemaAtom {
                role: own, atom, ..
            } = atoms[at];
            if own != role {
                continue;
            }
            let before = atoms.iter().filter(|other| {
                RULES.contains(&(other.role, role))
                    && other.atom.predicate == atom.predicate
                    && !hold_a_pair(pairs, &other.atom, &atom)
            });
            let earliest = before.map(|other| other.part.index()).max().unwrap_or(0);
            let latest = if role != Role::Precondition && random.chance(1, 2) {
                earliest
            } else {
                parts - 1
            };
            atoms[at].part = PartNumber(random.within(&(earliest..=latest)) as u16);
        }
    }
}
