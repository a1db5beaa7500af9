//! Document 01, "Arcs and order of parts", with the choice among ready parts
//! that document 02's note 2, "Bind early", gives it, and without the arcs that
//! its note 4, "Parameters that must differ", takes away.

use std::cmp::Reverse;
use std::collections::BTreeSet;

use crate::table::{
    used_arguments, LiftedAtom, Pair, ParameterNumber, PartNumber, Role, Schema, SchemaAtom,
};

/// "An arc from precondition to add, precondition to delete, delete to add."
pub const RULES: [(Role, Role); 3] = [
    (Role::Precondition, Role::Add),
    (Role::Precondition, Role::Delete),
    (Role::Delete, Role::Add),
];

pub type Arcs = BTreeSet<(PartNumber, PartNumber)>;

/// "Two atoms of one schema with the same predicate give an arc from the
/// first's part to the second's. Arcs inside a part don't count." They "give no
/// arc if at some argument position they hold a declared pair".
pub fn arcs(schema: &Schema, rules: &[(Role, Role)]) -> Arcs {
    let mut arcs = Arcs::new();
    for &(first_role, second_role) in rules {
        for first in schema.atoms_of(first_role) {
            for second in schema.atoms_of(second_role) {
                if first.atom.predicate == second.atom.predicate
                    && first.part != second.part
                    && !hold_a_pair(&schema.pairs, &first.atom, &second.atom)
                {
                    arcs.insert((first.part, second.part));
                }
            }
        }
    }
    arcs
}

/// Whether at some position one atom has one parameter of a pair and the other
/// the other, so that no step makes them the same ground atom. Unused words
/// are equal in both, and the parameters of a pair never are.
pub fn hold_a_pair(pairs: &[Pair], first: &LiftedAtom, second: &LiftedAtom) -> bool {
    let mut places = first.arguments.iter().zip(&second.arguments);
    places.any(|(one, other)| pairs.iter().any(|pair| pair.is_of(*one, *other)))
}

/// The order taken: among ready parts "the one with most preconditions"; "when
/// two ready parts have equally many preconditions, take the one whose
/// preconditions name more parameters not in a part already placed; only then
/// the lowest number". `None` where no order complies.
pub fn order(schema: &Schema, arities: &[u16], arcs: &Arcs) -> Option<Vec<PartNumber>> {
    let mut unplaced: BTreeSet<PartNumber> = schema.atoms.iter().map(|atom| atom.part).collect();
    let mut order = Vec::with_capacity(unplaced.len());
    // All parameters of placed parts, "in whatever role they stand there".
    let mut placed: BTreeSet<ParameterNumber> = BTreeSet::new();
    while !unplaced.is_empty() {
        let next = ready(&unplaced, arcs).into_iter().max_by_key(|part| {
            let tests = schema.atoms_of(Role::Precondition);
            let tests: Vec<&SchemaAtom> = tests.filter(|atom| atom.part == *part).collect();
            let named = parameters(tests.iter().copied(), arities);
            let new = named.difference(&placed).count();
            (tests.len(), new, Reverse(*part))
        })?;
        unplaced.remove(&next);
        order.push(next);
        let atoms = schema.atoms.iter().filter(|atom| atom.part == next);
        placed.extend(parameters(atoms, arities));
    }
    Some(order)
}

/// "Unplaced parts that no unplaced part has an arc to."
fn ready(unplaced: &BTreeSet<PartNumber>, arcs: &Arcs) -> BTreeSet<PartNumber> {
    let behind: BTreeSet<PartNumber> = arcs
        .iter()
        .filter(|(from, _)| unplaced.contains(from))
        .map(|(_, to)| *to)
        .collect();
    unplaced.difference(&behind).copied().collect()
}

/// The different parameters of some atoms.
pub(crate) fn parameters<'a>(
    atoms: impl Iterator<Item = &'a SchemaAtom>,
    arities: &[u16],
) -> BTreeSet<ParameterNumber> {
    atoms
        .flat_map(|atom| used_arguments(&atom.atom, arities))
        .copied()
        .collect()
}
