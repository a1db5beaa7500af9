//! The order taken, against every order there is.

use std::collections::BTreeMap;

use checks::orders::{complies, orders};
use checks::report;
use generate::differing::differing_task;
use generate::tasks::{task, telling_task, tying_task};
use generate::{Random, Shape};
use reference::arcs::{arcs, order, Arcs, RULES};
use reference::table::{used_arguments, ParameterNumber, PartNumber, Role, Schema, SchemaAtom};

/// What decides between two ready parts, each only where those before it don't.
#[derive(Clone, Copy, Debug, PartialEq, Eq, PartialOrd, Ord)]
enum Criterion {
    MostPreconditions,
    MoreNewParameters,
    LowestNumber,
}

/// A schema whose parts are put in order.
struct Parted<'a> {
    schema: &'a Schema,
    arities: &'a [u16],
    arcs: Arcs,
}

impl Parted<'_> {
    fn parts(&self) -> Vec<PartNumber> {
        let count = self.schema.part_count().expect("a partition") as u16;
        (0..count).map(PartNumber).collect()
    }

    fn stands_in(&self, parameter: ParameterNumber, atom: &SchemaAtom) -> bool {
        used_arguments(&atom.atom, self.arities).contains(&parameter)
    }

    /// The places of an order, each with its part.
    fn places<'a>(
        &'a self,
        order: &'a [PartNumber],
    ) -> impl Iterator<Item = (Place<'a>, PartNumber)> {
        let place = |number| Place {
            parted: self,
            placed: &order[..number],
        };
        (0..order.len()).map(move |number| (place(number), order[number]))
    }
}

/// A place of an order, behind the parts already placed.
struct Place<'a> {
    parted: &'a Parted<'a>,
    placed: &'a [PartNumber],
}

impl Place<'_> {
    fn is_placed(&self, part: PartNumber) -> bool {
        self.placed.contains(&part)
    }

    /// "Among unplaced parts that no unplaced part has an arc to."
    fn is_ready(&self, part: PartNumber) -> bool {
        let mut arcs = self.parted.arcs.iter();
        !self.is_placed(part) && arcs.all(|(from, to)| *to != part || self.is_placed(*from))
    }

    fn preconditions(&self, part: PartNumber) -> usize {
        let tests = self.parted.schema.atoms_of(Role::Precondition);
        tests.filter(|atom| atom.part == part).count()
    }

    /// Whether the part's preconditions name the parameter, and it is "not in a
    /// part already placed".
    fn is_new(&self, parameter: ParameterNumber, part: PartNumber) -> bool {
        let Parted { schema, .. } = self.parted;
        let stands_in = |atom: &SchemaAtom| self.parted.stands_in(parameter, atom);
        let mut tests = schema.atoms_of(Role::Precondition);
        let mut atoms = schema.atoms.iter();
        tests.any(|atom| atom.part == part && stands_in(atom))
            && !atoms.any(|atom| self.is_placed(atom.part) && stands_in(atom))
    }

    fn new_parameters(&self, part: PartNumber) -> usize {
        let parameters = (0..self.parted.schema.parameters).map(ParameterNumber);
        parameters
            .filter(|parameter| self.is_new(*parameter, part))
            .count()
    }

    /// Whether the first of two ready parts goes before the second, and what
    /// decides it.
    fn beats(&self, first: PartNumber, second: PartNumber) -> (bool, Criterion) {
        let [tests, other_tests] = [first, second].map(|part| self.preconditions(part));
        if tests != other_tests {
            return (tests > other_tests, Criterion::MostPreconditions);
        }
        let [new, other_new] = [first, second].map(|part| self.new_parameters(part));
        if new != other_new {
            return (new > other_new, Criterion::MoreNewParameters);
        }
        (first < second, Criterion::LowestNumber)
    }

    fn ready_besides(&self, part: PartNumber) -> impl Iterator<Item = PartNumber> + '_ {
        let parts = self.parted.parts().into_iter();
        parts.filter(move |other| *other != part && self.is_ready(*other))
    }

    /// Whether the part is ready and no ready part beats it.
    fn takes(&self, part: PartNumber) -> bool {
        let mut others = self.ready_besides(part);
        self.is_ready(part) && others.all(|other| !self.beats(other, part).0)
    }

    /// The last criterion that the part taken needs against the other ready
    /// parts, where there are any.
    fn decided_by(&self, part: PartNumber) -> Option<Criterion> {
        let others = self.ready_besides(part);
        others.map(|other| self.beats(part, other).1).max()
    }
}

/// What was seen of schemas.
#[derive(Default)]
struct Seen {
    ordered: usize,
    circular: usize,
    decided: BTreeMap<Criterion, usize>,
}

impl Seen {
    /// Requires that the order taken is the only one that has, at each of its
    /// places, a part that no ready part beats; and that there is one where any
    /// order complies.
    fn see(&mut self, schema: &Schema, arities: &[u16]) {
        let parted = Parted {
            schema,
            arities,
            arcs: arcs(schema, &RULES),
        };
        let all = orders(&parted.parts());
        let unbeaten = |order: &&Vec<PartNumber>| {
            let mut places = parted.places(order);
            places.all(|(place, part)| place.takes(part))
        };
        let unbeaten: Vec<&Vec<PartNumber>> = all.iter().filter(unbeaten).collect();
        let taken = order(schema, arities, &parted.arcs);
        assert_eq!(Vec::from_iter(&taken), unbeaten, "{schema:?}");
        let some_complies = all.iter().any(|order| complies(order, &parted.arcs));
        assert_eq!(taken.is_some(), some_complies, "{schema:?}");

        let Some(taken) = taken else {
            self.circular += 1;
            return;
        };
        self.ordered += 1;
        for (place, part) in parted.places(&taken) {
            if let Some(criterion) = place.decided_by(part) {
                *self.decided.entry(criterion).or_default() += 1;
            }
        }
    }
}

#[test]
fn no_ready_part_beats_the_one_taken() {
    let mut random = Random::new(51);
    let freely_parted = Shape {
        free: 8,
        ..Shape::SMALL
    };
    let mut seen = Seen::default();
    for number in 0..8000 {
        let task = match number % 5 {
            0 => telling_task(&mut random),
            1 => tying_task(&mut random, &Shape::TYING),
            2 => differing_task(&mut random, &Shape::DIFFERING),
            _ => task(&mut random, &freely_parted),
        };
        for schema in &task.schemas {
            seen.see(schema, &task.arities);
        }
    }
    report("orders", seen.ordered);
    report("circular partitions", seen.circular);
    assert!(seen.circular > 500, "only {} circular", seen.circular);
    for (criterion, least) in [
        (Criterion::MostPreconditions, 1500),
        (Criterion::MoreNewParameters, 1000),
        (Criterion::LowestNumber, 2000),
    ] {
        let places = seen.decided.get(&criterion).copied().unwrap_or(0);
        report(&format!("places decided by {criterion:?}"), places);
        assert!(places > least, "{criterion:?} decides only {places}");
    }
}
