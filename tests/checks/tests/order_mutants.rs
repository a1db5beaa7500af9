//! A wrong choice among ready parts shows: each of these rules takes another
//! order than the reference for many schemas of one seed, and the right one, put
//! in the same form, for none.

use std::cmp::Reverse;
use std::collections::BTreeSet;

use checks::{report, shows_in};
use generate::tasks::any_tying_task;
use generate::Random;
use reference::arcs::{arcs, order, RULES};
use reference::table::{used_arguments, ParameterNumber, PartNumber, Role, Schema, SchemaAtom};

const SEED: u64 = 42;
const TASKS: usize = 4000;

type Parameters = BTreeSet<ParameterNumber>;

/// How many of some parameters are not among others.
fn beyond(parameters: &Parameters, others: &Parameters) -> isize {
    parameters.difference(others).count() as isize
}

/// A ready part, and what a rule may look at.
struct Choice<'a> {
    schema: &'a Schema,
    arities: &'a [u16],
    placed: &'a [PartNumber],
    part: PartNumber,
}

impl Choice<'_> {
    /// The arguments of the atoms for which this holds, as often as they stand.
    fn arguments(&self, holds: impl Fn(&SchemaAtom) -> bool) -> Vec<ParameterNumber> {
        let atoms = self.schema.atoms.iter().filter(|atom| holds(atom));
        atoms
            .flat_map(|atom| used_arguments(&atom.atom, self.arities))
            .copied()
            .collect()
    }

    fn parameters(&self, holds: impl Fn(&SchemaAtom) -> bool) -> Parameters {
        self.arguments(holds).into_iter().collect()
    }

    fn is_test(&self, atom: &SchemaAtom) -> bool {
        atom.part == self.part && atom.role == Role::Precondition
    }

    /// The parameters that the part's preconditions name.
    fn named(&self) -> Parameters {
        self.parameters(|atom| self.is_test(atom))
    }

    /// All parameters of placed parts.
    fn known(&self) -> Parameters {
        self.parameters(|atom| self.placed.contains(&atom.part))
    }

    fn preconditions(&self) -> isize {
        let atoms = self.schema.atoms.iter();
        atoms.filter(|atom| self.is_test(atom)).count() as isize
    }

    fn new_parameters(&self) -> isize {
        beyond(&self.named(), &self.known())
    }
}

/// What a rule compares, first by first and then by second: the greatest goes
/// first, among equals the lowest number.
type Rule = fn(&Choice) -> [isize; 2];

/// Note 2's rule.
fn bind_early(choice: &Choice) -> [isize; 2] {
    [choice.preconditions(), choice.new_parameters()]
}

fn fewest_new(choice: &Choice) -> [isize; 2] {
    [choice.preconditions(), -choice.new_parameters()]
}

/// The parameters of the part's effects count too.
fn all_atoms(choice: &Choice) -> [isize; 2] {
    let own = choice.parameters(|atom| atom.part == choice.part);
    [choice.preconditions(), beyond(&own, &choice.known())]
}

/// The lowest number right after the preconditions, as document 01 had it.
fn lowest_number_first(choice: &Choice) -> [isize; 2] {
    [choice.preconditions(), 0]
}

/// Parameters of placed parts count as if they were new.
fn nothing_taken_off(choice: &Choice) -> [isize; 2] {
    [choice.preconditions(), choice.named().len() as isize]
}

/// Parameters that placed parts have in effects alone count as if they were new.
fn only_preconditions_taken_off(choice: &Choice) -> [isize; 2] {
    let tested = choice
        .parameters(|atom| atom.role == Role::Precondition && choice.placed.contains(&atom.part));
    [choice.preconditions(), beyond(&choice.named(), &tested)]
}

/// Parameters of the other unplaced parts don't count as new.
fn every_other_part_taken_off(choice: &Choice) -> [isize; 2] {
    let others = choice.parameters(|atom| atom.part != choice.part);
    [choice.preconditions(), beyond(&choice.named(), &others)]
}

/// A parameter counts as often as it stands.
fn repetitions(choice: &Choice) -> [isize; 2] {
    let mut arguments = choice.arguments(|atom| choice.is_test(atom));
    let known = choice.known();
    arguments.retain(|parameter| !known.contains(parameter));
    [choice.preconditions(), arguments.len() as isize]
}

/// Preconditions decide only among equally many new parameters.
fn new_parameters_first(choice: &Choice) -> [isize; 2] {
    [choice.new_parameters(), choice.preconditions()]
}

/// An atom's unused words, which are 0, pass for parameter 0.
fn unused_words(choice: &Choice) -> [isize; 2] {
    let words = |holds: &dyn Fn(&SchemaAtom) -> bool| -> Parameters {
        let atoms = choice.schema.atoms.iter().filter(|atom| holds(atom));
        atoms.flat_map(|atom| atom.atom.arguments).collect()
    };
    let named = words(&|atom| choice.is_test(atom));
    let known = words(&|atom| choice.placed.contains(&atom.part));
    [choice.preconditions(), beyond(&named, &known)]
}

/// The order by a rule, of a schema that has one.
fn order_by(rule: Rule, schema: &Schema, arities: &[u16]) -> Vec<PartNumber> {
    let arcs = arcs(schema, &RULES);
    let mut unplaced: BTreeSet<PartNumber> = schema.atoms.iter().map(|atom| atom.part).collect();
    let mut placed = Vec::new();
    while !unplaced.is_empty() {
        let waits = |part: PartNumber| {
            arcs.iter()
                .any(|(from, to)| *to == part && unplaced.contains(from))
        };
        let preference = |part: &PartNumber| {
            let choice = Choice {
                schema,
                arities,
                placed: &placed,
                part: *part,
            };
            (rule(&choice), Reverse(*part))
        };
        let ready = unplaced.iter().copied().filter(|part| !waits(*part));
        let next = ready.max_by_key(preference).expect("a ready part");
        unplaced.remove(&next);
        placed.push(next);
    }
    placed
}

/// For how many schemas a rule takes another order than the reference.
fn other_orders(rule: Rule) -> usize {
    let mut random = Random::new(SEED);
    let mut other = 0;
    for _ in 0..TASKS {
        let task = any_tying_task(&mut random);
        for schema in &task.schemas {
            let taken = order(schema, &task.arities, &arcs(schema, &RULES));
            let taken = taken.expect("tying tasks have an order");
            other += usize::from(order_by(rule, schema, &task.arities) != taken);
        }
    }
    other
}

#[test]
fn the_right_rule_takes_the_same_order() {
    assert_eq!(other_orders(bind_early), 0);
    report("the right rule, tasks", TASKS);
}

/// Each rule with a number of schemas that it must reach.
#[test]
fn a_wrong_rule_takes_another_order() {
    let rules: [(&str, Rule, usize); 9] = [
        ("fewest new parameters", fewest_new, 2000),
        ("parameters of all atoms", all_atoms, 500),
        ("lowest number first", lowest_number_first, 1200),
        ("nothing taken off", nothing_taken_off, 1000),
        (
            "only preconditions taken off",
            only_preconditions_taken_off,
            80,
        ),
        (
            "every other part taken off",
            every_other_part_taken_off,
            1000,
        ),
        ("repetitions counted", repetitions, 700),
        ("new parameters first", new_parameters_first, 300),
        ("unused words as parameter 0", unused_words, 500),
    ];
    for (name, rule, least) in rules {
        shows_in(name, other_orders(rule), least);
    }
}
