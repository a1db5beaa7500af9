//! A wrong step of the procedure shows: each of these variants proposes other
//! parts than the reference for many schemas of one seed, and the right one, put
//! in the same form, for none.

use std::collections::BTreeSet;

use checks::parting::{atom_arcs, proposed_alone, Arcs};
use checks::{report, shows_in};
use generate::proposing::{any_proposing_task, any_width};
use generate::Random;
use reference::propose::MAX_WIDTH;
use reference::table::{used_arguments, ParameterNumber, Schema, MAX_PARTS};

const SEED: u64 = 44;
const TASKS: usize = 2000;

/// The atoms of each part, by the part's number.
type Parts = Vec<Vec<usize>>;

/// Two parts by their numbers, the lower first.
type Pair = [usize; 2];

/// A schema that is parted.
struct Parting<'a> {
    schema: &'a Schema,
    arities: &'a [u16],
    width: usize,
    /// Arcs between atoms.
    arcs: Arcs,
    /// The same and those that pairs take away.
    arcs_without_pairs: Arcs,
}

impl<'a> Parting<'a> {
    fn of(schema: &'a Schema, arities: &'a [u16], width: usize) -> Self {
        let without_pairs = Schema {
            pairs: Vec::new(),
            ..schema.clone()
        };
        Parting {
            schema,
            arities,
            width,
            arcs: atom_arcs(schema.clone()),
            arcs_without_pairs: atom_arcs(without_pairs),
        }
    }

    /// The arguments of some atoms, as often as they stand.
    fn arguments(&self, atoms: &[usize]) -> Vec<ParameterNumber> {
        let used = |atom: &usize| used_arguments(&self.schema.atoms[*atom].atom, self.arities);
        atoms.iter().flat_map(used).copied().collect()
    }

    fn parameters(&self, atoms: &[usize]) -> usize {
        let parameters: BTreeSet<ParameterNumber> = self.arguments(atoms).into_iter().collect();
        parameters.len()
    }
}

/// Two parts that may be merged.
struct Merge<'a> {
    parting: &'a Parting<'a>,
    parts: &'a Parts,
    pair: Pair,
}

impl Merge<'_> {
    /// The atoms of both.
    fn atoms(&self) -> Vec<usize> {
        self.pair.map(|part| self.parts[part].as_slice()).concat()
    }

    /// How wide each of them is.
    fn widths(&self) -> [usize; 2] {
        self.pair
            .map(|part| self.parting.parameters(&self.parts[part]))
    }

    fn is_narrow(&self) -> bool {
        self.parting.parameters(&self.atoms()) <= self.parting.width
    }

    /// The arcs between the parts that are left, made of these between atoms.
    fn arcs(&self, arcs: &Arcs) -> Arcs {
        let mut parts = self.parts.clone();
        into_the_lower(&mut parts, self.pair);
        let part_of = |atom: usize| parts.iter().position(|part| part.contains(&atom));
        let between = |(from, to): &(usize, usize)| Some((part_of(*from)?, part_of(*to)?));
        let arcs = arcs.iter().filter_map(between);
        arcs.filter(|(from, to)| from != to).collect()
    }

    /// Whether some order complies: parts that no part left has an arc to go,
    /// until there is none.
    fn complies_with(&self, arcs: &Arcs) -> bool {
        let arcs = self.arcs(arcs);
        let mut left: BTreeSet<usize> = (0..self.parts.len() - 1).collect();
        let waits = |part: usize, left: &BTreeSet<usize>| {
            arcs.iter()
                .any(|(from, to)| *to == part && left.contains(from))
        };
        while let Some(ready) = left.iter().copied().find(|part| !waits(*part, &left)) {
            left.remove(&ready);
        }
        left.is_empty()
    }

    fn complies(&self) -> bool {
        self.complies_with(&self.parting.arcs)
    }
}

/// Where the search goes on after a merge.
#[derive(Clone, Copy)]
enum Next {
    FromTheFirstPair,
    Onwards,
    Nowhere,
}

/// The procedure in its steps.
#[derive(Clone, Copy)]
struct Procedure {
    start: fn(&Schema) -> Parts,
    pairs: fn(usize) -> Vec<Pair>,
    may_be_done: fn(&Merge) -> bool,
    merge: fn(&mut Parts, Pair),
    next: Next,
}

/// As note 5 says.
const RIGHT: Procedure = Procedure {
    start: each_atom_alone,
    pairs: by_lower_then_higher,
    may_be_done: |merge| merge.is_narrow() && merge.complies(),
    merge: into_the_lower,
    next: Next::FromTheFirstPair,
};

fn each_atom_alone(schema: &Schema) -> Parts {
    (0..schema.atoms.len()).map(|atom| vec![atom]).collect()
}

fn lent_parts(schema: &Schema) -> Parts {
    let mut parts = vec![Vec::new(); schema.part_count().expect("a partition")];
    for (number, atom) in schema.atoms.iter().enumerate() {
        parts[atom.part.index()].push(number);
    }
    parts
}

fn by_lower_then_higher(parts: usize) -> Vec<Pair> {
    let with_higher = |lower| (lower + 1..parts).map(move |higher| [lower, higher]);
    (0..parts).flat_map(with_higher).collect()
}

fn by_higher_then_lower(parts: usize) -> Vec<Pair> {
    let mut pairs = by_lower_then_higher(parts);
    pairs.sort_by_key(|[lower, higher]| [*higher, *lower]);
    pairs
}

fn from_the_last_pair(parts: usize) -> Vec<Pair> {
    let mut pairs = by_lower_then_higher(parts);
    pairs.reverse();
    pairs
}

fn highest_first(parts: usize) -> Vec<Pair> {
    let mut pairs = by_lower_then_higher(parts);
    pairs.sort_by_key(|[lower, higher]| [*lower, parts - higher]);
    pairs
}

fn into_the_lower(parts: &mut Parts, [lower, higher]: Pair) {
    let atoms = parts.remove(higher);
    parts[lower].extend(atoms);
}

fn into_the_higher(parts: &mut Parts, [lower, higher]: Pair) {
    let atoms = parts.remove(lower);
    parts[higher - 1].extend(atoms);
}

/// The last part takes the free number.
fn without_closing_up(parts: &mut Parts, [lower, higher]: Pair) {
    let atoms = parts.swap_remove(higher);
    parts[lower].extend(atoms);
}

fn below_the_width(merge: &Merge) -> bool {
    merge.parting.parameters(&merge.atoms()) < merge.parting.width && merge.complies()
}

fn sum_of_both(merge: &Merge) -> bool {
    let sum: usize = merge.widths().iter().sum();
    sum <= merge.parting.width && merge.complies()
}

/// A parameter counts as often as it stands.
fn repetitions(merge: &Merge) -> bool {
    merge.parting.arguments(&merge.atoms()).len() <= merge.parting.width && merge.complies()
}

/// A part wider than the width takes in what doesn't make it wider.
fn no_wider(merge: &Merge) -> bool {
    let [first, second] = merge.widths();
    let most = merge.parting.width.max(first).max(second);
    merge.parting.parameters(&merge.atoms()) <= most && merge.complies()
}

fn circular_too(merge: &Merge) -> bool {
    merge.is_narrow()
}

/// A circle of more than two parts isn't seen.
fn circles_of_two(merge: &Merge) -> bool {
    let arcs = merge.arcs(&merge.parting.arcs);
    let back = |(from, to): &(usize, usize)| arcs.contains(&(*to, *from));
    merge.is_narrow() && !arcs.iter().any(back)
}

/// An arc between both passes for a circle.
fn no_arc_between(merge: &Merge) -> bool {
    let [first, second] = merge.pair.map(|part| &merge.parts[part]);
    let between = |from: &usize, to: &usize| {
        first.contains(from) && second.contains(to) || second.contains(from) && first.contains(to)
    };
    let mut arcs = merge.parting.arcs.iter();
    merge.is_narrow() && !arcs.any(|(from, to)| between(from, to)) && merge.complies()
}

/// Pairs of parameters that must differ take no arc away.
fn pairs_or_not(merge: &Merge) -> bool {
    merge.is_narrow() && merge.complies_with(&merge.parting.arcs_without_pairs)
}

/// The part of each atom, `None` where there are more than a table takes.
fn partition(procedure: &Procedure, parting: &Parting) -> Option<Vec<usize>> {
    let mut parts = (procedure.start)(parting.schema);
    let mut from = [0, 0];
    loop {
        let mut pairs = (procedure.pairs)(parts.len()).into_iter();
        let may_be_done = |pair: Pair| {
            (procedure.may_be_done)(&Merge {
                parting,
                parts: &parts,
                pair,
            })
        };
        let Some(pair) = pairs.find(|pair| *pair >= from && may_be_done(*pair)) else {
            break;
        };
        (procedure.merge)(&mut parts, pair);
        match procedure.next {
            Next::FromTheFirstPair => {}
            Next::Onwards => from = pair,
            Next::Nowhere => break,
        }
    }
    let part_of = |atom| parts.iter().position(|part| part.contains(&atom));
    (parts.len() <= MAX_PARTS).then(|| (0..parting.schema.atoms.len()).map(part_of).collect())?
}

/// For how many schemas each procedure proposes other parts than the reference.
fn other_partitions<const COUNT: usize>(procedures: [Procedure; COUNT]) -> [usize; COUNT] {
    let mut random = Random::new(SEED);
    let mut others = [0; COUNT];
    for _ in 0..TASKS {
        let task = any_proposing_task(&mut random);
        let width = any_width(&mut random, &task).min(MAX_WIDTH) as usize;
        for schema in &task.schemas {
            let expected = proposed_alone(schema, &task, width);
            let parting = Parting::of(schema, &task.arities, width);
            for (other, procedure) in others.iter_mut().zip(&procedures) {
                *other += usize::from(partition(procedure, &parting) != expected);
            }
        }
    }
    others
}

#[test]
fn the_right_procedure_proposes_the_same() {
    assert_eq!(other_partitions([RIGHT]), [0]);
    report("the right procedure, tasks", TASKS);
}

const fn from(start: fn(&Schema) -> Parts) -> Procedure {
    Procedure { start, ..RIGHT }
}

const fn trying(pairs: fn(usize) -> Vec<Pair>) -> Procedure {
    Procedure { pairs, ..RIGHT }
}

const fn when(may_be_done: fn(&Merge) -> bool) -> Procedure {
    Procedure {
        may_be_done,
        ..RIGHT
    }
}

const fn merging(merge: fn(&mut Parts, Pair)) -> Procedure {
    Procedure { merge, ..RIGHT }
}

const fn going(next: Next) -> Procedure {
    Procedure { next, ..RIGHT }
}

/// Wrong procedures, each with a number of schemas that it must reach.
const WRONG: [(&str, Procedure, usize); 16] = [
    ("the parts that the task has", from(lent_parts), 1000),
    (
        "pairs by higher number first",
        trying(by_higher_then_lower),
        150,
    ),
    ("pairs from the last one", trying(from_the_last_pair), 400),
    ("the highest for each lower", trying(highest_first), 200),
    ("parameters below the width", when(below_the_width), 1000),
    ("the sum of both widths", when(sum_of_both), 800),
    ("repetitions counted", when(repetitions), 1200),
    ("wide atoms that take in others", when(no_wider), 500),
    ("circular merges let through", when(circular_too), 300),
    ("circles of two parts alone", when(circles_of_two), 40),
    ("an arc taken for a circle", when(no_arc_between), 1600),
    ("arcs that pairs take away", when(pairs_or_not), 100),
    ("the higher number kept", merging(into_the_higher), 600),
    ("numbers not closed up", merging(without_closing_up), 400),
    ("one merge", going(Next::Nowhere), 1600),
    ("no return to parts 0 and 1", going(Next::Onwards), 800),
];

#[test]
fn a_wrong_procedure_proposes_other_parts() {
    let others = other_partitions(WRONG.map(|(_, procedure, _)| procedure));
    for ((name, _, least), other) in WRONG.into_iter().zip(others) {
        shows_in(name, other, least);
    }
}
