//! What document 02's note 5 says of every proposal: "The result is accepted by
//! the order rule, and each pair left is too wide together or would make a
//! circle."

use std::collections::BTreeSet;

use checks::orders::{complies, orders};
use checks::{report, without_parts};
use generate::proposing::{any_proposing_task, any_width, full_task};
use generate::tables::table;
use generate::tasks::parted_anew;
use generate::Random;
use reference::arcs::{arcs, order, Arcs, RULES};
use reference::propose::{propose, MAX_WIDTH};
use reference::table::{
    used_arguments, ParameterNumber, PartNumber, Schema, SchemaAtom, Task, MAX_PARTS,
};
use reference::{tokens, Answer, Place, Reason, Refusal};

const TASKS: usize = 4000;

/// So many parts are put into all their orders.
const PARTS_IN_ALL_ORDERS: usize = 6;

/// The proposals for random tasks and widths.
fn proposals(seed: u64) -> impl Iterator<Item = (Task, u64, Answer<Task>)> {
    let mut random = Random::new(seed);
    (0..TASKS).map(move |_| {
        let task = any_proposing_task(&mut random);
        let width = any_width(&mut random, &task).min(MAX_WIDTH);
        let proposed = propose(&task, width);
        (task, width, proposed)
    })
}

fn parts(schema: &Schema) -> Vec<PartNumber> {
    let parts: BTreeSet<PartNumber> = schema.atoms.iter().map(|atom| atom.part).collect();
    parts.into_iter().collect()
}

fn atoms_of<'a>(
    schema: &'a Schema,
    parts: &'a [PartNumber],
) -> impl Iterator<Item = &'a SchemaAtom> {
    let atoms = schema.atoms.iter();
    atoms.filter(|atom| parts.contains(&atom.part))
}

/// How many parameters the parts have together.
fn width_of(schema: &Schema, arities: &[u16], parts: &[PartNumber]) -> usize {
    let parameters: BTreeSet<ParameterNumber> = atoms_of(schema, parts)
        .flat_map(|atom| used_arguments(&atom.atom, arities))
        .copied()
        .collect();
    parameters.len()
}

/// The arcs where the second part's atoms are in the first.
fn arcs_of_merged(schema: &Schema, [first, second]: [PartNumber; 2]) -> Arcs {
    let mut merged = schema.clone();
    for atom in &mut merged.atoms {
        if atom.part == second {
            atom.part = first;
        }
    }
    arcs(&merged, &RULES)
}

/// Whether arcs lead from some part back to it.
fn has_circle(arcs: &Arcs) -> bool {
    let mut paths = arcs.clone();
    loop {
        let longer = paths.iter().flat_map(|(from, by)| {
            let behind = arcs.iter().filter(move |(other, _)| other == by);
            behind.map(|(_, to)| (*from, *to))
        });
        let all: Arcs = longer.chain(paths.iter().copied()).collect();
        if all.len() == paths.len() {
            return paths.iter().any(|(from, to)| from == to);
        }
        paths = all;
    }
}

/// What was seen of proposals.
#[derive(Default)]
struct Seen {
    proposals: usize,
    too_wide: usize,
    circular: usize,
    circular_by_all_orders: usize,
    wide_atoms: usize,
}

impl Seen {
    fn see_task(&mut self, task: &Task, width: usize, proposed: &Task) {
        assert_eq!(without_parts(proposed), without_parts(task));
        let words = Task::from_words(&table(proposed));
        assert_eq!(words.as_ref(), Some(proposed), "a table");
        for schema in &proposed.schemas {
            self.see_schema(schema, &task.arities, width);
        }
        self.proposals += 1;
    }

    fn see_schema(&mut self, schema: &Schema, arities: &[u16], width: usize) {
        assert!(order(schema, arities, &arcs(schema, &RULES)).is_some());
        let parts = parts(schema);
        assert!(parts.len() <= MAX_PARTS);
        for (number, part) in parts.iter().enumerate() {
            if width_of(schema, arities, &[*part]) > width {
                assert_eq!(atoms_of(schema, &[*part]).count(), 1, "{schema:?}");
                self.wide_atoms += 1;
            }
            for other in &parts[number + 1..] {
                self.see_pair_left(schema, arities, width, [*part, *other]);
            }
        }
    }

    fn see_pair_left(
        &mut self,
        schema: &Schema,
        arities: &[u16],
        width: usize,
        pair: [PartNumber; 2],
    ) {
        if width_of(schema, arities, &pair) > width {
            self.too_wide += 1;
            return;
        }
        let arcs = arcs_of_merged(schema, pair);
        assert!(has_circle(&arcs), "{pair:?} of {schema:?}");
        self.circular += 1;
        let mut left = parts(schema);
        left.retain(|part| *part != pair[1]);
        if left.len() <= PARTS_IN_ALL_ORDERS {
            assert!(!orders(&left).iter().any(|order| complies(order, &arcs)));
            self.circular_by_all_orders += 1;
        }
    }
}

#[test]
fn partitions_of_the_same_task_with_no_pair_left() {
    let mut seen = Seen::default();
    for (task, width, proposed) in proposals(61) {
        if let Ok(proposed) = proposed {
            seen.see_task(&task, width as usize, &proposed);
        }
    }
    for (what, count, least) in [
        ("proposals", seen.proposals, TASKS / 2),
        ("pairs left, too wide", seen.too_wide, 20_000),
        ("pairs left, circular", seen.circular, 500),
        (
            "pairs left, circular by all orders",
            seen.circular_by_all_orders,
            200,
        ),
        ("atoms wider than the width", seen.wide_atoms, 1000),
    ] {
        report(what, count);
        assert!(count > least, "{what}: only {count}");
    }
}

/// Also for schemas of 64 atoms.
#[test]
fn many_atoms_with_no_pair_left() {
    let mut random = Random::new(66);
    let mut seen = Seen::default();
    for _ in 0..3 {
        let task = full_task(&mut random);
        for width in 4..=MAX_WIDTH {
            if let Ok(proposed) = propose(&task, width) {
                seen.see_task(&task, width as usize, &proposed);
            }
        }
    }
    report("proposals for 64 atoms", seen.proposals);
    report("their pairs left, circular", seen.circular);
    assert!(seen.proposals > 10 && seen.circular > 20);
}

/// Splitting never answers 9 for a proposal.
#[test]
fn splits_of_proposals() {
    let [mut split, mut too_large, mut apart] = [0; 3];
    for (_, _, proposed) in proposals(62) {
        let Ok(proposed) = proposed else {
            continue;
        };
        match tokens::split(&proposed).map_err(|refusal| refusal.reason) {
            Ok(_) => split += 1,
            Err(Reason::SplitTooLarge) => too_large += 1,
            Err(Reason::PairInNoPart) => apart += 1,
            Err(reason) => panic!("{reason:?} for {proposed}"),
        }
    }
    report("proposals that split", split);
    report("proposals with a split too large", too_large);
    report("proposals with a pair in no part", apart);
    assert!(split > TASKS / 2 && too_large > 0 && apart > 100);
}

/// The parts that the lent task has don't matter, so a proposal is that for
/// itself.
#[test]
fn other_parts_lead_to_the_same_proposal() {
    let mut random = Random::new(63);
    for (task, width, proposed) in proposals(64) {
        let other = parted_anew(&mut random, &task);
        assert_eq!(propose(&other, width), proposed, "{task}");
        if let Ok(proposed) = proposed {
            assert_eq!(propose(&proposed, width), Ok(proposed), "{task}");
        }
    }
    report("tasks parted anew", TASKS);
}

/// Each schema is parted by itself; 23 is told of the first one that ends with
/// more than 16 parts.
#[test]
fn schema_by_schema() {
    let mut refused = 0;
    for (task, width, proposed) in proposals(65) {
        let alone = |number: usize| {
            let schemas = vec![task.schemas[number].clone()];
            let alone = Task {
                schemas,
                ..task.clone()
            };
            propose(&alone, width).map(|mut proposed| proposed.schemas.remove(0))
        };
        let alone: Vec<Answer<Schema>> = (0..task.schemas.len()).map(alone).collect();
        let expected = match alone.iter().position(Answer::is_err) {
            Some(first) => {
                refused += 1;
                let place = Place::Schema(first as u64);
                Err(Refusal::new(Reason::TooManyParts, place))
            }
            None => Ok(alone.into_iter().flatten().collect()),
        };
        assert_eq!(proposed.map(|proposed| proposed.schemas), expected);
    }
    report("proposals refused by 23", refused);
    assert!(refused > TASKS / 50);
}
