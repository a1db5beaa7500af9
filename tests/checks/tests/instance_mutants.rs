//! A wrong total of instances, or a wrong refusal by 24, shows: each of these
//! variants tells something else than the reference for many tasks of one seed.

use checks::needs::{cases, each_shows, Case, Needs, Wrong, TOO_MANY};
use checks::rows::SizesRow;
use checks::shows_in;
use reference::sizes::{instances, INSTANCES_BOUND};
use reference::table::{Schema, Task};

/// Changes the right needs, given the task and its split.
type Total = fn(&mut Needs, &Task, &Task);

/// A total of a task's schemas, each counted so by objects and parameters.
fn total(task: &Task, count: impl Fn(&Schema, u128, u32) -> u128) -> u128 {
    let objects = u128::from(task.objects);
    let schemas = task.schemas.iter();
    schemas
        .map(|schema| count(schema, objects, schema.parameters.into()))
        .sum()
}

/// Counts both totals so.
fn both(needs: &mut Needs, tasks: [&Task; 2], count: impl Fn(&Task) -> u128) {
    [needs.before, needs.after] = tasks.map(count);
}

/// Each part with as many parameters as its schema had.
fn old_parameters(needs: &mut Needs, task: &Task, _: &Task) {
    needs.after = total(task, |schema, objects, parameters| {
        let parts = schema.part_count().expect("a partition");
        parts as u128 * objects.pow(parameters)
    });
}

/// Powers and sums in 64 bits.
fn wrapping(needs: &mut Needs, task: &Task, split: &Task) {
    both(needs, [task, split], |task| {
        let objects = u64::from(task.objects);
        let schemas = task.schemas.iter();
        let counts = schemas.map(|schema| objects.wrapping_pow(schema.parameters.into()));
        u128::from(counts.fold(0, u64::wrapping_add))
    });
}

/// Powers as they are, and their sums in 64 bits, unless a power is too large.
fn wrapping_sums(needs: &mut Needs, task: &Task, split: &Task) {
    both(needs, [task, split], |task| {
        if of_largest_schema(task) < INSTANCES_BOUND {
            instances(task) % (1 << 64)
        } else {
            instances(task)
        }
    });
}

/// The instances of the schema with the most.
fn of_largest_schema(task: &Task) -> u128 {
    let counts = task.schemas.iter().map(|schema| schema.parameters);
    let most = counts.max();
    most.map_or(0, |most| u128::from(task.objects).pow(most.into()))
}

/// A schema with a pair has one object fewer for one of its parameters.
fn lessened_by_pairs(needs: &mut Needs, task: &Task, split: &Task) {
    both(needs, [task, split], |task| {
        total(task, |schema, objects, parameters| {
            if schema.pairs.is_empty() {
                objects.pow(parameters)
            } else {
                objects.pow(parameters - 1) * (objects - 1)
            }
        })
    });
}

fn parameterless_count_nothing(needs: &mut Needs, task: &Task, split: &Task) {
    both(needs, [task, split], |task| {
        total(task, |_, objects, parameters| match parameters {
            0 => 0,
            _ => objects.pow(parameters),
        })
    });
}

fn objects_times_parameters(needs: &mut Needs, task: &Task, split: &Task) {
    both(needs, [task, split], |task| {
        total(task, |_, objects, parameters| {
            objects * u128::from(parameters)
        })
    });
}

const WRONG_TOTALS: [Wrong<Total>; 9] = [
    ("after with the old parameters", old_parameters, 1000),
    (
        "before of the split",
        |needs, _, _| needs.before = needs.after,
        1000,
    ),
    (
        "after of the task",
        |needs, _, _| needs.after = needs.before,
        1000,
    ),
    (
        "both totals exchanged",
        |needs, _, _| std::mem::swap(&mut needs.before, &mut needs.after),
        1000,
    ),
    ("wrapping totals", wrapping, 200),
    ("wrapping sums", wrapping_sums, 60),
    ("instances lessened by pairs", lessened_by_pairs, 500),
    (
        "parameterless schemas count nothing",
        parameterless_count_nothing,
        300,
    ),
    ("objects times parameters", objects_times_parameters, 2000),
];

#[test]
fn wrong_totals_show() {
    each_shows(&WRONG_TOTALS, |variant, case| case.changed(variant));
}

/// Whether 24 is refused, given the right needs, the task and its split.
type Bound = fn(&Needs, &Task, &Task) -> bool;

const WRONG_BOUNDS: [Wrong<Bound>; 9] = [
    ("24 at 2^64", |needs, _, _| needs.reach(1 << 64), 300),
    (
        "24 above 2^63 alone",
        |needs, _, _| needs.reach(INSTANCES_BOUND + 1),
        50,
    ),
    (
        "24 at 2^63 less 1",
        |needs, _, _| needs.reach(INSTANCES_BOUND - 1),
        20,
    ),
    ("24 never said", |_, _, _| false, 500),
    (
        "24 by the total before alone",
        |needs, _, _| needs.before >= INSTANCES_BOUND,
        100,
    ),
    (
        "24 by the total after alone",
        |needs, _, _| needs.after >= INSTANCES_BOUND,
        100,
    ),
    (
        "24 by both totals alone",
        |needs, _, _| needs.before.min(needs.after) >= INSTANCES_BOUND,
        200,
    ),
    (
        "24 by the sum of both totals",
        |needs, _, _| needs.before + needs.after >= INSTANCES_BOUND,
        300,
    ),
    (
        "24 by the largest schema alone",
        |_, task, split| {
            [task, split]
                .map(of_largest_schema)
                .iter()
                .any(|instances| *instances >= INSTANCES_BOUND)
        },
        300,
    ),
];

#[test]
fn wrong_bounds_show() {
    each_shows(&WRONG_BOUNDS, |too_many, case| match &case.split {
        Err(_) => case.right,
        Ok((split, needs)) => {
            let too_many = too_many(needs, &case.task, split);
            case.told(|_, _, _| {}, |_| too_many)
        }
    });
}

/// 24 in place of this refusal, where the task has too many instances.
fn before_refusal(number: u64, case: &Case) -> SizesRow {
    if case.right[0] == number && instances(&case.task) >= INSTANCES_BOUND {
        TOO_MANY
    } else {
        case.right
    }
}

#[test]
fn wrong_orders_of_refusals_show() {
    let wrong: [Wrong<u64>; 3] = [
        ("24 before 9", 9, 30),
        ("24 before 20", 20, 30),
        ("24 before 10", 10, 30),
    ];
    each_shows(&wrong, before_refusal);
}

/// How often a task's totals were seen on each side of the bound, and just there.
#[test]
fn totals_on_both_sides_of_the_bound() {
    let [mut below, mut before, mut after, mut both, mut at, mut one_less] = [0; 6];
    for case in cases() {
        let Ok((_, needs)) = case.split else {
            continue;
        };
        let totals = [needs.before, needs.after];
        match totals.map(|total| total >= INSTANCES_BOUND) {
            [false, false] => below += usize::from(needs.reach(INSTANCES_BOUND / 2)),
            [true, false] => before += 1,
            [false, true] => after += 1,
            [true, true] => both += 1,
        }
        at += usize::from(totals.contains(&INSTANCES_BOUND));
        one_less += usize::from(totals.contains(&(INSTANCES_BOUND - 1)));
    }
    for (name, seen, least) in [
        ("at least 2^62, below 2^63", below, 300),
        ("2^63 or more before alone", before, 100),
        ("2^63 or more after alone", after, 100),
        ("2^63 or more before and after", both, 300),
        ("just 2^63", at, 50),
        ("just 2^63 less 1", one_less, 20),
    ] {
        shows_in(name, seen, least);
    }
}
