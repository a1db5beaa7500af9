//! Telling what a split will need.

use checks::answers::each_answer;
use checks::inputs::table_or_damaged;
use checks::report;
use checks::rows::{sizes_row, SizesRow};
use checks::vectors::sizes_cases;
use differential::beside::{compare, short_or_long, shown};
use differential::sizing::sizes;
use differential::splitting::split;
use differential::writing::write;
use generate::differing::any_differing_task;
use generate::sizing::{any_sizing_task, near_the_bound, parted_schema, task_over, Part};
use generate::{limits, tables};
use reference::programs::INPUT_BYTES;
use reference::sizes::INSTANCES_BOUND;
use reference::table::{Schema, Task, HEADER_WORDS, TABLE_WORDS};

/// Compares, and requires what splitting and writing give of the same table.
fn compared(table: &[u16]) -> u64 {
    let number = compare(
        table,
        |table| sizes_row(reference::sizes(table)),
        sizes,
        || format!("table {}", shown(table)),
    );
    let told = sizes(&mut table.to_vec());
    assert_eq!(told, as_split_and_written(table), "{}", shown(table));
    number
}

fn compared_task(task: &Task) -> u64 {
    compared(&tables::table(task))
}

/// The refusal of splitting, or what the proved code's split and its text have,
/// counted on the words of both tables.
fn as_split_and_written(table: &[u16]) -> SizesRow {
    let mut out = vec![7; TABLE_WORDS];
    let [number, place, ..] = split(table, &mut out);
    if number != 0 {
        return [number, place, 0, 0, 0, 0, 0, 0];
    }
    let [before, after] = [table, &out].map(instances);
    if before.max(after) >= INSTANCES_BOUND {
        return [24, 0, 0, 0, 0, 0, 0, 0];
    }
    let [predicates, schemas, atoms] = [1, 2, 3].map(|count| u64::from(out[count]));
    let [answer, _, bytes, _] = write(&out, &mut vec![b'x'; INPUT_BYTES]);
    assert_eq!(answer, 0, "the split's text");
    let [before, after] = [before, after].map(|total| total as u64);
    [0, 0, predicates, schemas, atoms, bytes, before, after]
}

/// Objects to the power of each schema's parameter count.
fn instances(table: &[u16]) -> u128 {
    let [objects, predicates, schemas] = [table[0], table[1], table[2]];
    let counts = &table[HEADER_WORDS + usize::from(predicates)..][..schemas.into()];
    let counts = counts.iter();
    counts
        .map(|parameters| u128::from(objects).pow(u32::from(*parameters)))
        .sum()
}

#[test]
fn sound_and_damaged_tables() {
    let expected = [0, 1, 2, 9, 10, 20, 24];
    let seen = each_answer("sizes compared", 207, 20_000, &expected, |random| {
        let task = any_sizing_task(random);
        let table = table_or_damaged(random, &task);
        compared(&short_or_long(random, table))
    });
    assert!(seen.values().all(|times| *times > 400), "{seen:?}");
}

#[test]
fn parameters_that_differ() {
    let entry = "sizes with pairs compared";
    let seen = each_answer(entry, 208, 10_000, &[0, 20], |random| {
        compared_task(&any_differing_task(random))
    });
    assert!(seen.values().all(|times| *times > 100), "{seen:?}");
}

/// Totals near 2 to the power 63, before, after or both.
#[test]
fn instances_near_the_bound() {
    let entry = "sizes near 2^63 compared";
    let seen = each_answer(entry, 209, 10_000, &[0, 9, 10, 20, 24], |random| {
        compared_task(&near_the_bound(random))
    });
    assert!(seen.values().all(|times| *times > 100), "{seen:?}");
    assert!(seen[&0] > 2000 && seen[&24] > 2000, "{seen:?}");
}

/// The answers for a task of one schema with these parts and parameterless ones.
fn around(objects: u16, parts: &[Part], parameterless: usize) -> u64 {
    let others = vec![parted_schema(&[Part::new()]); parameterless];
    let schemas: Vec<Schema> = [vec![parted_schema(parts)], others].concat();
    compared_task(&task_over(objects, schemas))
}

/// One schema at both sides, by its instances before, after or both.
#[test]
fn both_sides_of_the_bound() {
    let first = |count: u16| -> Part { (0..count).collect() };
    for (parts, below) in [
        (vec![first(9)], 127),
        (vec![first(7)], 511),
        (vec![first(12)], 38),
        (vec![vec![0, 1, 2], vec![3, 4, 5], vec![6, 7, 8]], 127),
        (vec![vec![0, 1, 2, 3], vec![4, 5, 6]], 511),
        (vec![first(12); 8], 31),
        (vec![first(9), first(9)], 118),
    ] {
        let answers = [below, below + 1].map(|objects| around(objects, &parts, 0));
        assert_eq!(answers, [0, 24], "{parts:?}");
        assert_eq!(around(1000, &parts, 0), 24, "{parts:?}");
        assert_eq!(around(1, &parts, 0), 0, "{parts:?}");
    }
    // 64 bits would hold only a small rest of these.
    for (objects, parameters) in [(256, 8), (256, 12), (512, 8), (64, 11), (128, 10)] {
        for parameterless in [0, 1, 3] {
            let answer = around(objects, &[first(parameters)], parameterless);
            assert_eq!(answer, 24, "{objects}");
        }
    }
}

#[test]
fn splits_at_the_limits() {
    let limits = limits::splitting();
    for limit in &limits {
        let answers = [&limit.inside, &limit.outside].map(compared_task);
        assert_eq!(answers, [0, 10], "{}", limit.name);
        let crowded = Task {
            objects: 1000,
            ..limit.outside.clone()
        };
        assert_eq!(compared_task(&crowded), 10, "{}", limit.name);
    }
    report("sizes at the limits of splits compared", 3 * limits.len());
}

/// The sizes of a table at one of its limits are told, or its split is too large.
#[test]
fn tables_at_their_limits() {
    let limits = limits::reading();
    for limit in &limits {
        let inside = compared_task(&limit.inside);
        assert!(matches!(inside, 0 | 10), "{}: {inside}", limit.name);
        assert_eq!(compared_task(&limit.outside), 2, "{}", limit.name);
    }
    report("sizes at the limits of tables compared", 2 * limits.len());
    for task in [limits::largest(), limits::longest_pddl()] {
        assert_eq!(compared_task(&task), 10);
    }
}

#[test]
fn vectors() {
    sizes_cases(|table| sizes(&mut table.to_vec()));
}
