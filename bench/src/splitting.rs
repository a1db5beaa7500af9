//! Splitting: a small, a usual and a large task, and how it grows with atoms,
//! beside a plain copy of a table.

use checks::read_table;
use differential::splitting::split;
use reference::table::TABLE_WORDS;

use crate::tasks::{large, small, usual};
use crate::timing::{heading_and_copy, row_and_copy};

fn bench_split(what: &str, table: &[u16]) {
    let mut expected = vec![7; TABLE_WORDS];
    let mut found = vec![7; TABLE_WORDS];
    let (schemas, atoms) = (table[2], table[3]);
    row_and_copy(
        &format!("{what}, {schemas} schemas, {atoms} atoms"),
        atoms.into(),
        table,
        || reference::split(table, &mut expected).expect("a split"),
        || assert_eq!(split(table, &mut found)[0], 0),
    );
    assert!(found == expected, "{what}");
}

/// A schema that tests and deletes so many predicates of one argument: tested in
/// the first three of its parts, deleted in the fourth.
fn schema(predicates: usize) -> String {
    let parameters = predicates.min(6);
    let atom = |key: &str, k: usize| format!("{key}={k}:{}\n", k % parameters);
    let tests: String = (0..predicates).map(|k| atom("pre", k)).collect();
    let deletes: String = (0..predicates).map(|k| atom("del", k)).collect();
    let tested = (0..predicates).map(|k| (k % 3).to_string());
    let deleted = vec![predicates.min(3).to_string(); predicates];
    let parts: Vec<String> = tested.chain(deleted).collect();
    format!(
        "schema={parameters}\n{tests}{deletes}part={}\n",
        parts.join(",")
    )
}

/// A task of so many such schemas.
fn grown(schemas: usize, predicates: usize) -> Vec<u16> {
    let arities = vec!["1"; predicates].join(",");
    let schemas = schema(predicates).repeat(schemas);
    let text = format!("task=1\nobjects=9\narity={arities}\n{schemas}end=1\n");
    read_table(text.as_bytes())
}

pub fn bench() {
    heading_and_copy("splitting", "atom");
    for named in [small(), usual(), large()] {
        bench_split(&named.name, &named.table);
    }
    for predicates in [1, 2, 4, 8, 16, 32] {
        bench_split("one schema grows", &grown(1, predicates));
    }
    for schemas in [1, 2, 4, 8, 16] {
        bench_split("more schemas", &grown(schemas, 8));
    }
}
