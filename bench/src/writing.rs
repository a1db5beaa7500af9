//! Writing, into just enough bytes.

use differential::writing::write;

use crate::tasks::{largest, small, usual};
use crate::timing::{heading, row};

pub fn bench() {
    heading("writing", "byte");
    for task in [small(), usual(), largest()] {
        let table = &task.table;
        let mut expected = vec![0; task.text.len()];
        let mut found = vec![0; task.text.len()];
        row(
            &task.name,
            task.text.len(),
            || assert!(reference::write(table, &mut expected).is_ok()),
            || assert_eq!(write(table, &mut found)[0], 0),
        );
        assert!(found == task.text.as_bytes(), "{}", task.name);
    }
}
