//! Reading.

use differential::reading::read;
use reference::table::TABLE_WORDS;

use crate::tasks::{largest, small, usual};
use crate::timing::{heading, row};

pub fn bench() {
    heading("reading", "byte");
    for task in [small(), usual(), largest()] {
        let text = task.text.as_bytes();
        let mut expected = vec![7; TABLE_WORDS];
        let mut found = vec![7; TABLE_WORDS];
        row(
            &task.name,
            text.len(),
            || reference::read(text, &mut expected).expect("a task"),
            || assert_eq!(read(text, &mut found)[0], 0),
        );
    }
}
