//! Writing as PDDL, into just enough bytes.

use differential::pddl::write_pddl;
use generate::limits::LONGEST_PDDL;

use crate::tasks::{largest, small, usual};
use crate::timing::{heading, row};

pub fn bench() {
    heading("writing as PDDL", "byte");
    for task in [small(), usual(), largest()] {
        let table = &task.table;
        let mut expected = vec![0; LONGEST_PDDL];
        let length = reference::write_pddl(table, &mut expected).expect("a task") as usize;
        expected.truncate(length);
        let mut found = vec![0; length];
        row(
            &format!("{}, {length} of PDDL", task.name),
            length,
            || assert!(reference::write_pddl(table, &mut expected).is_ok()),
            || assert_eq!(write_pddl(table, &mut found)[0], 0),
        );
        assert!(found == expected, "{}", task.name);
    }
}
