//! Folding, beside a plain copy of the words read.

use differential::folding::fold;

use crate::lists::lists;
use crate::timing::{heading_and_copy, row_and_copy};

pub fn bench() {
    heading_and_copy("folding", "step");
    for list in lists() {
        let (table, unfolding) = (&list.table, &list.unfolding);
        let mut expected = vec![7; list.steps.len()];
        let mut found = vec![7; list.steps.len()];
        row_and_copy(
            &format!("of {} split steps", list.split_steps()),
            list.split_steps(),
            unfolding,
            || assert!(reference::fold(table, unfolding, &mut expected).is_ok()),
            || assert_eq!(fold(table, unfolding, &mut found)[0], 0),
        );
        assert!(found == list.steps, "the list folded");
    }
}
