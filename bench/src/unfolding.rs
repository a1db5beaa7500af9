//! Unfolding, beside a plain copy of the words written.

use differential::unfolding::unfold;

use crate::lists::lists;
use crate::timing::{heading_and_copy, row_and_copy};

pub fn bench() {
    heading_and_copy("unfolding", "step");
    for list in lists() {
        let (table, steps) = (&list.table, &list.steps);
        let mut expected = vec![7; list.unfolding.len()];
        let mut found = vec![7; list.unfolding.len()];
        row_and_copy(
            &format!("to {} split steps", list.split_steps()),
            list.split_steps(),
            &list.unfolding,
            || assert!(reference::unfold(table, steps, &mut expected).is_ok()),
            || assert_eq!(unfold(table, steps, &mut found)[0], 0),
        );
        assert!(found == list.unfolding, "the unfolding");
    }
}
