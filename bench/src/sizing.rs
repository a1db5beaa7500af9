//! What a split will need: asking for it beside the reference, and beside the
//! proved code's own split and the text of it.

use checks::rows::sizes_row;
use differential::sizing::sizes;
use differential::splitting::split;
use differential::writing::write;
use reference::table::TABLE_WORDS;

use crate::tasks::{large, large_of_few_objects, small, usual, Named};
use crate::timing::{cells, medians, titles};

/// No task's text is longer.
const LONGEST_TEXT: usize = 44_432;

fn bench_sizes(task: &Named) {
    let table = &task.table;
    let answer = sizes_row(reference::sizes(table));
    let mut lent = table.clone();
    let mut made = vec![7; TABLE_WORDS];
    let mut text = vec![7; LONGEST_TEXT];
    let mut bytes = 0;
    let [reference, proved, by_split] = medians([
        &mut || assert_eq!(sizes_row(reference::sizes(table)), answer),
        &mut || assert_eq!(sizes(&mut lent), answer),
        &mut || {
            assert_eq!(split(table, &mut made)[0], 0);
            [_, _, bytes, _] = write(&made, &mut text);
        },
    ]);
    let told = match answer[0] {
        0 => {
            let [predicates, schemas, atoms] = [1, 2, 3].map(|count| made[count].into());
            let counted = [predicates, schemas, atoms, bytes];
            assert_eq!(counted, answer[2..6], "{}", task.name);
            format!("split {bytes}")
        }
        number => format!("refused by {number}"),
    };
    let atoms = table[3].into();
    println!(
        "{:<42} {} {by_split:>13.0} {:>7.2}",
        format!("{}, {told}", task.name),
        cells(atoms, reference, proved),
        by_split / proved
    );
}

pub fn bench() {
    let titles = titles("sizes", "atom");
    println!("{titles} {:>13} {:>7}", "by split ns", "ratio");
    for task in [small(), usual(), large_of_few_objects(), large()] {
        bench_sizes(&task);
    }
}
