//! Folding.

use checks::answers::each_answer;
use checks::inputs::{step_words, task_and_table};
use checks::rows::fold_row;
use checks::vectors::list_cases;
use differential::beside::{compare, lent_words, short_or_long, shown};
use differential::folding::fold;
use generate::differing::splittable_differing_task;
use generate::split_lists::split_list;
use generate::tasks::any_tying_task;
use generate::{steps, tables, Random};
use reference::blocks;
use reference::run::STEP_WORDS;
use reference::table::Task;
use reference::tokens::{self, Split};

fn compared(table: &[u16], list: &[u16], lent: &[u16]) -> u64 {
    compare(
        lent,
        |out| fold_row(reference::fold(table, list, out)),
        |out| fold(table, list, out),
        || {
            format!(
                "{} words lent, list {list:?}, table {}",
                lent.len(),
                shown(table)
            )
        },
    )
}

/// The list that a split list is folded to, or one that it might be.
fn needed(random: &mut Random, list: usize, folded: Option<usize>) -> usize {
    STEP_WORDS * folded.unwrap_or_else(|| random.below(list + 1))
}

/// Compares folding of some list, of split steps where there is a split.
fn some_list(random: &mut Random, task: &Task, table: &[u16], split: Option<&Split>) -> u64 {
    let (list, of_task) = match split {
        Some(split) => (split_list(random, task, split), &split.task),
        None => (steps::list(random, task, 3), task),
    };
    let folded = split.and_then(|split| blocks::fold(split, &list).ok());
    let needed = needed(random, list.len(), folded.map(|steps| steps.len()));
    let words = step_words(random, of_task, &list);
    let lent = lent_words(random, needed);
    compared(table, &words, &lent)
}

#[test]
fn sound_and_damaged_lists() {
    let expected = [0, 1, 2, 9, 10, 12, 13, 14, 20];
    each_answer("folding compared", 186, 100_000, &expected, |random| {
        let (task, table) = task_and_table(random);
        let table = short_or_long(random, table);
        some_list(random, &task, &table, tokens::split(&task).ok().as_ref())
    });
}

/// Orders that what preconditions name decides.
#[test]
fn parts_that_tie() {
    let entry = "folding of parts that tie compared";
    each_answer(entry, 195, 20_000, &[0, 12, 13, 14], |random| {
        let task = any_tying_task(random);
        let split = tokens::split(&task).expect("tying tasks have a split");
        some_list(random, &task, &tables::table(&task), Some(&split))
    });
}

/// Split steps with equal objects at a pair, and beginnings of blocks with equal
/// objects at one that they don't carry.
#[test]
fn parameters_that_differ() {
    let entry = "folding with pairs compared";
    each_answer(entry, 198, 40_000, &[0, 12, 13, 14], |random| {
        let task = splittable_differing_task(random);
        let split = tokens::split(&task).expect("a split");
        some_list(random, &task, &tables::table(&task), Some(&split))
    });
}

#[test]
fn vectors() {
    list_cases("04-fold.txt", fold);
}
