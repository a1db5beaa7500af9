//! Unfolding.

use checks::answers::each_answer;
use checks::inputs::{step_words, task_and_table};
use checks::rows::unfold_row;
use checks::twins::are_two_steps;
use checks::vectors::list_cases;
use differential::beside::{compare, lent_words, short_or_long, shown};
use differential::shared_runs::Proved;
use differential::unfolding::unfold;
use generate::differing::any_differing_task;
use generate::tasks::any_tying_task;
use generate::{steps, tables, Random};
use reference::run::STEP_WORDS;
use reference::table::Task;

fn compared(table: &[u16], steps: &[u16], lent: &[u16]) -> u64 {
    compare(
        lent,
        |out| unfold_row(reference::unfold(table, steps, out)),
        |out| unfold(table, steps, out),
        || {
            format!(
                "{} words lent, steps {steps:?}, table {}",
                lent.len(),
                shown(table)
            )
        },
    )
}

/// The words that the unfolding of whole steps takes.
fn needed(task: &Task, steps: &[u16]) -> usize {
    let parts = |step: &[u16]| task.schemas.get(usize::from(step[0]))?.part_count();
    let counts = steps.chunks(STEP_WORDS).filter_map(parts);
    STEP_WORDS * counts.sum::<usize>()
}

/// Compares unfolding of some list of the task, sound or damaged.
fn some_list(random: &mut Random, task: &Task, table: &[u16]) -> u64 {
    let length = random.pick(&[0, 1, 2, 3, 4, 5, 6, 7, 40]);
    let list = steps::list(random, task, length);
    let steps = step_words(random, task, &list);
    let lent = lent_words(random, needed(task, &steps));
    compared(table, &steps, &lent)
}

#[test]
fn sound_and_damaged_lists() {
    let expected = [0, 1, 2, 9, 10, 12, 13, 20];
    each_answer("unfolding compared", 185, 50_000, &expected, |random| {
        let (task, table) = task_and_table(random);
        let table = short_or_long(random, table);
        some_list(random, &task, &table)
    });
}

/// Orders that what preconditions name decides.
#[test]
fn parts_that_tie() {
    let entry = "unfolding of parts that tie compared";
    each_answer(entry, 194, 20_000, &[0, 12, 13], |random| {
        let task = any_tying_task(random);
        some_list(random, &task, &tables::table(&task))
    });
}

/// Steps with equal objects at a pair among them.
#[test]
fn parameters_that_differ() {
    let entry = "unfolding with pairs compared";
    each_answer(entry, 197, 20_000, &[0, 12, 13, 20], |random| {
        let task = any_differing_task(random);
        some_list(random, &task, &tables::table(&task))
    });
}

/// Steps of two schemas with equal atoms, and with objects swapped; folded back
/// too.
#[test]
fn equal_ground_sets_are_two_steps() {
    are_two_steps(&Proved);
}

#[test]
fn vectors() {
    list_cases("04-unfold.txt", unfold);
}
