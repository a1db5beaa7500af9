//! A wrong size shows: each of these variants tells something else than the
//! reference for many tasks of one seed, and the right ones, counted on the task,
//! for none.

use checks::needs::{cases, each_shows, shared_parameters, Needs, Wrong};
use reference::table::Task;

/// Changes the right needs, given the task and its split.
type Variant = fn(&mut Needs, &Task, &Task);

/// How many bytes the lines of a task's pairs have in its text.
fn differ_lines(task: &Task) -> usize {
    let text = task.to_string();
    let lines = text.split_inclusive('\n');
    let differ = lines.filter(|line| line.starts_with("differ="));
    differ.map(str::len).sum()
}

/// The initial and the goal line of procnone.
fn procnone_lines(task: &Task) -> usize {
    2 * format!("init={}:\n", task.arities.len()).len()
}

/// A par for each parameter that some schema shares, and none below it.
fn shared_pars(needs: &mut Needs, task: &Task, _: &Task) {
    let shared = shared_parameters(task);
    let pars = shared.last().map_or(0, |largest| largest + 1);
    needs.predicates -= pars - shared.len();
}

/// A schema of one part gains three tokens.
fn one_part_as_several(needs: &mut Needs, task: &Task, _: &Task) {
    let schemas = task.schemas.iter();
    let whole = schemas.filter(|schema| schema.part_count() == Some(1));
    needs.atoms += 2 * whole.count();
}

const WRONG: [Wrong<Variant>; 15] = [
    (
        "the task's text",
        |needs, task, _| needs.bytes = task.to_string().len(),
        2000,
    ),
    (
        "no differ lines",
        |needs, _, split| needs.bytes -= differ_lines(split),
        500,
    ),
    (
        "the task's differ lines",
        |needs, task, split| needs.bytes = needs.bytes - differ_lines(split) + differ_lines(task),
        300,
    ),
    (
        "procnone forgotten in the text",
        |needs, task, _| needs.bytes -= procnone_lines(task),
        2000,
    ),
    (
        "procnone forgotten",
        |needs, _, _| needs.predicates -= 1,
        2000,
    ),
    (
        "a do for every part",
        |needs, task, _| needs.predicates += task.schemas.len(),
        2000,
    ),
    (
        "no do",
        |needs, task, _| needs.predicates -= needs.schemas - task.schemas.len(),
        1000,
    ),
    ("pars of shared parameters alone", shared_pars, 100),
    (
        "the task's predicates",
        |needs, task, _| needs.predicates = task.arities.len(),
        2000,
    ),
    (
        "the task's schemas",
        |needs, task, _| needs.schemas = task.schemas.len(),
        1000,
    ),
    (
        "the task's atoms",
        |needs, task, _| needs.atoms = task.schema_atoms(),
        2000,
    ),
    (
        "initial atoms too",
        |needs, _, split| needs.atoms += split.initial.len(),
        2000,
    ),
    (
        "goal atoms too",
        |needs, _, split| needs.atoms += split.goal.len(),
        2000,
    ),
    ("one part decorated as several", one_part_as_several, 1000),
    (
        "atoms and schemas exchanged",
        |needs, _, _| std::mem::swap(&mut needs.atoms, &mut needs.schemas),
        2000,
    ),
];

#[test]
fn right_sizes_do_not_show() {
    for case in cases() {
        assert_eq!(case.changed(|_, _, _| {}), case.right, "{}", case.task);
    }
}

#[test]
fn wrong_sizes_show() {
    each_shows(&WRONG, |variant, case| case.changed(variant));
}
