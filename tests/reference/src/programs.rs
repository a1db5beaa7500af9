//! The two programs of document 01, "Text form", and those that write PDDL and
//! propose a partition, as functions of their input.

use crate::answer::{Answer, Reason, Refusal};
use crate::blocks;
use crate::pddl::Pddl;
use crate::propose::{self, MAX_WIDTH};
use crate::table::Task;
use crate::text::{parse_number, read_plan, read_task, Plan};
use crate::tokens;

/// "A program takes the first 65,536 bytes of an input."
pub const INPUT_BYTES: usize = 65_536;

/// What `split` prints for its standard input.
pub fn split_program(stdin: &[u8]) -> Vec<u8> {
    let split = read_task(taken(stdin)).and_then(|task| tokens::split(&task));
    printed(split.map(|split| split.task.to_string()))
}

/// What `pddl` prints for its standard input, which it takes as `split` does.
pub fn pddl_program(stdin: &[u8]) -> Vec<u8> {
    printed(read_task(taken(stdin)).map(|task| Pddl(&task).to_string()))
}

/// What `propose` prints for its arguments, of which the width is the only one,
/// and its standard input, which it takes as `split` does.
pub fn propose_program(arguments: &[&[u8]], stdin: &[u8]) -> Vec<u8> {
    printed(proposal(arguments, taken(stdin)).map(|task| task.to_string()))
}

/// The task is judged first, since 22 comes "after 2", then the argument.
fn proposal(arguments: &[&[u8]], task: &[u8]) -> Answer<Task> {
    let task = read_task(task)?;
    let width = width(arguments).ok_or(Refusal::nowhere(Reason::WidthOrScratch))?;
    propose::propose(&task, width)
}

/// The width that the arguments tell: one number in the form that a text's
/// numbers have, at most 12.
fn width(arguments: &[&[u8]]) -> Option<u64> {
    let [argument] = arguments else {
        return None;
    };
    let width = parse_number(argument)?.into();
    (width <= MAX_WIDTH).then_some(width)
}

/// What `unfold` prints for its files; "a missing file counts as empty".
pub fn unfold_program(task: Option<&[u8]>, plan: Option<&[u8]>) -> Vec<u8> {
    printed(unfolding(
        taken(task.unwrap_or_default()),
        taken(plan.unwrap_or_default()),
    ))
}

/// "`task` is read first, unfolding comes last."
fn unfolding(task: &[u8], plan: &[u8]) -> Answer<String> {
    let task = read_task(task)?;
    let steps = read_plan(plan, &task)?;
    let split = tokens::split(&task)?;
    if let Some(bad) = steps.iter().position(|step| !step.keeps_pairs_apart(&task)) {
        return Err(Refusal::at_step(Reason::BadStep, bad));
    }
    let plan = Plan {
        task: &split.task,
        steps: &blocks::unfold(&split, &steps),
    };
    Ok(plan.to_string())
}

fn taken(input: &[u8]) -> &[u8] {
    &input[..input.len().min(INPUT_BYTES)]
}

/// "Or `refused=` number, colon, place."
fn printed(answer: Answer<String>) -> Vec<u8> {
    let refused =
        |refusal: Refusal| format!("refused={}:{}\n", refusal.number(), refusal.place.number());
    answer.unwrap_or_else(refused).into_bytes()
}
