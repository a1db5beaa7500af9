//! A second implementation of document 01, "Splitting STRIPS action schemas
//! for station work", and of document 02's notes 1 to 7, with one module for each
//! section, `pddl` for note 1, `propose` for note 5, `sizes` for note 6 and the
//! entry points on lent words and bytes here. Note 2 changes the choice among
//! ready parts in `arcs`; note 4 gives schemas pairs of parameters that must
//! differ, in every module. Note 3 changes no answer, and note 7 only what is
//! lent for proposing.

pub mod answer;
pub mod arcs;
pub mod blocks;
pub mod pddl;
pub mod pddl_reader;
pub mod programs;
pub mod propose;
pub mod run;
pub mod sizes;
pub mod table;
pub mod text;
pub mod tokens;

pub use answer::{Answer, Place, Reason, Refusal};

use pddl::Pddl;
use propose::{MAX_WIDTH, SCRATCH_WORDS};
use run::{Step, STEP_WORDS};
use sizes::Sizes;
use table::{Task, TABLE_WORDS};

/// What running answers with a result.
#[derive(Clone, Copy, Debug, PartialEq, Eq)]
pub struct Ran {
    pub records: u64,
    pub goal_met: bool,
}

/// What folding answers with a result.
#[derive(Clone, Copy, Debug, PartialEq, Eq)]
pub struct Folded {
    pub split_steps: u64,
    pub steps: u64,
}

/// Reads a text into a table.
pub fn read(text: &[u8], table: &mut [u16]) -> Answer<()> {
    let table = lent_table(table)?;
    table.fill(0);
    text::read_task(text)?.store(table);
    Ok(())
}

/// Writes a table as text and answers the number of bytes.
pub fn write(table: &[u16], text: &mut [u8]) -> Answer<u64> {
    let written = task_of(table)?.to_string();
    store_text(&written, text, Reason::TextTooLong)
}

/// Writes a table's task as a domain and a problem in PDDL and answers the
/// number of bytes.
pub fn write_pddl(table: &[u16], text: &mut [u8]) -> Answer<u64> {
    let written = Pddl(&task_of(table)?).to_string();
    store_text(&written, text, Reason::PddlTooLong)
}

/// Writes the split of a table's task as a table.
pub fn split(table: &[u16], out: &mut [u16]) -> Answer<()> {
    let out = lent_table(out)?;
    tokens::split(&task_of(table)?)?.task.store(out);
    Ok(())
}

/// Runs steps from the state that the first `records` records hold.
pub fn run(table: &[u16], steps: &[u16], state: &mut [u16], records: u64) -> Answer<Ran> {
    let task = task_of(table)?;
    let steps = run::steps_from_words(&task, steps)?;
    let mut atoms = run::state_from_words(&task, state, records)?;
    let answer = run::run(&task, &steps, &mut atoms, run::room(state));
    run::store_state(&atoms, state);
    answer.map(|()| Ran {
        records: atoms.len() as u64,
        goal_met: run::goal_met(&task, &atoms),
    })
}

/// Writes the unfolding of steps and answers its number of split steps.
pub fn unfold(table: &[u16], steps: &[u16], out: &mut [u16]) -> Answer<u64> {
    let task = task_of(table)?;
    let split = tokens::split(&task)?;
    let steps = run::steps_from_words(&task, steps)?;
    let unfolded = blocks::unfold(&split, &steps);
    store_steps(&unfolded, out)?;
    Ok(unfolded.len() as u64)
}

/// Writes the steps whose blocks a list of split steps is.
pub fn fold(table: &[u16], split_steps: &[u16], out: &mut [u16]) -> Answer<Folded> {
    let split = tokens::split(&task_of(table)?)?;
    let split_steps = run::steps_from_words(&split.task, split_steps)?;
    let steps = blocks::fold(&split, &split_steps)?;
    store_steps(&steps, out)?;
    Ok(Folded {
        split_steps: split_steps.len() as u64,
        steps: steps.len() as u64,
    })
}

/// Writes a table's task with proposed parts as a table. The scratch isn't
/// needed here, and is "again all 0 after a result or 23".
pub fn propose(table: &[u16], width: u64, proposed: &mut [u16], scratch: &mut [u64]) -> Answer<()> {
    let proposed = lent_table(proposed)?;
    let task = task_of(table)?;
    // "22, after 2, for a width above 12 or a shorter scratch"; by note 7 it
    // "reads that length", of words of 64 bits.
    let scratch = scratch.get_mut(..SCRATCH_WORDS);
    let (Some(scratch), 0..=MAX_WIDTH) = (scratch, width) else {
        return Err(Refusal::nowhere(Reason::WidthOrScratch));
    };
    scratch.fill(0);
    propose::propose(&task, width)?.store(proposed);
    Ok(())
}

/// Answers what the split of a table's task will need.
pub fn sizes(table: &[u16]) -> Answer<Sizes> {
    sizes::sizes(&task_of(table)?)
}

/// Refusal 1: a lent table is shorter than 14,007 words.
fn lent_table(table: &mut [u16]) -> Answer<&mut [u16]> {
    table
        .get_mut(..TABLE_WORDS)
        .ok_or(Refusal::nowhere(Reason::TableTooShort))
}

/// Refusals 1 and 2: "a table lent for reading is no such table".
fn task_of(table: &[u16]) -> Answer<Task> {
    if table.len() < TABLE_WORDS {
        return Err(Refusal::nowhere(Reason::TableTooShort));
    }
    Task::from_words(table).ok_or(Refusal::nowhere(Reason::NotATable))
}

/// Refusals 11 and 18: "the text is longer than the lent bytes".
fn store_text(written: &str, text: &mut [u8], too_long: Reason) -> Answer<u64> {
    text.get_mut(..written.len())
        .ok_or(Refusal::nowhere(too_long))?
        .copy_from_slice(written.as_bytes());
    Ok(written.len() as u64)
}

/// Refusal 13: "the result is longer than the lent words".
fn store_steps(steps: &[Step], out: &mut [u16]) -> Answer<()> {
    let used = out
        .get_mut(..STEP_WORDS * steps.len())
        .ok_or(Refusal::nowhere(Reason::ResultTooLong))?;
    for (words, step) in used.chunks_exact_mut(STEP_WORDS).zip(steps) {
        words.copy_from_slice(&step.words());
    }
    Ok(())
}
