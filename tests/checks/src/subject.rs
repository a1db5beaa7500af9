//! What the claim of shared runs is put to.

use generate::steps::words;
use generate::tables::table;
use reference::run::{
    room, state_from_words, steps_from_words, State, Step, RECORD_WORDS, STEP_WORDS,
};
use reference::table::{Task, MAX_ATOMS_OF_SCHEMA, MAX_PARTS, TABLE_WORDS};
use reference::Answer;

use crate::rows::{fold_row, plain_row, run_row, told, unfold_row, Row};

/// The end of a list that runs.
pub struct End {
    pub state: State,
    pub goal_met: bool,
}

/// Splitting, unfolding, folding and running, none short of lent words.
pub trait Subject {
    fn split(&self, task: &Task) -> Answer<Task>;
    fn unfold(&self, task: &Task, steps: &[Step]) -> Answer<Vec<Step>>;
    fn fold(&self, task: &Task, split_steps: &[Step]) -> Answer<Vec<Step>>;
    fn run(&self, task: &Task, steps: &[Step], state: &State) -> Answer<End>;
}

/// The entry points on words, their answers as rows.
pub trait EntryPoints {
    fn split(&self, table: &[u16], out: &mut [u16]) -> Row;
    fn unfold(&self, table: &[u16], steps: &[u16], out: &mut [u16]) -> Row;
    fn fold(&self, table: &[u16], split_steps: &[u16], out: &mut [u16]) -> Row;
    fn run(&self, table: &[u16], steps: &[u16], state: &mut [u16], records: u64) -> Row;
}

/// Those of the reference.
pub struct Reference;

impl EntryPoints for Reference {
    fn split(&self, table: &[u16], out: &mut [u16]) -> Row {
        plain_row(reference::split(table, out))
    }

    fn unfold(&self, table: &[u16], steps: &[u16], out: &mut [u16]) -> Row {
        unfold_row(reference::unfold(table, steps, out))
    }

    fn fold(&self, table: &[u16], split_steps: &[u16], out: &mut [u16]) -> Row {
        fold_row(reference::fold(table, split_steps, out))
    }

    fn run(&self, table: &[u16], steps: &[u16], state: &mut [u16], records: u64) -> Row {
        run_row(reference::run(table, steps, state, records))
    }
}

/// Entry points as a subject: each is lent words enough.
pub struct OnWords<Given>(pub Given);

/// The first steps of a lent list.
fn listed(task: &Task, out: &[u16], steps: u64) -> Vec<Step> {
    steps_from_words(task, &out[..STEP_WORDS * steps as usize]).expect("steps of the task")
}

impl<Given: EntryPoints> Subject for OnWords<Given> {
    fn split(&self, task: &Task) -> Answer<Task> {
        let mut out = vec![7; TABLE_WORDS];
        told(self.0.split(&table(task), &mut out))?;
        Ok(Task::from_words(&out).expect("the split is a table"))
    }

    fn unfold(&self, task: &Task, steps: &[Step]) -> Answer<Vec<Step>> {
        let mut out = vec![7; STEP_WORDS * MAX_PARTS * steps.len()];
        let [split_steps, _] = told(self.0.unfold(&table(task), &words(steps), &mut out))?;
        Ok(listed(&self.split(task)?, &out, split_steps))
    }

    fn fold(&self, task: &Task, split_steps: &[Step]) -> Answer<Vec<Step>> {
        let mut out = vec![7; STEP_WORDS * split_steps.len()];
        let folded = self.0.fold(&table(task), &words(split_steps), &mut out);
        let [count, steps] = told(folded)?;
        assert_eq!(count, split_steps.len() as u64, "folding's count");
        Ok(listed(task, &out, steps))
    }

    fn run(&self, task: &Task, steps: &[Step], state: &State) -> Answer<End> {
        let mut lent: Vec<u16> = state.iter().flat_map(|atom| atom.words()).collect();
        let most = room(&lent) + MAX_ATOMS_OF_SCHEMA * steps.len();
        lent.resize(RECORD_WORDS * most, 7);
        let count = state.len() as u64;
        let [records, goal_met] = told(self.0.run(&table(task), &words(steps), &mut lent, count))?;
        Ok(End {
            state: state_from_words(task, &lent, records)?,
            goal_met: goal_met == 1,
        })
    }
}
