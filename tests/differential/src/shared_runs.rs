//! What demand 3 is about, in the proved code.

use checks::rows::Row;
use checks::subject::EntryPoints;

use crate::{folding, running, splitting, unfolding};

pub struct Proved;

impl EntryPoints for Proved {
    fn split(&self, table: &[u16], out: &mut [u16]) -> Row {
        splitting::split(table, out)
    }

    fn unfold(&self, table: &[u16], steps: &[u16], out: &mut [u16]) -> Row {
        unfolding::unfold(table, steps, out)
    }

    fn fold(&self, table: &[u16], split_steps: &[u16], out: &mut [u16]) -> Row {
        folding::fold(table, split_steps, out)
    }

    fn run(&self, table: &[u16], steps: &[u16], state: &mut [u16], records: u64) -> Row {
        running::run(table, steps, state, records)
    }
}
