//! `splitter_run`.

use checks::rows::Row;

use crate::UNWRITTEN;

extern "C" {
    fn splitter_run(
        table: *const u16,
        table_len: usize,
        steps: *const u16,
        steps_len: usize,
        state: *mut u16,
        state_len: usize,
        records: u64,
        place: *mut u64,
        left: *mut u64,
        goal: *mut u64,
    ) -> u32;
}

pub fn run(table: &[u16], steps: &[u16], state: &mut [u16], records: u64) -> Row {
    let [mut place, mut left, mut goal] = [UNWRITTEN; 3];
    // Each pointer goes with the length of its slice, and the numbers are ours.
    let number = unsafe {
        splitter_run(
            table.as_ptr(),
            table.len(),
            steps.as_ptr(),
            steps.len(),
            state.as_mut_ptr(),
            state.len(),
            records,
            &mut place,
            &mut left,
            &mut goal,
        )
    };
    [number.into(), place, left, goal]
}
