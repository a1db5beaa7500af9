//! `splitter_propose`.

use checks::rows::Row;

use crate::UNWRITTEN;

extern "C" {
    fn splitter_propose(
        table: *const u16,
        table_len: usize,
        width: u64,
        proposed: *mut u16,
        proposed_len: usize,
        scratch: *mut u64,
        scratch_len: usize,
        place: *mut u64,
    ) -> u32;
}

pub fn propose(table: &[u16], width: u64, proposed: &mut [u16], scratch: &mut [u64]) -> Row {
    let mut place = UNWRITTEN;
    // Each pointer goes with the length of its slice, and the number is ours.
    let number = unsafe {
        splitter_propose(
            table.as_ptr(),
            table.len(),
            width,
            proposed.as_mut_ptr(),
            proposed.len(),
            scratch.as_mut_ptr(),
            scratch.len(),
            &mut place,
        )
    };
    [number.into(), place, 0, 0]
}
