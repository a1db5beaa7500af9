//! `splitter_unfold`.

use checks::rows::Row;

use crate::UNWRITTEN;

extern "C" {
    fn splitter_unfold(
        table: *const u16,
        table_len: usize,
        steps: *const u16,
        steps_len: usize,
        out: *mut u16,
        out_len: usize,
        place: *mut u64,
        split_steps: *mut u64,
    ) -> u32;
}

pub fn unfold(table: &[u16], steps: &[u16], out: &mut [u16]) -> Row {
    let [mut place, mut split_steps] = [UNWRITTEN; 2];
    // Each pointer goes with the length of its slice, and the numbers are ours.
    let number = unsafe {
        splitter_unfold(
            table.as_ptr(),
            table.len(),
            steps.as_ptr(),
            steps.len(),
            out.as_mut_ptr(),
            out.len(),
            &mut place,
            &mut split_steps,
        )
    };
    [number.into(), place, split_steps, 0]
}
