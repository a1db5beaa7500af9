//! `splitter_fold`.

use checks::rows::Row;

use crate::UNWRITTEN;

extern "C" {
    fn splitter_fold(
        table: *const u16,
        table_len: usize,
        split: *const u16,
        split_len: usize,
        out: *mut u16,
        out_len: usize,
        place: *mut u64,
        split_steps: *mut u64,
        steps: *mut u64,
    ) -> u32;
}

pub fn fold(table: &[u16], list: &[u16], out: &mut [u16]) -> Row {
    let [mut place, mut split_steps, mut steps] = [UNWRITTEN; 3];
    // Each pointer goes with the length of its slice, and the numbers are ours.
    let number = unsafe {
        splitter_fold(
            table.as_ptr(),
            table.len(),
            list.as_ptr(),
            list.len(),
            out.as_mut_ptr(),
            out.len(),
            &mut place,
            &mut split_steps,
            &mut steps,
        )
    };
    [number.into(), place, split_steps, steps]
}
