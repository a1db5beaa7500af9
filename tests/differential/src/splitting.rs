//! `splitter_split`.

use checks::rows::Row;

use crate::UNWRITTEN;

extern "C" {
    fn splitter_split(
        table: *const u16,
        table_len: usize,
        split: *mut u16,
        split_len: usize,
        place: *mut u64,
    ) -> u32;
}

pub fn split(table: &[u16], out: &mut [u16]) -> Row {
    let mut place = UNWRITTEN;
    let (lent, length) = (out.as_mut_ptr(), out.len());
    // Each pointer goes with the length of its slice, and the number is ours.
    let number = unsafe { splitter_split(table.as_ptr(), table.len(), lent, length, &mut place) };
    [number.into(), place, 0, 0]
}
