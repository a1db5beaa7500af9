//! `splitter_read`.

use checks::rows::Row;

use crate::UNWRITTEN;

extern "C" {
    fn splitter_read(
        text: *const u8,
        text_len: usize,
        table: *mut u16,
        table_len: usize,
        place: *mut u64,
    ) -> u32;
}

pub fn read(text: &[u8], table: &mut [u16]) -> Row {
    let mut place = UNWRITTEN;
    let (out, out_len) = (table.as_mut_ptr(), table.len());
    // Each pointer goes with the length of its slice, and the number is ours.
    let number = unsafe { splitter_read(text.as_ptr(), text.len(), out, out_len, &mut place) };
    [number.into(), place, 0, 0]
}
