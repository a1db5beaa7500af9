//! `splitter_write_pddl`.

use checks::rows::Row;

use crate::UNWRITTEN;

/// "92,158 bytes are enough for every task" (include/splitter.h).
pub const ENOUGH: usize = 92_158;

extern "C" {
    fn splitter_write_pddl(
        table: *const u16,
        table_len: usize,
        text: *mut u8,
        text_len: usize,
        place: *mut u64,
        bytes: *mut u64,
    ) -> u32;
}

pub fn write_pddl(table: &[u16], text: &mut [u8]) -> Row {
    let [mut place, mut bytes] = [UNWRITTEN; 2];
    let (lent, length) = (text.as_mut_ptr(), text.len());
    // Each pointer goes with the length of its slice, and the numbers are ours.
    let number = unsafe {
        splitter_write_pddl(
            table.as_ptr(),
            table.len(),
            lent,
            length,
            &mut place,
            &mut bytes,
        )
    };
    [number.into(), place, bytes, 0]
}
