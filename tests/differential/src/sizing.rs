//! `splitter_sizes`.

use checks::rows::SizesRow;

use crate::UNWRITTEN;

extern "C" {
    fn splitter_sizes(
        table: *const u16,
        table_len: usize,
        place: *mut u64,
        predicates: *mut u64,
        schemas: *mut u64,
        atoms: *mut u64,
        bytes: *mut u64,
        before: *mut u64,
        after: *mut u64,
    ) -> u32;
}

/// The table is only read; it is lent so that a word written to it is seen.
pub fn sizes(table: &mut [u16]) -> SizesRow {
    let [mut place, mut predicates, mut schemas] = [UNWRITTEN; 3];
    let [mut atoms, mut bytes, mut before, mut after] = [UNWRITTEN; 4];
    // The pointer goes with the length of its slice, and the numbers are ours.
    let number = unsafe {
        splitter_sizes(
            table.as_mut_ptr(),
            table.len(),
            &mut place,
            &mut predicates,
            &mut schemas,
            &mut atoms,
            &mut bytes,
            &mut before,
            &mut after,
        )
    };
    [
        number.into(),
        place,
        predicates,
        schemas,
        atoms,
        bytes,
        before,
        after,
    ]
}
