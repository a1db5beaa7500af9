//! Two implementations on the same lent words or bytes.

use std::fmt::Debug;

use checks::inputs::lent_table;
use generate::Random;
use reference::table::TABLE_WORDS;

/// What may be lent: bytes, words of 16 bits and words of 64.
pub trait Element: Copy + Debug + PartialEq {
    /// What stands before and behind those lent, with no byte 0.
    const GUARD: Self;
}

impl Element for u8 {
    const GUARD: Self = 0xa5;
}

impl Element for u16 {
    const GUARD: Self = 0xa5a5;
}

impl Element for u64 {
    const GUARD: Self = 0xa5a5_a5a5_a5a5_a5a5;
}

/// How many elements before and behind the lent ones are watched.
const GUARDS: usize = 8;

/// Lends a copy from within guards, which must stay, and gives it back with the
/// answer.
fn lending<Lent: Element, const NUMBERS: usize>(
    lent: &[Lent],
    entry: impl FnOnce(&mut [Lent]) -> [u64; NUMBERS],
) -> ([u64; NUMBERS], Vec<Lent>) {
    let guards = [Lent::GUARD; GUARDS];
    let mut around = [&guards, lent, &guards].concat();
    let row = entry(&mut around[GUARDS..GUARDS + lent.len()]);
    let after = around.split_off(GUARDS + lent.len());
    assert_eq!(after, guards, "written behind what was lent");
    assert_eq!(around[..GUARDS], guards, "written before what was lent");
    (row, around.split_off(GUARDS))
}

/// Requires the same answer and the same elements afterwards of both; the
/// number of the answer.
pub fn compare<Lent: Element, const NUMBERS: usize>(
    lent: &[Lent],
    reference: impl FnOnce(&mut [Lent]) -> [u64; NUMBERS],
    proved: impl FnOnce(&mut [Lent]) -> [u64; NUMBERS],
    input: impl FnOnce() -> String,
) -> u64 {
    let nothing: &[u8] = &[];
    compare_lent_two(
        (lent, nothing),
        |lent, _| reference(lent),
        |lent, _| proved(lent),
        input,
    )
}

/// The same where two slices are lent to be written.
pub fn compare_lent_two<First: Element, Second: Element, const NUMBERS: usize>(
    lent: (&[First], &[Second]),
    reference: impl FnOnce(&mut [First], &mut [Second]) -> [u64; NUMBERS],
    proved: impl FnOnce(&mut [First], &mut [Second]) -> [u64; NUMBERS],
    input: impl FnOnce() -> String,
) -> u64 {
    let mut expected = (lent.0.to_vec(), lent.1.to_vec());
    let expected_row = reference(&mut expected.0, &mut expected.1);
    let mut second = Vec::new();
    let (row, first) = lending(lent.0, |first| {
        let (row, left) = lending(lent.1, |second| proved(first, second));
        second = left;
        row
    });
    if row == expected_row && (&first, &second) == (&expected.0, &expected.1) {
        return row[0];
    }
    panic!(
        "{row:?} instead of {expected_row:?}; {}, {}; {}",
        difference(&first, &expected.0),
        difference(&second, &expected.1),
        input()
    );
}

/// Where elements first differ from those expected.
fn difference<Lent: Element>(found: &[Lent], expected: &[Lent]) -> String {
    let at = found.iter().zip(expected).position(|(a, b)| a != b);
    format!("of {} lent the first that differs is {at:?}", found.len())
}

/// Words as they are shown, without the zeros at their end.
pub fn shown(words: &[u16]) -> String {
    let used = words
        .iter()
        .rposition(|word| *word != 0)
        .map_or(0, |last| last + 1);
    format!("{} words {:?}", words.len(), &words[..used])
}

/// The table, sometimes too short or longer than a table.
pub fn short_or_long(random: &mut Random, mut table: Vec<u16>) -> Vec<u16> {
    match random.below(40) {
        0 => table.truncate(TABLE_WORDS - 1),
        1 => table.truncate(random.below(TABLE_WORDS)),
        2 => table.extend([1, 2, 3]),
        _ => {}
    }
    table
}

/// A table to write: junk of any length now and then, else sevens, which are
/// quicker.
pub fn table_to_write(random: &mut Random) -> Vec<u16> {
    if random.chance(1, 4) {
        lent_table(random)
    } else {
        vec![7; random.pick(&[TABLE_WORDS, TABLE_WORDS, TABLE_WORDS + 1])]
    }
}

/// So many bytes as the text needs, one more or fewer, or other numbers.
pub fn lent_bytes(random: &mut Random, needed: usize) -> Vec<u8> {
    let shorter = random.below(needed);
    let length = random.pick(&[shorter, needed - 1, needed, needed, needed + 1, 2 * needed]);
    vec![b'x'; length]
}

/// So many words as the result needs, one more or fewer, or any number.
pub fn lent_words(random: &mut Random, needed: usize) -> Vec<u16> {
    let length = match random.below(6) {
        0 => needed.saturating_sub(1),
        1 | 2 => needed,
        3 => needed + 1,
        4 => random.below(needed + 1),
        _ => needed + random.below(40),
    };
    vec![7; length]
}
