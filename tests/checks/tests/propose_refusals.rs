//! Refusals 1, 2, 22 and 23 of proposing, in this order, by hand from document
//! 02's notes 5 and 7, and what is left of the words lent.

use checks::unparted::{tests_of_one_parameter, unparted};
use checks::{read_table, MOVE};
use generate::proposing::SCRATCH_LENGTHS;
use reference::propose::SCRATCH_WORDS;
use reference::table::{Task, TABLE_WORDS};
use reference::{Answer, Place, Reason, Refusal};

/// What the scratch's words hold before the call: low bits and high ones in turn.
const FOUND: [u64; 2] = [7, 7 << 61];

/// The answer where so many words are lent for the second table and for the
/// scratch. A result writes the one, and the other's first 128 words are "again
/// all 0 after a result or 23"; all else is as found.
fn answer(table: &[u16], width: u64, lent: [usize; 2]) -> Answer<()> {
    let mut proposed = vec![7; lent[0]];
    let found: Vec<u64> = FOUND.into_iter().cycle().take(lent[1]).collect();
    let mut scratch = found.clone();
    let answer = reference::propose(table, width, &mut proposed, &mut scratch);
    let [written, cleared] = match answer {
        Ok(()) => [TABLE_WORDS, SCRATCH_WORDS],
        Err(refusal) if refusal.reason == Reason::TooManyParts => [0, SCRATCH_WORDS],
        Err(_) => [0, 0],
    };
    let (result, rest) = proposed.split_at(written);
    assert!(result.is_empty() || Task::from_words(result).is_some());
    assert!(rest.iter().all(|word| *word == 7), "the second table");
    let (used, behind) = scratch.split_at(cleared);
    assert!(used.iter().all(|word| *word == 0), "the scratch");
    assert!(behind == &found[cleared..], "behind the scratch");
    answer
}

const ENOUGH: [usize; 2] = [TABLE_WORDS, SCRATCH_WORDS];

fn table_of(text: &str) -> Vec<u16> {
    read_table(text.as_bytes())
}

fn refused(reason: Reason) -> Answer<()> {
    Err(Refusal::nowhere(reason))
}

fn too_many_parts(schema: u64) -> Answer<()> {
    Err(Refusal::new(Reason::TooManyParts, Place::Schema(schema)))
}

#[test]
fn words_behind_what_is_needed() {
    let table = table_of(MOVE);
    for lent in [ENOUGH, [TABLE_WORDS + 3, SCRATCH_WORDS + 5]] {
        assert_eq!(answer(&table, 2, lent), Ok(()));
    }
    let longer = [table, vec![9; 4]].concat();
    assert_eq!(answer(&longer, 2, ENOUGH), Ok(()));
}

/// "23 when a schema ends with more than 16 parts, with the first such schema."
#[test]
fn refusal_23() {
    for (schemas, expected) in [
        (&[16][..], Ok(())),
        (&[17], too_many_parts(0)),
        (&[64], too_many_parts(0)),
        (&[16, 1, 16], Ok(())),
        (&[16, 17, 64, 17], too_many_parts(1)),
        (&[1, 16, 64], too_many_parts(2)),
    ] {
        let table = table_of(&tests_of_one_parameter(schemas));
        for lent in [ENOUGH, [TABLE_WORDS + 1, SCRATCH_WORDS + 1]] {
            assert_eq!(answer(&table, 0, lent), expected, "{schemas:?}");
            assert_eq!(answer(&table, 1, lent), Ok(()), "{schemas:?}");
        }
    }
}

/// What counts is how many parts are left, not how many there were.
#[test]
fn sixteen_parts_are_left() {
    let with_plain = |tests: usize, plain: usize| {
        let alone = (0..tests).map(|test| format!(" pre={test}:0"));
        let together = (0..plain).map(|add| format!(" add={}:", tests + add));
        let atoms: String = alone.chain(together).collect();
        let arities = [vec!["1"; tests], vec!["0"; plain]].concat().join(",");
        table_of(&unparted(&arities, &[&format!("schema=1{atoms}")]))
    };
    assert_eq!(answer(&with_plain(15, 2), 0, ENOUGH), Ok(()));
    assert_eq!(answer(&with_plain(15, 49), 0, ENOUGH), Ok(()));
    assert_eq!(answer(&with_plain(16, 1), 0, ENOUGH), too_many_parts(0));
    assert_eq!(answer(&with_plain(16, 48), 0, ENOUGH), too_many_parts(0));
}

/// "22 .. for a width above 12 or a shorter scratch": shorter than 128 words.
#[test]
fn refusal_22() {
    let table = table_of(MOVE);
    let with = |width, scratch| answer(&table, width, [TABLE_WORDS, scratch]);
    let expected = refused(Reason::WidthOrScratch);
    for width in [13, 14, 64, 256, 65_536, 65_538, 1 << 32, 1 << 63, u64::MAX] {
        for scratch in [0, SCRATCH_WORDS - 1, SCRATCH_WORDS, SCRATCH_WORDS + 1] {
            assert_eq!(with(width, scratch), expected, "{width}, {scratch}");
        }
    }
    let [short, long] = SCRATCH_LENGTHS;
    for width in 0..=12 {
        for scratch in short {
            assert_eq!(with(width, *scratch), expected, "{width}, {scratch}");
        }
        assert_eq!(with(width, 128), Ok(()), "{width}");
        for scratch in long {
            assert_eq!(with(width, *scratch), Ok(()), "{width}, {scratch}");
        }
    }
}

/// The scratch is asked for whole, whatever the task has.
#[test]
fn refusal_22_of_a_task_without_schemas() {
    let table = table_of(&unparted("0", &[]));
    let short = answer(&table, 0, [TABLE_WORDS, SCRATCH_WORDS - 1]);
    assert_eq!(short, refused(Reason::WidthOrScratch));
    assert_eq!(answer(&table, 0, ENOUGH), Ok(()));
}

/// Each refusal that fits is left out in turn: 1 of either table, 2, 22, 23.
#[test]
fn refusals_in_order() {
    let many_parts = table_of(&tests_of_one_parameter(&[17]));
    let mut damaged = many_parts.clone();
    damaged[TABLE_WORDS - 1] = 1;
    let cut = &damaged[..TABLE_WORDS - 1];
    let both_short = [TABLE_WORDS - 1, SCRATCH_WORDS - 1];
    let short_scratch = [TABLE_WORDS, SCRATCH_WORDS - 1];
    let [too_short, no_table, width_or_scratch] = [
        Reason::TableTooShort,
        Reason::NotATable,
        Reason::WidthOrScratch,
    ]
    .map(refused);
    for (table, width, lent, expected) in [
        (cut, 13, both_short, too_short),
        (cut, 13, short_scratch, too_short),
        (&damaged, 13, both_short, too_short),
        (&damaged, 13, short_scratch, no_table),
        (&damaged, 0, ENOUGH, no_table),
        (&many_parts, 0, short_scratch, width_or_scratch),
        (&many_parts, 13, ENOUGH, width_or_scratch),
        (&many_parts, 0, ENOUGH, too_many_parts(0)),
        (&many_parts, 1, ENOUGH, Ok(())),
    ] {
        assert_eq!(answer(table, width, lent), expected);
    }
}
