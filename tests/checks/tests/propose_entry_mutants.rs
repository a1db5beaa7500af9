//! A wrong refusal of proposing, or a word left wrong, shows: each of these
//! variants answers or leaves something else than the reference for many cases
//! of one seed.

use checks::inputs::table_or_damaged;
use checks::rows::{plain_row, Row};
use checks::shows_in;
use generate::proposing::{any_request, Request};
use generate::Random;
use reference::propose::{propose, MAX_WIDTH, SCRATCH_WORDS};
use reference::table::{Schema, Task, MAX_PARTS, TABLE_WORDS};

/// What is lent; the second table holds sevens.
struct Lent {
    table: Vec<u16>,
    width: u64,
    proposed: usize,
    scratch: Vec<u64>,
}

/// The answer, and the words of the second table and of the scratch afterwards.
#[derive(Clone, PartialEq)]
struct Left {
    answer: Row,
    proposed: Vec<u16>,
    scratch: Vec<u64>,
}

const FOUND: u16 = 7;

impl Lent {
    fn any(random: &mut Random) -> Lent {
        let Request {
            task,
            width,
            scratch,
        } = any_request(random);
        Lent {
            table: table_or_damaged(random, &task),
            width,
            proposed: TABLE_WORDS - usize::from(random.chance(1, 16)),
            scratch,
        }
    }

    /// What the reference leaves where this width and this scratch are lent.
    fn left_with(&self, width: u64, mut scratch: Vec<u64>) -> Left {
        let mut proposed = vec![FOUND; self.proposed];
        let answer = reference::propose(&self.table, width, &mut proposed, &mut scratch);
        Left {
            answer: plain_row(answer),
            proposed,
            scratch,
        }
    }

    /// What the reference leaves where this width is lent.
    fn left_at(&self, width: u64) -> Left {
        self.left_with(width, self.scratch.clone())
    }

    /// What is left where a short scratch is let through.
    fn left_with_enough(&self) -> Left {
        let mut scratch = self.scratch.clone();
        scratch.resize(SCRATCH_WORDS, 0);
        let mut left = self.left_with(self.width, scratch);
        left.scratch.truncate(self.scratch.len());
        left
    }

    /// What is left where 22 is refused first.
    fn refused_by_22(&self) -> Left {
        Left {
            answer: [22, 0, 0, 0],
            proposed: vec![FOUND; self.proposed],
            scratch: self.scratch.clone(),
        }
    }

    fn is_of_22(&self) -> bool {
        self.width > MAX_WIDTH || self.scratch.len() < SCRATCH_WORDS
    }
}

impl Left {
    fn number(&self) -> u64 {
        self.answer[0]
    }

    /// The same with 23 and this schema.
    fn refused_by_23(self, schema: usize) -> Left {
        Left {
            answer: [23, schema as u64, 0, 0],
            ..self
        }
    }
}

/// A variant is given what is lent and what the reference leaves of it.
type Variant = fn(&Lent, Left) -> Left;

/// The scratch is left as found where the answer has this number.
fn dirty_after(number: u64, lent: &Lent, right: Left) -> Left {
    if right.number() != number {
        return right;
    }
    Left {
        scratch: lent.scratch.clone(),
        ..right
    }
}

fn dirty_after_23(lent: &Lent, right: Left) -> Left {
    dirty_after(23, lent, right)
}

fn dirty_after_a_result(lent: &Lent, right: Left) -> Left {
    dirty_after(0, lent, right)
}

/// Clears so many words, or all where there are fewer.
fn clear(scratch: &mut [u64], words: usize) {
    scratch.iter_mut().take(words).for_each(|word| *word = 0);
}

/// So many words are 0 after a result or 23, those behind them as found.
fn cleared<const WORDS: usize>(lent: &Lent, mut right: Left) -> Left {
    if matches!(right.number(), 0 | 23) {
        right.scratch.clone_from(&lent.scratch);
        clear(&mut right.scratch, WORDS);
    }
    right
}

/// So many low bits of each word are 0, the others as found.
fn low_bits_cleared<const BITS: usize>(lent: &Lent, mut right: Left) -> Left {
    for (word, found) in right.scratch.iter_mut().zip(&lent.scratch) {
        if *word == 0 {
            *word = found >> BITS << BITS;
        }
    }
    right
}

fn cleared_before_22(_: &Lent, mut right: Left) -> Left {
    if right.number() == 22 {
        clear(&mut right.scratch, SCRATCH_WORDS);
    }
    right
}

/// Refusal 22 reads another length than 128 words.
fn needing<const WORDS: usize>(lent: &Lent, right: Left) -> Left {
    let length = lent.scratch.len();
    if WORDS <= length && length < SCRATCH_WORDS {
        lent.left_with_enough()
    } else if length < WORDS && matches!(right.number(), 0 | 23) {
        lent.refused_by_22()
    } else {
        right
    }
}

/// The task is in the second table when its schemas are parted.
fn written_before_23(lent: &Lent, mut right: Left) -> Left {
    if right.number() == 23 {
        right.proposed[..TABLE_WORDS].copy_from_slice(&lent.table[..TABLE_WORDS]);
    }
    right
}

fn before_1(lent: &Lent, right: Left) -> Left {
    if lent.is_of_22() {
        return lent.refused_by_22();
    }
    right
}

fn before_2(lent: &Lent, right: Left) -> Left {
    if right.number() == 2 && lent.is_of_22() {
        return lent.refused_by_22();
    }
    right
}

/// A short scratch is refused only where the parts are few enough.
fn after_23(lent: &Lent, right: Left) -> Left {
    if right.number() != 22 || lent.width > MAX_WIDTH {
        return right;
    }
    let [number, schema, ..] = lent.left_with_enough().answer;
    if number == 23 {
        right.refused_by_23(schema as usize)
    } else {
        right
    }
}

fn width_13(lent: &Lent, _: Left) -> Left {
    lent.left_at(lent.width - u64::from(lent.width == MAX_WIDTH + 1))
}

/// A width above 12 is taken for 12.
fn any_width_above_12(lent: &Lent, _: Left) -> Left {
    lent.left_at(lent.width.min(MAX_WIDTH))
}

fn low_bits_of_the_width(lent: &Lent, _: Left) -> Left {
    lent.left_at(lent.width & 0xffff)
}

/// The number of the last schema that ends with too many parts.
fn last_of_23(lent: &Lent, right: Left) -> Left {
    let Some(task) = Task::from_words(&lent.table).filter(|_| right.number() == 23) else {
        return right;
    };
    let ends_with_too_many = |number: &usize| {
        let schemas = vec![task.schemas[*number].clone()];
        let alone = Task {
            schemas,
            ..task.clone()
        };
        propose(&alone, lent.width).is_err()
    };
    let last = (0..task.schemas.len()).rfind(ends_with_too_many);
    right.refused_by_23(last.expect("one of them"))
}

fn without_a_place(_: &Lent, mut right: Left) -> Left {
    right.answer[1] = 0;
    right
}

/// More than 16 atoms are too many, merged or not.
fn atoms_for_parts(lent: &Lent, right: Left) -> Left {
    let Some(task) = Task::from_words(&lent.table).filter(|_| right.number() == 0) else {
        return right;
    };
    let has_many = |schema: &Schema| schema.atoms.len() > MAX_PARTS;
    let Some(first) = task.schemas.iter().position(has_many) else {
        return right;
    };
    let left = right.refused_by_23(first);
    Left {
        proposed: vec![FOUND; lent.proposed],
        ..left
    }
}

/// Wrong variants, each with a number of cases that it must reach.
const WRONG: [(&str, Variant, usize); 28] = [
    ("scratch left dirty after 23", dirty_after_23, 60),
    (
        "scratch left dirty after a result",
        dirty_after_a_result,
        1500,
    ),
    ("first 64 words cleared", cleared::<64>, 1500),
    ("first 127 words cleared", cleared::<127>, 1500),
    ("129th word cleared too", cleared::<129>, 200),
    ("scratch cleared to its end", cleared::<{ usize::MAX }>, 200),
    ("16 bits of each word cleared", low_bits_cleared::<16>, 1500),
    ("32 bits of each word cleared", low_bits_cleared::<32>, 1500),
    ("63 bits of each word cleared", low_bits_cleared::<63>, 1500),
    ("scratch cleared before 22", cleared_before_22, 400),
    ("second table written before 23", written_before_23, 60),
    ("22 before 1", before_1, 100),
    ("22 before 2", before_2, 60),
    ("22 after 23", after_23, 10),
    ("width 13 let through", width_13, 60),
    ("any width let through", any_width_above_12, 250),
    ("16 bits of the width", low_bits_of_the_width, 40),
    ("scratch of 127 words let through", needing::<127>, 80),
    ("scratch of 128 words refused", needing::<129>, 1500),
    ("a word a part let through", needing::<64>, 120),
    ("length taken for words of 16 bits", needing::<32>, 150),
    ("length taken for bytes", needing::<16>, 180),
    ("as many words of 16 bits asked for", needing::<512>, 1500),
    ("bytes asked for", needing::<1024>, 1500),
    ("the square asked for", needing::<4096>, 1500),
    ("23 with the last schema", last_of_23, 10),
    ("23 without its schema", without_a_place, 10),
    ("23 for more than 16 atoms", atoms_for_parts, 150),
];

#[test]
fn a_wrong_entry_point_leaves_something_else() {
    let mut random = Random::new(45);
    let mut others = [0; WRONG.len()];
    for _ in 0..4000 {
        let lent = Lent::any(&mut random);
        let right = lent.left_at(lent.width);
        for (other, (_, variant, _)) in others.iter_mut().zip(WRONG) {
            *other += usize::from(variant(&lent, right.clone()) != right);
        }
    }
    for ((name, _, least), other) in WRONG.into_iter().zip(others) {
        shows_in(name, other, least);
    }
}
