//! Tables, sound and damaged.

use reference::table::{Task, HEADER_WORDS, MAX_PAIRS, PAIR_WORDS, TABLE_WORDS};

use crate::random::Random;
use crate::LIMIT_NUMBERS;

/// The words of a task, filled up with zeros to a table, or cut to one.
pub fn table(task: &Task) -> Vec<u16> {
    let mut table = task.words();
    table.resize(TABLE_WORDS, 0);
    table
}

/// The table of a task with one to three damages, most of them among the words
/// that the task uses.
pub fn damaged(random: &mut Random, task: &Task) -> Vec<u16> {
    let mut table = table(task);
    let used = task.words().len().min(TABLE_WORDS);
    for _ in 0..random.pick(&[1, 1, 1, 2, 3]) {
        damage(random, &mut table, used);
    }
    table
}

fn damage(random: &mut Random, table: &mut Vec<u16>, used: usize) {
    let length = if random.chance(9, 10) {
        used.min(table.len())
    } else {
        table.len()
    };
    if length < 2 {
        return;
    }
    let at = random.below(length);
    match random.below(18) {
        0 | 1 => table[at] = table[at].wrapping_add(1),
        2 | 3 => table[at] = table[at].wrapping_sub(1),
        4 => table[at] = random.word(),
        5 => table[at] = table[random.below(length)],
        6 => table.swap(at, random.below(length)),
        7 => swap_atoms(random, table, used),
        8 => table[length - 1] = random.word(),
        9 if random.chance(1, 8) => table.truncate(random.below(TABLE_WORDS)),
        10 if random.chance(1, 4) => table.extend([random.word(), random.word()]),
        11 => table[random.below(HEADER_WORDS)] = random.pick(LIMIT_NUMBERS) as u16,
        12 | 13 => damage_pairs(random, table),
        _ => table[at] = random.pick(LIMIT_NUMBERS) as u16,
    }
}

/// Changes a word of a pair, exchanges or repeats two neighbours, or drops the
/// last one from the count, where the table has pairs.
fn damage_pairs(random: &mut Random, table: &mut [u16]) {
    let Some(&[_, predicates, schemas, _, _, _, pairs]) = table.first_chunk::<HEADER_WORDS>()
    else {
        return;
    };
    let first = HEADER_WORDS + usize::from(predicates) + usize::from(schemas);
    let pairs = usize::from(pairs);
    // The last one's neighbour is what stands behind the pairs.
    let end = first + PAIR_WORDS * (pairs + 1);
    if !(1..=MAX_PAIRS).contains(&pairs) || end > table.len() {
        return;
    }
    let pair = first + PAIR_WORDS * random.below(pairs);
    let (before, after) = table.split_at_mut(pair + PAIR_WORDS);
    let next = &mut after[..PAIR_WORDS];
    match random.below(6) {
        0 => before[pair..].swap_with_slice(next),
        1 => next.copy_from_slice(&before[pair..]),
        2 => before.swap(pair + 1, pair + 2),
        3 => before[HEADER_WORDS - 1] -= 1,
        _ => before[pair + random.below(PAIR_WORDS)] = random.below(14) as u16,
    }
}

/// Changes places of an atom's 8 words and the next one's, counted from the
/// last atom.
fn swap_atoms(random: &mut Random, table: &mut [u16], used: usize) {
    let atoms = used / 8;
    if atoms >= 2 && used <= table.len() {
        let second = used - 8 * random.within(&(1..=atoms - 1));
        let (before, after) = table.split_at_mut(second);
        before[second - 8..].swap_with_slice(&mut after[..8]);
    }
}
