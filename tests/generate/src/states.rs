//! States, sound and damaged, and as they are lent.

use reference::run::{State, Step, RECORD_WORDS};
use reference::table::{Atom, GroundAtom, ObjectNumber, Role, Task};

use crate::random::Random;
use crate::tasks::ground_atom;
use crate::LIMIT_NUMBERS;

/// Up to so many ground atoms a state may have any of them.
const MOST_ATOMS: usize = 400;

/// A random state, from empty to full where the task is small.
pub fn state(random: &mut Random, task: &Task) -> State {
    let objects = usize::from(task.objects);
    let count = |arity: &u16| objects.saturating_pow(u32::from(*arity));
    let total = task
        .arities
        .iter()
        .map(count)
        .fold(0, usize::saturating_add);
    if total > MOST_ATOMS {
        return (0..random.below(100))
            .map(|_| ground_atom(random, &task.arities, task.objects))
            .collect();
    }
    let full = random.below(9);
    every_atom(task)
        .into_iter()
        .filter(|_| random.chance(full, 8))
        .collect()
}

fn every_atom(task: &Task) -> State {
    let objects = usize::from(task.objects);
    let mut atoms = State::new();
    for (predicate, &arity) in (0..).zip(&task.arities) {
        for mut choice in 0..objects.pow(arity.into()) {
            let mut atom: GroundAtom = Atom::new(predicate, &[]);
            for argument in &mut atom.arguments[..arity.into()] {
                *argument = ObjectNumber((choice % objects) as u16);
                choice /= objects;
            }
            atoms.insert(atom);
        }
    }
    atoms
}

/// The state that has exactly the step's preconditions.
pub fn just_enough(task: &Task, step: &Step) -> State {
    step.atoms(task, Role::Precondition).collect()
}

/// The state that lacks just one of the step's preconditions, where it has any.
pub fn one_short(random: &mut Random, task: &Task, step: &Step) -> State {
    let mut state = just_enough(task, step);
    if !state.is_empty() {
        let missing = random.below(state.len());
        let missing = state.iter().copied().nth(missing);
        state.retain(|atom| Some(*atom) != missing);
    }
    state
}

/// A state as words and a record count.
#[derive(Clone, Debug)]
pub struct LentState {
    pub words: Vec<u16>,
    pub records: u64,
}

/// The state with so many spare words behind its records, none of them judged.
pub fn lent(random: &mut Random, state: &State, spare: usize) -> LentState {
    let mut words: Vec<u16> = state.iter().flat_map(Atom::words).collect();
    words.extend((0..spare).map(|_| random.word()));
    LentState {
        words,
        records: state.len() as u64,
    }
}

/// The lent state with a damage.
pub fn damaged(random: &mut Random, state: &State, spare: usize) -> LentState {
    let mut lent = lent(random, state, spare);
    let used = RECORD_WORDS * state.len();
    let record = match state.len() {
        0 => 0,
        records => RECORD_WORDS * random.below(records),
    };
    match random.below(9) {
        0 => lent.records = (lent.words.len() / RECORD_WORDS) as u64 + 1,
        1 => lent.records = random.pick(&[u64::MAX, u64::MAX / 5 + 1, 1 << 63, 1 << 32]),
        2 => lent.records = random.below(state.len() + 3) as u64,
        3 if used > 0 => lent.words.truncate(random.below(used)),
        4 if used > record + RECORD_WORDS => {
            let (before, after) = lent.words.split_at_mut(record + RECORD_WORDS);
            before[record..].swap_with_slice(&mut after[..RECORD_WORDS]);
        }
        5 if used > record + RECORD_WORDS => {
            let copied = record..record + RECORD_WORDS;
            lent.words.copy_within(copied, record + RECORD_WORDS);
        }
        6 if used > 0 => {
            let at = random.below(used);
            lent.words[at] = lent.words[at].wrapping_add(1);
        }
        7 if used > 0 => lent.words[record] = random.pick(LIMIT_NUMBERS) as u16,
        _ if used > 0 => lent.words[random.below(used)] = random.pick(LIMIT_NUMBERS) as u16,
        _ => lent.records += 1,
    }
    lent
}
