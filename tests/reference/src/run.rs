//! Document 01, "Steps, states and running"; "a step with equal objects" at a
//! declared pair "isn't a step of the task" (document 02's note 4).

use std::collections::BTreeSet;

use crate::answer::{Answer, Reason, Refusal};
use crate::table::{
    used_arguments, Atom, GroundAtom, LiftedAtom, ObjectNumber, Role, Task, MAX_ARITY,
    MAX_PARAMETERS,
};

/// "A step is 13 words."
pub const STEP_WORDS: usize = 1 + MAX_PARAMETERS;
/// "5-word records."
pub const RECORD_WORDS: usize = 1 + MAX_ARITY;

/// "Schema, one object per parameter, zeros."
#[derive(Clone, Copy, Debug, PartialEq, Eq)]
pub struct Step {
    pub schema: u16,
    pub objects: [ObjectNumber; MAX_PARAMETERS],
}

impl Step {
    pub fn new(schema: u16, given: &[ObjectNumber]) -> Self {
        let mut objects = [ObjectNumber(0); MAX_PARAMETERS];
        objects[..given.len()].copy_from_slice(given);
        Step { schema, objects }
    }

    /// The step that 13 words hold, if it is one of this task.
    fn from_words(task: &Task, words: &[u16]) -> Option<Step> {
        let words: &[u16; STEP_WORDS] = words.try_into().ok()?;
        let schema = task.schemas.get(usize::from(words[0]))?;
        let (objects, zeros) = words[1..].split_at(usize::from(schema.parameters));
        let fits = objects.iter().all(|&object| object < task.objects)
            && zeros.iter().all(|&word| word == 0);
        let step = Step {
            schema: words[0],
            objects: std::array::from_fn(|i| ObjectNumber(words[1 + i])),
        };
        (fits && step.keeps_pairs_apart(task)).then_some(step)
    }

    /// Whether the step's objects differ at every pair of its schema.
    pub fn keeps_pairs_apart(&self, task: &Task) -> bool {
        task.schemas[usize::from(self.schema)].keeps_apart(&self.objects)
    }

    pub fn words(&self) -> [u16; STEP_WORDS] {
        std::array::from_fn(|i| match i {
            0 => self.schema,
            _ => self.objects[i - 1].0,
        })
    }

    /// The atom with this step's objects in place of the parameters.
    pub fn ground(&self, atom: &LiftedAtom, arities: &[u16]) -> GroundAtom {
        let mut arguments = [ObjectNumber(0); MAX_ARITY];
        for (argument, parameter) in arguments.iter_mut().zip(used_arguments(atom, arities)) {
            *argument = self.objects[parameter.index()];
        }
        Atom {
            predicate: atom.predicate,
            arguments,
        }
    }

    /// The ground atoms of one role of this step.
    pub fn atoms<'a>(
        &'a self,
        task: &'a Task,
        role: Role,
    ) -> impl Iterator<Item = GroundAtom> + 'a {
        task.schemas[usize::from(self.schema)]
            .atoms_of(role)
            .map(|atom| self.ground(&atom.atom, &task.arities))
    }
}

/// Refusal 12 at the first bad step; "an incomplete one" is the last.
pub fn steps_from_words(task: &Task, words: &[u16]) -> Answer<Vec<Step>> {
    words
        .chunks(STEP_WORDS)
        .enumerate()
        .map(|(number, words)| {
            Step::from_words(task, words).ok_or(Refusal::at_step(Reason::BadStep, number))
        })
        .collect()
}

/// "A state is a set of ground atoms."
pub type State = BTreeSet<GroundAtom>;

/// Refusal 15: "not ascending records of this task's predicates and objects,
/// or more than lent".
pub fn state_from_words(task: &Task, words: &[u16], records: u64) -> Answer<State> {
    let refusal = Refusal::nowhere(Reason::BadState);
    if records > room(words) as u64 {
        return Err(refusal);
    }
    let atoms: Vec<GroundAtom> = words
        .chunks_exact(RECORD_WORDS)
        .take(records as usize)
        .map(|words| Atom::from_words(words, &task.arities, task.objects))
        .collect::<Option<_>>()
        .ok_or(refusal)?;
    let ascending = atoms.is_sorted_by(|a, b| a < b);
    ascending
        .then(|| atoms.into_iter().collect())
        .ok_or(refusal)
}

/// Writes the records; "beyond a result: state words 0".
pub fn store_state(state: &State, words: &mut [u16]) {
    let (used, rest) = words.split_at_mut(RECORD_WORDS * state.len());
    for (record, atom) in used.chunks_exact_mut(RECORD_WORDS).zip(state) {
        record.copy_from_slice(&atom.words());
    }
    rest.fill(0);
}

/// How many records the lent words take.
pub fn room(words: &[u16]) -> usize {
    words.len() / RECORD_WORDS
}

/// "A step runs if all its preconditions hold; then deletes go out, then adds
/// come in." A step that doesn't run leaves the state as it was.
fn run_step(task: &Task, step: &Step, state: &mut State, room: usize) -> Result<(), Reason> {
    if !step
        .atoms(task, Role::Precondition)
        .all(|atom| state.contains(&atom))
    {
        return Err(Reason::PreconditionMissing);
    }
    let mut deleted: Vec<GroundAtom> = step.atoms(task, Role::Delete).collect();
    deleted.retain(|atom| state.remove(atom));
    let mut added: Vec<GroundAtom> = step.atoms(task, Role::Add).collect();
    added.retain(|atom| state.insert(*atom));
    if state.len() > room {
        for atom in &added {
            state.remove(atom);
        }
        state.extend(deleted);
        return Err(Reason::StateTooLarge);
    }
    Ok(())
}

/// "A list stops at its first step that doesn't run."
pub fn run(task: &Task, steps: &[Step], state: &mut State, room: usize) -> Answer<()> {
    for (number, step) in steps.iter().enumerate() {
        run_step(task, step, state, room).map_err(|reason| Refusal {
            records: state.len() as u64,
            ..Refusal::at_step(reason, number)
        })?;
    }
    Ok(())
}

/// "Whether all goal atoms hold."
pub fn goal_met(task: &Task, state: &State) -> bool {
    task.goal.iter().all(|atom| state.contains(atom))
}
