//! Demand 3: a list runs in the original exactly where its unfolding runs in
//! the split, and what runs in the split is blocks.

use generate::tasks::{any_tying_task, task};
use generate::{cases, steps, Case, Random, Shape};
use reference::run::{State, Step};
use reference::table::{Atom, Task, MAX_PARTS};
use reference::{Answer, Place, Reason};

use crate::report;
use crate::subject::{End, Subject};

/// How a list fared where the claim held.
#[derive(Clone, Copy, Debug, PartialEq, Eq)]
pub enum Fared {
    /// The original list and its unfolding run.
    Ran,
    /// Both stop, within the same block.
    Stopped,
    /// A list that runs in the split is whole blocks, at least one.
    Whole,
    /// It is empty.
    Empty,
    /// It has a proper beginning of a block behind them.
    Unfinished,
    /// It doesn't run, and nothing is claimed.
    Nothing,
}

/// What the claim finds: how the list fared, or what speaks against it.
pub type Finding = Result<Fared, String>;

fn require(holds: bool, claim: &str) -> Result<(), String> {
    holds.then_some(()).ok_or_else(|| claim.to_string())
}

fn given<Value>(answer: Answer<Value>, what: &str) -> Result<Value, String> {
    answer.map_err(|refusal| format!("{what}: {refusal:?}"))
}

/// "The records that the first started from, then procnone."
fn with_procnone(task: &Task, state: &State) -> State {
    let mut state = state.clone();
    state.insert(Atom::new(task.arities.len() as u16, &[]));
    state
}

fn part_count(task: &Task, step: &Step) -> usize {
    let schema = &task.schemas[usize::from(step.schema)];
    schema.part_count().expect("a partition")
}

/// End states are equal apart from procnone, and the goal is met equally.
fn require_equal_ends(task: &Task, first: &End, second: &End) -> Result<(), String> {
    require(
        second.state == with_procnone(task, &first.state),
        "the end states differ",
    )?;
    require(first.goal_met == second.goal_met, "the goals differ")
}

/// A list of the original and its unfolding.
pub fn forwards(subject: &impl Subject, case: &Case) -> Finding {
    let Case { task, state, steps } = case;
    let split = given(subject.split(task), "split")?;
    let unfolding = given(subject.unfold(task, steps), "unfolding")?;
    let part_counts: Vec<usize> = steps.iter().map(|step| part_count(task, step)).collect();
    require(
        unfolding.len() == part_counts.iter().sum::<usize>(),
        "the unfolding has another length",
    )?;
    require(
        subject.fold(task, &unfolding).as_ref() == Ok(steps),
        "folding does not give the list back",
    )?;

    let first = subject.run(task, steps, state);
    let second = subject.run(&split, &unfolding, &with_procnone(task, state));
    match (first, second) {
        (Ok(first), Ok(second)) => {
            require_equal_ends(task, &first, &second)?;
            Ok(Fared::Ran)
        }
        (Err(first), Err(second)) => {
            let missing = Reason::PreconditionMissing;
            require(
                (first.reason, second.reason) == (missing, missing),
                "a run stops without 16",
            )?;
            let stopped = first.place.number() as usize;
            let least: usize = part_counts[..stopped].iter().sum();
            let block = least..least + part_counts[stopped];
            require(
                block.contains(&(second.place.number() as usize)),
                "the second stops outside the block",
            )?;
            Ok(Fared::Stopped)
        }
        (first, _) => Err(format!("only one runs, the first: {}", first.is_ok())),
    }
}

/// A list of split steps.
pub fn backwards(subject: &impl Subject, task: &Task, state: &State, list: &[Step]) -> Finding {
    let split = given(subject.split(task), "split")?;
    let Ok(second) = subject.run(&split, list, &with_procnone(task, state)) else {
        return Ok(Fared::Nothing);
    };
    match subject.fold(task, list) {
        Ok(steps) => {
            require(
                subject.unfold(task, &steps).as_deref() == Ok(list),
                "unfolding does not give the list back",
            )?;
            let first = given(subject.run(task, &steps, state), "the folded list")?;
            require_equal_ends(task, &first, &second)?;
            Ok(if list.is_empty() {
                Fared::Empty
            } else {
                Fared::Whole
            })
        }
        Err(refusal) => {
            require(
                (refusal.reason, refusal.place)
                    == (Reason::NoBlock, Place::Step(list.len() as u64)),
                "a step that runs fits no block",
            )?;
            require_whole_and_beginning(subject, task, state, list)?;
            Ok(Fared::Unfinished)
        }
    }
}

/// The list is whole blocks, for which the claim holds, and a proper beginning.
fn require_whole_and_beginning(
    subject: &impl Subject,
    task: &Task,
    state: &State,
    list: &[Step],
) -> Result<(), String> {
    let most = list.len().min(MAX_PARTS - 1);
    let cut = (1..=most)
        .map(|left| list.len() - left)
        .find(|cut| subject.fold(task, &list[..*cut]).is_ok());
    let (whole, beginning) = list.split_at(cut.ok_or("no whole blocks before the beginning")?);
    let refusal = subject.fold(task, beginning).err();
    require(
        refusal.map(|refusal| refusal.place) == Some(Place::Step(beginning.len() as u64)),
        "the remainder is no beginning of a block",
    )?;
    let fared = backwards(subject, task, state, whole)?;
    require(fared != Fared::Nothing, "the whole blocks do not run")
}

/// A case forwards, and lists of split steps from its state backwards: a walk
/// through the split, and a beginning of the unfolding.
pub fn both_ways(
    subject: &impl Subject,
    random: &mut Random,
    case: &Case,
) -> Result<[Fared; 3], String> {
    let Case { task, state, steps } = case;
    let there = forwards(subject, case)?;
    let split = given(subject.split(task), "split")?;
    let length = random.within(&(1..=12));
    let walk = steps::walk(random, &split, &with_procnone(task, state), length);
    let back = backwards(subject, task, state, &walk)?;
    let mut cut = given(subject.unfold(task, steps), "unfolding")?;
    cut.truncate(random.below(cut.len() + 1));
    Ok([there, back, backwards(subject, task, state, &cut)?])
}

const EVERY_WAY: [Fared; 6] = [
    Fared::Ran,
    Fared::Stopped,
    Fared::Whole,
    Fared::Empty,
    Fared::Unfinished,
    Fared::Nothing,
];

/// Puts the claim to many cases and requires that each way to fare was seen
/// often.
fn shared_runs(
    subject: &impl Subject,
    what: &str,
    count: usize,
    mut random: Random,
    case: impl Fn(&mut Random) -> Case,
) {
    let mut fared = Vec::new();
    for number in 0..count {
        let case = case(&mut random);
        match both_ways(subject, &mut random, &case) {
            Ok(found) => fared.extend(found),
            Err(against) => panic!("case {number}: {against}\n{case:?}"),
        }
    }
    for way in EVERY_WAY {
        let seen = fared.iter().filter(|found| **found == way).count();
        assert!(seen > count / 50, "{what}: {way:?} only {seen} times");
        report(&format!("{what}, {way:?}"), seen);
    }
}

pub fn small_tasks(subject: &impl Subject, what: &str, count: usize) {
    shared_runs(subject, what, count, Random::new(31), cases::case);
}

pub fn usual_tasks(subject: &impl Subject, what: &str, count: usize) {
    let shape = Shape {
        free: 0,
        schemas: 1..=4,
        ..Shape::USUAL
    };
    shared_runs(subject, what, count, Random::new(32), |random| {
        let task = task(random, &shape);
        cases::with_run(random, task)
    });
}

/// Tasks with pairs, whose parts are often in an order only because of these.
pub fn differing_tasks(subject: &impl Subject, what: &str, count: usize) {
    let random = Random::new(34);
    shared_runs(subject, what, count, random, cases::differing_case);
}

/// Tasks whose order is decided by what preconditions name.
pub fn tying_tasks(subject: &impl Subject, what: &str, count: usize) {
    shared_runs(subject, what, count, Random::new(33), |random| {
        let task = any_tying_task(random);
        cases::with_run(random, task)
    });
}
