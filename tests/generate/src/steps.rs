//! Step lists, sound and damaged; steps with equal objects at a pair.

use reference::run::{run, State, Step, STEP_WORDS};
use reference::table::{ObjectNumber, Pair, Task};

use crate::random::Random;
use crate::LIMIT_NUMBERS;

/// How many steps a walk chooses from.
const MOST_CHOICES: usize = 1000;

/// How many choices of objects are tried for one that keeps the pairs apart.
const TRIES: usize = 40;

pub fn words(steps: &[Step]) -> Vec<u16> {
    steps.iter().flat_map(Step::words).collect()
}

/// A step of the task; `None` where none was found.
pub fn step(random: &mut Random, task: &Task) -> Option<Step> {
    (0..TRIES).find_map(|_| choice(random, task).filter(|step| step.keeps_pairs_apart(task)))
}

/// A schema with a choice of objects, often equal, at a pair too; `None` without
/// a schema.
pub fn choice(random: &mut Random, task: &Task) -> Option<Step> {
    if task.schemas.is_empty() {
        return None;
    }
    let schema = random.below(task.schemas.len());
    let mut objects: Vec<ObjectNumber> = Vec::new();
    for _ in 0..task.schemas[schema].parameters {
        let object = if random.chance(1, 3) && !objects.is_empty() {
            random.pick(&objects)
        } else {
            ObjectNumber(random.below(task.objects.into()) as u16)
        };
        objects.push(object);
    }
    Some(Step::new(schema as u16, &objects))
}

pub fn list(random: &mut Random, task: &Task, length: usize) -> Vec<Step> {
    (0..length).map_while(|_| step(random, task)).collect()
}

/// All steps of the task, or many random ones where there are too many.
fn choices(random: &mut Random, task: &Task) -> Vec<Step> {
    let objects = usize::from(task.objects);
    let count = |parameters: u16| objects.saturating_pow(parameters.into());
    let total = task.schemas.iter().fold(0_usize, |sum, schema| {
        sum.saturating_add(count(schema.parameters))
    });
    if total > MOST_CHOICES {
        return list(random, task, MOST_CHOICES);
    }
    (0..)
        .zip(&task.schemas)
        .flat_map(|(number, schema)| {
            (0..count(schema.parameters)).map(move |mut choice| {
                let mut step = Step::new(number, &[]);
                for object in &mut step.objects[..schema.parameters.into()] {
                    *object = ObjectNumber((choice % objects) as u16);
                    choice /= objects;
                }
                step
            })
        })
        .filter(|step| step.keeps_pairs_apart(task))
        .collect()
}

/// The list with equal objects at a pair of one step, where it has one.
pub fn equal_at_a_pair(random: &mut Random, task: &Task, steps: &[Step]) -> Vec<Step> {
    let mut steps = steps.to_vec();
    let pairs_of = |step: &Step| &task.schemas[usize::from(step.schema)].pairs;
    let places: Vec<(usize, Pair)> = steps
        .iter()
        .enumerate()
        .flat_map(|(at, step)| pairs_of(step).iter().map(move |pair| (at, *pair)))
        .collect();
    if !places.is_empty() {
        let (at, Pair { lower, higher }) = random.pick(&places);
        let objects = &mut steps[at].objects;
        objects[higher.index()] = objects[lower.index()];
    }
    steps
}

/// A list of at most so many steps that runs from the state.
pub fn walk(random: &mut Random, task: &Task, state: &State, length: usize) -> Vec<Step> {
    let mut choices = choices(random, task);
    let mut state = state.clone();
    let mut walked = Vec::new();
    for _ in 0..length {
        random.shuffle(&mut choices);
        let mut runs = |step: &&Step| run(task, &[**step], &mut state, usize::MAX).is_ok();
        let Some(step) = choices.iter().find(&mut runs) else {
            break;
        };
        walked.push(*step);
    }
    walked
}

/// The words of a list with a damage.
pub fn damaged(random: &mut Random, steps: &[Step]) -> Vec<u16> {
    let mut words = words(steps);
    if words.is_empty() {
        words.extend((0..random.below(STEP_WORDS)).map(|_| random.word()));
        return words;
    }
    let at = random.below(words.len());
    match random.below(6) {
        0 => words.truncate(at),
        1 => words.extend((0..random.within(&(1..=STEP_WORDS))).map(|_| 0)),
        2 => drop(words.remove(at)),
        3 => words[at - at % STEP_WORDS] = random.pick(LIMIT_NUMBERS) as u16,
        4 => words[at] = random.pick(LIMIT_NUMBERS) as u16,
        _ => words[at] = words[at].wrapping_add(1),
    }
    words
}
