//! A task with a state and a list to run, made so that runs are often whole
//! and often stop for one missing atom.

use reference::run::{State, Step};
use reference::table::Task;

use crate::differing::splittable_differing_task;
use crate::random::Random;
use crate::shape::Shape;
use crate::tasks::{task, telling_task};
use crate::{states, steps};

#[derive(Clone, Debug)]
pub struct Case {
    pub task: Task,
    pub state: State,
    pub steps: Vec<Step>,
}

/// A small case; each schema of its task has an order.
pub fn case(random: &mut Random) -> Case {
    let task = if random.chance(1, 2) {
        telling_task(random)
    } else {
        task(random, &Shape::SMALL_SPLITTABLE)
    };
    with_run(random, task)
}

/// A case whose task has pairs and a split.
pub fn differing_case(random: &mut Random) -> Case {
    let task = splittable_differing_task(random);
    with_run(random, task)
}

/// The task with a state and a list of it.
pub fn with_run(random: &mut Random, task: Task) -> Case {
    let (state, steps) = run(random, &task);
    Case { task, state, steps }
}

/// A state and a list of the task.
pub fn run(random: &mut Random, task: &Task) -> (State, Vec<Step>) {
    let length = random.below(6);
    let any = states::state(random, task);
    let first = steps::step(random, task);
    match (random.below(4), first) {
        (0, Some(step)) => {
            let state = states::just_enough(task, &step);
            (state, steps_from(random, task, step, length))
        }
        (1, Some(step)) => {
            let state = states::one_short(random, task, &step);
            (state, steps_from(random, task, step, length))
        }
        (2, Some(step)) => {
            let mut steps = steps::walk(random, task, &any, length);
            steps.push(step);
            (any, steps)
        }
        _ => {
            let steps = steps::list(random, task, length);
            (any, steps)
        }
    }
}

fn steps_from(random: &mut Random, task: &Task, first: Step, length: usize) -> Vec<Step> {
    let mut steps = vec![first];
    steps.extend(steps::list(random, task, length / 3));
    steps
}
