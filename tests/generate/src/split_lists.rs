//! Lists of split steps for folding.

use reference::blocks::unfold;
use reference::run::Step;
use reference::table::{ObjectNumber, Task};
use reference::tokens::Split;

use crate::random::Random;
use crate::steps;

/// An unfolding: whole, cut, woven from two, with a part dropped, doubled,
/// swapped or given another object, or with the beginning of another block
/// behind it; or any split steps. Each step is one of the split task but for
/// equal objects at a pair.
pub fn split_list(random: &mut Random, task: &Task, split: &Split) -> Vec<Step> {
    let mut list = unfolding(random, task, split);
    if list.is_empty() {
        return list;
    }
    let [at, other] = [(); 2].map(|()| random.below(list.len()));
    match random.below(10) {
        0 | 1 => {}
        2 => list.truncate(at),
        3 => drop(list.remove(at)),
        4 => list.insert(at, list[at]),
        5 => list.swap(at, other),
        6 => change_object(random, &split.task, &mut list[at]),
        7 => {
            let second = unfolding(random, task, split);
            return woven(random, &list, &second);
        }
        8 => list.extend(beginning(random, task, split)),
        _ => list = steps::list(random, &split.task, list.len()),
    }
    list
}

fn unfolding(random: &mut Random, task: &Task, split: &Split) -> Vec<Step> {
    let length = random.below(5);
    unfold(split, &steps::list(random, task, length))
}

/// The first parts of the block of some choice of objects, which need be no
/// step: they may be equal at a pair, most often at none that these parts carry.
fn beginning(random: &mut Random, task: &Task, split: &Split) -> Vec<Step> {
    let choice = Vec::from_iter(steps::choice(random, task));
    let mut block = unfold(split, &steps::equal_at_a_pair(random, task, &choice));
    let carries = |step: &Step| !step.keeps_pairs_apart(&split.task);
    let bad = block.iter().position(carries).unwrap_or(block.len());
    let most = if random.chance(3, 4) {
        bad
    } else {
        block.len()
    };
    block.truncate(random.within(&(most / 2..=most)));
    block
}

fn change_object(random: &mut Random, task: &Task, step: &mut Step) {
    let parameters = usize::from(task.schemas[usize::from(step.schema)].parameters);
    if parameters > 0 {
        let object = random.below(task.objects.into());
        step.objects[random.below(parameters)] = ObjectNumber(object as u16);
    }
}

/// Both lists in one, each in its own order.
fn woven<'a>(random: &mut Random, mut first: &'a [Step], mut second: &'a [Step]) -> Vec<Step> {
    let mut woven = Vec::with_capacity(first.len() + second.len());
    while let [step, rest @ ..] = first {
        woven.push(*step);
        first = rest;
        if random.chance(1, 2) {
            (first, second) = (second, first);
        }
    }
    woven.extend(second);
    woven
}
