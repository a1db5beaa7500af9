//! Document 01, "Unfolding and folding".

use crate::answer::{Answer, Reason, Refusal};
use crate::run::Step;
use crate::table::{ObjectNumber, MAX_PARAMETERS};
use crate::tokens::{BlockPart, Split};

/// "Unfolding writes the blocks one after another."
pub fn unfold(split: &Split, steps: &[Step]) -> Vec<Step> {
    steps
        .iter()
        .flat_map(|step| {
            let block = &split.blocks[usize::from(step.schema)];
            block.iter().map(|part| part_step(part, step))
        })
        .collect()
}

/// The part "with that step's objects".
fn part_step(part: &BlockPart, step: &Step) -> Step {
    let mut objects = [ObjectNumber(0); MAX_PARAMETERS];
    for (object, parameter) in objects.iter_mut().zip(&part.parameters) {
        *object = step.objects[parameter.index()];
    }
    Step {
        schema: part.schema,
        objects,
    }
}

/// "Folding takes a list apart into whole blocks; it looks at schemas and
/// objects, not at states." Refusal 14: "first step that fits no block; the
/// step count if the last block is unfinished".
///
/// The steps are those of the split. So the step of a whole block keeps its pairs
/// apart, since each of them is carried by some part, and "only the pairs that
/// its own parts carry must differ" in an unfinished beginning.
pub fn fold(split: &Split, steps: &[Step]) -> Answer<Vec<Step>> {
    let mut folded = Vec::new();
    let mut begun = 0;
    while begun < steps.len() {
        let step = fold_block(split, &steps[begun..])
            .map_err(|fitting| Refusal::at_step(Reason::NoBlock, begun + fitting))?;
        begun += split.blocks[usize::from(step.schema)].len();
        folded.push(step);
    }
    Ok(folded)
}

/// The step whose block the steps begin with, or how many of them fit.
fn fold_block(split: &Split, steps: &[Step]) -> Result<Step, usize> {
    let schema = split
        .blocks
        .binary_search_by_key(&steps[0].schema, |block| block[0].schema)
        .map_err(|_| 0_usize)?;
    let mut objects = [None; MAX_PARAMETERS];
    for (position, part) in split.blocks[schema].iter().enumerate() {
        let step = steps.get(position).ok_or(position)?;
        if step.schema != part.schema {
            return Err(position);
        }
        for (parameter, object) in part.parameters.iter().zip(step.objects) {
            if *objects[parameter.index()].get_or_insert(object) != object {
                return Err(position);
            }
        }
    }
    Ok(Step {
        schema: schema as u16,
        objects: objects.map(Option::unwrap_or_default),
    })
}
