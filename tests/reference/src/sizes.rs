//! Document 02, note 6, "What a split will need": the sizes of the split itself
//! and of its written text, counted on both.

use crate::answer::{Answer, Reason, Refusal};
use crate::table::Task;
use crate::tokens;

/// "24, when either instance total is 2 to the power 63 or more."
pub const INSTANCES_BOUND: u128 = 1 << 63;

/// "The instances before are the task's; all else equals the split's."
#[derive(Clone, Copy, Debug, PartialEq, Eq)]
pub struct Sizes {
    pub predicates: u64,
    pub schemas: u64,
    pub schema_atoms: u64,
    pub text_bytes: u64,
    pub instances_before: u64,
    pub instances_after: u64,
}

/// "Refused as splitting would, then 24."
pub fn sizes(task: &Task) -> Answer<Sizes> {
    let split = tokens::split(task)?.task;
    Ok(Sizes {
        predicates: split.arities.len() as u64,
        schemas: split.schemas.len() as u64,
        schema_atoms: split.schema_atoms() as u64,
        text_bytes: split.to_string().len() as u64,
        instances_before: below_the_bound(instances(task))?,
        instances_after: below_the_bound(instances(&split))?,
    })
}

/// "The ground instances .., a schema with n parameters counting objects to the
/// power n", whatever its pairs. A table's 200 schemas of 12 parameters over
/// 1,000 objects have 2 times 10 to the power 38, less than 2 to the power 128.
pub fn instances(task: &Task) -> u128 {
    let objects = u128::from(task.objects);
    let schemas = task.schemas.iter();
    schemas
        .map(|schema| objects.pow(schema.parameters.into()))
        .sum()
}

fn below_the_bound(total: u128) -> Answer<u64> {
    if total < INSTANCES_BOUND {
        Ok(total as u64)
    } else {
        Err(Refusal::nowhere(Reason::TooManyInstances))
    }
}
