//! Answers as numbers in a row.

use reference::sizes::Sizes;
use reference::{Answer, Folded, Place, Ran, Reason, Refusal};

/// Refusal (0 for a result), place and two values, 0 where they have no
/// meaning.
pub type Row = [u64; 4];

fn row<Value>(answer: Answer<Value>, values: impl FnOnce(Value) -> [u64; 2]) -> Row {
    match answer {
        Ok(value) => {
            let [first, second] = values(value);
            [0, 0, first, second]
        }
        Err(refusal) => {
            let Refusal { place, records, .. } = refusal;
            [refusal.number().into(), place.number(), records, 0]
        }
    }
}

/// Reading, splitting and proposing: their results carry nothing.
pub fn plain_row(answer: Answer<()>) -> Row {
    row(answer, |()| [0, 0])
}

/// Writing, as text or as PDDL: the number of bytes.
pub fn write_row(answer: Answer<u64>) -> Row {
    row(answer, |bytes| [bytes, 0])
}

/// Running: records left, goal met.
pub fn run_row(answer: Answer<Ran>) -> Row {
    row(answer, |ran| [ran.records, ran.goal_met.into()])
}

/// Unfolding: the number of split steps.
pub fn unfold_row(answer: Answer<u64>) -> Row {
    row(answer, |split_steps| [split_steps, 0])
}

/// Folding: the numbers of split steps and of steps.
pub fn fold_row(answer: Answer<Folded>) -> Row {
    row(answer, |folded| [folded.split_steps, folded.steps])
}

/// Refusal, place and the six sizes, 0 where they have no meaning.
pub type SizesRow = [u64; 8];

/// The sizes of a split: predicates, schemas, schema atoms, text bytes, and the
/// ground instances before and after.
pub fn sizes_row(answer: Answer<Sizes>) -> SizesRow {
    match answer {
        Ok(Sizes {
            predicates,
            schemas,
            schema_atoms,
            text_bytes,
            instances_before,
            instances_after,
        }) => [
            0,
            0,
            predicates,
            schemas,
            schema_atoms,
            text_bytes,
            instances_before,
            instances_after,
        ],
        Err(refusal) => {
            let [number, place] = [refusal.number().into(), refusal.place.number()];
            [number, place, 0, 0, 0, 0, 0, 0]
        }
    }
}

/// The reasons of a refusal, by number from 1.
const REASONS: [Reason; 24] = [
    Reason::TableTooShort,
    Reason::NotATable,
    Reason::LineOutOfForm,
    Reason::OutsideLimits,
    Reason::NotOfTask,
    Reason::NotAscending,
    Reason::SchemaIncomplete,
    Reason::BadPartition,
    Reason::NoOrder,
    Reason::SplitTooLarge,
    Reason::TextTooLong,
    Reason::BadStep,
    Reason::ResultTooLong,
    Reason::NoBlock,
    Reason::BadState,
    Reason::PreconditionMissing,
    Reason::StateTooLarge,
    Reason::PddlTooLong,
    Reason::BadPair,
    Reason::PairInNoPart,
    Reason::TooManyPairs,
    Reason::WidthOrScratch,
    Reason::TooManyParts,
    Reason::TooManyInstances,
];

/// The answer that a row tells, with its two values.
pub fn told(row: Row) -> Answer<[u64; 2]> {
    let [number, place, first, second] = row;
    if number == 0 {
        return Ok([first, second]);
    }
    let place = match number {
        3..=8 | 19 | 21 => Place::Line(place),
        9 | 20 | 23 => Place::Schema(place),
        12 | 14 | 16 | 17 => Place::Step(place),
        _ => Place::Nowhere,
    };
    Err(Refusal {
        records: first,
        ..Refusal::new(REASONS[number as usize - 1], place)
    })
}
