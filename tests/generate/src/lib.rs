//! Deterministic random tasks, texts, tables, step lists and states, sound and
//! damaged. Coincidences are common: few objects and predicates, shared
//! parameters, one atom in several roles.

pub mod cases;
pub mod differing;
pub mod limits;
pub mod proposing;
pub mod random;
pub mod shape;
pub mod sizing;
pub mod split_lists;
pub mod states;
pub mod steps;
pub mod tables;
pub mod tasks;
pub mod texts;

pub use cases::Case;
pub use random::Random;
pub use shape::Shape;
pub use states::LentState;

/// Numbers at, next to and far beyond the limits of document 01.
pub const LIMIT_NUMBERS: &[u32] = &[
    0, 1, 2, 3, 4, 5, 11, 12, 13, 15, 16, 17, 63, 64, 65, 99, 100, 101, 199, 200, 201, 399, 400,
    401, 499, 500, 501, 999, 1000, 1001, 65_535, 65_536,
];
