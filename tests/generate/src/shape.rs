//! How much random tasks have of each thing.

use std::ops::RangeInclusive;

pub(crate) type Range = RangeInclusive<usize>;

/// How much a random task has of each thing.
#[derive(Clone, Debug)]
pub struct Shape {
    pub objects: Range,
    pub predicates: Range,
    pub arity: Range,
    pub schemas: Range,
    pub parameters: Range,
    /// Atoms of one schema.
    pub atoms: Range,
    pub parts: Range,
    pub initial: Range,
    pub goal: Range,
    /// Of 8 schemas so many are parted without regard to arcs, and are often
    /// circular.
    pub free: usize,
}

impl Shape {
    pub const SMALL: Shape = Shape {
        objects: 1..=3,
        predicates: 1..=4,
        arity: 0..=2,
        schemas: 0..=3,
        parameters: 0..=3,
        atoms: 1..=12,
        parts: 1..=5,
        initial: 0..=8,
        goal: 0..=3,
        free: 3,
    };

    pub const SMALL_SPLITTABLE: Shape = Shape {
        schemas: 1..=3,
        free: 0,
        ..Shape::SMALL
    };

    pub const USUAL: Shape = Shape {
        objects: 5..=40,
        predicates: 5..=20,
        arity: 0..=4,
        schemas: 3..=12,
        parameters: 0..=6,
        atoms: 4..=16,
        parts: 1..=6,
        initial: 10..=80,
        goal: 1..=10,
        free: 1,
    };

    /// Splits of these pass some limit about as often as not.
    pub const LARGE: Shape = Shape {
        objects: 500..=1000,
        predicates: 100..=300,
        arity: 0..=4,
        schemas: 20..=40,
        parameters: 0..=12,
        atoms: 4..=20,
        parts: 1..=16,
        initial: 300..=500,
        goal: 50..=100,
        free: 0,
    };

    /// For tasks whose parts tie; the atoms are those before they are filled up.
    pub const TYING: Shape = Shape {
        predicates: 6..=9,
        arity: 0..=3,
        schemas: 1..=2,
        parameters: 2..=6,
        atoms: 2..=8,
        parts: 2..=5,
        ..Shape::SMALL_SPLITTABLE
    };

    /// With up to as many parameters and parts as a schema may have.
    pub const WIDE_TYING: Shape = Shape {
        arity: 0..=4,
        parameters: 6..=12,
        atoms: 4..=16,
        parts: 6..=16,
        ..Shape::TYING
    };

    /// For tasks with pairs; the atoms are those before each pair is tested.
    pub const DIFFERING: Shape = Shape {
        objects: 2..=4,
        predicates: 1..=3,
        arity: 1..=2,
        schemas: 1..=2,
        parameters: 2..=4,
        atoms: 3..=9,
        parts: 2..=4,
        ..Shape::SMALL_SPLITTABLE
    };

    /// Often circular with pairs too.
    pub const FREELY_DIFFERING: Shape = Shape {
        free: 4,
        ..Shape::DIFFERING
    };

    /// With up to as many parameters and parts as a schema may have.
    pub const WIDE_DIFFERING: Shape = Shape {
        objects: 3..=12,
        predicates: 3..=8,
        arity: 1..=4,
        parameters: 4..=12,
        atoms: 8..=24,
        parts: 4..=16,
        ..Shape::DIFFERING
    };

    /// For tasks that parts are proposed for; their own parts don't matter.
    pub const PROPOSING: Shape = Shape {
        predicates: 1..=6,
        arity: 0..=3,
        parameters: 1..=6,
        atoms: 1..=20,
        free: 8,
        ..Shape::SMALL
    };

    /// With up to as many parameters and atoms as a schema may have.
    pub const WIDE_PROPOSING: Shape = Shape {
        predicates: 2..=16,
        arity: 0..=4,
        schemas: 1..=2,
        parameters: 6..=12,
        atoms: 24..=64,
        parts: 1..=16,
        ..Shape::PROPOSING
    };
}
