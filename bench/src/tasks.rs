//! Tasks to measure with, and their tables and texts.

use checks::{read_table, MOVE};
use generate::tasks::task;
use generate::{limits, tables, Random, Shape};
use reference::table::Task;
use reference::tokens;

/// A task by its name.
pub struct Named {
    pub name: String,
    pub table: Vec<u16>,
    pub text: String,
}

impl Named {
    pub fn new(name: &str, task: &Task) -> Named {
        let (table, text) = (tables::table(task), task.to_string());
        let name = format!("{name}, {} bytes", text.len());
        Named { name, table, text }
    }
}

/// M, "a logger's move x, y, z".
pub fn small() -> Named {
    let task = Task::from_words(&read_table(MOVE.as_bytes())).expect("M");
    Named::new("M", &task)
}

/// Of random tasks with a split the one whose text is nearest to 5 kB.
pub fn usual() -> Named {
    let mut random = Random::new(201);
    let shape = Shape {
        schemas: 12..=20,
        initial: 100..=250,
        free: 0,
        ..Shape::USUAL
    };
    let tasks = std::iter::repeat_with(|| task(&mut random, &shape)).take(500);
    let with_split = tasks.filter(|task| tokens::split(task).is_ok());
    let nearest = with_split.min_by_key(|task| task.to_string().len().abs_diff(5_000));
    Named::new("usual", &nearest.expect("a task with a split"))
}

/// Of random tasks of a shape the one with most atoms whose split is within the
/// limits.
fn most_atoms(name: &str, shape: &Shape) -> Named {
    let mut random = Random::new(202);
    let tasks = std::iter::repeat_with(|| task(&mut random, shape)).take(300);
    let with_split = tasks.filter(|task| tokens::split(task).is_ok());
    let largest = with_split.max_by_key(Task::schema_atoms);
    Named::new(name, &largest.expect("a task with a split"))
}

/// A large task with a split.
pub fn large() -> Named {
    most_atoms("large", &Shape::LARGE)
}

/// One whose ground instances 63 bits hold.
pub fn large_of_few_objects() -> Named {
    let shape = Shape {
        objects: 20..=30,
        ..Shape::LARGE
    };
    most_atoms("few objects", &shape)
}

/// A task at nearly every limit; its text is the longest.
pub fn largest() -> Named {
    Named::new("largest", &limits::largest())
}
