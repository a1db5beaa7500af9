//! Demand 3 on random tasks, states and lists.

use checks::shared_runs::{differing_tasks, small_tasks, tying_tasks, usual_tasks};
use checks::subject::{OnWords, Reference};

#[test]
fn small_tasks_share_runs() {
    small_tasks(&OnWords(Reference), "small shared runs", 12_000);
}

#[test]
fn usual_tasks_share_runs() {
    usual_tasks(&OnWords(Reference), "usual shared runs", 500);
}

#[test]
fn tying_tasks_share_runs() {
    tying_tasks(&OnWords(Reference), "tying shared runs", 3000);
}

#[test]
fn differing_tasks_share_runs() {
    differing_tasks(&OnWords(Reference), "differing shared runs", 8000);
}
