//! Demand 3 on the proved code.

use checks::shared_runs::{differing_tasks, small_tasks, tying_tasks, usual_tasks};
use checks::subject::OnWords;
use differential::shared_runs::Proved;

#[test]
fn small_tasks_share_runs() {
    small_tasks(
        &OnWords(Proved),
        "small shared runs in the proved code",
        12_000,
    );
}

#[test]
fn usual_tasks_share_runs() {
    usual_tasks(
        &OnWords(Proved),
        "usual shared runs in the proved code",
        500,
    );
}

#[test]
fn tying_tasks_share_runs() {
    tying_tasks(
        &OnWords(Proved),
        "tying shared runs in the proved code",
        3000,
    );
}

#[test]
fn differing_tasks_share_runs() {
    differing_tasks(
        &OnWords(Proved),
        "differing shared runs in the proved code",
        8000,
    );
}
