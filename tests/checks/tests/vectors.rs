//! The reference on every case of `vectors/`.

use checks::rows::{fold_row, plain_row, run_row, sizes_row, unfold_row, write_row};
use checks::vectors::{
    list_cases, pddl_cases, propose_cases, run_cases, sizes_cases, split_program_cases,
    table_cases, unfold_program_cases,
};
use reference::programs::{split_program, unfold_program};

#[test]
fn split_vectors() {
    split_program_cases(split_program);
}

#[test]
fn unfold_program_vectors() {
    unfold_program_cases(unfold_program);
}

#[test]
fn table_vectors() {
    table_cases(|table| {
        let written = reference::write(table, &mut [0; 1 << 16]);
        written.map_or_else(|refusal| refusal.number(), |_| 0)
    });
}

#[test]
fn pddl_vectors() {
    pddl_cases(|table, text| write_row(reference::write_pddl(table, text)));
}

#[test]
fn propose_vectors() {
    propose_cases(|table, width, proposed, scratch| {
        plain_row(reference::propose(table, width, proposed, scratch))
    });
}

#[test]
fn sizes_vectors() {
    sizes_cases(|table| sizes_row(reference::sizes(table)));
}

#[test]
fn run_vectors() {
    run_cases(|table, steps, state, records| run_row(reference::run(table, steps, state, records)));
}

#[test]
fn unfold_vectors() {
    list_cases("04-unfold.txt", |table, steps, out| {
        unfold_row(reference::unfold(table, steps, out))
    });
}

#[test]
fn fold_vectors() {
    list_cases("04-fold.txt", |table, steps, out| {
        fold_row(reference::fold(table, steps, out))
    });
}
