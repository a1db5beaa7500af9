//! The program `split` as a process.

use super::programs::{refusals, refused, require_so_many_bytes};
use checks::vectors::split_program_cases;
use checks::MOVE;
use differential::programs::Program;
use generate::texts::any_text;
use reference::programs::split_program;

#[test]
fn split_texts() {
    let program = Program::named("split");
    let compared = |text: &[u8]| refused(&program.printed_for(text), &split_program(text));
    let refusals = refusals("split as a process", 187, 800, |random| {
        compared(&any_text(random))
    });
    assert!((100..750).contains(&refusals));
    assert!(compared(b""));
    assert!(!compared(MOVE.as_bytes()));
}

/// A stored run: E2, M with parts that no order complies with.
#[test]
fn circular_move() {
    let stdin = include_bytes!("../../../programs/circular_move/stdin");
    let stdout = include_bytes!("../../../programs/circular_move/stdout");
    assert_eq!(Program::named("split").printed_for(stdin), stdout);
}

#[test]
fn takes_so_many_bytes() {
    let program = Program::named("split");
    require_so_many_bytes(|task| program.printed_for(task));
}

#[test]
fn vectors() {
    let program = Program::named("split");
    split_program_cases(|stdin| program.printed_for(stdin));
}
