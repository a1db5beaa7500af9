//! The program `propose` as a process, also before `split` and `pddl`.

use super::programs::{refusals, refused, require_so_many_bytes};
use checks::arguments::{bytes, STRANGE};
use checks::unparted::tests_of_one_parameter;
use checks::{report, MOVE};
use differential::programs::Program;
use generate::proposing::any_proposing_task;
use generate::texts::any_text;
use reference::pddl_reader::read_pddl;
use reference::programs::{pddl_program, propose_program, split_program};
use reference::text::read_task;

/// Requires that the program prints what the reference does; whether that is a
/// refusal.
fn compared(program: &Program, arguments: &[&[u8]], text: &[u8]) -> bool {
    let printed = program.printed_given(arguments, text);
    refused(&printed, &propose_program(arguments, text))
}

#[test]
fn propose_texts() {
    let program = Program::named("propose");
    let refusals = refusals("propose as a process", 207, 800, |random| {
        let text = if random.chance(1, 2) {
            any_text(random)
        } else {
            any_proposing_task(random).to_string().into_bytes()
        };
        let width = random.below(14).to_string();
        compared(&program, &[width.as_bytes()], &text)
    });
    assert!((200..600).contains(&refusals));
}

/// "A missing or strange argument is 22", once the task is read.
#[test]
fn arguments() {
    let program = Program::named("propose");
    for width in 0..=12 {
        let width = width.to_string();
        assert!(!compared(&program, &[width.as_bytes()], MOVE.as_bytes()));
    }
    for arguments in STRANGE {
        let arguments = bytes(arguments);
        assert!(compared(&program, &arguments, MOVE.as_bytes()));
        assert!(compared(&program, &arguments, b"task=1\n"));
    }
    let long = ["2".repeat(70_000), format!("{}2", "0".repeat(70_000))];
    for argument in [
        b"\xff",
        b"2\xff".as_slice(),
        long[0].as_bytes(),
        long[1].as_bytes(),
    ] {
        assert!(compared(&program, &[argument], MOVE.as_bytes()));
    }
    let many_parts = tests_of_one_parameter(&[1, 17]);
    for (arguments, printed) in [(["0"], "23:1"), (["13"], "22:0")] {
        let found = program.printed_given(&bytes(&arguments), many_parts.as_bytes());
        assert_eq!(found, format!("refused={printed}\n").into_bytes());
    }
    report("arguments of propose", 13 + 2 * STRANGE.len() + 6);
}

/// M's own partition is that of width 2.
#[test]
fn proposes_for_m() {
    let program = Program::named("propose");
    assert_eq!(
        program.printed_given(&[b"2"], MOVE.as_bytes()),
        MOVE.as_bytes()
    );
}

/// `propose N < task | split | pddl`, "a newcomer's first pipeline"; a refusal is
/// no task for the next program.
#[test]
fn before_split_and_pddl() {
    let [propose, split, pddl] = ["propose", "split", "pddl"].map(Program::named);
    let refusals = refusals("propose | split | pddl", 208, 300, |random| {
        let text = any_proposing_task(random).to_string().into_bytes();
        let width = random.below(6).to_string();
        let arguments = [width.as_bytes()];
        let parted = propose.printed_given(&arguments, &text);
        let printed = pddl.printed_for(&split.printed_for(&parted));
        let expected = split_program(&propose_program(&arguments, &text));
        let refused = refused(&printed, &pddl_program(&expected));
        if !refused {
            let printed = String::from_utf8(printed).expect("text");
            let split = read_task(&expected).expect("a split");
            assert_eq!(read_pddl(&printed), Ok(split));
        }
        refused
    });
    assert!((10..150).contains(&refusals));
}

#[test]
fn takes_so_many_bytes() {
    let program = Program::named("propose");
    require_so_many_bytes(|task| program.printed_given(&[b"2"], task));
}
