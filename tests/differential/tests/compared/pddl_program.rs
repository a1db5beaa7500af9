//! The program `pddl` as a process, also behind `split`.

use super::programs::{refusals, refused, require_so_many_bytes};
use checks::{without_parts, MOVE, MOVE_PDDL};
use differential::programs::Program;
use generate::limits::longest_pddl;
use generate::tasks::any_task;
use generate::texts::any_text;
use reference::pddl_reader::read_pddl;
use reference::programs::{pddl_program, split_program};
use reference::text::read_task;
use reference::tokens;

fn text_of(printed: &[u8]) -> &str {
    std::str::from_utf8(printed).expect("text")
}

#[test]
fn pddl_texts() {
    let program = Program::named("pddl");
    let compared = |text: &[u8]| {
        let printed = program.printed_for(text);
        let refused = refused(&printed, &pddl_program(text));
        if !refused {
            let task = read_task(text).expect("a task");
            assert_eq!(read_pddl(text_of(&printed)), Ok(without_parts(&task)));
        }
        refused
    };
    let refusals = refusals("pddl as a process", 191, 800, |random| {
        compared(&any_text(random))
    });
    assert!((100..750).contains(&refusals));
    assert!(compared(b""));
    assert!(!compared(longest_pddl().to_string().as_bytes()));
    assert_eq!(program.printed_for(MOVE.as_bytes()), MOVE_PDDL.as_bytes());
}

/// `split | pddl`: the PDDL of the split, whose atoms are all in part 0; or what
/// `pddl` says of a refusal.
#[test]
fn behind_split() {
    let [split, pddl] = ["split", "pddl"].map(Program::named);
    let refusals = refusals("split | pddl", 192, 400, |random| {
        let task = any_task(random);
        let text = task.to_string().into_bytes();
        let printed = pddl.printed_for(&split.printed_for(&text));
        let refused = refused(&printed, &pddl_program(&split_program(&text)));
        if !refused {
            let split = tokens::split(&task).expect("a split");
            assert_eq!(read_pddl(text_of(&printed)), Ok(split.task));
        }
        refused
    });
    assert!((10..200).contains(&refusals));
}

#[test]
fn takes_so_many_bytes() {
    let program = Program::named("pddl");
    require_so_many_bytes(|task| program.printed_for(task));
}
