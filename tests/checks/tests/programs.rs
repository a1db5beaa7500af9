//! The programs.

use checks::arguments::{bytes, STRANGE};
use checks::unparted::tests_of_one_parameter;
use checks::{changed_move, MOVE, MOVE_PDDL, MOVE_SPLIT};
use reference::programs::{
    pddl_program, propose_program, split_program, unfold_program, INPUT_BYTES,
};
use reference::text::read_task;

fn unfolded(task: &str, plan: &str) -> String {
    let printed = unfold_program(Some(task.as_bytes()), Some(plan.as_bytes()));
    String::from_utf8(printed).expect("text")
}

fn plan(lines: &[&str]) -> String {
    lines.iter().map(|line| format!("{line}\n")).collect()
}

#[test]
fn unfolds_e5() {
    assert_eq!(
        unfolded(MOVE, &plan(&["step=0:0,1,2", "end=1"])),
        plan(&["step=0:0,1", "step=1:0,2", "step=2:1", "end=1"])
    );
    assert_eq!(unfolded(MOVE, "end=1\n"), "end=1\n");
}

#[test]
fn refuses_plan_lines() {
    for (lines, refused) in [
        (&["step=0:0,1,2"][..], "3:2"),
        (&["end=1", ""], "3:2"),
        (&["end=2"], "3:1"),
        (&["step=0:0,1,02", "end=1"], "3:1"),
        (&["step=0:0,1,2", "step=0", "end=1"], "3:2"),
        (&["step=1:0,1,2", "end=1"], "5:1"),
        (&["step=0:0,1,2", "step=0:0,1,3", "end=1"], "5:2"),
        (&["step=0:0,1", "end=1"], "5:1"),
        (&["step=0:0,1,2,0", "end=1"], "5:1"),
        (&["step=65536:0,1,2", "end=1"], "5:1"),
    ] {
        let expected = format!("refused={refused}\n");
        assert_eq!(unfolded(MOVE, &plan(lines)), expected, "{lines:?}");
    }
}

#[test]
fn takes_a_hundred_steps() {
    let hundred = vec!["step=0:0,1,2"; 100];
    let with_last = |last: &[&str]| unfolded(MOVE, &plan(&[&hundred, last].concat()));
    assert_eq!(with_last(&["end=1"]).lines().count(), 301);
    assert_eq!(with_last(&["step=0:0,1,2", "end=1"]), "refused=4:101\n");
    assert_eq!(with_last(&["step=9:", "end=1"]), "refused=4:101\n");
    assert_eq!(with_last(&["step=9", "end=1"]), "refused=3:101\n");
}

#[test]
fn refuses_the_task_first_and_the_splitting_last() {
    let circular = changed_move("part=0,0,1,1,2,0,1", "part=0,0,1,1,0,0,1");
    assert_eq!(unfolded("", ""), "refused=3:1\n");
    assert_eq!(unfolded("task=1\n", "end=1\n"), "refused=3:2\n");
    assert_eq!(unfolded(&circular, "step=9:\n"), "refused=5:1\n");
    assert_eq!(unfolded(&circular, "end=1\n"), "refused=9:0\n");
}

#[test]
fn a_missing_file_counts_as_empty() {
    assert_eq!(unfold_program(None, None), b"refused=3:1\n");
    assert_eq!(unfold_program(None, Some(b"end=1\n")), b"refused=3:1\n");
    let without_plan = unfold_program(Some(MOVE.as_bytes()), None);
    assert_eq!(without_plan, b"refused=3:1\n");
}

#[test]
fn writes_pddl_or_refuses_the_task() {
    let circular = changed_move("part=0,0,1,1,2,0,1", "part=0,0,1,1,0,0,1");
    for (task, printed) in [
        (MOVE, MOVE_PDDL),
        (&circular, MOVE_PDDL),
        ("", "refused=3:1\n"),
        (&changed_move("schema=3", "schema=4"), "refused=7:12\n"),
        (&changed_move("end=1\n", "end=1\n\n"), "refused=3:18\n"),
    ] {
        let found = pddl_program(task.as_bytes());
        assert_eq!(String::from_utf8_lossy(&found), printed, "{task}");
    }
}

fn proposed(arguments: &[&str], task: &str) -> String {
    let printed = propose_program(&bytes(arguments), task.as_bytes());
    String::from_utf8(printed).expect("text")
}

/// M's own partition is that of width 2.
#[test]
fn proposes_the_width_that_is_its_argument() {
    for (width, parts) in [
        ("0", "0,1,2,3,4,5,6"),
        ("1", "0,1,2,3,4,5,2"),
        ("2", "0,0,1,1,2,0,1"),
        ("3", "0,0,0,0,0,0,0"),
        ("12", "0,0,0,0,0,0,0"),
    ] {
        let printed = changed_move("part=0,0,1,1,2,0,1", &format!("part={parts}"));
        assert_eq!(proposed(&[width], MOVE), printed, "{width}");
    }
}

#[test]
fn a_missing_or_strange_argument_is_22() {
    for arguments in STRANGE {
        let printed = proposed(arguments, MOVE);
        assert_eq!(printed, "refused=22:0\n", "{arguments:?}");
    }
    for argument in [b"\xff".as_slice(), b"2\xff", b"2\0"] {
        let printed = propose_program(&[argument], MOVE.as_bytes());
        assert_eq!(printed, b"refused=22:0\n");
    }
}

/// The task first, then the argument, then the parts.
#[test]
fn refuses_a_proposal_in_order() {
    let bad_task = changed_move("schema=3", "schema=4");
    let many_parts = tests_of_one_parameter(&[1, 17]);
    for argument in ["0", "13", ""] {
        assert_eq!(proposed(&[argument], ""), "refused=3:1\n");
        assert_eq!(proposed(&[argument], &bad_task), "refused=7:12\n");
    }
    assert_eq!(proposed(&[], &bad_task), "refused=7:12\n");
    assert_eq!(proposed(&["13"], &many_parts), "refused=22:0\n");
    assert_eq!(proposed(&["0"], &many_parts), "refused=23:1\n");
}

/// `propose 1 | split | pddl`: what is refused by 23 or else is no task for the
/// next program.
#[test]
fn a_proposal_is_split_and_written() {
    let piped = |width: &str, task: &str| {
        let split = split_program(proposed(&[width], task).as_bytes());
        [pddl_program(&split), split].map(|printed| String::from_utf8(printed).expect("text"))
    };
    let [pddl, split] = piped("2", MOVE);
    assert_eq!(split, MOVE_SPLIT);
    assert!(pddl.starts_with("(define (domain d)"));
    let refused = piped("0", &tests_of_one_parameter(&[17]));
    assert_eq!(refused, ["refused=3:1\n"; 2]);
}

#[test]
fn a_program_takes_so_many_bytes() {
    for (objects, commas, bytes, number) in [
        (10, 32_755, INPUT_BYTES, 4),
        (1, 32_756, INPUT_BYTES + 1, 3),
    ] {
        let arities = "0,".repeat(commas);
        let text = format!("task=1\nobjects={objects}\narity={arities}0\n");
        assert_eq!(text.len(), bytes);
        let refusal = read_task(text.as_bytes()).expect_err("too many arities");
        assert_eq!((refusal.number(), refusal.place.number()), (4, 3));
        let expected = format!("refused={number}:3\n");
        assert_eq!(split_program(text.as_bytes()), expected.as_bytes());
        assert_eq!(pddl_program(text.as_bytes()), expected.as_bytes());
        assert_eq!(proposed(&["2"], &text), expected);
        assert_eq!(unfolded(&text, "end=1\n"), expected);
    }
}
