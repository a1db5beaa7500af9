//! The reader of PDDL on texts by hand, in other names and forms than the
//! writer's.

use checks::{changed, changed_move, MOVE, MOVE_PDDL, SWAP, SWAP_PDDL};
use reference::pddl_reader::{read_pddl, Fault};
use reference::table::Task;
use reference::text::read_task;

/// M as a person would write it.
const HAND_WRITTEN: &str = "
; A logger moves between piers.
(define (domain piers)
  (:requirements :strips)
  (:predicates (at ?logger ?pier)   ; where a logger is
               (free ?thing))
  (:action move
    :parameters (?what ?from ?to)
    :precondition (and (at ?what ?from) (free ?what) (free ?to))
    :effect (and (not (at ?what ?from))
                 (at ?what ?to)
                 (not (free ?to))
                 (free ?from))))

(define (problem first-move)
  (:domain piers)
  (:objects logger_7 pier2 pier-1)
  (:init (at logger_7 pier2) (free logger_7) (free pier-1))
  (:goal (at logger_7 pier-1)))
";

/// The text of M with all its atoms in one part.
fn move_in_one_part() -> Task {
    task_of(&changed_move("part=0,0,1,1,2,0,1", "part=0,0,0,0,0,0,0"))
}

fn task_of(text: &str) -> Task {
    read_task(text.as_bytes()).expect("a task")
}

/// The hand-written text with a piece in another form.
fn hand_written(piece: &str, other: &str) -> String {
    changed(HAND_WRITTEN, piece, other)
}

#[test]
fn m_as_written_and_by_hand() {
    assert_ne!(Ok(task_of(MOVE)), read_pddl(MOVE_PDDL));
    assert_eq!(read_pddl(MOVE_PDDL), Ok(move_in_one_part()));
    assert_eq!(read_pddl(HAND_WRITTEN), Ok(move_in_one_part()));
}

#[test]
fn white_space_comments_and_case() {
    let spread = MOVE_PDDL.replace('(', " \t(\r\n").replace(')', "\n )\t");
    let commented = MOVE_PDDL.replace(' ', ";) (not a word;\n");
    let dense = HAND_WRITTEN.replace(") (", ")(").replace(" (", "(");
    let ended = format!("{MOVE_PDDL}; no byte 10 behind this");
    for text in [
        spread,
        commented,
        dense,
        ended,
        MOVE_PDDL.to_uppercase(),
        HAND_WRITTEN.to_uppercase(),
        hand_written("(:domain piers)", "(:Domain PIERS)"),
        hand_written(":parameters (?what", ":parameters (?What"),
    ] {
        assert_eq!(read_pddl(&text), Ok(move_in_one_part()), "{text}");
    }
}

/// By declaration, not by the digits in a name.
#[test]
fn names_are_numbered_as_declared() {
    let text = "(define (domain d) (:predicates (p2 ?x3) (p0 ?x1 ?x0) (p1))
                  (:action a1 :parameters (?x1 ?x0) :precondition (p0 ?x0 ?x1) :effect (p2 ?x0))
                  (:action a0 :parameters (?x0) :precondition () :effect (not (p2 ?x0))))
                (define (problem p1) (:domain d) (:objects o1 o2 o0)
                  (:init (p2 o0) (p2 o1) (p0 o2 o1)) (:goal (and (p1) (p2 o2))))";
    let mut task = task_of(
        "task=1\nobjects=3\narity=1,2,0\nschema=2\npre=1:1,0\nadd=0:1\npart=0,0\n\
         schema=1\ndel=0:0\npart=0\ninit=0:0\ninit=0:2\ninit=1:1,0\ngoal=0:1\ngoal=2:\nend=1\n",
    );
    // A text keeps its own order, where a table's atoms ascend.
    task.initial.swap(0, 1);
    task.goal.swap(0, 1);
    assert_eq!(read_pddl(text), Ok(task));
}

#[test]
fn conditions_in_each_form() {
    let domain = |tests: &str, effect: &str| {
        format!(
            "(define (domain d) (:predicates (p) (q)) (:action a :parameters () \
             :precondition {tests} :effect {effect})) \
             (define (problem b) (:domain d) (:objects o) (:init) (:goal {tests}))"
        )
    };
    let lines = |goal: &str, schema: &str| {
        let parts = vec!["0"; schema.lines().count()].join(",");
        let beginning = "task=1\nobjects=1\narity=0,0\nschema=0\n";
        task_of(&format!("{beginning}{schema}part={parts}\n{goal}end=1\n"))
    };
    for (tests, effect, goal, schema) in [
        ("()", "(p)", "", "add=0:\n"),
        ("(and)", "(and (p))", "", "add=0:\n"),
        ("(q)", "()", "goal=1:\n", "pre=1:\n"),
        ("(and (q))", "(and)", "goal=1:\n", "pre=1:\n"),
        ("(and)", "(not (p))", "", "del=0:\n"),
        (
            "()",
            "(and (not (p)) (q) (not (q)) (p))",
            "",
            "add=1:\nadd=0:\ndel=0:\ndel=1:\n",
        ),
    ] {
        let text = domain(tests, effect);
        assert_eq!(read_pddl(&text), Ok(lines(goal, schema)), "{text}");
    }
}

/// Requires a fault of the hand-written text with a piece in another form.
fn refused(piece: &str, other: &str, fault: Fault) {
    let read = read_pddl(&hand_written(piece, other));
    assert_eq!(read, Err(fault), "{piece} as {other}");
}

/// The hand-written text with another condition and these requirements.
fn required(requirements: &str, condition: &str) -> String {
    let text = hand_written("(free ?what) (free ?to)", condition);
    changed(&text, "(:requirements :strips)", requirements)
}

const UNEQUAL: &str = "(:requirements :strips :equality :negative-preconditions)";

#[test]
fn the_swap_as_written() {
    let one_part = changed(SWAP, "part=0,1,0,0,1,0,1", "part=0,0,0,0,0,0,0");
    assert_eq!(read_pddl(SWAP_PDDL), Ok(task_of(&one_part)));
}

/// Parameters 1 and 2, and then 0 and 2, in whatever order they and the atoms
/// stand.
#[test]
fn parameters_that_differ() {
    let text = changed_move("schema=3\n", "schema=3\ndiffer=0,2\ndiffer=1,2\n");
    let one_part = changed(&text, "part=0,0,1,1,2,0,1", "part=0,0,0,0,0,0,0");
    let task = task_of(&one_part);
    for requirements in [
        UNEQUAL,
        "(:requirements :negative-preconditions :equality)",
        "(:REQUIREMENTS :EQUALITY :STRIPS :NEGATIVE-PRECONDITIONS)",
    ] {
        for condition in [
            "(free ?what) (free ?to) (not (= ?what ?to)) (not (= ?from ?to))",
            "(not (= ?to ?what)) (free ?what) (not (= ?to ?from)) (free ?to)",
        ] {
            let text = required(requirements, condition);
            assert_eq!(read_pddl(&text), Ok(task.clone()), "{text}");
        }
    }
    let mut swapped = task;
    swapped.schemas[0].pairs.reverse();
    let condition = "(free ?what) (free ?to) (not (= ?from ?to)) (not (= ?what ?to))";
    assert_eq!(read_pddl(&required(UNEQUAL, condition)), Ok(swapped));
}

#[test]
fn refuses_pairs_that_are_none() {
    for (pair, fault) in [
        ("(not (= ?from))", Fault::OutOfForm),
        ("(not (= ?from ?to ?what))", Fault::OutOfForm),
        ("(not (= ?from ?from))", Fault::OutOfForm),
        ("(not (= ?from (?to)))", Fault::OutOfForm),
        (
            "(not (= ?from ?to) (= ?from ?what))",
            Fault::Undeclared("not".into()),
        ),
        ("(not (= ?from ?there))", Fault::Undeclared("?there".into())),
        ("(not (= ?from pier2))", Fault::Undeclared("pier2".into())),
        ("(= ?from ?to)", Fault::OutOfForm),
        ("(not (not (= ?from ?to)))", Fault::Undeclared("not".into())),
    ] {
        let read = read_pddl(&required(UNEQUAL, &format!("(free ?what) {pair}")));
        assert_eq!(read, Err(fault), "{pair}");
    }
    refused("(not (free ?to))", "(not (= ?to ?from))", Fault::OutOfForm);
}

#[test]
fn refuses_pairs_that_are_not_required() {
    for (requirements, missing) in [
        ("", ":equality"),
        ("(:requirements :strips)", ":equality"),
        ("(:requirements :negative-preconditions)", ":equality"),
        (
            "(:requirements :strips :equality)",
            ":negative-preconditions",
        ),
    ] {
        let read = read_pddl(&required(requirements, "(not (= ?from ?to))"));
        assert_eq!(read, Err(Fault::NotRequired(missing)), "{requirements}");
    }
}

#[test]
fn refuses_what_is_not_declared() {
    for (piece, other, name) in [
        ("(free ?what)", "(freed ?what)", "freed"),
        ("(free ?what)", "(free ?it)", "?it"),
        ("(free ?what)", "(free pier2)", "pier2"),
        ("(free ?what)", "(not (free ?what))", "not"),
        ("(at ?what ?to)", "(on ?what ?to)", "on"),
        ("(not (free ?to))", "(not (free ?thing))", "?thing"),
        ("(not (free ?to))", "(not (not (free ?to)))", "not"),
        ("(not (free ?to))", "(and (free ?to))", "and"),
        ("(free logger_7)", "(free logger)", "logger"),
        ("(free logger_7)", "(free ?what)", "?what"),
        ("(free logger_7)", "(not (free logger_7))", "not"),
        ("(:goal (at", "(:goal (it", "it"),
        (
            "(:goal (at logger_7 pier-1",
            "(:goal (at pier-1 pier",
            "pier",
        ),
        ("(free ?thing))", ")", "free"),
    ] {
        refused(piece, other, Fault::Undeclared(name.into()));
    }
}

#[test]
fn refuses_what_is_repeated() {
    let twice = "(:action move :parameters () :precondition () :effect ()) (:action move";
    for (piece, other, name) in [
        ("(free ?thing))", "(free ?thing) (at ?x))", "at"),
        ("(free ?thing))", "(free ?thing) (AT ?x ?y))", "at"),
        ("?logger ?pier", "?it ?it", "?it"),
        ("?what ?from ?to", "?what ?from ?to ?what", "?what"),
        ("logger_7 pier2 pier-1", "pier2 pier-1 pier2", "pier2"),
        ("(:action move", twice, "move"),
    ] {
        refused(piece, other, Fault::Repeated(name.into()));
    }
}

#[test]
fn refuses_a_wrong_number_of_arguments() {
    for (piece, other, name) in [
        ("(at ?what ?from) (free", "(at ?what) (free", "at"),
        ("(not (free ?to))", "(not (free))", "free"),
        ("(at ?what ?to)", "(at ?what ?to ?to)", "at"),
        ("(free pier-1)", "(free pier-1 pier2)", "free"),
        ("(:goal (at logger_7 pier-1))", "(:goal (and (at)))", "at"),
        ("?logger ?pier", "?logger ?pier ?day", "at"),
    ] {
        refused(piece, other, Fault::WrongArity(name.into()));
    }
}

#[test]
fn refuses_another_domain() {
    for (piece, other, name) in [
        ("(:domain piers)", "(:domain pier)", "pier"),
        ("(domain piers)", "(domain docks)", "piers"),
    ] {
        refused(piece, other, Fault::OtherDomain(name.into()));
    }
}

#[test]
fn refuses_more_arguments_than_an_atom_has() {
    refused("?logger", "?a ?b ?c ?d", Fault::TooLarge);
}

#[test]
fn refuses_what_is_out_of_form() {
    for (piece, other) in [
        (HAND_WRITTEN, ""),
        ("(define (domain", "(defines (domain"),
        ("(define (domain", "((define (domain"),
        ("(domain piers)", "(problem piers)"),
        ("(domain piers)", "(domain)"),
        ("(domain piers)", "domain piers"),
        ("(:domain piers)", "(:domain piers docks)"),
        ("(:domain piers)", ""),
        ("(domain piers)", "(domain 7piers)"),
        (":strips", ":strips :typing"),
        ("(:predicates", "(:predicate"),
        ("(at ?logger ?pier)", "at"),
        ("(at ?logger ?pier)", "()"),
        ("(at ?logger ?pier)", "(at logger ?pier)"),
        ("(at ?logger ?pier)", "(at ?logger ?)"),
        ("(at ?logger ?pier)", "(at ?logger - thing)"),
        ("(at ?logger ?pier)", "(?at ?logger ?pier)"),
        ("(:action move", "(:action"),
        ("(:action move", "(:actions move"),
        (":parameters (?what ?from ?to)", ""),
        (":parameters (?what ?from ?to)", ":parameters ?what"),
        (":parameters (?what", ":parameters (what"),
        (":precondition", ":preconditions"),
        (":effect (and", ":effect (and) (and"),
        ("(not (free ?to))", "(not (free ?to) (free ?from))"),
        ("(not (free ?to))", "(not)"),
        ("(not (free ?to))", "()"),
        ("(not (free ?to))", "free"),
        ("(free ?what)", "(= ?what ?to)"),
        ("(free ?what)", "(free (?what))"),
        ("logger_7 pier2 pier-1", "logger_7 pier2 - pier"),
        ("logger_7 pier2 pier-1", "logger_7 pier2 (pier-1)"),
        ("(:init", "(:start"),
        ("(:goal (at", "(:goal (free pier2) (at"),
        ("(:goal (at logger_7 pier-1))", "(:goal)"),
        ("(:goal (at logger_7 pier-1))", ""),
        ("(free ?from))))", "(free ?from)))"),
        ("(free ?from))))", "(free ?from)))))"),
        ("(free ?from))))", "; (free ?from))))"),
        ("(problem first-move)", "(problem first move)"),
        ("pier-1)))", "pier-1))) (define)"),
    ] {
        refused(piece, other, Fault::OutOfForm);
    }
}
