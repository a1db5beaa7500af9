//! The PDDL of tasks, by hand from document 02's note 1.

use checks::{changed_move, read_table, MOVE, MOVE_PDDL, MOVE_SPLIT};

fn written(text: &str) -> String {
    let mut lent = vec![b'#'; 2_000];
    let bytes = reference::write_pddl(&read_table(text.as_bytes()), &mut lent);
    lent.truncate(bytes.expect("a table") as usize);
    String::from_utf8(lent).expect("text")
}

#[test]
fn m() {
    assert_eq!(written(MOVE), MOVE_PDDL);
}

/// The split has actions of several parameter counts and atoms without
/// arguments in each role.
#[test]
fn split_of_m() {
    assert_eq!(
        written(MOVE_SPLIT),
        "(define (domain d) (:predicates (p0 ?x0 ?x1) (p1 ?x0) (p2) (p3) (p4) (p5 ?x0) (p6 ?x0)) \
         (:action a0 :parameters (?x0 ?x1) :precondition (and (p0 ?x0 ?x1) (p1 ?x0) (p2)) \
         :effect (and (p3) (p5 ?x0) (p6 ?x1) (not (p0 ?x0 ?x1)) (not (p2)))) \
         (:action a1 :parameters (?x0 ?x1) :precondition (and (p1 ?x1) (p3) (p5 ?x0)) \
         :effect (and (p0 ?x0 ?x1) (p4) (not (p1 ?x1)) (not (p3)) (not (p5 ?x0)))) \
         (:action a2 :parameters (?x0) :precondition (and (p4) (p6 ?x0)) \
         :effect (and (p1 ?x0) (p2) (not (p4)) (not (p6 ?x0)))))\n\
         (define (problem q) (:domain d) (:objects o0 o1 o2) \
         (:init (p0 o0 o1) (p1 o0) (p1 o2) (p2)) (:goal (and (p0 o0 o2) (p2))))\n"
    );
}

#[test]
fn no_schema_and_no_ground_atom() {
    assert_eq!(
        written("task=1\nobjects=1\narity=0\nend=1\n"),
        "(define (domain d) (:predicates (p0)))\n\
         (define (problem q) (:domain d) (:objects o0) (:init) (:goal (and)))\n"
    );
}

#[test]
fn schemas_that_lack_a_role() {
    for (atom, lists) in [
        ("pre", ":precondition (and (p0)) :effect (and)"),
        ("add", ":precondition (and) :effect (and (p0))"),
        ("del", ":precondition (and) :effect (and (not (p0)))"),
    ] {
        let text =
            format!("task=1\nobjects=2\narity=0\nschema=0\n{atom}=0:\npart=0\ngoal=0:\nend=1\n");
        let expected = format!(
            "(define (domain d) (:predicates (p0)) (:action a0 :parameters () {lists}))\n\
             (define (problem q) (:domain d) (:objects o0 o1) (:init) (:goal (and (p0))))\n"
        );
        assert_eq!(written(&text), expected);
    }
}

/// "In table order": neither predicates nor arguments are sorted in a schema.
#[test]
fn table_order_and_four_arguments() {
    let text = "task=1\nobjects=12\narity=4,0,3\nschema=11\npre=2:10,9,8\npre=0:7,6,5,4\npre=1:\n\
                add=2:3,2,1\nadd=0:0,0,10,0\ndel=1:\ndel=0:7,6,5,4\npart=0,1,1,0,0,2,0\n\
                init=0:11,0,10,9\ninit=2:0,0,0\ngoal=1:\ngoal=2:9,10,11\nend=1\n";
    assert_eq!(
        written(text),
        "(define (domain d) (:predicates (p0 ?x0 ?x1 ?x2 ?x3) (p1) (p2 ?x0 ?x1 ?x2)) \
         (:action a0 :parameters (?x0 ?x1 ?x2 ?x3 ?x4 ?x5 ?x6 ?x7 ?x8 ?x9 ?x10) \
         :precondition (and (p2 ?x10 ?x9 ?x8) (p0 ?x7 ?x6 ?x5 ?x4) (p1)) \
         :effect (and (p2 ?x3 ?x2 ?x1) (p0 ?x0 ?x0 ?x10 ?x0) (not (p1)) \
         (not (p0 ?x7 ?x6 ?x5 ?x4)))))\n\
         (define (problem q) (:domain d) (:objects o0 o1 o2 o3 o4 o5 o6 o7 o8 o9 o10 o11) \
         (:init (p0 o11 o0 o10 o9) (p2 o0 o0 o0)) (:goal (and (p1) (p2 o9 o10 o11))))\n"
    );
}

#[test]
fn parts_are_not_written() {
    for parts in ["0,0,0,0,0,0,0", "0,0,1,1,0,0,1", "6,5,4,3,2,1,0"] {
        let text = changed_move("part=0,0,1,1,2,0,1", &format!("part={parts}"));
        assert_eq!(written(&text), MOVE_PDDL);
    }
}
