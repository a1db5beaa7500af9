//! Examples E1 to E9 and the others of document 01, E3 as document 02's note 2
//! has it.

use checks::subject::Reference;
use checks::twins::are_two_steps;
use checks::{changed_move, first_order, read_table, step, MOVE, MOVE_SPLIT};
use reference::programs::split_program;
use reference::table::{Task, TABLE_WORDS};
use reference::text::read_task;
use reference::{Place, Reason, Refusal};

const PARTS: &str = "part=0,0,1,1,2,0,1";

fn task_of(text: &str) -> Task {
    read_task(text.as_bytes()).expect("a task")
}

fn printed(stdin: &str) -> String {
    String::from_utf8(split_program(stdin.as_bytes())).expect("text")
}

/// Five-word records of predicate and arguments.
fn records(atoms: &[[u16; 3]]) -> Vec<u16> {
    atoms
        .iter()
        .flat_map(|[p, a, b]| [*p, *a, *b, 0, 0])
        .collect()
}

fn initial() -> Vec<u16> {
    records(&[[0, 0, 1], [1, 0, 0], [1, 2, 0]])
}

/// E5's unfolding.
fn unfolding() -> Vec<u16> {
    [step(0, [0, 1]), step(1, [0, 2]), step(2, [1])].concat()
}

fn at_step(reason: Reason, step: usize) -> Refusal {
    Refusal::at_step(reason, step)
}

#[test]
fn e1_split() {
    assert_eq!(printed(MOVE), MOVE_SPLIT);
    let mut split = vec![7; TABLE_WORDS];
    assert_eq!(
        reference::split(&read_table(MOVE.as_bytes()), &mut split),
        Ok(())
    );
    assert_eq!(split, read_table(MOVE_SPLIT.as_bytes()));
}

#[test]
fn e2_circular() {
    let circular = changed_move(PARTS, "part=0,0,1,1,0,0,1");
    assert_eq!(first_order(&circular), None);
    assert_eq!(printed(&circular), "refused=9:0\n");
    let mut split = vec![7; TABLE_WORDS];
    assert_eq!(
        reference::split(&read_table(circular.as_bytes()), &mut split),
        Err(Refusal::new(Reason::NoOrder, Place::Schema(0)))
    );
    assert_eq!(split, [7; TABLE_WORDS]);
}

#[test]
fn e3_order() {
    let alone = changed_move(PARTS, "part=0,1,2,3,4,5,6");
    assert_eq!(first_order(&alone), Some(vec![0, 2, 1, 5, 3, 6, 4]));
}

#[test]
fn e4_order() {
    let text = "task=1\nobjects=1\narity=1\nschema=2\nadd=0:0\ndel=0:1\npart=0,1\nend=1\n";
    assert_eq!(first_order(text), Some(vec![1, 0]));
}

#[test]
fn e5_unfolding() {
    let mut out = vec![7; 40];
    let table = read_table(MOVE.as_bytes());
    let answer = reference::unfold(&table, &step(0, [0, 1, 2]), &mut out);
    assert_eq!(answer, Ok(3));
    assert_eq!(out, [unfolding(), vec![7]].concat());

    let mut out = vec![7; 14];
    let answer = reference::fold(&table, &unfolding(), &mut out);
    let counts = answer.map(|folded| (folded.split_steps, folded.steps));
    assert_eq!(counts, Ok((3, 1)));
    assert_eq!(out, [step(0, [0, 1, 2]), vec![7]].concat());
}

#[test]
fn e6_and_e7_folding() {
    let disagreeing = [step(0, [0, 1]), step(1, [0, 2]), step(2, [2])].concat();
    for list in [&disagreeing[..], &disagreeing[..26]] {
        let mut out = vec![7; 39];
        let answer = reference::fold(&read_table(MOVE.as_bytes()), list, &mut out);
        assert_eq!(answer, Err(at_step(Reason::NoBlock, 2)));
        assert_eq!(out, [7; 39]);
    }
}

#[test]
fn e8_run() {
    let mut state = initial();
    let table = read_table(MOVE.as_bytes());
    let answer = reference::run(&table, &step(0, [0, 1, 2]), &mut state, 3);
    assert_eq!(answer.map(|ran| (ran.records, ran.goal_met)), Ok((3, true)));
    assert_eq!(state, records(&[[0, 0, 2], [1, 0, 0], [1, 1, 0]]));
}

#[test]
fn e9_runs_that_stop() {
    let mut state = initial();
    let table = read_table(MOVE.as_bytes());
    let stopping = step(0, [0, 1, 1]);
    let stopped = |step: usize, records: u64| {
        let refusal = at_step(Reason::PreconditionMissing, step);
        Err(Refusal { records, ..refusal })
    };
    let answer = reference::run(&table, &stopping, &mut state, 3);
    assert_eq!(answer, stopped(0, 3));
    assert_eq!(state, initial());

    let mut unfolded = vec![0; 39];
    assert_eq!(reference::unfold(&table, &stopping, &mut unfolded), Ok(3));
    let mut state = initial();
    state.extend(records(&[[2, 0, 0]]));
    state.extend([7; 10]);
    let split = read_table(MOVE_SPLIT.as_bytes());
    let answer = reference::run(&split, &unfolded, &mut state, 4);
    assert_eq!(answer, stopped(1, 5));
    let left = records(&[[1, 0, 0], [1, 2, 0], [3, 0, 0], [5, 0, 0], [6, 1, 0]]);
    assert_eq!(state, [left, vec![0; 5]].concat());
}

#[test]
fn objects_and_parameters() {
    for (objects, expected) in [(0, "4:2"), (1, "5:13"), (1001, "4:2")] {
        let text = changed_move("objects=3", &format!("objects={objects}"));
        assert_eq!(printed(&text), format!("refused={expected}\n"));
    }
    for objects in [1, 1000] {
        let text = format!("task=1\nobjects={objects}\narity=0\nend=1\n");
        assert_eq!(task_of(&text).objects, objects);
    }
    assert_eq!(
        printed(&changed_move("schema=3", "schema=4")),
        "refused=7:12\n"
    );
}

#[test]
fn atoms_of_a_schema() {
    let text = |atoms: usize, last: &str| {
        let tests: String = (0..atoms)
            .map(|n| format!("pre=0:{},{}\n", n / 8, n % 8))
            .collect();
        let parts = vec!["0"; atoms].join(",");
        format!("task=1\nobjects=1\narity=2\nschema=9\n{tests}{last}part={parts}\nend=1\n")
    };
    let with_ninth = |atoms: usize| text(atoms, "").replace("pre=0:0,0", "pre=0:0,8");
    assert_eq!(
        read_task(with_ninth(64).as_bytes()).map(|task| task.schema_atoms()),
        Ok(64)
    );
    for (last, number) in [
        ("pre=0:8,8\n", 4),
        ("pre=1:0\n", 4),
        ("pre=0:0,1\n", 4),
        ("pre=0\n", 3),
    ] {
        let refusal = read_task(text(64, last).as_bytes()).expect_err(last);
        assert_eq!((refusal.number(), refusal.place), (number, Place::Line(69)));
    }
}

#[test]
fn predicates_of_a_split() {
    for (predicates, expected) in [(399, None), (400, Some("refused=10:0\n"))] {
        let arities = vec!["0"; predicates].join(",");
        let text = format!("task=1\nobjects=1\narity={arities}\nend=1\n");
        let found = printed(&text);
        let split = format!("task=1\nobjects=1\narity={arities},0\ninit=399:\ngoal=399:\nend=1\n");
        assert_eq!(found, expected.unwrap_or(&split));
    }
}

/// "Two steps may have equal ground sets and differ."
#[test]
fn equal_ground_sets_are_two_steps() {
    let schema = "schema=0\npre=0:\nadd=1:\npart=0,1\n";
    let text = format!("task=1\nobjects=1\narity=0,0\n{schema}{schema}end=1\n");
    let table = read_table(text.as_bytes());
    let steps = [step(1, []), step(0, []), step(1, [])].concat();
    let blocks = [2, 3, 0, 1, 2, 3].map(|schema| step(schema, [])).concat();
    let mut unfolded = vec![7; blocks.len()];
    assert_eq!(reference::unfold(&table, &steps, &mut unfolded), Ok(6));
    assert_eq!(unfolded, blocks);
    let mut folded = vec![7; steps.len()];
    let answer = reference::fold(&table, &blocks, &mut folded);
    assert_eq!(answer.map(|counts| counts.steps), Ok(3));
    assert_eq!(folded, steps);
}

/// The same of two schemas with parameters, and with objects swapped.
#[test]
fn twins_are_two_steps() {
    are_two_steps(&Reference);
}
