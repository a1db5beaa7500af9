//! Parameters that must differ, by hand from document 02's note 4.

use checks::pair_arcs::{two_atoms, TwoAtoms};
use checks::{
    atom_lines, changed, changed_move, first_order, read_table, step, SWAP, SWAP_PDDL, SWAP_SPLIT,
};
use reference::programs::{split_program, unfold_program};

fn text_of(bytes: Vec<u8>) -> String {
    String::from_utf8(bytes).expect("text")
}

fn split_of(text: &str) -> String {
    text_of(split_program(text.as_bytes()))
}

/// "Yet good partitions come out circular": without its pair the swap's first
/// part tests what the second deletes, and the second what the first deletes.
#[test]
fn a_swap_splits_with_its_pair_alone() {
    assert_eq!(split_of(SWAP), SWAP_SPLIT);
    assert_eq!(
        split_of(&changed(SWAP, "differ=0,1\n", "")),
        "refused=9:0\n"
    );
    for other in ["differ=0,2", "differ=0,3", "differ=2,3"] {
        let text = changed(SWAP, "differ=0,1", other);
        assert_eq!(split_of(&text), "refused=9:0\n", "{other}");
    }
}

/// "A block of three words per pair (schema, lower, higher), in file order, after
/// the parameter counts, with its count in a seventh head word."
#[test]
fn a_table_has_its_pairs_behind_the_parameter_counts() {
    let mut expected = vec![4, 2, 1, 7, 3, 2, 1, 2, 2, 4, 0, 0, 1];
    for atom in [
        [0, 0, 0, 0, 0, 2],
        [0, 0, 0, 1, 1, 3],
        [0, 0, 1, 0, 0, 1],
        [0, 1, 0, 0, 0, 3],
        [0, 1, 0, 1, 1, 2],
        [0, 2, 0, 0, 0, 2],
        [0, 2, 0, 1, 1, 3],
        [0, 3, 0, 0, 0, 2],
        [0, 3, 0, 0, 1, 3],
        [0, 3, 1, 0, 0, 1],
        [0, 4, 0, 0, 0, 3],
        [0, 4, 0, 0, 1, 2],
    ] {
        expected.extend(atom);
        expected.extend([0, 0]);
    }
    expected.resize(14_007, 0);
    assert_eq!(read_table(SWAP.as_bytes()), expected);
}

/// Two schemas of three parameters: the first has three pairs, the second one.
const FOUR_PAIRS: &str =
    "task=1\nobjects=3\narity=3\nschema=3\ndiffer=0,1\ndiffer=0,2\ndiffer=1,2\n\
                          pre=0:0,1,2\npart=0\nschema=3\ndiffer=0,1\npre=0:0,1,2\npart=0\nend=1\n";

/// "A table's pairs are judged by 2 as the lines by 19 and 21": the records stand
/// from word 10 on.
#[test]
fn a_table_with_other_pairs() {
    let table = read_table(FOUR_PAIRS.as_bytes());
    assert_eq!(table[..7], [3, 1, 2, 2, 0, 0, 4]);
    assert_eq!(table[10..22], [0, 0, 1, 0, 0, 2, 0, 1, 2, 1, 0, 1]);
    let written = |table: &[u16]| reference::write(table, &mut [0; 1000]).is_ok();
    for (pair, words, is_table) in [
        (3, [1, 0, 2], true),
        (3, [1, 1, 2], true),
        (2, [1, 0, 1], false),
        (3, [0, 1, 2], false),
        (3, [2, 0, 1], false),
        (3, [65_535, 0, 1], false),
        (3, [1, 1, 0], false),
        (3, [1, 1, 1], false),
        (3, [1, 0, 3], false),
        (3, [1, 0, 65_535], false),
        (1, [0, 0, 1], false),
        (2, [0, 0, 2], false),
        (0, [1, 0, 1], false),
        (0, [0, 0, 2], false),
    ] {
        let mut other = table.clone();
        other[10 + 3 * pair..][..3].copy_from_slice(&words);
        assert_eq!(written(&other), is_table, "pair {pair} as {words:?}");
    }
    for count in [0, 1, 2, 3, 5, 200, 201, 65_535] {
        let mut other = table.clone();
        other[6] = count;
        assert!(!written(&other), "{count} pairs");
    }
}

/// "Two atoms give no arc if at some argument position they hold a declared
/// pair": no order complies just when they give one.
#[test]
fn arcs_that_a_pair_takes_away() {
    for TwoAtoms { text, arc } in two_atoms() {
        assert_eq!(first_order(&text).is_none(), arc, "{text}");
    }
}

/// Predicates 0 and 1 are both tested in one part and added in the other, a pair
/// each: both arcs must go.
#[test]
fn each_pair_takes_its_own_arcs_away() {
    let lines = atom_lines(&[
        ("pre=0:0", 0),
        ("add=0:1", 1),
        ("pre=1:2", 1),
        ("add=1:3", 0),
        ("pre=2:0,1", 0),
        ("pre=2:2,3", 0),
    ]);
    for (pairs, order) in [
        ("", None),
        ("differ=0,1\n", Some(vec![1, 0])),
        ("differ=2,3\n", Some(vec![0, 1])),
        ("differ=0,1\ndiffer=2,3\n", Some(vec![0, 1])),
        ("differ=0,2\ndiffer=1,3\n", None),
    ] {
        let schema = format!("schema=4\n{pairs}{lines}");
        let text = format!("task=1\nobjects=4\narity=1,1,2\n{schema}end=1\n");
        assert_eq!(first_order(&text), order, "{pairs}");
    }
}

/// "A part that has both parameters carries the line, renumbered": parts 0 and 1
/// have 1 and 3, part 2 has 0, 2 and 3. Their preconditions are as many and name
/// two, two and three parameters, so part 2 goes first; then parts 0 and 1 name
/// 1 anew. Each parameter but 0 and 2 is shared, so there are four pars.
#[test]
fn every_part_with_both_parameters_carries_the_line() {
    let lines = atom_lines(&[("pre=0:1,3", 0), ("pre=0:3,1", 1), ("pre=1:3,0,2", 2)]);
    let pairs = "differ=0,2\ndiffer=0,3\ndiffer=1,3\n";
    let text = format!("task=1\nobjects=4\narity=2,3\nschema=4\n{pairs}{lines}end=1\n");
    let split = "task=1\nobjects=4\narity=2,3,0,0,0,1,1,1,1\n\
                 schema=3\ndiffer=0,1\ndiffer=0,2\npre=1:2,0,1\npre=2:\nadd=3:\nadd=8:2\ndel=2:\n\
                 part=0,0,0,0,0\n\
                 schema=2\ndiffer=0,1\npre=0:0,1\npre=3:\npre=8:1\nadd=4:\nadd=6:0\ndel=3:\n\
                 part=0,0,0,0,0,0\n\
                 schema=2\ndiffer=0,1\npre=0:1,0\npre=4:\npre=6:0\npre=8:1\nadd=2:\ndel=4:\n\
                 del=6:0\ndel=8:1\npart=0,0,0,0,0,0,0,0\ninit=2:\ngoal=2:\nend=1\n";
    assert_eq!(split_of(&text), split);
}

/// E2's partition of M: a pair of y and z takes its circle away, and then no part
/// has both.
#[test]
fn m_with_pairs() {
    let circular = changed_move("part=0,0,1,1,2,0,1", "part=0,0,1,1,0,0,1");
    let with = |pair: &str| changed(&circular, "schema=3\n", &format!("schema=3\n{pair}\n"));
    assert_eq!(split_of(&with("differ=0,1")), "refused=9:0\n");
    assert_eq!(split_of(&with("differ=1,2")), "refused=20:0\n");
    assert_eq!(first_order(&with("differ=1,2")), Some(vec![0, 1]));
}

/// The swap's state before and after: five-word records, one word behind them.
const BEFORE: [u16; 16] = [0, 0, 2, 0, 0, 0, 1, 3, 0, 0, 1, 0, 1, 0, 0, 7];
const AFTER: [u16; 16] = [0, 0, 3, 0, 0, 0, 1, 2, 0, 0, 1, 0, 1, 0, 0, 0];

#[test]
fn a_swap_runs_and_unfolds() {
    let table = read_table(SWAP.as_bytes());
    let steps = step(0, [0, 1, 2, 3]);
    let mut state = BEFORE;
    let ran = reference::run(&table, &steps, &mut state, 3);
    assert_eq!(ran.map(|ran| (ran.records, ran.goal_met)), Ok((3, true)));
    assert_eq!(state, AFTER);

    let mut unfolded = vec![7; 27];
    assert_eq!(reference::unfold(&table, &steps, &mut unfolded), Ok(2));
    let block = [step(0, [0, 1, 2, 3]), step(1, [1, 2, 3])].concat();
    assert_eq!(unfolded, [block.clone(), vec![7]].concat());
    let mut folded = vec![7; 14];
    let answer = reference::fold(&table, &block, &mut folded);
    assert_eq!(
        answer.map(|folded| (folded.split_steps, folded.steps)),
        Ok((2, 1))
    );
    assert_eq!(folded, [steps, vec![7]].concat());

    let mut state = [&BEFORE[..15], &[2, 0, 0, 0, 0]].concat();
    state.resize(40, 7);
    let ran = reference::run(&read_table(SWAP_SPLIT.as_bytes()), &block, &mut state, 4);
    assert_eq!(ran.map(|ran| (ran.records, ran.goal_met)), Ok((4, true)));
    let mut left = [&AFTER[..15], &[2]].concat();
    left.resize(40, 0);
    assert_eq!(state, left);
}

/// "In the program `unfold` a plan line with equal objects there passes its
/// line; unfolding then answers 12 with the step's number, after 9, 20 and 10."
#[test]
fn unfold_program_refuses_equal_objects_last() {
    let unfolded = |task: &str, plan: &str| {
        text_of(unfold_program(Some(task.as_bytes()), Some(plan.as_bytes())))
    };
    let [good, equal] = ["step=0:0,1,2,3\n", "step=0:2,2,0,1\n"];
    let plan = |lines: &[&str]| format!("{}end=1\n", lines.concat());
    assert_eq!(
        unfolded(SWAP, &plan(&[good])),
        "step=0:0,1,2,3\nstep=1:1,2,3\nend=1\n"
    );
    assert_eq!(unfolded(SWAP, &plan(&[equal])), "refused=12:0\n");
    assert_eq!(
        unfolded(SWAP, &plan(&[good, good, equal, equal])),
        "refused=12:2\n"
    );
    assert_eq!(
        unfolded(SWAP, &plan(&[equal, "step=0:0,1,2,4\n"])),
        "refused=5:2\n"
    );
    assert_eq!(unfolded(SWAP, equal), "refused=3:2\n");
    let circular = changed(SWAP, "part=0,1,0,0,1,0,1", "part=0,1,0,0,0,1,1");
    assert_eq!(unfolded(&circular, &plan(&[equal])), "refused=9:0\n");
    let apart = changed(SWAP, "pre=1:0,1", "pre=1:0,0");
    assert_eq!(unfolded(&apart, &plan(&[equal])), "refused=20:0\n");
    let many = changed(SWAP, "arity=2,2", &format!("arity=2,2{}", ",0".repeat(398)));
    assert_eq!(unfolded(&many, &plan(&[equal])), "refused=10:0\n");
}

/// "Each pair as a `(not (= ..))` precondition after the atoms, and with any pair
/// `(:requirements ..)` before the predicates."
#[test]
fn pddl() {
    let written = |text: &str| {
        let mut lent = vec![b'#'; 2_000];
        let bytes = reference::write_pddl(&read_table(text.as_bytes()), &mut lent);
        lent.truncate(bytes.expect("a table") as usize);
        text_of(lent)
    };
    assert_eq!(written(SWAP), SWAP_PDDL);
    let without = changed(SWAP_PDDL, " (not (= ?x0 ?x1))", "");
    let requirements = " (:requirements :strips :equality :negative-preconditions)";
    let without = changed(&without, requirements, "");
    assert_eq!(written(&changed(SWAP, "differ=0,1\n", "")), without);

    let text = "task=1\nobjects=1\narity=1\nschema=1\npre=0:0\npart=0\n\
                schema=3\ndiffer=0,2\ndiffer=1,2\nadd=0:0\nadd=0:1\nadd=0:2\npart=0,1,2\nend=1\n";
    assert_eq!(
        written(text),
        "(define (domain d) (:requirements :strips :equality :negative-preconditions) \
         (:predicates (p0 ?x0)) \
         (:action a0 :parameters (?x0) :precondition (and (p0 ?x0)) :effect (and)) \
         (:action a1 :parameters (?x0 ?x1 ?x2) \
         :precondition (and (not (= ?x0 ?x2)) (not (= ?x1 ?x2))) \
         :effect (and (p0 ?x0) (p0 ?x1) (p0 ?x2))))\n\
         (define (problem q) (:domain d) (:objects o0) (:init) (:goal (and)))\n"
    );
}
