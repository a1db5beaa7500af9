//! Orders by hand from document 02's note 2: "When two ready parts have equally
//! many preconditions, take the one whose preconditions name more parameters not
//! in a part already placed; only then the lowest number." Where a schema has no
//! predicate in two roles it has no arc, and all its unplaced parts are ready.

use checks::{atom_lines, first_order};

/// The order of a schema with these atoms, each with its part behind it.
fn order_of(arities: &str, parameters: usize, atoms: &[(&str, usize)]) -> Vec<u16> {
    let lines = atom_lines(atoms);
    let text = format!("task=1\nobjects=1\narity={arities}\nschema={parameters}\n{lines}end=1\n");
    first_order(&text).expect("an order")
}

/// One precondition each; part 0 names parameter 0, part 1 names 1 and 2.
#[test]
fn more_new_parameters_go_first() {
    let atoms = [("pre=0:0", 0), ("pre=1:1,2", 1)];
    assert_eq!(order_of("1,2", 3, &atoms), [1, 0]);
}

/// Part 0 has two preconditions, part 1 but one, which names four parameters.
#[test]
fn more_preconditions_go_before_more_parameters() {
    let atoms = [("pre=0:0,1,2,3", 1), ("pre=1:", 0), ("pre=2:", 0)];
    assert_eq!(order_of("4,0,0", 4, &atoms), [0, 1]);
    let swapped = [("pre=0:0,1,2,3", 0), ("pre=1:", 1), ("pre=2:", 1)];
    assert_eq!(order_of("4,0,0", 4, &swapped), [1, 0]);
}

/// One precondition and one parameter each, the highest number first in the
/// file.
#[test]
fn the_lowest_number_goes_first_among_equals_in_both() {
    let atoms = [("pre=0:0", 2), ("pre=0:1", 1), ("pre=0:2", 0)];
    assert_eq!(order_of("1", 3, &atoms), [0, 1, 2]);
    let sharing = [("pre=0:0", 1), ("pre=1:0", 0)];
    assert_eq!(order_of("1,1", 1, &sharing), [0, 1]);
}

/// Part 0 goes first, by two preconditions. It has parameter 0 in an effect
/// alone, so part 1 names nothing new and part 2 names parameter 1.
#[test]
fn a_parameter_in_any_role_of_a_placed_part_is_not_new() {
    for effect in ["add=3:0", "del=3:0"] {
        let atoms = [
            ("pre=0:", 0),
            ("pre=1:", 0),
            ("pre=2:0", 1),
            ("pre=2:1", 2),
            (effect, 0),
        ];
        assert_eq!(order_of("0,0,1,1", 2, &atoms), [0, 2, 1], "{effect}");
    }
}

/// Each names one parameter in its precondition; those in part 1's effects
/// don't count for it. In the second schema part 0 has three parameters, but
/// names one in its precondition, and part 1 names two.
#[test]
fn parameters_of_a_part_s_own_effects_do_not_count() {
    let atoms = [
        ("pre=0:0", 0),
        ("pre=0:1", 1),
        ("add=1:2", 1),
        ("del=2:3", 1),
    ];
    assert_eq!(order_of("1,1,1", 4, &atoms), [0, 1]);
    let atoms = [("pre=0:0", 0), ("pre=1:3,4", 1), ("add=2:1,2", 0)];
    assert_eq!(order_of("1,2,2", 5, &atoms), [1, 0]);
}

/// Part 0 names parameter 0 twice in its one precondition, part 1 names 1 and
/// 2; then part 1 names one parameter twice, as many as part 0 names.
#[test]
fn a_parameter_twice_in_an_atom_counts_once() {
    let atoms = [("pre=0:0,0", 0), ("pre=0:1,2", 1)];
    assert_eq!(order_of("2", 3, &atoms), [1, 0]);
    let atoms = [("pre=0:0", 0), ("pre=1:1,1", 1)];
    assert_eq!(order_of("1,2", 2, &atoms), [0, 1]);
}

/// Two preconditions each; part 0's both name parameter 0, part 1's name 1 and
/// 2.
#[test]
fn a_parameter_of_two_preconditions_counts_once() {
    let atoms = [
        ("pre=0:0", 0),
        ("pre=1:0", 0),
        ("pre=0:1", 1),
        ("pre=1:2", 1),
    ];
    assert_eq!(order_of("1,1", 3, &atoms), [1, 0]);
}

/// Part 1 names 1 and 2, which part 2 has too, but part 2 isn't placed; part 0
/// names parameter 0 alone. Part 2 has no precondition and goes last.
#[test]
fn parameters_of_unplaced_parts_are_new() {
    let atoms = [("pre=0:0", 0), ("pre=1:1,2", 1), ("add=2:1,2", 2)];
    assert_eq!(order_of("1,2,2", 3, &atoms), [1, 0, 2]);
}

/// One precondition each, part 0's without arguments: it names no parameter.
#[test]
fn a_precondition_without_arguments_names_no_parameter() {
    let atoms = [("pre=0:", 0), ("pre=1:0", 1)];
    assert_eq!(order_of("0,1", 1, &atoms), [1, 0]);
}

/// One precondition each. First parts 0, 1 and 2 name two, two and two, and the
/// lowest goes first; then part 1 names parameter 2 anew and part 2 both 3 and
/// 4. In the second schema they name one, two and three.
#[test]
fn three_parts_tie() {
    let atoms = [("pre=0:0,1", 0), ("pre=0:1,2", 1), ("pre=0:3,4", 2)];
    assert_eq!(order_of("2", 5, &atoms), [0, 2, 1]);
    let atoms = [("pre=0:0", 0), ("pre=1:0,1", 1), ("pre=2:2,3,4", 2)];
    assert_eq!(order_of("1,2,3", 5, &atoms), [2, 1, 0]);
}

/// One precondition each. Parts 1, 2 and 3 name two and part 0 one, so part 1
/// goes first; then part 3 names two still and part 2 one, so part 3 goes next;
/// then neither part 0 nor part 2 names any.
#[test]
fn every_placed_part_takes_its_parameters_off() {
    let atoms = [
        ("pre=0:0", 0),
        ("pre=1:0,1", 1),
        ("pre=1:1,2", 2),
        ("pre=1:2,3", 3),
    ];
    assert_eq!(order_of("1,2", 4, &atoms), [1, 3, 0, 2]);
}

/// Part 2 deletes predicate 0, which part 1 tests, so it isn't ready before
/// part 1, though it names most. Of the others part 1 names two and part 0 one;
/// then part 2 names three.
#[test]
fn only_ready_parts_are_compared() {
    let atoms = [
        ("pre=1:0", 0),
        ("pre=0:1,2", 1),
        ("pre=2:3,4,5", 2),
        ("del=0:1,2", 2),
    ];
    assert_eq!(order_of("2,1,3", 6, &atoms), [1, 2, 0]);
}

/// Parts 13, 14 and 15 name four parameters each, no two of them the same one,
/// so they stay equal and go by number, before the others, which name one each;
/// then these name none that is new and go by number too.
#[test]
fn sixteen_parts() {
    let mut atoms = vec![
        ("pre=0:8,9,10,11", 15),
        ("pre=0:4,5,6,7", 14),
        ("pre=0:0,1,2,3", 13),
    ];
    let alone: Vec<String> = (0..13)
        .map(|part| format!("pre={}:{}", 1 + part / 12, part % 12))
        .collect();
    atoms.extend(alone.iter().map(String::as_str).zip(0..13));
    let order = [13, 14, 15, 0, 1, 2, 3, 4, 5, 6, 7, 8, 9, 10, 11, 12];
    assert_eq!(order_of("4,1,1", 12, &atoms), order);
}

/// Three preconditions each; part 0 names eleven parameters, all but 11, and
/// part 1 all twelve.
#[test]
fn twelve_parameters() {
    let atoms = [
        ("pre=0:0,1,2,3", 0),
        ("pre=0:4,5,6,7", 0),
        ("pre=0:8,9,10,10", 0),
        ("pre=1:0,1,2,3", 1),
        ("pre=1:4,5,6,7", 1),
        ("pre=1:8,9,10,11", 1),
    ];
    assert_eq!(order_of("4,4", 12, &atoms), [1, 0]);
}
