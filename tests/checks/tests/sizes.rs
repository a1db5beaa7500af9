//! Sizes by hand from document 02's note 6: "The instances before are the task's;
//! all else equals the split's."

use checks::rows::sizes_row;
use checks::{atom_lines, changed, changed_move, read_table, MOVE, SWAP};
use generate::sizing::{parted_schema, task_over, undivided_schema};
use generate::tables::table;
use reference::table::{Schema, TABLE_WORDS};

/// Predicates, schemas, schema atoms, text bytes, instances before and after.
type Told = [u64; 6];

fn told(table: &[u16]) -> Told {
    let [refusal, place, told @ ..] = sizes_row(reference::sizes(table));
    assert_eq!([refusal, place], [0; 2]);
    told
}

fn of_text(text: &str) -> Told {
    told(&read_table(text.as_bytes()))
}

/// The instances before and after of such a task.
fn instances(objects: u16, schemas: &[Schema]) -> [u64; 2] {
    let [.., before, after] = told(&table(&task_over(objects, schemas.to_vec())));
    [before, after]
}

/// M's split is E1: two predicates, procnone, two dos and two pars; 8, 8 and 6
/// atoms. Its lines have 7 + 10 + 20 bytes before the schemas, which have 95, 93
/// and 71, then 37, 19 and 6. Three objects to the power 3 come to 27, and twice
/// to the power 2 with once to the power 1 to 21.
#[test]
fn m() {
    assert_eq!(of_text(MOVE), [7, 3, 22, 358, 27, 21]);
}

/// Three more bytes in `objects=1000`.
#[test]
fn m_with_more_objects() {
    let text = changed_move("objects=3", "objects=1000");
    let [before, after] = [1_000_000_000, 2_001_000];
    assert_eq!(of_text(&text), [7, 3, 22, 361, before, after]);
}

/// M in one part: procnone joins the predicates, the preconditions, the initial
/// and the goal atoms, and nothing else changes: 29 bytes before the schema, 99
/// of it, 37, 19 and 6.
#[test]
fn m_in_one_part() {
    let text = changed_move("part=0,0,1,1,2,0,1", "part=0,0,0,0,0,0,0");
    assert_eq!(of_text(&text), [3, 1, 8, 190, 27, 27]);
}

/// M with the order of E3: seven parts, so six dos; x, y and z are all in several
/// parts, so three pars. Seven atoms, three tokens for each part, and for a
/// parameter in k parts k + 1 atoms of its par: x is in 4 parts, y and z in 3
/// each. The parts have 2, 1, 1, 2, 1, 2 and 1 parameters.
#[test]
fn m_in_seven_parts() {
    let text = changed_move("part=0,0,1,1,2,0,1", "part=0,1,2,3,4,5,6");
    let [predicates, schemas, atoms, _, before, after] = of_text(&text);
    assert_eq!([predicates, schemas], [2 + 1 + 6 + 3, 7]);
    assert_eq!(atoms, 7 + 3 * 7 + (4 + 1) + (3 + 1) + (3 + 1));
    assert_eq!([before, after], [27, 3 * 9 + 4 * 3]);
}

/// The swap's first part has all four parameters and its pair, the second three:
/// 39 bytes before the schemas, which have 130 and 137, then 41, 30 and 6.
#[test]
fn a_swap() {
    assert_eq!(of_text(SWAP), [8, 2, 22, 383, 256, 256 + 64]);
}

/// A task with no schema gains procnone in its predicates, its initial and its
/// goal atoms.
#[test]
fn no_schema() {
    let text = "task=1\nobjects=1\narity=0,0\nend=1\n";
    assert_eq!(of_text(text), [3, 0, 0, 7 + 10 + 12 + 8 + 8 + 6, 0, 0]);
    let crowded = changed(text, "objects=1", "objects=1000");
    assert_eq!(of_text(&crowded), [3, 0, 0, 54, 0, 0]);
}

/// "Objects to the power n" is 1 for n = 0, and for one object whatever n is.
#[test]
fn schemas_that_count_one() {
    let parameterless = |parts: usize| parted_schema(&vec![Vec::new(); parts]);
    let schemas = [1, 2, 3].map(parameterless);
    for objects in [1, 2, 1000] {
        assert_eq!(instances(objects, &schemas), [3, 6], "{objects}");
    }
    let wide = [vec![undivided_schema(12)], schemas.to_vec()].concat();
    assert_eq!(instances(1, &wide), [4, 7]);
    assert_eq!(instances(2, &wide), [4096 + 3, 4096 + 6]);
    let beside = parted_schema(&[vec![0, 1], Vec::new()]);
    assert_eq!(instances(10, &[beside]), [100, 101]);
}

/// Parts with the same parameters count each, parts with some of them less.
#[test]
fn each_part_by_its_own_parameters() {
    let [x, y, z] = [0, 1, 2];
    for (parts, after) in [
        (vec![vec![x, y, z]], 1000),
        (vec![vec![x], vec![y], vec![z]], 30),
        (vec![vec![x, y], vec![y, z]], 200),
        (vec![vec![x, y, z], vec![x, y, z]], 2000),
        (vec![vec![x, z], vec![y], vec![z]], 120),
        (vec![vec![], vec![x, y, z], vec![z], vec![]], 1012),
    ] {
        let schema = parted_schema(&parts);
        assert_eq!(instances(10, &[schema]), [1000, after], "{parts:?}");
    }
}

/// "One more than the largest parameter number found in two parts": z alone is
/// in both, and there are pars of x and y too.
#[test]
fn pars_below_the_largest_shared() {
    let lines = atom_lines(&[("pre=0:0,2", 0), ("pre=0:1,2", 1)]);
    let text = format!("task=1\nobjects=3\narity=2\nschema=3\n{lines}end=1\n");
    let [predicates, schemas, atoms, ..] = of_text(&text);
    assert_eq!([predicates, schemas, atoms], [1 + 1 + 1 + 3, 2, 2 + 6 + 3]);
}

/// A schema of twelve parameters in two parts, the second with the last two: its
/// lines `differ=10,11` and `differ=2,3` are carried by the first part as they
/// are, 13 and 11 bytes, and the first of them by the second part as
/// `differ=0,1`, 11 more.
#[test]
fn pairs_in_the_text_alone() {
    let lines = atom_lines(&[
        ("pre=0:0,1,2,3", 0),
        ("pre=0:4,5,6,7", 0),
        ("pre=0:8,9,10,11", 0),
        ("pre=0:10,11,11,11", 1),
    ]);
    let with = |pairs: &str| {
        of_text(&format!(
            "task=1\nobjects=3\narity=4\nschema=12\n{pairs}{lines}end=1\n"
        ))
    };
    let plain = with("");
    let [.., before, after] = plain;
    assert_eq!([before, after], [531_441, 531_441 + 9]);
    for (pairs, more) in [
        ("differ=2,3\n", 11),
        ("differ=10,11\n", 13 + 11),
        ("differ=2,3\ndiffer=10,11\n", 11 + 13 + 11),
    ] {
        let mut expected = plain;
        expected[3] += more;
        assert_eq!(with(pairs), expected, "{pairs}");
    }
}

/// Two objects can't differ at three pairs of three parameters; the instances are
/// counted all the same.
#[test]
fn pairs_that_no_step_keeps() {
    let lines = "pre=0:0,1\npre=0:1,2\npart=0,0\n";
    let pairs = "differ=0,1\ndiffer=0,2\ndiffer=1,2\n";
    let text = format!("task=1\nobjects=2\narity=2\nschema=3\n{pairs}{lines}end=1\n");
    let [.., before, after] = of_text(&text);
    assert_eq!([before, after], [8, 8]);
}

/// Words behind a table don't matter.
#[test]
fn a_longer_table() {
    let mut longer = read_table(MOVE.as_bytes());
    longer.extend([9; 4]);
    assert_eq!(longer.len(), TABLE_WORDS + 4);
    assert_eq!(told(&longer), of_text(MOVE));
}
