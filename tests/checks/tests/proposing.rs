//! Proposals by hand from document 02's note 5: "merge the first such pair by
//! lower and then higher part number; the merged part takes the lower number and
//! higher ones close up."

use checks::unparted::{barred_by_the_last, unparted};
use checks::{changed_move, read_table, without_parts, MOVE};
use reference::propose::{propose, SCRATCH_WORDS};
use reference::table::{Schema, Task, TABLE_WORDS};
use reference::text::read_task;
use reference::{tokens, Answer};

/// The parts of each schema, an atom each in file order.
type Parts = Vec<Vec<u16>>;

/// The parts proposed for a text's task; all else is as it was.
fn proposal(text: &str, width: u64) -> Answer<Parts> {
    let table = read_table(text.as_bytes());
    let mut proposed = vec![7; TABLE_WORDS];
    reference::propose(&table, width, &mut proposed, &mut [7; SCRATCH_WORDS])?;
    let [task, proposed] =
        [table, proposed].map(|words| Task::from_words(&words).expect("a table"));
    assert_eq!(without_parts(&proposed), without_parts(&task));
    let parts = |schema: &Schema| {
        let atoms = schema.atoms.iter();
        atoms.map(|atom| u16::from(atom.part)).collect()
    };
    Ok(proposed.schemas.iter().map(parts).collect())
}

/// Requires the parts proposed for a task of one schema.
fn proposes(arities: &str, schema: &str, width: u64, parts: &[u16]) {
    let found = proposal(&unparted(arities, &[schema]), width);
    assert_eq!(found, Ok(vec![parts.to_vec()]), "{schema}, width {width}");
}

/// M's atoms have the parameters 0,1; 0; 2; 0,2; 1; 0,1; 2. At width 1 only the
/// test and the delete of 1:2 go together. At width 2 the first two go together,
/// then with the delete of 0:0,1, but not with the add of 1:1, since the delete
/// of 1:2 would have to stand between; then the test of 1:2 with the add of 0:0,2
/// and with the delete of 1:2. That is the partition that document 01 gives M. At
/// width 3 all go together, each add once the delete before it is in.
#[test]
fn m_at_each_width() {
    for (width, parts) in [
        (0, [0, 1, 2, 3, 4, 5, 6]),
        (1, [0, 1, 2, 3, 4, 5, 2]),
        (2, [0, 0, 1, 1, 2, 0, 1]),
        (3, [0; 7]),
        (4, [0; 7]),
        (12, [0; 7]),
    ] {
        assert_eq!(proposal(MOVE, width), Ok(vec![parts.to_vec()]), "{width}");
    }
}

/// Nor does it matter that no order complies with them.
#[test]
fn parts_of_the_lent_task_do_not_matter() {
    for parts in ["0,0,1,1,0,0,1", "0,0,0,0,0,0,0", "6,5,4,3,2,1,0"] {
        let text = changed_move("part=0,0,1,1,2,0,1", &format!("part={parts}"));
        for width in 0..=3 {
            assert_eq!(proposal(&text, width), proposal(MOVE, width), "{parts}");
        }
    }
}

/// Tests of p with x and of q with y, adds of p with y and of q with x: two atoms
/// of one parameter may be merged, but then not the other two, which would make a
/// circle. The first pair is 0 and 3, though 1 and 2 have the lower higher number.
#[test]
fn the_lower_number_decides_first() {
    let crossed = "schema=2 pre=0:0 pre=1:1 add=0:1 add=1:0";
    proposes("1,1", crossed, 1, &[0, 1, 2, 0]);
    let straight = "schema=2 pre=0:0 pre=1:1 add=0:0 add=1:1";
    proposes("1,1", straight, 1, &[0, 1, 0, 1]);
}

/// With x goes either y or z, but not both.
#[test]
fn then_the_higher_number() {
    proposes("1,2", "schema=3 pre=0:0 pre=1:0,1 pre=1:0,2", 2, &[0, 0, 1]);
    proposes("1,2", "schema=3 pre=0:0 pre=1:0,2 pre=1:0,1", 2, &[0, 0, 1]);
    proposes("1,2", "schema=3 pre=0:0 pre=1:1,2 pre=1:0,2", 2, &[0, 1, 0]);
}

/// Tests of x, y, x, z, y, w, z, each with those of its own parameter.
#[test]
fn the_merged_part_takes_the_lower_number() {
    let schema = "schema=4 pre=0:0 pre=0:1 pre=1:0 pre=0:2 pre=1:1 pre=0:3 pre=1:2";
    proposes("1,1", schema, 1, &[0, 1, 0, 2, 1, 3, 2]);
}

/// A parameter that both parts have counts once, and so does one that stands
/// twice in an atom.
#[test]
fn the_union_is_counted() {
    let shared = "schema=3 pre=0:0,1 pre=0:1,0 pre=0:1,2";
    proposes("2", shared, 1, &[0, 1, 2]);
    proposes("2", shared, 2, &[0, 0, 1]);
    proposes("2", shared, 3, &[0, 0, 0]);
    let twice = "schema=2 pre=0:0,0,0,0 pre=0:1,1,1,1 pre=0:0,0,1,1";
    proposes("4", twice, 1, &[0, 1, 2]);
    proposes("4", twice, 2, &[0, 0, 0]);
}

/// They have no parameter, and unused words aren't parameter 0.
#[test]
fn atoms_without_arguments() {
    let schema = "schema=2 pre=0: pre=2:0 pre=1: pre=2:1 add=0: del=1:";
    proposes("0,0,1", schema, 0, &[0, 1, 0, 2, 0, 0]);
    proposes("0,0,1", schema, 1, &[0, 0, 0, 1, 0, 0]);
    proposes("0,0,1", schema, 2, &[0; 6]);
}

/// Also beside an atom with its own parameters, with some of them or with none.
#[test]
fn a_wide_atom_stays_alone() {
    let schema = "schema=3 pre=0:0,1,2 pre=1: pre=2:0 add=0:0,1,2 del=2:0";
    for (width, parts) in [
        (0, [0, 1, 2, 3, 4]),
        (1, [0, 1, 1, 2, 1]),
        (2, [0, 1, 1, 2, 1]),
        (3, [0; 5]),
    ] {
        proposes("3,0,1", schema, width, &parts);
    }
}

/// The test and the add of p can't be merged before the delete has joined one of
/// them; where it is too wide for that, they never can.
#[test]
fn circular_merges_wait_or_never_come() {
    let joined = "schema=1 pre=0:0 add=0:0 del=0:0";
    proposes("1", joined, 1, &[0, 0, 0]);
    let barred = "schema=3 pre=0:0,0 add=0:0,0 del=0:1,2";
    proposes("2", barred, 1, &[0, 1, 2]);
    proposes("2", barred, 2, &[0, 1, 2]);
    proposes("2", barred, 3, &[0, 0, 0]);
    let without_delete = "schema=1 pre=0:0,0 add=0:0,0";
    proposes("2", without_delete, 1, &[0, 0]);
}

/// Note 7: "a bit for each part it has an arc from". A delete bars with each number
/// from 63 to 2 as others merge.
#[test]
fn a_part_of_any_number_bars() {
    for atoms in 3..=64 {
        let mut parts = vec![0; atoms];
        parts[1] = 1;
        parts[atoms - 1] = 2;
        let found = proposal(&barred_by_the_last(atoms), 1);
        assert_eq!(found, Ok(vec![parts]), "{atoms} atoms");
    }
}

/// Tests of p with x, of q with y and of r with z; adds of p with y, of q with z
/// and of r with x.
const RING: &str = "schema=3 pre=0:0 pre=1:1 pre=2:2 add=0:1 add=1:2 add=2:0";

/// The parts of x, of y and of z would stand in a circle, though no two of them
/// have arcs both ways.
#[test]
fn a_circle_of_three_parts() {
    proposes("1,1,1", RING, 1, &[0, 1, 2, 1, 3, 0]);
}

/// "Two atoms give no arc if at some argument position they hold a declared
/// pair", so that each pair opens the ring.
#[test]
fn pairs_take_arcs_away() {
    for pair in ["0,1", "0,2", "1,2"] {
        let opened = RING.replace("schema=3", &format!("schema=3 differ={pair}"));
        proposes("1,1,1", &opened, 1, &[0, 1, 2, 1, 2, 0]);
    }
    let crossed = "schema=2 differ=0,1 pre=0:0 pre=1:1 add=0:1 add=1:0";
    proposes("1,1", crossed, 1, &[0, 1, 1, 0]);
    let barred = "schema=3 differ=0,1 pre=0:0,0 add=0:0,0 del=0:1,2";
    proposes("2", barred, 1, &[0, 0, 1]);
}

#[test]
fn each_schema_by_itself() {
    let schemas = [RING, "schema=0 pre=3:", "schema=1 pre=1:0 add=1:0"];
    let parts = [vec![0, 1, 2, 1, 3, 0], vec![0], vec![0, 0]];
    let text = unparted("1,1,1,0", &schemas);
    assert_eq!(proposal(&text, 1), Ok(parts.to_vec()));
    assert_eq!(proposal(&unparted("0", &[]), 5), Ok(Vec::new()));
}

/// The split of a proposal: its refusal's number, or 0.
fn split_number(text: &str, width: u64) -> u32 {
    let task = read_task(text.as_bytes()).expect("a task");
    let proposed = propose(&task, width).expect("a proposal");
    let refused = tokens::split(&proposed).err();
    refused.map_or(0, |refusal| refusal.number())
}

/// A proposal isn't refused by 9, "and may still meet 10 or 20 when it is split".
#[test]
fn splits_of_proposals() {
    let crossed = "schema=2 differ=0,1 pre=0:0 pre=1:1 add=0:1 add=1:0";
    let text = unparted("1,1", &[crossed]);
    assert_eq!([1, 2].map(|width| split_number(&text, width)), [20, 0]);
    let crowded = unparted(&vec!["1"; 400].join(","), &["schema=1 pre=0:0"]);
    assert_eq!(split_number(&crowded, 1), 10);
    for width in 0..=3 {
        assert_eq!(split_number(MOVE, width), 0);
    }
}
