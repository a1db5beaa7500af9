//! Refusals 12, 14, 20 and 21 of pairs, by hand from document 02's note 4; 3 and 19
//! stand with the other lines' in `refusals`.

use checks::{answers_to_split, as_found, atom_lines, first_order, read_table, step, SWAP};
use reference::table::TABLE_WORDS;
use reference::{Answer, Place, Reason, Refusal};

fn in_schema<Value>(reason: Reason, schema: u64) -> Answer<Value> {
    Err(Refusal::new(reason, Place::Schema(schema)))
}

fn at_step<Value>(reason: Reason, step: usize) -> Answer<Value> {
    Err(Refusal::at_step(reason, step))
}

/// A schema of two parameters that must differ: they stand in one part, or each
/// in a part of its own, without an arc or with one both ways.
#[derive(Clone, Copy)]
enum Kind {
    Together,
    Apart,
    Circular,
}

fn task_of(kinds: &[Kind], predicates: usize) -> Vec<u16> {
    let schema = |kind: &Kind| match kind {
        Kind::Together => "pre=0:0\npre=0:1\npart=0,0\n",
        Kind::Apart => "pre=0:0\npre=0:1\npart=0,1\n",
        Kind::Circular => "pre=0:0\npre=0:1\ndel=0:0\ndel=0:1\npart=0,1,1,0\n",
    };
    let schemas: String = kinds
        .iter()
        .map(|kind| format!("schema=2\ndiffer=0,1\n{}", schema(kind)))
        .collect();
    let arities = vec!["1"; predicates].join(",");
    let text = format!("task=1\nobjects=2\narity={arities}\n{schemas}end=1\n");
    read_table(text.as_bytes())
}

/// "20 after 9, with the lowest such schema, when no part has both parameters of
/// a pair"; both before 10, which 400 predicates give.
#[test]
fn refusal_20() {
    use Kind::{Apart, Circular, Together};
    let refused = |kinds: &[Kind], refusal: Answer<()>| {
        for predicates in [1, 400] {
            let table = task_of(kinds, predicates);
            assert_eq!(answers_to_split(&table), [refusal; 3]);
        }
    };
    let apart = |schema| in_schema(Reason::PairInNoPart, schema);
    let circular = |schema| in_schema(Reason::NoOrder, schema);
    refused(&[Apart], apart(0));
    refused(&[Together, Apart, Together, Apart], apart(1));
    refused(&[Apart, Together, Circular, Circular], circular(2));
    refused(&[Circular, Apart], circular(0));
    let too_large = Err(Refusal::nowhere(Reason::SplitTooLarge));
    assert_eq!(answers_to_split(&task_of(&[Together], 400)), [too_large; 3]);
    let split = reference::split(&task_of(&[Together], 1), &mut vec![0; TABLE_WORDS]);
    assert_eq!(split, Ok(()));
}

/// Of three pairs one is in no part.
#[test]
fn refusal_20_of_any_pair() {
    let lines = atom_lines(&[("pre=0:0,1", 0), ("pre=0:1,2", 1)]);
    for (pairs, answer) in [
        ("differ=0,1\ndiffer=1,2\n", Ok(())),
        (
            "differ=0,1\ndiffer=0,2\ndiffer=1,2\n",
            in_schema(Reason::PairInNoPart, 0),
        ),
    ] {
        let text = format!("task=1\nobjects=3\narity=2\nschema=3\n{pairs}{lines}end=1\n");
        let table = read_table(text.as_bytes());
        let mut out = vec![7; TABLE_WORDS];
        assert_eq!(reference::split(&table, &mut out), answer);
    }
}

/// "A step with equal objects there isn't a step of the task (12)": in running
/// and in unfolding, before 15, 16 and 13, wherever it stands.
#[test]
fn refusal_12_in_running_and_unfolding() {
    let table = read_table(SWAP.as_bytes());
    let [good, missing] = [step(0, [0, 1, 2, 3]), step(0, [1, 0, 2, 2])];
    for (list, place) in [
        (step(0, [0, 0, 2, 3]), 0),
        (step(0, [3, 3, 3, 3]), 0),
        ([good.clone(), step(0, [1, 1, 2, 3])].concat(), 1),
        (
            [missing.clone(), step(0, [1, 1, 2, 3]), vec![9]].concat(),
            1,
        ),
    ] {
        let run = as_found(15, |state| reference::run(&table, &list, state, 9));
        assert_eq!(run, at_step(Reason::BadStep, place));
        let unfolded = as_found(1, |out| reference::unfold(&table, &list, out));
        assert_eq!(unfolded, at_step(Reason::BadStep, place));
    }
    let run = reference::run(&table, &missing, &mut [], 0);
    assert_eq!(run, at_step(Reason::PreconditionMissing, 0));
}

/// "Of the split task too where folding is lent its steps", before 14 and 13; the
/// second part has one pier and carries no pair.
#[test]
fn refusal_12_in_folding() {
    let table = read_table(SWAP.as_bytes());
    for (list, place) in [
        (step(0, [0, 0, 2, 3]), 0),
        ([step(1, [0, 0, 0]), step(0, [2, 2, 2, 3])].concat(), 1),
    ] {
        let folded = as_found(1, |out| reference::fold(&table, &list, out));
        assert_eq!(folded, at_step(Reason::BadStep, place));
    }
    let block = [step(0, [0, 1, 2, 2]), step(1, [1, 2, 2])].concat();
    let mut out = vec![7; 13];
    let folded = reference::fold(&table, &block, &mut out);
    assert_eq!(folded.map(|folded| folded.steps), Ok(1));
    assert_eq!(out, step(0, [0, 1, 2, 2]));
}

/// Parts 0 and 1 have a parameter each, part 2 both; arcs lead to it from both.
fn last_part_carries(objects: usize) -> Vec<u16> {
    let lines = atom_lines(&[
        ("pre=0:0", 0),
        ("pre=1:1", 1),
        ("del=0:0", 2),
        ("del=1:1", 2),
    ]);
    let schema = format!("schema=2\ndiffer=0,1\n{lines}");
    let text = format!("task=1\nobjects={objects}\narity=1,1\n{schema}end=1\n");
    assert_eq!(first_order(&text), Some(vec![0, 1, 2]));
    read_table(text.as_bytes())
}

/// "An unfinished beginning needs to fit the block of some choice of objects, and
/// only the pairs that its own parts carry must differ in it."
#[test]
fn a_beginning_with_equal_objects_at_a_pair_that_it_does_not_carry() {
    let table = last_part_carries(2);
    let block = [step(0, [0]), step(1, [1]), step(2, [0, 1])].concat();
    let equal = [step(0, [1]), step(1, [1])].concat();
    let no_block = |place| (Reason::NoBlock, place);
    for (list, (reason, place)) in [
        (equal.clone(), no_block(2)),
        ([block.clone(), equal.clone()].concat(), no_block(5)),
        ([equal.clone(), step(2, [0, 1])].concat(), no_block(2)),
        ([equal.clone(), step(0, [1])].concat(), no_block(2)),
        (
            [equal.clone(), step(2, [1, 1])].concat(),
            (Reason::BadStep, 2),
        ),
        (
            [block.clone(), equal, step(2, [0, 0])].concat(),
            (Reason::BadStep, 5),
        ),
    ] {
        let folded = as_found(40, |out| reference::fold(&table, &list, out));
        assert_eq!(folded, at_step(reason, place), "{list:?}");
    }
    let mut out = vec![7; 13];
    let folded = reference::fold(&table, &block, &mut out);
    assert_eq!(folded.map(|folded| folded.steps), Ok(1));
    assert_eq!(out, step(0, [0, 1]));
}

/// With one object there is no step, and the split still has such a beginning
/// that runs.
#[test]
fn a_beginning_with_the_only_object() {
    let table = last_part_carries(1);
    let run = as_found(10, |state| {
        reference::run(&table, &step(0, [0, 0]), state, 0)
    });
    assert_eq!(run, at_step(Reason::BadStep, 0));

    let beginning = [step(0, [0]), step(1, [0])].concat();
    let mut split = vec![7; TABLE_WORDS];
    assert_eq!(reference::split(&table, &mut split), Ok(()));
    let mut state = [[0; 5], [1, 0, 0, 0, 0], [2, 0, 0, 0, 0]].concat();
    state.resize(50, 7);
    let ran = reference::run(&split, &beginning, &mut state, 3);
    assert_eq!(ran.map(|ran| ran.goal_met), Ok(false));
    let folded = as_found(26, |out| reference::fold(&table, &beginning, out));
    assert_eq!(folded, at_step(Reason::NoBlock, 2));
}

/// All 66 pairs of twelve parameters.
fn all_pairs() -> Vec<String> {
    (0..12)
        .flat_map(|lower| (lower + 1..12).map(move |higher| format!("differ={lower},{higher}\n")))
        .collect()
}

/// Schemas of 12 parameters with these `differ` lines; three lines stand before
/// the first, and each has five besides its pairs.
fn pairs_in(schemas: &[&[String]]) -> String {
    let atoms = "pre=0:0,1,2,3\npre=0:4,5,6,7\npre=0:8,9,10,11\npart=0,0,0\n";
    let schemas: String = schemas
        .iter()
        .map(|pairs| format!("schema=12\n{}{atoms}", pairs.concat()))
        .collect();
    format!("task=1\nobjects=12\narity=4\n{schemas}end=1\n")
}

/// "21 at the 201st such line, right after 4": after 3 and before 19, and lines
/// before it are judged before. The 201st is the third of the fourth schema, at
/// line 3 + 3 * 71 + 1 + 3 = 220.
#[test]
fn refusal_21() {
    let all = all_pairs();
    let with_last = |lines: &[&str]| {
        let last: Vec<String> = lines
            .iter()
            .map(|line| format!("differ={line}\n"))
            .collect();
        let mut table = vec![7; TABLE_WORDS];
        let text = pairs_in(&[&all, &all, &all, &last]);
        let answer = reference::read(text.as_bytes(), &mut table);
        let zeros = table.iter().all(|word| *word == 0);
        assert_eq!(zeros, answer.is_err());
        answer.map_err(|refusal| (refusal.number(), refusal.place.number()))
    };
    assert_eq!(with_last(&["0,1", "0,2"]), Ok(()));
    for third in ["0,3", "0,2", "0,1", "1,0", "5,5", "0,12", "65536,65537"] {
        assert_eq!(with_last(&["0,1", "0,2", third]), Err((21, 220)), "{third}");
    }
    for third in ["0", "0,1,2", "0,01", ""] {
        assert_eq!(with_last(&["0,1", "0,2", third]), Err((3, 220)), "{third}");
    }
    assert_eq!(with_last(&["0,1", "0,1", "0,3"]), Err((19, 219)));
    assert_eq!(with_last(&["0,12", "0,1", "0,3"]), Err((19, 218)));
}
