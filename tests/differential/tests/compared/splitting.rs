//! Splitting.

use checks::answers::each_answer;
use checks::inputs::task_and_table;
use checks::pair_arcs::{two_atoms, TwoAtoms};
use checks::rows::plain_row;
use checks::vectors::split_program_cases;
use checks::{atom_lines, read_table, report};
use differential::beside::{compare, short_or_long, shown, table_to_write};
use differential::reading::read;
use differential::splitting::split;
use differential::writing::write;
use generate::differing::any_differing_task;
use generate::tasks::any_tying_task;
use generate::{limits, tables};
use reference::programs::INPUT_BYTES;
use reference::table::{Task, TABLE_WORDS};

fn compared(table: &[u16], lent: &[u16]) -> u64 {
    compare(
        lent,
        |out| plain_row(reference::split(table, out)),
        |out| split(table, out),
        || format!("{} words lent, table {}", lent.len(), shown(table)),
    )
}

#[test]
fn sound_and_damaged_tables() {
    each_answer(
        "splitting compared",
        184,
        60_000,
        &[0, 1, 2, 9, 10, 20],
        |random| {
            let (_, table) = task_and_table(random);
            let table = short_or_long(random, table);
            compared(&table, &table_to_write(random))
        },
    );
}

/// Orders that what preconditions name decides.
#[test]
fn parts_that_tie() {
    let entry = "splitting of parts that tie compared";
    each_answer(entry, 193, 20_000, &[0], |random| {
        let table = tables::table(&any_tying_task(random));
        compared(&table, &[7; TABLE_WORDS])
    });
}

/// Arcs that pairs take away, and pairs that parts carry or none does.
#[test]
fn parameters_that_differ() {
    let entry = "splitting with pairs compared";
    each_answer(entry, 196, 20_000, &[0, 20], |random| {
        let table = tables::table(&any_differing_task(random));
        compared(&table, &[7; TABLE_WORDS])
    });
    for TwoAtoms { text, arc } in two_atoms() {
        let answer = compared(&read_table(text.as_bytes()), &[7; TABLE_WORDS]);
        assert_eq!(answer, if arc { 9 } else { 0 }, "{text}");
    }
}

/// A schema of two parts, with an atom of each role on predicate 0: the first's
/// in part 0, the second's in part 1. A delete and an add of predicate 1 give an
/// arc back, so that no order complies just when the two roles give an arc.
fn roles_in_two_parts(first: &str, second: &str) -> Vec<u16> {
    let [first, second] = [format!("{first}=0:0"), format!("{second}=0:1")];
    let lines = atom_lines(&[(&first, 0), (&second, 1), ("del=1:", 1), ("add=1:", 0)]);
    let text = format!("task=1\nobjects=2\narity=1,0\nschema=2\n{lines}end=1\n");
    read_table(text.as_bytes())
}

/// "An arc from precondition to add, precondition to delete, delete to add":
/// nine pairs, of which these three and no others are refused.
#[test]
fn pairs_of_roles() {
    let rows = [
        ("pre", [("pre", 0), ("add", 9), ("del", 9)]),
        ("add", [("pre", 0), ("add", 0), ("del", 0)]),
        ("del", [("pre", 0), ("add", 9), ("del", 0)]),
    ];
    for (first, row) in rows {
        for (second, expected) in row {
            let table = roles_in_two_parts(first, second);
            let answer = compared(&table, &[7; TABLE_WORDS]);
            assert_eq!(answer, expected, "from {first} to {second}");
        }
    }
}

#[test]
fn splits_at_the_limits() {
    let limits = limits::splitting();
    for limit in &limits {
        let answer = |task: &Task| compared(&tables::table(task), &[7; TABLE_WORDS + 1]);
        assert_eq!(
            [answer(&limit.inside), answer(&limit.outside)],
            [0, 10],
            "{}",
            limit.name
        );
    }
    report("splits at the limits compared", 2 * limits.len());
}

/// What the program prints, put together from the entry points.
fn printed(stdin: &[u8]) -> Vec<u8> {
    let mut table = vec![7; TABLE_WORDS];
    let mut out = vec![7; TABLE_WORDS];
    let mut text = vec![b'x'; INPUT_BYTES];
    let mut answer = read(&stdin[..stdin.len().min(INPUT_BYTES)], &mut table);
    if answer[0] == 0 {
        answer = split(&table, &mut out);
    }
    if answer[0] == 0 {
        answer = write(&out, &mut text);
    }
    match answer {
        [0, _, bytes, _] => text[..bytes as usize].to_vec(),
        [number, place, ..] => format!("refused={number}:{place}\n").into_bytes(),
    }
}

#[test]
fn vectors() {
    split_program_cases(printed);
}
