//! Every limit at both sides, as text, as PDDL, as table and in a split.

use checks::{report, without_parts};
use generate::limits::{largest, longest_pddl, reading, splitting, Limit, LONGEST_PDDL};
use generate::tables::table;
use reference::pddl::Pddl;
use reference::pddl_reader::read_pddl;
use reference::table::{Task, TABLE_WORDS};
use reference::{Answer, Place, Reason, Refusal};

/// Lends a table of sevens and gives it back with the answer.
fn lending(entry: impl Fn(&mut [u16]) -> Answer<()>) -> (Answer<()>, Vec<u16>) {
    let mut lent = vec![7; TABLE_WORDS + 2];
    let answer = entry(&mut lent);
    assert_eq!(lent[TABLE_WORDS..], [7, 7]);
    lent.truncate(TABLE_WORDS);
    (answer, lent)
}

fn read(task: &Task) -> (Answer<()>, Vec<u16>) {
    lending(|out| reference::read(task.to_string().as_bytes(), out))
}

fn split(task: &Task) -> (Answer<()>, Vec<u16>) {
    lending(|out| reference::split(&table(task), out))
}

#[test]
fn texts_at_the_limits() {
    let limits = reading();
    for limit in &limits {
        let Limit { name, inside, .. } = limit;
        assert_eq!(read(inside), (Ok(()), table(inside)), "{name}");
        let (answer, left) = read(&limit.outside);
        let refusal = answer.expect_err(name);
        let found = (refusal.number(), refusal.place);
        assert_eq!(found, (limit.number, Place::Line(limit.place)), "{name}");
        assert_eq!(left, [0; TABLE_WORDS], "{name}");
    }
    report("limits of texts", 2 * limits.len());
}

#[test]
fn tables_at_the_limits() {
    let limits = reading();
    for Limit {
        name,
        inside,
        outside,
        ..
    } in &limits
    {
        let refused = Err(Refusal::nowhere(Reason::NotATable));
        let written = |task: &Task| reference::write(&table(task), &mut [0; 1 << 16]);
        assert_eq!(
            written(inside),
            Ok(inside.to_string().len() as u64),
            "{name}"
        );
        assert_eq!(written(outside), refused, "{name}");
    }
    report("limits of tables", 2 * limits.len());
}

/// Lends so many sevens for the PDDL of a task and gives them back with the
/// answer.
fn write_pddl(task: &Task, bytes: usize) -> (Answer<u64>, Vec<u8>) {
    let mut text = vec![7; bytes];
    let answer = reference::write_pddl(&table(task), &mut text);
    (answer, text)
}

/// Requires the PDDL of a task in just enough bytes, 18 in one fewer, and the
/// task less its parts where it is read; how many bytes are enough.
fn require_pddl(task: &Task, name: &str) -> usize {
    let text = Pddl(task).to_string();
    assert_eq!(read_pddl(&text), Ok(without_parts(task)), "{name}");
    let length = text.len();
    let refused = Err(Refusal::nowhere(Reason::PddlTooLong));
    let (answer, left) = write_pddl(task, length - 1);
    assert_eq!((answer, left), (refused, vec![7; length - 1]), "{name}");
    let (answer, left) = write_pddl(task, length);
    let written = Ok(length as u64);
    assert_eq!((answer, left), (written, text.into_bytes()), "{name}");
    length
}

#[test]
fn pddl_at_the_limits() {
    let limits = reading();
    for Limit {
        name,
        inside,
        outside,
        ..
    } in &limits
    {
        let length = require_pddl(inside, name);
        let refused = Err(Refusal::nowhere(Reason::NotATable));
        assert_eq!(write_pddl(outside, 2 * length).0, refused, "{name}");
    }
    report("limits as PDDL", 2 * limits.len());
}

#[test]
fn the_longest_pddl() {
    let length = require_pddl(&longest_pddl(), "the longest");
    assert_eq!(length, LONGEST_PDDL);
    assert!(require_pddl(&largest(), "the largest") < LONGEST_PDDL);
}

#[test]
fn splits_at_the_limits() {
    let limits = splitting();
    for limit in &limits {
        let Limit { name, inside, .. } = limit;
        let (answer, left) = split(inside);
        assert_eq!(answer, Ok(()), "{name}");
        let written = Task::from_words(&left).expect(name);
        assert!(reaches_a_limit(&written), "{name}");
        assert_eq!(read(&limit.outside).0, Ok(()), "{name}");
        let refused = Err(Refusal::nowhere(Reason::SplitTooLarge));
        assert_eq!(
            split(&limit.outside),
            (refused, vec![7; TABLE_WORDS]),
            "{name}"
        );
    }
    report("limits of splits", 2 * limits.len());
}

fn reaches_a_limit(task: &Task) -> bool {
    task.arities.len() == 400
        || task.schemas.len() == 200
        || task.schema_atoms() == 1000
        || task.initial.len() == 500
        || task.goal.len() == 100
        || task.pairs() == 200
        || task.schemas.iter().any(|schema| schema.atoms.len() == 64)
}
