//! The files of `vectors/`, whose README tells the format.

use std::fs;
use std::path::Path;

use generate::tables;
use reference::propose::SCRATCH_WORDS;
use reference::table::{PartNumber, Task};

use crate::rows::{Row, SizesRow};
use crate::{read_table, report};

/// A line of a vector file.
struct Case<'a> {
    label: String,
    fields: Vec<&'a str>,
}

impl<'a> Case<'a> {
    /// The fields, of which a line of this file has so many.
    fn fields<const COUNT: usize>(&self) -> [&'a str; COUNT] {
        let fields = self.fields.as_slice().try_into();
        fields.unwrap_or_else(|_| panic!("{} has not {COUNT} fields", self.label))
    }
}

/// Compares every line of a vector file and reports how many there were.
fn each_case(file: &str, compare: impl Fn(&Case)) {
    let path = Path::new(env!("CARGO_MANIFEST_DIR")).join("../vectors");
    let text = fs::read_to_string(path.join(file)).expect("a vector file");
    let mut compared = 0;
    for (number, line) in (1..).zip(text.lines()) {
        if !line.is_empty() {
            compare(&Case {
                label: format!("{file}:{number}"),
                fields: line.split(' ').collect(),
            });
            compared += 1;
        }
    }
    let lines = text.split('\n').filter(|line| !line.is_empty()).count();
    assert!(compared > 0, "{file} has no case");
    assert_eq!(compared, lines, "{file} has cases left out");
    report(file, compared);
}

fn bytes(field: &str) -> Vec<u8> {
    if field == "-" {
        return Vec::new();
    }
    assert_eq!(field.len() % 2, 0, "hex has two digits for a byte");
    (0..field.len())
        .step_by(2)
        .map(|at| u8::from_str_radix(&field[at..at + 2], 16).expect("hex"))
        .collect()
}

fn number<Number: std::str::FromStr>(field: &str) -> Number {
    field.parse().ok().expect("a number")
}

fn words(field: &str) -> Vec<u16> {
    if field == "-" {
        return Vec::new();
    }
    field.split(',').map(number).collect()
}

/// What is lent for a result holds in every word or byte before the call.
const LENT: u8 = 7;

/// The table that a text is read into, with words changed, cut short or with
/// words behind that don't matter.
fn changed_table(text: &str, changes: &str) -> Vec<u16> {
    let mut table = read_table(&bytes(text));
    for change in changes.split(';').filter(|change| *change != "-") {
        match change.split_once('=').expect("index=value or len=length") {
            ("len", length) => table.resize(number(length), LENT.into()),
            (index, value) => table[number::<usize>(index)] = number(value),
        }
    }
    table
}

fn shown(printed: &[u8]) -> String {
    String::from_utf8_lossy(printed).into_owned()
}

/// `04-split.txt`, put to the program.
pub fn split_program_cases(program: impl Fn(&[u8]) -> Vec<u8>) {
    each_case("04-split.txt", |case| {
        let [stdin, printed] = case.fields().map(bytes);
        assert_eq!(shown(&program(&stdin)), shown(&printed), "{}", case.label);
    });
}

/// `04-unfold_program.txt`, put to the program; an empty file may be missing too.
pub fn unfold_program_cases(program: impl Fn(Option<&[u8]>, Option<&[u8]>) -> Vec<u8>) {
    each_case("04-unfold_program.txt", |case| {
        let [task, plan, printed] = case.fields().map(bytes);
        let mut found = vec![program(Some(&task), Some(&plan))];
        if task.is_empty() {
            found.push(program(None, Some(&plan)));
        }
        if plan.is_empty() {
            found.push(program(Some(&task), None));
        }
        for found in found {
            assert_eq!(shown(&found), shown(&printed), "{}", case.label);
        }
    });
}

/// `04-table.txt`, put to an entry point that answers 0 for a table and 2 for
/// another.
pub fn table_cases(answer: impl Fn(&[u16]) -> u32) {
    each_case("04-table.txt", |case| {
        let [text, changes, is_table] = case.fields();
        let expected = if is_table == "1" { 0 } else { 2 };
        let table = changed_table(text, changes);
        assert_eq!(answer(&table), expected, "{}", case.label);
    });
}

/// `04-pddl.txt`, put to the writer of PDDL.
pub fn pddl_cases(write: impl Fn(&[u16], &mut [u8]) -> Row) {
    each_case("04-pddl.txt", |case| {
        let [text, changes, length, refusal, place, count, written] = case.fields();
        let mut lent = vec![LENT; number(length)];
        let found = write(&changed_table(text, changes), &mut lent);
        let expected = [refusal, place, count, "0"].map(number);
        assert_eq!(found, expected, "{}", case.label);
        let mut left = bytes(written);
        left.resize(lent.len(), LENT);
        assert_eq!(shown(&lent), shown(&left), "{}", case.label);
    });
}

/// `07-propose.txt` and `05-propose.txt`, put to proposing, which is lent a table,
/// a width, a second table and a scratch.
pub fn propose_cases(propose: impl Fn(&[u16], u64, &mut [u16], &mut [u64]) -> Row) {
    cases_of_proposing("07-propose.txt", |scratch| scratch, &propose);
    cases_of_proposing("05-propose.txt", narrow_scratch, &propose);
}

/// How many words of scratch are lent in place of so many before note 7, when 64
/// times 64 were needed: too few where those were too few, else with as many to
/// spare. The answers stay: "the proposed partitions are those of Note 5 for every
/// task and width".
fn narrow_scratch(words: usize) -> usize {
    const BEFORE: usize = 64 * 64;
    if words < BEFORE {
        words.min(SCRATCH_WORDS - 1)
    } else {
        SCRATCH_WORDS + (words - BEFORE)
    }
}

/// The cases of a file whose scratches are lent with this length in place of the
/// one told.
fn cases_of_proposing(
    file: &str,
    scratch_length: fn(usize) -> usize,
    propose: impl Fn(&[u16], u64, &mut [u16], &mut [u64]) -> Row,
) {
    each_case(file, |case| {
        let [text, changes, width, length, scratch, refusal, place, parts] = case.fields();
        let table = changed_table(text, changes);
        let mut proposed = vec![LENT.into(); number(length)];
        let mut scratch = vec![LENT.into(); scratch_length(number(scratch))];
        let mut left = (proposed.clone(), scratch.clone());
        let found = propose(&table, number(width), &mut proposed, &mut scratch);
        let expected = [refusal, place, "0", "0"].map(number);
        assert_eq!(found, expected, "{}", case.label);
        if refusal == "0" {
            let table = with_parts(&table, parts);
            left.0[..table.len()].copy_from_slice(&table);
        }
        if matches!(refusal, "0" | "23") {
            left.1[..SCRATCH_WORDS].fill(0);
        }
        assert!((proposed, scratch) == left, "{}", case.label);
    });
}

/// The words of a table with these parts, an atom each in file order, schemas
/// parted by `;`.
fn with_parts(table: &[u16], parts: &str) -> Vec<u16> {
    let mut task = Task::from_words(table).expect("a table");
    let schemas: Vec<Vec<u16>> = parts
        .split(';')
        .filter(|parts| *parts != "-")
        .map(words)
        .collect();
    assert_eq!(schemas.len(), task.schemas.len(), "parts of each schema");
    for (schema, parts) in task.schemas.iter_mut().zip(schemas) {
        assert_eq!(parts.len(), schema.atoms.len(), "a part for each atom");
        for (atom, part) in schema.atoms.iter_mut().zip(parts) {
            atom.part = PartNumber(part);
        }
    }
    tables::table(&task)
}

/// `06-sizes.txt`, put to what tells the sizes of a split.
pub fn sizes_cases(sizes: impl Fn(&[u16]) -> SizesRow) {
    each_case("06-sizes.txt", |case| {
        let [text, changes, expected @ ..] = case.fields::<10>();
        let found = sizes(&changed_table(text, changes));
        assert_eq!(found, expected.map(number), "{}", case.label);
    });
}

/// `04-run.txt`, put to running.
pub fn run_cases(run: impl Fn(&[u16], &[u16], &mut [u16], u64) -> Row) {
    each_case("04-run.txt", |case| {
        let [text, steps, lent, records, expected @ .., left] = case.fields::<9>();
        let mut state = words(lent);
        let table = read_table(&bytes(text));
        let found = run(&table, &words(steps), &mut state, number(records));
        assert_eq!(found, expected.map(number), "{}", case.label);
        assert_eq!(state, words(left), "{}", case.label);
    });
}

/// `04-unfold.txt` or `04-fold.txt`, which have the same fields.
pub fn list_cases(file: &str, entry: impl Fn(&[u16], &[u16], &mut [u16]) -> Row) {
    each_case(file, |case| {
        let [text, steps, length, expected @ .., left] = case.fields::<8>();
        let mut out = vec![LENT.into(); number(length)];
        let found = entry(&read_table(&bytes(text)), &words(steps), &mut out);
        assert_eq!(found, expected.map(number), "{}", case.label);
        assert_eq!(out, words(left), "{}", case.label);
    });
}
