//! What the tests share: the claim of shared runs, the subjects it is put to,
//! and small helpers.

pub mod answers;
pub mod arguments;
pub mod inputs;
pub mod needs;
pub mod orders;
pub mod pair_arcs;
pub mod parting;
pub mod rows;
pub mod shared_runs;
pub mod subject;
pub mod twins;
pub mod unparted;
pub mod vectors;

use std::io::Write;

use reference::arcs::{arcs, order, RULES};
use reference::run::STEP_WORDS;
use reference::table::{PartNumber, Task, TABLE_WORDS};
use reference::text::read_task;
use reference::Answer;

/// Tells the log how many cases were compared, past the capture of a test's
/// output.
pub fn report(what: &str, count: usize) {
    let line = format!("{what}: {count} cases\n");
    std::io::stderr()
        .write_all(line.as_bytes())
        .expect("standard error takes a line");
}

/// Requires that a wrong variant shows in more than so many cases, and tells the
/// log in how many it does.
pub fn shows_in(name: &str, cases: usize, least: usize) {
    report(&format!("{name}, shown"), cases);
    assert!(cases > least, "{name}: shown in {cases} cases only");
}

/// The table that a text in form is read into.
pub fn read_table(text: &[u8]) -> Vec<u16> {
    let mut table = vec![0; TABLE_WORDS];
    reference::read(text, &mut table).expect("a text that can be read");
    table
}

/// The order of the first schema of a text's task; `None` where none complies.
pub fn first_order(text: &str) -> Option<Vec<u16>> {
    let task = read_task(text.as_bytes()).expect("a task");
    let schema = &task.schemas[0];
    let order = order(schema, &task.arities, &arcs(schema, &RULES))?;
    Some(order.into_iter().map(u16::from).collect())
}

/// The lines of a schema's atoms, each given with its part, in the order of their
/// roles, and its `part` line.
pub fn atom_lines(placed: &[(&str, usize)]) -> String {
    let of_role = |key| {
        let placed = placed.iter();
        placed.filter(move |(line, _)| line.starts_with(key))
    };
    let (lines, parts): (String, Vec<String>) = ["pre", "add", "del"]
        .into_iter()
        .flat_map(of_role)
        .map(|(line, part)| (format!("{line}\n"), part.to_string()))
        .unzip();
    format!("{lines}part={}\n", parts.join(","))
}

/// The task less its parts, as PDDL tells it: every schema atom in part 0.
pub fn without_parts(task: &Task) -> Task {
    let mut task = task.clone();
    for schema in &mut task.schemas {
        for atom in &mut schema.atoms {
            atom.part = PartNumber(0);
        }
    }
    task
}

/// M, "a logger's move x, y, z".
pub const MOVE: &str = include_str!("move.txt");

/// What `split` prints for M, by example E1.
pub const MOVE_SPLIT: &str = include_str!("move_split.txt");

/// M's domain and problem, by document 02's note 1.
pub const MOVE_PDDL: &str = include_str!("move_pddl.txt");

/// A swap: two linked piers, which must differ, exchange their boats. Each pier's
/// atoms stand in a part of their own, the link with the first pier's.
pub const SWAP: &str = include_str!("swap.txt");

/// The split of the swap, by hand from document 02's note 4: no atom of one pier
/// has an arc to one of the other, so the part with two preconditions goes first,
/// and it alone has both piers.
pub const SWAP_SPLIT: &str = include_str!("swap_split.txt");

/// The swap's domain and problem, by hand from the same.
pub const SWAP_PDDL: &str = include_str!("swap_pddl.txt");

/// A text with a piece, which must be there, in another form.
pub fn changed(text: &str, piece: &str, other: &str) -> String {
    assert!(text.contains(piece), "no {piece:?} in {text}");
    text.replacen(piece, other, 1)
}

/// M with a piece of its text in another form.
pub fn changed_move(piece: &str, other: &str) -> String {
    changed(MOVE, piece, other)
}

/// The words or bytes that an entry point is lent and leaves as found, with its
/// answer.
pub fn as_found<Item: Clone + From<u8> + PartialEq, Value>(
    length: usize,
    entry: impl FnOnce(&mut [Item]) -> Answer<Value>,
) -> Answer<()> {
    let mut lent = vec![Item::from(7); length];
    let answer = entry(&mut lent);
    assert!(lent == vec![Item::from(7); length], "not as found");
    answer.map(drop)
}

/// The answers of splitting, unfolding and folding, where all leave as found.
pub fn answers_to_split(table: &[u16]) -> [Answer<()>; 3] {
    [
        as_found(TABLE_WORDS, |out| reference::split(table, out)),
        as_found(50, |out| reference::unfold(table, &[9], out)),
        as_found(50, |out| reference::fold(table, &[9], out)),
    ]
}

/// The words of a step, zeros behind its objects.
pub fn step<const OBJECTS: usize>(schema: u16, objects: [u16; OBJECTS]) -> Vec<u16> {
    let mut words = vec![schema];
    words.extend(objects);
    words.resize(STEP_WORDS, 0);
    words
}
