//! Each refusal with its place and what it leaves.

use checks::{
    answers_to_split, as_found, changed_move, read_table, step, MOVE, MOVE_PDDL, MOVE_SPLIT,
};
use reference::table::TABLE_WORDS;
use reference::{Answer, Place, Reason, Refusal};

const PARTS: &str = "part=0,0,1,1,2,0,1";

fn nowhere<Value>(reason: Reason) -> Answer<Value> {
    Err(Refusal::nowhere(reason))
}

fn at_step<Value>(reason: Reason, step: usize) -> Answer<Value> {
    Err(Refusal::at_step(reason, step))
}

/// The answers of all entry points that read a table, where all leave as found.
fn answers_to(table: &[u16]) -> [Answer<()>; 6] {
    let [split, unfold, fold] = answers_to_split(table);
    let write = as_found(1000, |text| reference::write(table, text));
    let write_pddl = as_found(1000, |text| reference::write_pddl(table, text));
    let run = as_found(20, |state| reference::run(table, &[9], state, 9));
    [write, write_pddl, split, run, unfold, fold]
}

#[test]
fn refusal_1() {
    let short = &read_table(MOVE.as_bytes())[..TABLE_WORDS - 1];
    assert_eq!(answers_to(short), [nowhere(Reason::TableTooShort); 6]);
    assert_eq!(answers_to(&[]), [nowhere(Reason::TableTooShort); 6]);
    let read = as_found(TABLE_WORDS - 1, |table| reference::read(b"", table));
    assert_eq!(read, nowhere(Reason::TableTooShort));
    let no_table = [0; TABLE_WORDS];
    let split = as_found(TABLE_WORDS - 1, |out| reference::split(&no_table, out));
    assert_eq!(split, nowhere(Reason::TableTooShort));
}

#[test]
fn refusal_2() {
    let mut table = read_table(MOVE.as_bytes());
    table[TABLE_WORDS - 1] = 1;
    assert_eq!(answers_to(&table), [nowhere(Reason::NotATable); 6]);
    table[TABLE_WORDS - 1] = 0;
    table.push(1);
    let written = reference::write(&table, &mut [0; 1000]);
    assert_eq!(written, Ok(MOVE.len() as u64));
    let written = reference::write_pddl(&table, &mut [0; 1000]);
    assert_eq!(written, Ok(MOVE_PDDL.len() as u64));
}

/// Reads M with a piece in another form, for each such change, and requires
/// refusal and line, and a table of zeros.
fn refused_lines(number: u32, changes: &[(&str, &str, u64)]) {
    for (piece, other, line) in changes {
        refused_line(piece, other, number, *line);
    }
}

fn refused_line(piece: &str, other: &str, number: u32, line: u64) {
    let text = changed_move(piece, other);
    let mut table = vec![7; TABLE_WORDS + 1];
    let refusal = reference::read(text.as_bytes(), &mut table).expect_err(&text);
    let found = (refusal.number(), refusal.place);
    assert_eq!(found, (number, Place::Line(line)), "{piece} as {other}");
    assert!(table[..TABLE_WORDS] == [0; TABLE_WORDS], "not all 0");
    assert_eq!(table[TABLE_WORDS], 7);
}

#[test]
fn refusal_3() {
    refused_lines(
        3,
        &[
            (MOVE, "", 1),
            (MOVE, "task=1\n", 2),
            ("task=1", "task=2", 1),
            ("task=1", "Task=1", 1),
            ("task=1", "task=1\r", 1),
            ("objects=3", "objects=03", 2),
            ("objects=3", "objects=00", 2),
            ("objects=3", "objects=", 2),
            ("objects=3", "objects=100000", 2),
            ("objects=3", "objects=3,3", 2),
            ("objects=3", "objects =3", 2),
            ("objects=3\n", "", 2),
            ("arity=2,1", "arity=", 3),
            ("arity=2,1", "arity=2,1,", 3),
            ("arity=2,1", "arity=,2,1", 3),
            ("schema=3", "schema=-3", 4),
            ("schema=3\n", "", 4),
            ("pre=0:0,1", "pre=0,0,1", 5),
            ("pre=0:0,1", "pre=:0,1", 5),
            ("pre=0:0,1", "pre=0:0,,1", 5),
            ("pre=0:0,1", "pre=0:0:1", 5),
            ("pre=0:0,1", "pre=0:0,1 ", 5),
            ("pre=0:0,1", "pre=0:0,1\0", 5),
            ("pre=0:0,1", "pre0:0,1", 5),
            ("add=1:1", "pre=1:1", 9),
            ("add=0:0,2", "\nadd=0:0,2", 8),
            (PARTS, "part=0,0,1,1,2,0,1,", 12),
            ("part=0,0,1,1,2,0,1\n", "", 12),
            ("init=0:0,1", "goal=0:0,1", 14),
            ("goal=0:0,2", "schema=0", 16),
            ("end=1\n", "end=1", 17),
            ("end=1\n", "", 17),
            ("end=1\n", "end=", 17),
            ("end=1\n", "end=0\n", 17),
            ("end=1\n", "end=1\n\n", 18),
            ("end=1\n", "end=1\nend=1\n", 18),
        ],
    );
}

/// Reads M with `differ` lines behind its `schema` line, and requires refusal
/// and line, and a table of zeros.
fn refused_pairs(number: u32, lines: &[(&str, u64)]) {
    for (lines, place) in lines {
        refused_line("schema=3", &format!("schema=3\n{lines}"), number, *place);
    }
}

/// "3 unless two numbers", and anywhere but "after its `schema` line".
#[test]
fn refusal_3_of_a_pair() {
    refused_pairs(
        3,
        &[
            ("differ=", 5),
            ("differ=0", 5),
            ("differ=0,", 5),
            ("differ=,1", 5),
            ("differ=0,1,2", 5),
            ("differ=0:1", 5),
            ("differ=0,01", 5),
            ("differ=0,100000", 5),
            ("differ=0,1 ", 5),
            ("differ 0,1", 5),
            ("Differ=0,1", 5),
            ("differ=3", 5),
            ("differ=1,0,0", 5),
            ("differ=0,1\ndiffer=2", 6),
            ("differ=0,1\n", 6),
        ],
    );
    refused_lines(
        3,
        &[
            ("schema=3", "differ=0,1\nschema=3", 4),
            ("pre=0:0,1\n", "pre=0:0,1\ndiffer=0,1\n", 6),
            ("add=0:0,2\n", "differ=0,1\nadd=0:0,2\n", 8),
            ("part=", "differ=0,1\npart=", 12),
            ("init=0:0,1", "differ=0,1\ninit=0:0,1", 13),
            ("end=1", "differ=0,1\nend=1", 17),
        ],
    );
}

#[test]
fn refusal_4() {
    refused_lines(
        4,
        &[
            ("objects=3", "objects=0", 2),
            ("objects=3", "objects=1001", 2),
            ("objects=3", "objects=65536", 2),
            ("objects=3", "objects=65537", 2),
            ("arity=2,1", "arity=5,1", 3),
            ("arity=2,1", "arity=2,65537", 3),
            ("schema=3", "schema=13", 4),
            ("schema=3", "schema=65539", 4),
        ],
    );
}

#[test]
fn refusal_5() {
    refused_lines(
        5,
        &[
            ("pre=0:0,1", "pre=2:0,1", 5),
            ("pre=0:0,1", "pre=65536:0,1", 5),
            ("pre=0:0,1", "pre=0:", 5),
            ("pre=0:0,1", "pre=0:0", 5),
            ("pre=0:0,1", "pre=0:0,1,2", 5),
            ("pre=0:0,1", "pre=0:0,1,2,0,1", 5),
            ("pre=0:0,1", "pre=0:0,3", 5),
            ("pre=0:0,1", "pre=0:0,65537", 5),
            ("init=0:0,1", "init=0:0,3", 13),
            ("goal=0:0,2", "goal=0:3,2", 16),
        ],
    );
}

#[test]
fn refusal_6() {
    refused_lines(
        6,
        &[
            ("pre=1:2", "pre=1:0", 7),
            ("add=1:1", "add=0:0,2", 9),
            ("del=1:2", "del=0:0,1", 11),
            ("init=1:2", "init=1:0", 15),
            ("init=1:2", "init=0:2,2", 15),
            ("goal=0:0,2", "goal=0:0,2\ngoal=0:0,1", 17),
        ],
    );
}

#[test]
fn refusal_7() {
    refused_lines(
        7,
        &[
            ("schema=3", "schema=4", 12),
            ("schema=3", "schema=0\npart=0\nschema=3", 5),
            ("schema=3", "schema=0\npart=\nschema=3", 5),
        ],
    );
}

#[test]
fn refusal_8() {
    refused_lines(
        8,
        &[
            (PARTS, "part=", 12),
            (PARTS, "part=0,0,1,1,2,0", 12),
            (PARTS, "part=0,0,1,1,2,0,1,0", 12),
            (PARTS, "part=0,0,1,1,16,0,1", 12),
            (PARTS, "part=0,0,1,1,65538,0,1", 12),
            (PARTS, "part=0,0,1,1,3,0,1", 12),
            (PARTS, "part=1,1,1,1,2,1,1", 12),
        ],
    );
}

#[test]
fn refusal_9() {
    let begin = MOVE.find("schema").expect("a schema");
    let end = MOVE.find("init").expect("an initial atom");
    let schema = &MOVE[begin..end];
    let circular = schema.replace(PARTS, "part=0,0,1,1,0,0,1");
    let text = changed_move(schema, &[schema, &circular, &circular].concat());
    let refused = Err(Refusal::new(Reason::NoOrder, Place::Schema(1)));
    let table = read_table(text.as_bytes());
    assert_eq!(answers_to_split(&table), [refused; 3]);
}

#[test]
fn refusal_10() {
    let arities = format!("arity=2,1{}", ",0".repeat(394));
    let table = read_table(changed_move("arity=2,1", &arities).as_bytes());
    let refused = nowhere(Reason::SplitTooLarge);
    assert_eq!(answers_to_split(&table), [refused; 3]);
}

#[test]
fn refusal_11() {
    let table = read_table(MOVE.as_bytes());
    let written = as_found(MOVE.len() - 1, |text| reference::write(&table, text));
    assert_eq!(written, nowhere(Reason::TextTooLong));
    let mut text = vec![7; MOVE.len() + 1];
    let written = reference::write(&table, &mut text);
    assert_eq!(written, Ok(MOVE.len() as u64));
    assert_eq!(text, [MOVE.as_bytes(), &[7]].concat());
}

#[test]
fn refusal_12() {
    let table = read_table(MOVE.as_bytes());
    let good = step(0, [0, 1, 1]);
    let bad_steps = [
        step(1, []),
        step(0, [0, 1, 3]),
        step(0, [0, 1, 2, 1]),
        step(0, [0, 1, 2])[..12].to_vec(),
        vec![0],
    ];
    for bad in bad_steps {
        let list = [good.clone(), good.clone(), bad].concat();
        let run = as_found(15, |state| reference::run(&table, &list, state, 9));
        assert_eq!(run, at_step(Reason::BadStep, 2));
        let unfolded = as_found(1, |out| reference::unfold(&table, &list, out));
        assert_eq!(unfolded, at_step(Reason::BadStep, 2));
    }
    for bad in [step(3, []), step(2, [3]), step(2, [0, 1]), vec![2, 0]] {
        let list = [step(2, [0]), step(1, [0, 1]), bad].concat();
        let folded = as_found(1, |out| reference::fold(&table, &list, out));
        assert_eq!(folded, at_step(Reason::BadStep, 2));
    }
}

#[test]
fn refusals_13_and_14() {
    let table = read_table(MOVE.as_bytes());
    let unfolded = as_found(38, |out| {
        reference::unfold(&table, &step(0, [0, 1, 2]), out)
    });
    assert_eq!(unfolded, nowhere(Reason::ResultTooLong));
    let block = [step(0, [0, 1]), step(1, [0, 2]), step(2, [1])].concat();
    let folded = as_found(12, |out| reference::fold(&table, &block, out));
    assert_eq!(folded, nowhere(Reason::ResultTooLong));

    for (list, place) in [
        ([block.clone(), step(2, [1])].concat(), 3),
        ([block.clone(), step(0, [1, 1])].concat(), 4),
        ([block[..13].to_vec(), block.clone()].concat(), 1),
        ([block[..13].to_vec(), step(1, [1, 2])].concat(), 1),
    ] {
        let folded = as_found(0, |out| reference::fold(&table, &list, out));
        assert_eq!(folded, at_step(Reason::NoBlock, place));
    }
}

#[test]
fn refusal_15() {
    let table = read_table(MOVE.as_bytes());
    let good = [[0, 0, 1, 0, 0], [1, 0, 0, 0, 0], [1, 2, 0, 0, 0]].concat();
    let refused = |state: &[u16], records: u64| {
        let mut lent = state.to_vec();
        let answer = reference::run(&table, &step(0, [0, 1, 1]), &mut lent, records);
        assert_eq!(lent, state);
        answer == nowhere(Reason::BadState)
    };
    assert!(!refused(&good, 3));
    for records in [4, u64::MAX, u64::MAX / 5 + 1, (u64::MAX / 5) + 3] {
        assert!(refused(&good, records), "{records} records");
    }
    assert!(refused(&good[..14], 3));
    for (index, word) in [(0, 2), (2, 3), (3, 1), (7, 1), (5, 0), (11, 0), (0, 1)] {
        let mut bad = good.clone();
        bad[index] = word;
        assert!(refused(&bad, 3), "word {index} as {word}");
    }
}

#[test]
fn refusals_16_and_17() {
    let adding = "schema=1\nadd=0:0\npart=0\n";
    let changing = "schema=1\npre=0:0\nadd=1:\ndel=0:0\npart=0,0,0\n";
    let growing = "schema=1\nadd=1:\nadd=2:\ndel=0:0\npart=0,0,0\n";
    let schemas = [adding, changing, growing].concat();
    let text = format!("task=1\nobjects=3\narity=1,0,0\n{schemas}end=1\n");
    let table = read_table(text.as_bytes());
    let mut state = vec![0, 1, 0, 0, 0, 7, 7, 7, 7, 7, 7, 7];
    let refused = |reason, place| {
        Err(Refusal {
            records: 2,
            ..Refusal::at_step(reason, place)
        })
    };
    let filling = [step(0, [0]), step(0, [1]), step(0, [2])].concat();
    let answer = reference::run(&table, &filling, &mut state, 1);
    assert_eq!(answer, refused(Reason::StateTooLarge, 2));
    let full = vec![0, 0, 0, 0, 0, 0, 1, 0, 0, 0, 0, 0];
    assert_eq!(state, full);

    let answer = reference::run(&table, &step(1, [2]), &mut state, 2);
    assert_eq!(answer, refused(Reason::PreconditionMissing, 0));
    assert_eq!(state, full);

    let growing = reference::run(&table, &step(2, [0]), &mut state, 2);
    assert_eq!(growing, refused(Reason::StateTooLarge, 0));
    assert_eq!(state, full);

    let exchanging = reference::run(&table, &step(1, [0]), &mut state, 2);
    assert_eq!(exchanging.map(|ran| ran.records), Ok(2));
    assert_eq!(state, [0, 1, 0, 0, 0, 1, 0, 0, 0, 0, 0, 0]);
}

#[test]
fn refusal_18() {
    let mut table = read_table(MOVE.as_bytes());
    for length in [0, 1, MOVE_PDDL.len() - 1] {
        let written = as_found(length, |text| reference::write_pddl(&table, text));
        assert_eq!(written, nowhere(Reason::PddlTooLong));
    }
    for behind in [0, 1, 100] {
        let mut text = vec![7; MOVE_PDDL.len() + behind];
        let written = reference::write_pddl(&table, &mut text);
        assert_eq!(written, Ok(MOVE_PDDL.len() as u64));
        assert_eq!(text, [MOVE_PDDL.as_bytes(), &vec![7; behind]].concat());
    }
    table[TABLE_WORDS - 1] = 1;
    let written = reference::write_pddl(&table, &mut []);
    assert_eq!(written, nowhere(Reason::NotATable));
}

/// "At a `differ` line that names a parameter too high, or whose pair or place
/// doesn't ascend."
#[test]
fn refusal_19() {
    refused_pairs(
        19,
        &[
            ("differ=0,3", 5),
            ("differ=3,4", 5),
            ("differ=0,65537", 5),
            ("differ=65536,1", 5),
            ("differ=1,0", 5),
            ("differ=1,1", 5),
            ("differ=0,1\ndiffer=0,1", 6),
            ("differ=0,2\ndiffer=0,1", 6),
            ("differ=1,2\ndiffer=0,1", 6),
            ("differ=1,2\ndiffer=0,2", 6),
            ("differ=0,1\ndiffer=1,2\ndiffer=1,3", 7),
        ],
    );
    let all = changed_move("schema=3", "schema=3\ndiffer=0,1\ndiffer=0,2\ndiffer=1,2");
    assert_eq!(read_table(all.as_bytes())[6], 3);
}

/// A line is refused before all that stands behind it, 7 of its own schema too.
#[test]
fn refusal_19_at_its_line() {
    refused_line("schema=3", "schema=4\ndiffer=0,4", 19, 5);
    refused_line("schema=3", "schema=0\ndiffer=0,1\npart=\nschema=3", 19, 5);
}

#[test]
fn an_empty_list_clears_the_words_behind_the_records() {
    let split = read_table(MOVE_SPLIT.as_bytes());
    let mut state = vec![7; 9];
    let ran = reference::run(&split, &[], &mut state, 0).expect("an empty list runs");
    assert_eq!((ran.records, ran.goal_met), (0, false));
    assert_eq!(state, [0; 9]);
}
