//! Texts of every kind, sound and damaged.

use std::ops::Range;

use crate::limits;
use crate::random::Random;
use crate::tasks::any_task;
use crate::LIMIT_NUMBERS;

const BYTES: &[u8] = b"0123456789,:=\n\r \0adefgiprt";

/// The text with one to three damages.
pub fn damaged(random: &mut Random, text: &[u8]) -> Vec<u8> {
    let mut text = text.to_vec();
    for _ in 0..random.pick(&[1, 1, 1, 2, 3]) {
        damage(random, &mut text);
    }
    text
}

fn damage(random: &mut Random, text: &mut Vec<u8>) {
    if text.is_empty() {
        return text.push(random.pick(BYTES));
    }
    let at = random.below(text.len());
    match random.below(12) {
        0 => text[at] = random.pick(BYTES),
        1 => text[at] ^= 1 << random.below(8),
        2 => text.insert(at, random.pick(BYTES)),
        3 => drop(text.remove(at)),
        4 => text.truncate(at),
        5 => text.push(random.pick(BYTES)),
        6 | 7 => damage_number(random, text),
        _ => damage_lines(random, text),
    }
}

/// The places of the numbers in a text.
fn numbers(text: &[u8]) -> Vec<Range<usize>> {
    let mut numbers: Vec<Range<usize>> = Vec::new();
    for (at, _) in text.iter().enumerate().filter(|(_, b)| b.is_ascii_digit()) {
        match numbers.last_mut() {
            Some(last) if last.end == at => last.end += 1,
            _ => numbers.push(at..at + 1),
        }
    }
    numbers
}

/// Another number, one out of range, one with leading zeros, or none.
fn damage_number(random: &mut Random, text: &mut Vec<u8>) {
    let numbers = numbers(text);
    if numbers.is_empty() {
        return;
    }
    let place = numbers[random.below(numbers.len())].clone();
    let digits = match random.below(8) {
        0 => [b"0", &text[place.clone()]].concat(),
        1 => Vec::new(),
        2 => b"99999".to_vec(),
        3 => b"100000".to_vec(),
        _ => random.pick(LIMIT_NUMBERS).to_string().into_bytes(),
    };
    text.splice(place, digits);
}

/// A line doubled, dropped, moved or repeated up to a limit.
fn damage_lines(random: &mut Random, text: &mut Vec<u8>) {
    let mut lines: Vec<&[u8]> = text.split_inclusive(|&byte| byte == b'\n').collect();
    let [at, other] = [(); 2].map(|()| random.below(lines.len()));
    match random.below(9) {
        0 | 1 => lines.insert(at, lines[at]),
        2 | 3 => drop(lines.remove(at)),
        4 | 5 => lines.swap(at, other),
        6 => lines.insert(other, lines[at]),
        7 => lines.insert(at, b"differ=0,1\n"),
        _ => {
            let times = random.pick(&[64, 65, 101, 201]);
            lines.splice(at..at, vec![lines[at]; times]);
        }
    }
    *text = lines.concat();
}

/// A text of a task: sound, with damages, with one wrong line, cut or longer
/// than any; or bytes that are no such text.
pub fn any_text(random: &mut Random) -> Vec<u8> {
    if random.chance(1, 40) {
        return bytes(random);
    }
    if random.chance(1, 20) {
        return too_many_pairs(random);
    }
    let task = if random.chance(1, 32) {
        limits::any_side(random)
    } else {
        any_task(random)
    };
    let text = task.to_string();
    match random.below(8) {
        0 => text.into_bytes(),
        1 => text[..random.below(text.len())].into(),
        2 | 3 => damaged(random, text.as_bytes()),
        4 if random.chance(1, 40) => oversized(random, &text),
        _ => with_wrong_line(random, &text),
    }
}

/// Bytes of any value, or such as texts are made of, sometimes behind a
/// beginning in form.
fn bytes(random: &mut Random) -> Vec<u8> {
    let mut text = Vec::new();
    if random.chance(1, 2) {
        text.extend_from_slice(b"task=1\nobjects=3\narity=");
    }
    let any = random.chance(1, 2);
    text.extend((0..random.below(200)).map(|_| {
        if any {
            random.bits() as u8
        } else {
            random.pick(BYTES)
        }
    }));
    text
}

/// The text with so much at some place that no text is as long.
fn oversized(random: &mut Random, text: &str) -> Vec<u8> {
    let mut lines: Vec<String> = text.lines().map(|line| format!("{line}\n")).collect();
    let at = random.below(lines.len());
    match random.below(3) {
        0 => lines[at].insert_str(0, &"x".repeat(70_000)),
        1 => {
            let body = lines[at].len() - 1;
            lines[at].insert_str(body, &",0".repeat(35_000));
        }
        _ => lines.push("end=1\n".repeat(12_000)),
    }
    lines.concat().into_bytes()
}

/// The text with one line in form that is wrong by a number from 4 to 8 or by
/// 19, where it has a line of the kind chosen.
fn with_wrong_line(random: &mut Random, text: &str) -> Vec<u8> {
    const KINDS: [&[&str]; 6] = [
        &["objects", "arity"],
        &["schema"],
        &["part"],
        &["pre", "add", "del"],
        &["init", "goal"],
        &["differ"],
    ];
    let kind = random.pick(&KINDS);
    let mut lines: Vec<String> = text.lines().map(|line| format!("{line}\n")).collect();
    let of_kind = |line: &String| {
        line.split_once('=')
            .is_some_and(|(key, _)| kind.contains(&key))
    };
    let places: Vec<usize> = (0..lines.len()).filter(|at| of_kind(&lines[*at])).collect();
    if !places.is_empty() {
        let at = random.pick(&places);
        make_wrong(random, &mut lines, at);
    }
    lines.concat().into_bytes()
}

fn make_wrong(random: &mut Random, lines: &mut Vec<String>, at: usize) {
    let (key, body) = lines[at].trim_end().split_once('=').expect("a line");
    let other = match key {
        "objects" => random.pick(&["0", "1001", "65536"]).to_string(),
        "arity" => format!(
            "{},{}{body}",
            random.below(7),
            "0,".repeat(random.pick(&[0, 396, 400]))
        ),
        "schema" if random.chance(1, 4) => return remove_atoms(lines, at),
        "schema" if random.chance(1, 3) => {
            let line = format!("differ={}\n", wrong_pair(random, "0,1"));
            return lines.insert(at + 1, line);
        }
        "schema" => random.pick(&["1", "6", "12", "13", "65536"]).to_string(),
        "part" => wrong_parts(random, body),
        "differ" => wrong_pair(random, body),
        _ if random.chance(1, 2) => return lines.insert(at, lines[at].clone()),
        _ => wrong_atom(random, body),
    };
    lines[at] = format!("{key}={other}\n");
}

/// Leaves the schema that begins here without an atom.
fn remove_atoms(lines: &mut Vec<String>, schema: usize) {
    let atoms = lines[schema + 1..]
        .iter()
        .take_while(|line| !line.starts_with("part"));
    let end = schema + 1 + atoms.count();
    lines.drain(schema + 1..end);
}

fn wrong_parts(random: &mut Random, body: &str) -> String {
    match random.below(4) {
        0 => format!("{body},0"),
        1 => body
            .rsplit_once(',')
            .map_or("", |(before, _)| before)
            .into(),
        2 => body.replace('0', "15"),
        _ => body.replace('0', "16"),
    }
}

/// A pair that is no pair, doesn't ascend or is too high; or no two numbers.
fn wrong_pair(random: &mut Random, body: &str) -> String {
    let (lower, higher) = body.split_once(',').expect("a pair");
    match random.below(8) {
        0 => format!("{higher},{lower}"),
        1 => format!("{lower},{lower}"),
        2 => format!("{lower},{}", random.pick(LIMIT_NUMBERS)),
        3 => format!("{},{higher}", random.pick(LIMIT_NUMBERS)),
        4 => "0,1".into(),
        5 => format!("{body},{higher}"),
        6 => lower.into(),
        _ => format!("{body}\ndiffer={body}"),
    }
}

/// The text of a task with 201 `differ` lines, the last of which may be wrong
/// in another way too.
fn too_many_pairs(random: &mut Random) -> Vec<u8> {
    let limit = limits::pairs();
    let text = limit.outside.to_string();
    let mut lines: Vec<&str> = text.split_inclusive('\n').collect();
    let bad = [
        "differ=1,0\n",
        "differ=0,1\n",
        "differ=0,12\n",
        "differ=0\n",
        "differ=0,1,2\n",
    ];
    if random.chance(1, 2) {
        lines[limit.place as usize - 1] = random.pick(&bad);
    }
    lines.concat().into_bytes()
}

/// Another predicate or number of arguments, or a high argument.
fn wrong_atom(random: &mut Random, body: &str) -> String {
    let (predicate, arguments) = body.split_once(':').expect("an atom");
    match random.below(4) {
        0 => format!("{}:{arguments}", random.pick(LIMIT_NUMBERS)),
        1 => format!("{predicate}:{arguments},0").replace(":,", ":"),
        2 => format!("{predicate}:"),
        _ => format!("{predicate}:{}", arguments.replace('0', "1000")),
    }
}
