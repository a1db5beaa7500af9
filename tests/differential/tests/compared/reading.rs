//! Reading, and both round trips with writing.

use checks::answers::each_answer;
use checks::rows::plain_row;
use checks::{report, MOVE, SWAP};
use differential::beside::{compare, table_to_write};
use differential::reading::read;
use differential::writing::write;
use generate::tasks::any_task;
use generate::texts::any_text;
use generate::{limits, tables, Random};
use reference::table::TABLE_WORDS;

fn compared(text: &[u8], lent: &[u16]) -> u64 {
    compare(
        lent,
        |table| plain_row(reference::read(text, table)),
        |table| read(text, table),
        || {
            format!(
                "{} words lent, text {:?}",
                lent.len(),
                String::from_utf8_lossy(text)
            )
        },
    )
}

#[test]
fn texts_of_every_kind() {
    let expected = [0, 1, 3, 4, 5, 6, 7, 8, 19, 21];
    let given = each_answer("reading compared", 182, 100_000, &expected, |random| {
        let text = any_text(random);
        compared(&text, &table_to_write(random))
    });
    for refusal in [3, 4, 5, 6, 7, 8, 19, 21] {
        assert!(
            given[&refusal] >= 2_500,
            "few of {refusal}: {}",
            given[&refusal]
        );
    }
}

/// A text cut behind each byte, and with each byte changed to every value.
fn every_byte(name: &str, text: &[u8]) {
    let lent = [7; TABLE_WORDS];
    for cut in 0..text.len() {
        assert_eq!(compared(&text[..cut], &lent), 3);
    }
    for at in 0..text.len() {
        let mut text = text.to_vec();
        for byte in 0..=u8::MAX {
            text[at] = byte;
            compared(&text, &lent);
        }
    }
    report(
        &format!("{name} with a byte changed, compared"),
        257 * text.len(),
    );
}

#[test]
fn every_byte_of_m() {
    every_byte("M", MOVE.as_bytes());
}

#[test]
fn every_byte_of_the_swap() {
    every_byte("the swap", SWAP.as_bytes());
}

#[test]
fn texts_at_the_limits() {
    let limits = limits::reading();
    for limit in &limits {
        let answer = |text: String| compared(text.as_bytes(), &[7; TABLE_WORDS + 1]);
        assert_eq!(answer(limit.inside.to_string()), 0, "{}", limit.name);
        let refused = u64::from(limit.number);
        assert_eq!(answer(limit.outside.to_string()), refused, "{}", limit.name);
    }
    report("texts at the limits compared", 2 * limits.len());
}

#[test]
fn round_trips() {
    let mut random = Random::new(183);
    let tasks = 10_000;
    for number in 0..tasks {
        let task = match number {
            0 => limits::largest(),
            _ => any_task(&mut random),
        };
        let table = tables::table(&task);
        let mut text = vec![b'x'; 1 << 16];
        let [answer, _, bytes, _] = write(&table, &mut text);
        assert_eq!(answer, 0);
        text.truncate(bytes as usize);
        let mut back = vec![7; TABLE_WORDS];
        assert_eq!(read(&text, &mut back), [0; 4]);
        assert!(back == table, "{}", String::from_utf8_lossy(&text));
        let mut again = vec![b'x'; text.len()];
        assert_eq!(write(&back, &mut again), [0, 0, bytes, 0]);
        assert!(again == text, "{}", String::from_utf8_lossy(&text));
    }
    report("round trips in the proved code", tasks);
}
