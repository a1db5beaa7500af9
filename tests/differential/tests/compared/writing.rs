//! Writing.

use checks::answers::each_answer;
use checks::inputs::{table_or_damaged, task_and_table};
use checks::report;
use checks::rows::write_row;
use checks::vectors::table_cases;
use differential::beside::{compare, lent_bytes, short_or_long, shown};
use differential::writing::write;
use generate::differing::any_differing_task;
use generate::{limits, tables, Random};
use reference::table::Task;

fn compared(table: &[u16], lent: &[u8]) -> u64 {
    compare(
        lent,
        |text| write_row(reference::write(table, text)),
        |text| write(table, text),
        || format!("{} bytes lent, table {}", lent.len(), shown(table)),
    )
}

#[test]
fn sound_and_damaged_tables() {
    each_answer("writing compared", 181, 50_000, &[0, 1, 2, 11], |random| {
        let (task, table) = task_and_table(random);
        let table = short_or_long(random, table);
        some_bytes(random, &task, &table)
    });
}

/// Compares writing into about as many bytes as the task needs.
fn some_bytes(random: &mut Random, task: &Task, table: &[u16]) -> u64 {
    compared(table, &lent_bytes(random, task.to_string().len()))
}

/// Tables with damaged blocks of pairs among them.
#[test]
fn parameters_that_differ() {
    let entry = "writing with pairs compared";
    each_answer(entry, 200, 30_000, &[0, 1, 2, 11], |random| {
        let task = any_differing_task(random);
        let table = table_or_damaged(random, &task);
        some_bytes(random, &task, &table)
    });
}

#[test]
fn tables_at_their_limits() {
    let limits = limits::reading();
    for limit in &limits {
        let answer = |task: &Task, bytes: usize| compared(&tables::table(task), &vec![b'x'; bytes]);
        let length = limit.inside.to_string().len();
        let inside = [length - 1, length].map(|bytes| answer(&limit.inside, bytes));
        assert_eq!(inside, [11, 0], "{}", limit.name);
        assert_eq!(answer(&limit.outside, 1 << 16), 2, "{}", limit.name);
    }
    report("tables at their limits written", 3 * limits.len());
}

#[test]
fn the_largest_text() {
    let task = limits::largest();
    let (table, length) = (tables::table(&task), task.to_string().len());
    let answers =
        [length - 1, length, length + 1].map(|bytes| compared(&table, &vec![b'x'; bytes]));
    assert_eq!(answers, [11, 0, 0]);
}

#[test]
fn vectors() {
    table_cases(|table| write(table, &mut [0; 1 << 16])[0] as u32);
}
