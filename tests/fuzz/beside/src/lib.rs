//! The reference behind the names `reference_read` to `reference_sizes`, lent
//! and answered as `include/splitter.h` says, and its programs.

use reference::{programs, Answer};
use std::slice::{from_raw_parts, from_raw_parts_mut};

/// The number of an answer; its place is written.
fn told<Value>(answer: &Answer<Value>, place: &mut u64) -> u32 {
    match answer {
        Ok(_) => {
            *place = 0;
            0
        }
        Err(refusal) => {
            *place = refusal.place.number();
            refusal.number()
        }
    }
}

/// # Safety
/// Each pointer is lent with its length, as `include/splitter.h` says.
#[no_mangle]
pub unsafe extern "C" fn reference_read(
    text: *const u8,
    text_len: usize,
    table: *mut u16,
    table_len: usize,
    place: &mut u64,
) -> u32 {
    let answer = reference::read(
        from_raw_parts(text, text_len),
        from_raw_parts_mut(table, table_len),
    );
    told(&answer, place)
}

/// # Safety
/// As for reading.
#[no_mangle]
pub unsafe extern "C" fn reference_write(
    table: *const u16,
    table_len: usize,
    text: *mut u8,
    text_len: usize,
    place: &mut u64,
    bytes: &mut u64,
) -> u32 {
    let answer = reference::write(
        from_raw_parts(table, table_len),
        from_raw_parts_mut(text, text_len),
    );
    *bytes = *answer.as_ref().unwrap_or(&0);
    told(&answer, place)
}

/// # Safety
/// As for reading.
#[no_mangle]
pub unsafe extern "C" fn reference_write_pddl(
    table: *const u16,
    table_len: usize,
    text: *mut u8,
    text_len: usize,
    place: &mut u64,
    bytes: &mut u64,
) -> u32 {
    let answer = reference::write_pddl(
        from_raw_parts(table, table_len),
        from_raw_parts_mut(text, text_len),
    );
    *bytes = *answer.as_ref().unwrap_or(&0);
    told(&answer, place)
}

/// # Safety
/// As for reading.
#[no_mangle]
pub unsafe extern "C" fn reference_split(
    table: *const u16,
    table_len: usize,
    split: *mut u16,
    split_len: usize,
    place: &mut u64,
) -> u32 {
    let answer = reference::split(
        from_raw_parts(table, table_len),
        from_raw_parts_mut(split, split_len),
    );
    told(&answer, place)
}

/// # Safety
/// As for reading.
#[no_mangle]
pub unsafe extern "C" fn reference_run(
    table: *const u16,
    table_len: usize,
    steps: *const u16,
    steps_len: usize,
    state: *mut u16,
    state_len: usize,
    records: u64,
    place: &mut u64,
    left: &mut u64,
    goal: &mut u64,
) -> u32 {
    let answer = reference::run(
        from_raw_parts(table, table_len),
        from_raw_parts(steps, steps_len),
        from_raw_parts_mut(state, state_len),
        records,
    );
    (*left, *goal) = match &answer {
        Ok(ran) => (ran.records, u64::from(ran.goal_met)),
        Err(refusal) => (refusal.records, 0),
    };
    told(&answer, place)
}

/// # Safety
/// As for reading.
#[no_mangle]
pub unsafe extern "C" fn reference_unfold(
    table: *const u16,
    table_len: usize,
    steps: *const u16,
    steps_len: usize,
    out: *mut u16,
    out_len: usize,
    place: &mut u64,
    split_steps: &mut u64,
) -> u32 {
    let answer = reference::unfold(
        from_raw_parts(table, table_len),
        from_raw_parts(steps, steps_len),
        from_raw_parts_mut(out, out_len),
    );
    *split_steps = *answer.as_ref().unwrap_or(&0);
    told(&answer, place)
}

/// # Safety
/// As for reading.
#[no_mangle]
pub unsafe extern "C" fn reference_fold(
    table: *const u16,
    table_len: usize,
    split: *const u16,
    split_len: usize,
    out: *mut u16,
    out_len: usize,
    place: &mut u64,
    split_steps: &mut u64,
    steps: &mut u64,
) -> u32 {
    let answer = reference::fold(
        from_raw_parts(table, table_len),
        from_raw_parts(split, split_len),
        from_raw_parts_mut(out, out_len),
    );
    (*split_steps, *steps) = match &answer {
        Ok(folded) => (folded.split_steps, folded.steps),
        Err(_) => (0, 0),
    };
    told(&answer, place)
}

/// # Safety
/// As for reading.
#[no_mangle]
pub unsafe extern "C" fn reference_propose(
    table: *const u16,
    table_len: usize,
    width: u64,
    proposed: *mut u16,
    proposed_len: usize,
    scratch: *mut u64,
    scratch_len: usize,
    place: &mut u64,
) -> u32 {
    let answer = reference::propose(
        from_raw_parts(table, table_len),
        width,
        from_raw_parts_mut(proposed, proposed_len),
        from_raw_parts_mut(scratch, scratch_len),
    );
    told(&answer, place)
}

/// # Safety
/// As for reading.
#[no_mangle]
pub unsafe extern "C" fn reference_sizes(
    table: *const u16,
    table_len: usize,
    place: &mut u64,
    predicates: &mut u64,
    schemas: &mut u64,
    atoms: &mut u64,
    bytes: &mut u64,
    before: &mut u64,
    after: &mut u64,
) -> u32 {
    let answer = reference::sizes(from_raw_parts(table, table_len));
    let sizes = answer.map_or([0; 6], |sizes| {
        [
            sizes.predicates,
            sizes.schemas,
            sizes.schema_atoms,
            sizes.text_bytes,
            sizes.instances_before,
            sizes.instances_after,
        ]
    });
    [*predicates, *schemas, *atoms, *bytes, *before, *after] = sizes;
    told(&answer, place)
}

/// What a program printed is lent to be compared; 1 if it is what the
/// reference prints: for `split` (0), `unfold` (1), `pddl` (2) or `propose` (3).
/// Beside the task `unfold` has a plan, and `propose` its arguments, each ended
/// by byte 0.
///
/// # Safety
/// As for reading; `other` may be null where the program is `split` or `pddl`.
#[no_mangle]
pub unsafe extern "C" fn reference_prints(
    program: u32,
    task: *const u8,
    task_len: usize,
    other: *const u8,
    other_len: usize,
    printed: *const u8,
    printed_len: usize,
) -> u32 {
    let task = from_raw_parts(task, task_len);
    let expected = match program {
        0 => programs::split_program(task),
        1 => programs::unfold_program(Some(task), Some(from_raw_parts(other, other_len))),
        2 => programs::pddl_program(task),
        _ => {
            let arguments = from_raw_parts(other, other_len).split_inclusive(|byte| *byte == 0);
            let arguments: Vec<&[u8]> = arguments
                .filter_map(|argument| argument.strip_suffix(&[0]))
                .collect();
            programs::propose_program(&arguments, task)
        }
    };
    u32::from(expected == from_raw_parts(printed, printed_len))
}
