//! The smallest cases of request 2.8's readings, each with what these say of the cycle walk.
use crate::form::{Chunk, Op};
use crate::kinds::*;
use crate::loops::Ends;
use crate::moved::put_in;
use crate::pieces::{chunk, chunk_l, loop_at, ops, with_extra};
use crate::refusals::*;
use crate::table::Outcome;
use Outcome::{Answer, Refused};

const MAX: i64 = i64::MAX;
const MIN: i64 = i64::MIN;
const CAP: i64 = u32::MAX as i64;

/// A chunk by a name, and its cycle walk: the cycles and 1 if the row ends, or a refusal.
pub type Told = (String, Chunk, Outcome);

fn told(name: &str, chunk: Chunk, outcome: Outcome) -> Told {
    (name.to_string(), chunk, outcome)
}

fn answer(cycles: i64, ends: bool) -> Outcome {
    Answer(vec![cycles, i64::from(ends)])
}

fn refused(number: u32, place: usize) -> Outcome {
    Refused(number, 0, place)
}

/// Chunk L's loop behind these ops, and others behind it; the constants are its own.
fn looped(before: Vec<Op>, behind: Vec<Op>) -> Chunk {
    let mut ops = before;
    ops.extend(loop_at(ops.len()));
    ops.extend(behind);
    chunk(FUNC, 0, &[0, 3, 1], ops)
}

/// The end is set in an arm: the loop is at 6.
pub fn arm() -> Chunk {
    let before = ops![CONST, SET_LOCAL, IF 5, CONST 1, SET_LOCAL 1, END_IF];
    looped(before, vec![])
}

/// Both values are set in the row around that of the loop, which is at 6.
pub fn outer() -> Chunk {
    let before = ops![CONST, SET_LOCAL, CONST 1, SET_LOCAL 1, CONST, IF 17];
    looped(before, ops![END_IF])
}

/// The array is made in an arm: the loop is at 9.
pub fn array() -> Chunk {
    let before = ops![
        IF 3, NEW_COMPOSITE 2 b ARRAY, SET_LOCAL 3, END_IF, CONST, SET_LOCAL, GET_LOCAL 3, LEN,
        SET_LOCAL 1
    ];
    looped(before, vec![])
}

/// The end of the loop at 11 is the counter of the one around it: 50 cycles by the counts, and really 62.
pub fn counter() -> Chunk {
    let ops = ops![
        CONST, SET_LOCAL, CONST 1, SET_LOCAL 1, LOOP 28, GET_LOCAL, GET_LOCAL 1, CMP_GE,
        BREAK_IF 28, CONST, SET_LOCAL 2, LOOP 22, GET_LOCAL 2, GET_LOCAL, CMP_GE, BREAK_IF 22,
        GET_LOCAL 2, CONST 2, CHECKED_ADD, POP_N b 2, SET_LOCAL 2, END_LOOP 12, GET_LOCAL, CONST 2,
        CHECKED_ADD, POP_N b 2, SET_LOCAL, END_LOOP 5,
    ];
    chunk(FUNC, 0, &[0, 2, 1], ops)
}

/// The values before Stream: the loop is at 5.
pub fn before_stream() -> Chunk {
    let before = ops![CONST, SET_LOCAL, CONST 1, SET_LOCAL 1, STREAM];
    Chunk {
        mode: STREAMING,
        ..looped(before, ops![RESET])
    }
}

/// The end is 3, or 0 where an arm is passed: the loop is at 8, and 14 cycles by the counts are really 48 where the arm is not.
fn set_anew() -> Chunk {
    let before = ops![
        CONST, SET_LOCAL, CONST 1, SET_LOCAL 1, IF 7, CONST, SET_LOCAL 1, END_IF
    ];
    looped(before, vec![])
}

/// "directly in the row that holds the Loop": refused by 16.
fn other_rows() -> Vec<Told> {
    let start = ops![IF 3, CONST, SET_LOCAL, END_IF, CONST 1, SET_LOCAL 1];
    let none = ops![CONST, SET_LOCAL, IF 5, CONST, SET_LOCAL 1, END_IF];
    let body = ops![CONST, SET_LOCAL, LOOP 7, CONST 1, SET_LOCAL 1, BREAK 7, END_LOOP];
    let arms = ops![CONST, IF 7, CONST, SET_LOCAL, CONST 1, SET_LOCAL 1, ELSE 18];
    let copied = ops![
        NEW_COMPOSITE 2 b ARRAY, SET_LOCAL 3, IF 5, GET_LOCAL 3, SET_LOCAL 4, END_IF, CONST,
        SET_LOCAL, GET_LOCAL 4, LEN, SET_LOCAL 1
    ];
    let literal = ops![
        IF 3, NEW_COMPOSITE 2 b ARRAY, SET_LOCAL 3, END_IF, GET_LOCAL 3, SET_LOCAL 4, CONST,
        SET_LOCAL, GET_LOCAL 4, LEN, SET_LOCAL 1
    ];
    let length = ops![
        IF 3, NEW_COMPOSITE 2 b ARRAY, SET_LOCAL 3, END_IF, GET_LOCAL 3, LEN, SET_LOCAL, CONST 1,
        SET_LOCAL 1
    ];
    let unsure = |name, chunk, place| told(name, chunk, refused(UNSURE_COUNT, place));
    vec![
        unsure("the end set in an arm", arm(), 6),
        unsure("the start set in an arm", looped(start, vec![]), 6),
        unsure("an end of 0 set in an arm", looped(none, vec![]), 6),
        unsure("the end set anew in an arm", set_anew(), 8),
        unsure("the end set in a body", looped(body, vec![]), 7),
        unsure("values set in an outer row", outer(), 6),
        unsure("values in one arm", looped(arms, ops![END_IF]), 7),
        unsure("values before Stream", before_stream(), 5),
        unsure("an array made in an arm", array(), 9),
        unsure("the start's array in an arm", looped(length, vec![]), 9),
        unsure("an array copied in an arm", looped(copied, vec![]), 11),
        unsure("a copy's array in an arm", looped(literal, vec![]), 11),
        unsure("the end is the outer counter", counter(), 11),
    ]
}

/// The same row, whatever else stands in it.
fn same_row() -> Vec<Told> {
    let arm = ops![CONST, IF 17, CONST, SET_LOCAL, CONST 1, SET_LOCAL 1];
    let behind = ops![CONST, SET_LOCAL, IF 3, END_IF, CONST 1, SET_LOCAL 1, IF 7, END_IF];
    let array = ops![
        NEW_COMPOSITE 2 b ARRAY, SET_LOCAL 3, GET_LOCAL 3, SET_LOCAL 4, CONST, SET_LOCAL,
        GET_LOCAL 4, LEN, SET_LOCAL 1
    ];
    let stream = Chunk {
        mode: STREAMING,
        ..looped(
            ops![STREAM, CONST, SET_LOCAL, CONST 1, SET_LOCAL 1],
            ops![RESET],
        )
    };
    let no_locals = Chunk {
        locals: 0,
        ..chunk_l(&[0, 3, 1])
    };
    let sure = |name, chunk, cycles| told(name, chunk, answer(cycles, false));
    vec![
        sure("all in one arm", looped(arm, ops![END_IF]), 49),
        sure("blocks between in the row", looped(behind, vec![]), 50),
        sure("an array and its copy", looped(array, vec![]), 44),
        sure("values behind Stream", stream, 46),
        told("L with no locals", no_locals, answer(48, true)),
    ]
}

/// Chunk L with start, end and step: its cycles, or none where it is refused by 16.
const SUMS: [(Ends, Option<i64>); 16] = [
    ([0, 1, MAX], Some(24)),
    ([0, 2, MAX], None),
    ([0, 2, MAX - 1], Some(24)),
    ([MAX - 2, MAX, 2], None),
    ([MAX - 2, MAX, 1], Some(36)),
    ([MAX, 0, MAX], Some(12)),
    ([MAX, MAX, MAX], Some(12)),
    ([MAX, MIN, 5], Some(12)),
    ([0, MAX, 1 << 62], None),
    ([0, MAX, MAX], None),
    ([0, MAX, MAX - 1], None),
    ([0, MAX, (1 << 31) + 1], None),
    ([-1, MAX - 1, MAX], None),
    ([0, 3, 1 << 62], Some(24)),
    ([0, 1 << 33, 1 << 33], Some(24)),
    ([0, 8_589_934_590, 2], Some(CAP)),
];

fn sums() -> Vec<Told> {
    let each = SUMS.iter().map(|(ends, cycles)| {
        let outcome = match cycles {
            Some(cycles) => answer(*cycles, true),
            None => refused(UNSURE_COUNT, 4),
        };
        (format!("L with {ends:?}"), chunk_l(ends), outcome)
    });
    each.collect()
}

/// What is met before and behind 16, and where nothing is asked.
fn order() -> Vec<Told> {
    let with = |at, more: Vec<Op>| Chunk {
        ops: put_in(&arm().ops, at, &more),
        ..arm()
    };
    let open = |at| with_extra(&arm(), at, u32::MAX);
    let no_step = Chunk {
        constants: chunk_l(&[0, 3, 0]).constants,
        ..arm()
    };
    let no_value = ops![CONST, SET_LOCAL, IF 5, CONST 1, SET_LOCAL 3, END_IF];
    let unsure = refused(UNSURE_COUNT, 6);
    vec![
        told("open text at EndLoop", open(16), unsure.clone()),
        told("open text at Loop", open(6), refused(OPEN_TEXT, 6)),
        told("open text in the body", open(12), refused(OPEN_TEXT, 12)),
        told("no step", no_step, refused(NO_COUNT, 6)),
        told("no end", looped(no_value, vec![]), refused(NO_COUNT, 6)),
        told(
            "no count in the body",
            with(11, ops![LOOP 2, END_LOOP]),
            refused(NO_COUNT, 11),
        ),
        told("no count behind", with(17, ops![LOOP 2, END_LOOP]), unsure),
        told("dead", with(6, ops![RETURN]), answer(8, true)),
        told(
            "no way to EndLoop",
            with(11, ops![BREAK]),
            answer(13, false),
        ),
    ]
}

pub fn all() -> Vec<Told> {
    [other_rows(), same_row(), sums(), order()].concat()
}
