//! What sets an input apart by document 01, as plain Rust reads it: the range, forward targets and rows, and the tallest stack; and by request 2.4: breaks that
//! name another target. And document 01's op table. Nothing here is taken from the original.
use crate::form::{Chunk, Op};
use crate::kinds::*;
use crate::refusals::*;

/// A refusal inside a chunk: its number and place.
#[derive(Clone, Copy, Debug, PartialEq)]
pub struct Refusal(pub u32, pub usize);

/// "Ops as kind: cycles/growth/shrink."
pub fn figures(op: &Op) -> (i64, i64, i64) {
    let (a, b) = (i64::from(op.a), i64::from(op.b));
    match op.kind {
        CONST | GET_LOCAL | GET_DATA | DUP | PUSH_IMMEDIATE => (1, 1, 0),
        SET_LOCAL | SET_DATA | IF | BREAK_IF => (1, 0, 1),
        GET_DATA_INDEXED => (8, 5, 0),
        SET_DATA_INDEXED => (8, 4, 0),
        BOUNDS_CHECK => (7, 5, 0),
        ADD..=MUL | CMP_EQ..=CMP_GE | FIXED_MUL | BIT_AND..=SHR => (2, 0, 1),
        DIV | MOD => (5, 1, 0),
        NEG | RETURN | GET_TUPLE_FIELD..=LEN | INT_TO_FLOAT..=FIXED_TO_WORD => (2, 0, 0),
        NOT | ELSE..=BREAK | STREAM | RESET | YIELD => (1, 0, 0),
        CALL => (10, 1, b),
        NEW_COMPOSITE => (5, 1, a),
        GET_FIELD => (3, 0, 0),
        GET_INDEX if b == i64::from(BOUNDED) => (8, 5, 0),
        GET_INDEX => (2, 0, 1),
        IS_ENUM | IS_STRUCT => (3, 1, 0),
        FIXED_DIV | CHECKED_ADD..=CHECKED_MUL | CHECKED_DIV | CHECKED_MOD => (2, 1, 0),
        CHECKED_NEG => (2, 2, 0),
        TRAP if a == 8 => (6, 0, 5),
        TRAP if a == 9 => (1, 0, 1),
        TRAP => (1, 0, 0),
        POP_N => (1, 0, b),
        CALL_VERIFIED_NATIVE | CALL_EXTERNAL_NATIVE => (10, if b >= 128 { 2 } else { 1 }, b % 128),
        kind => panic!("{kind} is the kind of no op"),
    }
}

/// "The range is all ops, or in a Stream chunk those after the first Stream and before the first Reset."
pub fn range(chunk: &Chunk) -> Result<(usize, usize), Refusal> {
    let first = |kind| chunk.ops.iter().position(|op| op.kind == kind);
    if chunk.mode != STREAMING {
        return Ok((0, chunk.ops.len()));
    }
    let stream = first(STREAM).ok_or(Refusal(NO_STREAM, 0))?;
    let reset = first(RESET).ok_or(Refusal(NO_RESET, 0))?;
    Ok((stream + 1, reset.max(stream + 1)))
}

/// "any If, Else, Loop target not after it, or past the length": the first such op
fn forward(ops: &[Op]) -> Result<(), Refusal> {
    let backward = |i: usize, op: &Op| {
        let target = usize::from(op.a);
        matches!(op.kind, IF | ELSE | LOOP) && !(i < target && target <= ops.len())
    };
    match ops.iter().enumerate().find(|(i, op)| backward(*i, op)) {
        Some((i, _)) => Err(Refusal(BACKWARD, i)),
        None => Ok(()),
    }
}

/// "It must be a row: plain ops; If t with EndIf at t; If t with Else e at t-1 and EndIf at e; Loop t with EndLoop at t-1; the parts between are rows again,
/// every end in the range, Break and BreakIf only inside a Loop." Whether the positions from `i` up to `to` are one.
fn row(ops: &[Op], mut i: usize, to: usize, in_loop: bool) -> bool {
    let is = |i: usize, kind| i < to && ops[i].kind == kind;
    while i < to {
        let t = usize::from(ops[i].a);
        let (inside, next) = match ops[i].kind {
            IF if t > i + 1 && is(t - 1, ELSE) => {
                let e = usize::from(ops[t - 1].a);
                let ends = e >= t && is(e, END_IF);
                let arms = || row(ops, i + 1, t - 1, in_loop) && row(ops, t, e, in_loop);
                (ends && arms(), e + 1)
            }
            IF if t > i && is(t, END_IF) => (row(ops, i + 1, t, in_loop), t + 1),
            LOOP if t > i + 1 && is(t - 1, END_LOOP) => (row(ops, i + 1, t - 1, true), t),
            IF..=END_LOOP => return false,
            BREAK | BREAK_IF => (in_loop, i + 1),
            _ => (true, i + 1),
        };
        if !inside {
            return false;
        }
        i = next;
    }
    true
}

/// "256 blocks in one another are walked."
pub const DEEPEST: usize = 256;

/// How many blocks of a row lie in one another.
pub fn depth(ops: &[Op]) -> usize {
    let (mut open, mut most) = (0, 0);
    for op in ops {
        match op.kind {
            IF | LOOP => open += 1,
            END_IF | END_LOOP => open -= 1,
            _ => {}
        }
        most = most.max(open);
    }
    most
}

/// The target of the innermost Loop around position `i` of a range that begins at `from`: that of the last Loop before `i` whose target is behind `i`.
fn target_around(ops: &[Op], from: usize, i: usize) -> Option<u16> {
    let loops = ops[from..i].iter().filter(|op| op.kind == LOOP);
    loops.map(|op| op.a).rfind(|&t| i < usize::from(t))
}

/// "the operand of Break and BreakIf must be the target of the innermost Loop around it": the first of the range that names another
fn own_targets(ops: &[Op], from: usize, to: usize) -> Result<(), Refusal> {
    let stray = |&i: &usize| {
        let op = &ops[i];
        matches!(op.kind, BREAK | BREAK_IF)
            && target_around(ops, from, i).is_some_and(|t| op.a != t)
    };
    match (from..to).find(stray) {
        Some(i) => Err(Refusal(STRAY_BREAK, i)),
        None => Ok(()),
    }
}

/// 3, 4, 5, 6 or 15, if the chunk is refused by one of them.
pub fn chunk_row(chunk: &Chunk) -> Result<(), Refusal> {
    let (from, to) = range(chunk)?;
    forward(&chunk.ops)?;
    if !row(&chunk.ops, from, to, false) {
        return Err(Refusal(CROSSED, 0));
    }
    own_targets(&chunk.ops, from, to)
}

/// "locals + peak over 134,217,727"
pub fn too_tall(locals: u16, peak: i64) -> bool {
    i64::from(locals) + peak > 134_217_727
}
