//! The pieces that the inputs are made of: ops, a chunk of them, a counted loop's header and tail, and chunk L.
use crate::form::{Chunk, Constant, Op};
use crate::kinds::*;

pub fn op(kind: u8, b: u8, a: usize) -> Op {
    Op {
        kind,
        b,
        a: a as u16,
    }
}

/// Ops by the names of their kinds, each with its field a and, behind the letter b, its field b, where they are not 0.
macro_rules! ops {
    ($($kind:ident $($a:literal)? $(b $b:tt)?),* $(,)?) => {
        vec![$(crate::pieces::op(crate::kinds::$kind, 0 $(+ $b)?, 0 $(+ $a)?)),*]
    };
}
pub(crate) use ops;

/// The innermost Loop around position `i`: the last before it whose target is behind it.
pub fn loop_around(ops: &[Op], i: usize) -> Option<usize> {
    (0..i).rfind(|&p| ops[p].kind == LOOP && i < usize::from(ops[p].a))
}

pub fn is_break(op: &Op) -> bool {
    matches!(op.kind, BREAK | BREAK_IF)
}

/// The ops with the target of the innermost Loop around it in each Break and BreakIf that has one, as request 2.4 asks. Lists are put together before their
/// loops' ends are known, so this comes last.
pub fn own_targets(mut ops: Vec<Op>) -> Vec<Op> {
    for i in 0..ops.len() {
        if is_break(&ops[i])
            && let Some(p) = loop_around(&ops, i)
        {
            ops[i].a = ops[p].a;
        }
    }
    ops
}

/// The header test of a loop that counts slot v up to slot e. `own_targets` files where its BreakIf goes.
pub fn header(v: usize, e: usize) -> [Op; 4] {
    [
        op(GET_LOCAL, 0, v),
        op(GET_LOCAL, 0, e),
        op(CMP_GE, 0, 0),
        op(BREAK_IF, 0, 0),
    ]
}

/// The tail of such a loop, which adds the constant of this index to slot v.
pub fn tail(v: usize, step: usize) -> [Op; 5] {
    [
        op(GET_LOCAL, 0, v),
        op(CONST, 0, step),
        op(CHECKED_ADD, 0, 0),
        op(POP_N, 2, 0),
        op(SET_LOCAL, 0, v),
    ]
}

/// Such a loop at a position, alone: of slot 0 up to slot 1, the constant 2 its step. This is chunk L's, with its targets.
pub fn loop_at(p: usize) -> Vec<Op> {
    let mut ops = vec![op(LOOP, 0, p + 11)];
    ops.extend(header(0, 1));
    ops.extend(tail(0, 2));
    ops.push(op(END_LOOP, 0, p + 1));
    ops[4].a = ops[0].a;
    ops
}

pub fn chunk(mode: u8, locals: u16, constants: &[i64], ops: Vec<Op>) -> Chunk {
    Chunk {
        locals,
        mode,
        constants: constants
            .iter()
            .map(|&value| Constant::Int(value))
            .collect(),
        ops,
        extras: Vec::new(),
    }
}

/// A Func chunk of these ops, with no locals and no constants.
pub fn func(ops: Vec<Op>) -> Chunk {
    chunk(FUNC, 0, &[], ops)
}

/// Chunk L of document 01 with other constants: its ops are `Const 0, SetLocal 0, Const 1, SetLocal 1, Loop 15, GetLocal 0, GetLocal 1, CmpGe, BreakIf 15,
/// GetLocal 0, Const 2, CheckedAdd, PopN 2, SetLocal 0, EndLoop 5, Return`.
pub fn chunk_l(constants: &[i64]) -> Chunk {
    let set = [
        op(CONST, 0, 0),
        op(SET_LOCAL, 0, 0),
        op(CONST, 0, 1),
        op(SET_LOCAL, 0, 1),
    ];
    let header = [
        op(LOOP, 0, 15),
        op(GET_LOCAL, 0, 0),
        op(GET_LOCAL, 0, 1),
        op(CMP_GE, 0, 0),
        op(BREAK_IF, 0, 15),
    ];
    let tail = [
        op(GET_LOCAL, 0, 0),
        op(CONST, 0, 2),
        op(CHECKED_ADD, 0, 0),
        op(POP_N, 2, 0),
        op(SET_LOCAL, 0, 0),
        op(END_LOOP, 0, 5),
    ];
    let ops = set.into_iter().chain(header).chain(tail);
    chunk(FUNC, 2, constants, ops.chain([op(RETURN, 0, 0)]).collect())
}

/// Chunk L with an end and some ops behind its BreakIf, targets moved.
pub fn longer_l(end: i64, more: Vec<Op>) -> Chunk {
    let mut held = chunk_l(&[0, end, 1]);
    held.ops[4].a += more.len() as u16;
    held.ops[8].a += more.len() as u16;
    held.ops.splice(9..9, more);
    held
}

/// The chunk with one extra, at op `i`.
pub fn with_extra(held: &Chunk, i: usize, extra: u32) -> Chunk {
    let mut held = held.clone();
    held.extras = vec![0; i];
    held.extras.push(extra);
    held
}

/// Chunk L with the end from an array: its literal, a copy of it, and its length.
pub fn chunk_l_array(length: usize) -> Chunk {
    let mut held = chunk_l(&[0, 3, 1]);
    let array = [
        op(NEW_COMPOSITE, ARRAY, length),
        op(SET_LOCAL, 0, 2),
        op(GET_LOCAL, 0, 2),
        op(SET_LOCAL, 0, 3),
        op(GET_LOCAL, 0, 3),
        op(LEN, 0, 0),
    ];
    held.ops.splice(2..3, array);
    held.ops[9].a = 20;
    held.ops[13].a = 20;
    held
}
