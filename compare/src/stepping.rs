//! Request 2.7: loops that step by other numbers than 1. The original counts every loop as if it stepped by 1. So where one does not, ours is held to what the
//! original's parts give with the counts of the request, and beside that it may not be above the original's own answer.
use crate::bytecode::{self, ConstValue};
use crate::case::Case;
use crate::document;
use crate::form::{Chunk, Constant};
use crate::kinds::*;
use crate::verify::oracle;

/// What stands right before a Loop's target, by kinds: its tail.
const TAIL: [u8; 6] = [GET_LOCAL, CONST, CHECKED_ADD, POP_N, SET_LOCAL, END_LOOP];

/// Where the Const of its step stands, of a Loop at `p` that has a tail.
pub fn step_place(chunk: &Chunk, p: usize) -> Option<usize> {
    let target = match chunk.ops.get(p) {
        Some(op) if op.kind == LOOP => usize::from(op.a),
        _ => return None,
    };
    let from = target.checked_sub(TAIL.len())?;
    let kinds = chunk.ops.get(from..target)?.iter().map(|op| op.kind);
    kinds.eq(TAIL).then_some(from + 1)
}

/// The constant of this index, if it is an integer.
pub fn integer(chunk: &Chunk, index: u16) -> Option<i64> {
    match chunk.constants.get(usize::from(index))? {
        Constant::Int(value) => Some(*value),
        Constant::Other => None,
    }
}

/// The step of the Loop at `p`, if there is an integer for it.
pub fn step(chunk: &Chunk, p: usize) -> Option<i64> {
    integer(chunk, chunk.ops[step_place(chunk, p)?].a)
}

/// Whether the Loop at `p` steps by a greater number than 1: there alone the original's count may be another.
pub fn steps(chunk: &Chunk, p: usize) -> bool {
    step(chunk, p).is_some_and(|step| step > 1)
}

/// Whether a Loop of the chunk does.
pub fn any(chunk: &Chunk) -> bool {
    (0..chunk.ops.len()).any(|p| steps(chunk, p))
}

/// "The count becomes the distance divided by the step, rounded up, with the 32-bit limit on that quotient. The distance itself must still fit a signed 64-bit
/// number." An end below the start makes it 0, however far below; a step that is not over 0 makes none, whatever the ends.
pub fn passes(start: i64, stop: i64, step: i64) -> Option<u32> {
    if step <= 0 {
        return None;
    }
    let (distance, step) = (i128::from(stop) - i128::from(start), i128::from(step));
    if distance < 0 {
        return Some(0);
    }
    if distance >= 1 << 63 {
        return None;
    }
    u32::try_from((distance + step - 1) / step).ok()
}

/// The count by the request, from the ends that the original finds.
pub fn count(case: &Case, c: usize, p: usize) -> Option<u32> {
    let (start, stop) = oracle::ends(&case.module.chunks[c], p)?;
    passes(start, stop, step(&case.chunks[c], p)?)
}

/// The constants of a level chunk: 0 and 1, and the index of none.
const ZERO: u16 = 0;
const ONE: u16 = 1;
const NO_INTEGER: u16 = 2;

/// The chunk in which the original has a count for just the loops of the range that have one by the request: every integer is 0, but the steps of those loops
/// are 1. Refusals, endings and the stack depend on nothing else of a count.
pub fn level(case: &Case, c: usize) -> bytecode::Chunk {
    level_without(case, c, &[])
}

/// The same, and the loops at these positions have none.
pub fn level_without(case: &Case, c: usize, none: &[usize]) -> bytecode::Chunk {
    let chunk = &case.module.chunks[c];
    let mut held = chunk.clone();
    held.constants = [0, 1].map(ConstValue::Int).to_vec();
    for op in &mut held.ops {
        if let bytecode::Op::Const(index) = op {
            *index = match chunk.constants.get(usize::from(*index)) {
                Some(ConstValue::Int(_)) => ZERO,
                _ => NO_INTEGER,
            };
        }
    }
    let (from, to) = document::range(&case.chunks[c]).unwrap_or_default();
    let counted = |p: &usize| !none.contains(p) && count(case, c, *p).is_some();
    for p in (from..to).filter(counted) {
        if let Some(place) = step_place(&case.chunks[c], p) {
            held.ops[place] = bytecode::Op::Const(ONE);
        }
    }
    held
}
