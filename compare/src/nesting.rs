//! Blocks in one another: Ifs, Loops that a Break leaves, and counted loops.
use crate::form::{Chunk, Op};
use crate::kinds::*;
use crate::pieces::{chunk, header, op, own_targets, tail};

/// A block around others: an If, an If with an Else whose first or second arm goes on inside, or a Loop that a Break leaves.
#[derive(Clone, Copy, PartialEq)]
pub enum Around {
    Arm,
    FirstArm,
    SecondArm,
    Body,
}
use Around::{Arm, Body, FirstArm, SecondArm};

/// Blocks in one another, each as `around` has it in turn, with `inside` at the middle.
pub fn nested(depth: usize, around: &[Around], inside: Option<Op>) -> Chunk {
    let mut ops = Vec::new();
    let mut open = Vec::new();
    for i in 0..depth {
        let block = around[i % around.len()];
        open.push((ops.len(), block));
        ops.push(op(if block == Body { LOOP } else { IF }, 0, 0));
        if block == SecondArm {
            ops.push(op(ELSE, 0, 0));
        }
    }
    ops.extend(inside);
    while let Some((from, block)) = open.pop() {
        match block {
            Arm => ops[from].a = ops.len() as u16,
            FirstArm => {
                ops.push(op(ELSE, 0, ops.len() + 1));
                ops[from].a = ops.len() as u16;
            }
            SecondArm => {
                ops[from].a = from as u16 + 2;
                ops[from + 1].a = ops.len() as u16;
            }
            Body => {
                ops.push(op(BREAK, 0, 0));
                ops[from].a = ops.len() as u16 + 1;
            }
        }
        ops.push(op(if block == Body { END_LOOP } else { END_IF }, 0, 0));
    }
    chunk(FUNC, 0, &[], own_targets(ops))
}

/// A counted loop in a counted loop and so on, each with its own two locals set before it, and `inside` at the middle.
pub fn counted(depth: usize, passes: i64, inside: Vec<Op>) -> Chunk {
    let mut ops = Vec::new();
    let mut open = Vec::new();
    for i in 0..depth {
        let v = 2 * i;
        ops.extend([
            op(CONST, 0, 0),
            op(SET_LOCAL, 0, v),
            op(CONST, 0, 1),
            op(SET_LOCAL, 0, v + 1),
        ]);
        open.push((ops.len(), v));
        ops.push(op(LOOP, 0, 0));
        ops.extend(header(v, v + 1));
    }
    ops.extend(inside);
    while let Some((from, v)) = open.pop() {
        ops.extend(tail(v, 2));
        ops.push(op(END_LOOP, 0, 0));
        ops[from].a = ops.len() as u16;
    }
    let ops = own_targets(ops);
    chunk(FUNC, 2 * depth as u16, &[0, passes, 1], ops)
}
