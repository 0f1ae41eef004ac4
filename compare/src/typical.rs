//! A program of 300 words as a receiver may have it: a stream that reads eight wheels, checks each, and packs what it keeps.
use crate::form::{Chunk, Op};
use crate::kinds::*;
use crate::pieces::{chunk, header, op, ops, own_targets, tail};

/// The ops of a chunk in the making. Its constants are 0, 8, 1 and others behind them.
#[derive(Default)]
struct Body(Vec<Op>);

impl Body {
    fn push(&mut self, ops: Vec<Op>) {
        self.0.extend(ops);
    }

    /// A loop from 0 below 8 in the slots v and v + 1.
    fn counted(&mut self, v: usize, inside: impl FnOnce(&mut Body)) {
        self.0.extend([op(CONST, 0, 0), op(SET_LOCAL, 0, v)]);
        self.0.extend([op(CONST, 0, 1), op(SET_LOCAL, 0, v + 1)]);
        let from = self.0.len();
        self.0.push(op(LOOP, 0, 0));
        self.0.extend(header(v, v + 1));
        inside(self);
        self.0.extend(tail(v, 2));
        self.0.push(op(END_LOOP, 0, from + 1));
        self.0[from].a = self.0.len() as u16;
    }

    /// An If with two arms.
    fn arms(&mut self, first: impl FnOnce(&mut Body), second: impl FnOnce(&mut Body)) {
        let from = self.0.len();
        self.push(ops![IF]);
        first(self);
        let other = self.0.len();
        self.push(ops![ELSE]);
        self.0[from].a = other as u16 + 1;
        second(self);
        self.0[other].a = self.0.len() as u16;
        self.push(ops![END_IF]);
    }
}

/// The stream: each wheel is read, and kept or counted as missed.
fn stream() -> Chunk {
    let mut body = Body::default();
    body.push(ops![CONST, SET_LOCAL 4, STREAM, GET_DATA, SET_LOCAL 2]);
    body.counted(0, |wheel| {
        wheel.push(ops![GET_LOCAL, GET_DATA_INDEXED, DUP, SET_LOCAL 3]);
        wheel.push(ops![CALL 1 b 1, DUP, NOT]);
        wheel.arms(
            |missed| missed.push(ops![GET_LOCAL 4, CONST 2, CHECKED_ADD, POP_N b 2, SET_LOCAL 4]),
            |kept| kept.push(ops![GET_LOCAL 3, CALL 3 b 1, SET_DATA]),
        );
        wheel.push(ops![POP_N b 1]);
    });
    body.push(ops![CALL 2, SET_DATA, GET_LOCAL 4, CALL 4 b 1, YIELD]);
    body.push(ops![POP_N b 1, RESET]);
    let mut held = chunk(STREAMING, 5, &[0, 8, 1], own_targets(body.0));
    held.extras = vec![0; 16];
    held.extras[3] = 40;
    held.extras[15] = 12;
    held
}

/// A reading is in range, and not far from the last.
fn in_range() -> Chunk {
    let mut body = Body::default();
    body.push(ops![GET_LOCAL, CONST 3, CMP_LT]);
    body.arms(
        |low| low.push(ops![PUSH_IMMEDIATE, RETURN]),
        |other| {
            other.push(ops![GET_LOCAL, CONST 4, CMP_GT]);
            other.arms(
                |high| high.push(ops![PUSH_IMMEDIATE, RETURN]),
                |fair| fair.push(ops![GET_DATA, GET_LOCAL, CHECKED_SUB, POP_N b 1, SET_LOCAL 1]),
            );
        },
    );
    body.push(ops![GET_LOCAL 1, CONST 1, CMP_LE, RETURN]);
    chunk(FUNC, 2, &[0, 8, 1, 180, 950], body.0)
}

/// The mean of the kept readings, an array of eight.
fn mean() -> Chunk {
    let mut body = Body::default();
    body.push(ops![NEW_COMPOSITE 8 b ARRAY, SET_LOCAL 3, CONST, SET_LOCAL 2]);
    body.counted(0, |one| {
        one.push(ops![GET_LOCAL 3, GET_LOCAL, GET_INDEX b BOUNDED, GET_LOCAL 2]);
        one.push(ops![CHECKED_ADD, POP_N b 2, SET_LOCAL 2]);
    });
    body.push(ops![GET_LOCAL 2, CONST 1, DIV, RETURN]);
    chunk(FUNC, 4, &[0, 8, 1], own_targets(body.0))
}

/// A reading packed with its check bits.
fn packed() -> Chunk {
    let mut body = Body::default();
    body.push(ops![GET_LOCAL, SET_LOCAL 2, CONST, SET_LOCAL 3]);
    body.counted(4, |bit| {
        bit.push(ops![GET_LOCAL 2, CONST 2, BIT_AND, GET_LOCAL 3, BIT_XOR]);
        bit.push(ops![SET_LOCAL 3, GET_LOCAL 2, CONST 2, SHR, SET_LOCAL 2]);
    });
    body.push(ops![GET_LOCAL, CONST 2, SHL, GET_LOCAL 3, BIT_OR]);
    body.push(ops![RETURN]);
    chunk(FUNC, 6, &[0, 8, 1], own_targets(body.0))
}

/// What is shown for so many missed wheels: a text, or a native's lamp.
fn shown() -> Chunk {
    let mut body = Body::default();
    body.push(ops![GET_LOCAL, CONST, CMP_EQ]);
    body.arms(
        |none| none.push(ops![PUSH_IMMEDIATE, RETURN]),
        |some| {
            some.push(ops![GET_LOCAL, CONST 1, CMP_GE]);
            some.arms(
                |all| all.push(ops![CONST 3, CALL_VERIFIED_NATIVE 2 b 1, POP_N b 1]),
                |few| {
                    few.push(ops![GET_LOCAL, INT_TO_FLOAT, CALL_EXTERNAL_NATIVE 3 b 1, POP_N b 1])
                },
            );
        },
    );
    body.push(ops![RETURN]);
    let mut held = chunk(FUNC, 1, &[0, 8, 1, 7], body.0);
    held.extras = vec![0; 16];
    held.extras[12] = 64;
    held
}

pub fn program() -> Vec<Chunk> {
    vec![stream(), in_range(), mean(), packed(), shown()]
}
