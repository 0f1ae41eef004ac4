//! Every row of a few ops, by its grammar.
use crate::every::{Choices, each};
use crate::form::Op;
use crate::kinds::*;
use crate::pieces::{op, own_targets};

/// A row in the making: what it may have in no Loop and in one, the ops so far, and how many may still come.
struct Maker<'a> {
    choices: &'a mut Choices,
    plain: &'a [Op],
    ops: Vec<Op>,
    room: usize,
}

/// The ops that leave a Loop.
const LEAVING: [u8; 2] = [BREAK, BREAK_IF];

impl Maker<'_> {
    /// An opening op, for which and for whose end there is room.
    fn open(&mut self, kind: u8) -> usize {
        self.room -= 2;
        self.ops.push(op(kind, 0, 0));
        self.ops.len() - 1
    }

    fn body(&mut self) {
        let from = self.open(LOOP);
        self.row(true);
        self.ops.push(op(END_LOOP, 0, 0));
        self.ops[from].a = self.ops.len() as u16;
    }

    /// An If, with an Else or without.
    fn arms(&mut self, with_else: bool, in_loop: bool) {
        let mut from = self.open(IF);
        self.room -= usize::from(with_else);
        self.row(in_loop);
        if with_else {
            let other = self.ops.len();
            self.ops.push(op(ELSE, 0, 0));
            self.ops[from].a = other as u16 + 1;
            from = other;
            self.row(in_loop);
        }
        self.ops[from].a = self.ops.len() as u16;
        self.ops.push(op(END_IF, 0, 0));
    }

    /// Op after op and block after block, while there is room: a block takes two ops, with an Else three.
    fn row(&mut self, in_loop: bool) {
        let leaving = if in_loop { &LEAVING[..] } else { &[] };
        let ops = self.plain.len() + leaving.len();
        while self.room > 0 {
            let blocks = [0, 2, 3][(self.room - 1).min(2)];
            let k = self.choices.below((1 + ops + blocks) as u64) as usize;
            match k.checked_sub(1) {
                None => return,
                Some(k) if k < ops => {
                    self.room -= 1;
                    let plain = self.plain.get(k).copied();
                    let held = plain.unwrap_or_else(|| op(leaving[k - self.plain.len()], 0, 0));
                    self.ops.push(held);
                }
                Some(k) if k == ops => self.body(),
                Some(k) => self.arms(k - ops == 2, in_loop),
            }
        }
    }
}

/// Every row of at most so many ops over these, Break and BreakIf with their Loop's target, and the three blocks.
pub fn all(most: usize, plain: &[Op], see: impl FnMut(Vec<Op>)) {
    let make = |choices: &mut Choices| {
        let mut maker = Maker {
            choices,
            plain,
            ops: Vec::new(),
            room: most,
        };
        maker.row(false);
        own_targets(maker.ops)
    };
    each(make, see);
}
