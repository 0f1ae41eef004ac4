//! Every small input of a kind: flat op lists, rows by their grammar, and every change of one or two ops in chunks with counted loops. Breaks name their own
//! Loops' targets; behind each input that has one in a Loop stand some in which one names another.
use crate::case::Case;
use crate::document;
use crate::form::{Chunk, Op};
use crate::kinds::*;
use crate::pieces::{chunk, header, op, own_targets, tail};
use crate::strays;

/// Choices one after the other. Each run takes the same choices as the one before, but for the last that could be counted up.
#[derive(Default)]
pub struct Choices {
    taken: Vec<(u64, u64)>,
    at: usize,
}

impl Choices {
    pub fn below(&mut self, end: u64) -> u64 {
        if self.at == self.taken.len() {
            self.taken.push((0, end));
        }
        self.at += 1;
        self.taken[self.at - 1].0
    }

    /// On to the next run; false after the last.
    fn next(&mut self) -> bool {
        self.at = 0;
        while let Some((value, end)) = self.taken.pop() {
            if value + 1 < end {
                self.taken.push((value + 1, end));
                return true;
            }
        }
        false
    }
}

/// What is made by each run of choices.
pub fn each<T>(mut make: impl FnMut(&mut Choices) -> T, mut see: impl FnMut(T)) {
    let mut choices = Choices::default();
    loop {
        see(make(&mut choices));
        if !choices.next() {
            return;
        }
    }
}

/// A chunk, and with one of its strays if it has any: by and by each.
fn seen(chunk: Chunk, number: &mut usize, see: &mut impl FnMut(Case)) {
    see(Case::of(std::slice::from_ref(&chunk)));
    if let Some(strayed) = strays::one(&chunk, *number) {
        *number += 1;
        see(Case::of(&[strayed]));
    }
}

/// Every list of `length` ops over these, and over If, Else and Loop with each target from `least(position)` to `most`.
pub fn flat(
    length: usize,
    others: &[Op],
    least: impl Fn(usize) -> usize,
    most: usize,
    see: &mut impl FnMut(Case),
) {
    let mut number = 0;
    let make = |choices: &mut Choices| {
        let ops = (0..length).map(|i| {
            let targets = (most + 1).saturating_sub(least(i));
            let k = choices.below((others.len() + 3 * targets) as u64) as usize;
            match others.get(k) {
                Some(held) => *held,
                None => {
                    let k = k - others.len();
                    op([IF, ELSE, LOOP][k / targets], 0, least(i) + k % targets)
                }
            }
        });
        let ops = own_targets(ops.collect());
        chunk(FUNC, 1, &[], ops)
    };
    each(make, |chunk| see_flat(chunk, &mut number, see));
}

/// A row is seen with each of its strays, other lists with one, since 5 or 6 is found first there.
fn see_flat(chunk: Chunk, number: &mut usize, see: &mut impl FnMut(Case)) {
    if document::chunk_row(&chunk).is_err() {
        return seen(chunk, number, see);
    }
    see(Case::of(std::slice::from_ref(&chunk)));
    strays::each(&chunk).for_each(|strayed| see(Case::of(&[strayed])));
}

/// An If, with an Else or without.
fn arms(choices: &mut Choices, ops: &mut Vec<Op>, room: &mut u64, loops: usize) {
    let from = ops.len();
    ops.push(op(IF, 0, 0));
    row(choices, ops, room, loops);
    if *room > 0 && choices.below(2) == 1 {
        *room -= 1;
        let other = ops.len();
        ops.push(op(ELSE, 0, 0));
        ops[from].a = other as u16 + 1;
        row(choices, ops, room, loops);
        ops[other].a = ops.len() as u16;
    } else {
        ops[from].a = ops.len() as u16;
    }
    ops.push(op(END_IF, 0, 0));
}

/// A Loop, counted or not.
fn body(choices: &mut Choices, ops: &mut Vec<Op>, room: &mut u64, loops: usize, counted: bool) {
    let from = ops.len();
    let v = 2 * (loops % 2);
    ops.push(op(LOOP, 0, 0));
    if counted {
        ops.extend(header(v, v + 1));
    }
    row(choices, ops, room, loops + 1);
    if counted {
        ops.extend(tail(v, 2));
    }
    ops.push(op(END_LOOP, 0, 0));
    ops[from].a = ops.len() as u16;
}

/// A row of at most so many items, written behind `ops`; counted loops use the locals 0 and 1, or 2 and 3, which were set before.
fn row(choices: &mut Choices, ops: &mut Vec<Op>, room: &mut u64, loops: usize) {
    while *room > 0 {
        let k = choices.below(if loops > 0 { 9 } else { 7 });
        *room -= 1;
        match k {
            0 => return,
            1 => ops.push(op(CONST, 0, 0)),
            2 => ops.push(op(POP_N, 2, 0)),
            3 => ops.push(op(TRAP, 0, 0)),
            4 => arms(choices, ops, room, loops),
            5 => body(choices, ops, room, loops, false),
            6 => body(choices, ops, room, loops, true),
            7 => ops.push(op(BREAK, 0, 0)),
            _ => ops.push(op(BREAK_IF, 0, 0)),
        }
    }
}

/// Every row of at most so many items. The loops are passed three times, or four.
pub fn rows(items: u64, mut see: impl FnMut(Case)) {
    let mut number = 0;
    let make = |choices: &mut Choices| {
        let mut ops = Vec::new();
        for (slot, index) in [(0, 0), (1, 1), (2, 0), (3, 3)] {
            ops.extend([op(CONST, 0, index), op(SET_LOCAL, 0, slot)]);
        }
        row(choices, &mut ops, &mut { items }, 0);
        chunk(FUNC, 4, &[0, 3, 1, 4], own_targets(ops))
    };
    each(make, |chunk| seen(chunk, &mut number, &mut see));
}

/// A chunk with other ops.
fn with_ops(from: &Chunk, ops: Vec<Op>) -> Chunk {
    Chunk {
        ops: own_targets(ops),
        ..from.clone()
    }
}

/// Each stretch of a chunk's ops, so that a header or a tail is cut off by either end.
pub fn stretches(from: &Chunk, see: &mut impl FnMut(Case)) {
    let mut number = 0;
    for end in 0..=from.ops.len() {
        for start in 0..=end {
            let ops = from.ops[start..end].to_vec();
            seen(with_ops(from, ops), &mut number, see);
        }
    }
}

/// A chunk, and each chunk that has one op replaced by each of `others`, taken out, or put in; with `pairs` each two ops replaced too.
pub fn changes(from: &Chunk, others: &[Op], pairs: bool, see: &mut impl FnMut(Case)) {
    let make = |choices: &mut Choices| {
        let mut ops = from.ops.clone();
        let other = |choices: &mut Choices| others[choices.below(others.len() as u64) as usize];
        let i = choices.below(ops.len() as u64) as usize;
        match choices.below(if pairs { 4 } else { 3 }) {
            0 => ops[i] = other(choices),
            1 => drop(ops.remove(i)),
            2 => ops.insert(i, other(choices)),
            _ => {
                let j = choices.below(i as u64 + 1) as usize;
                ops[i] = other(choices);
                ops[j] = other(choices);
            }
        }
        with_ops(from, ops)
    };
    let mut number = 0;
    seen(from.clone(), &mut number, see);
    each(make, |chunk| seen(chunk, &mut number, see));
}
