//! Ops put into rows that are there already: blocks around what sets a value or around a whole loop, and other ops before a position.
use crate::document;
use crate::form::{Chunk, Op};
use crate::kinds::*;
use crate::pieces::{op, ops, own_targets};
use crate::random::Random;

/// Which op the target of the one at `i` names: the EndLoop or the Else right before it, or the EndIf there.
fn named(ops: &[Op], i: usize) -> Option<usize> {
    let target = usize::from(ops[i].a);
    match ops[i].kind {
        LOOP => Some(target - 1),
        IF if target > i + 1 && ops[target - 1].kind == ELSE => Some(target - 1),
        IF | ELSE => Some(target),
        _ => None,
    }
}

/// The ops of a row with some more before position `at`. Targets move with what they name; those of the new ops are counted from the first of these.
pub fn put_in(row: &[Op], at: usize, more: &[Op]) -> Vec<Op> {
    let mut held = row.to_vec();
    for (i, op) in held.iter_mut().enumerate() {
        if named(row, i).is_some_and(|named| named >= at) {
            op.a += more.len() as u16;
        }
    }
    let moved = more.iter().map(|op| Op {
        a: match op.kind {
            IF | ELSE | LOOP => op.a + at as u16,
            _ => op.a,
        },
        ..*op
    });
    held.splice(at..at, moved);
    own_targets(held)
}

/// The ops of a row with a block around those from `i` up to `to`: an If, the first or the second arm of one, or a Loop that a Break leaves.
fn within(row: &[Op], i: usize, to: usize, block: u64) -> Vec<Op> {
    let inside = to - i;
    let (front, back) = match block {
        0 => (vec![op(IF, 0, inside + 1)], ops![END_IF]),
        1 => (vec![op(IF, 0, inside + 2)], ops![ELSE 1, END_IF]),
        2 => (vec![op(IF, 0, 2), op(ELSE, 0, inside + 2)], ops![END_IF]),
        _ => (vec![op(LOOP, 0, inside + 3)], ops![BREAK, END_LOOP]),
    };
    put_in(&put_in(row, to, &back), i, &front)
}

/// The stretches of a range that a block may be put around: a SetLocal and up to two plain ops before it, or a loop.
fn stretches(ops: &[Op], from: usize, to: usize) -> Vec<(usize, usize)> {
    let is_plain = |i: usize| !matches!(ops[i].kind, IF..=BREAK_IF);
    let mut found = Vec::new();
    for i in from..to {
        match ops[i].kind {
            SET_LOCAL => {
                let before = (from..=i).rev().take(3).take_while(|&k| is_plain(k));
                found.extend(before.map(|k| (k, i + 1)));
            }
            LOOP => found.push((i, usize::from(ops[i].a))),
            _ => {}
        }
    }
    found
}

/// The chunk with blocks around one to three such stretches; none where there is no row with any.
pub fn some(from: &Chunk, random: &mut Random) -> Option<Chunk> {
    let mut held = from.clone();
    for _ in 0..1 + random.below(3) {
        document::chunk_row(&held).ok()?;
        let (start, end) = document::range(&held).ok()?;
        let stretches = stretches(&held.ops, start, end);
        if stretches.is_empty() {
            return None;
        }
        let (i, to) = random.pick(&stretches);
        held.ops = within(&held.ops, i, to, random.below(4));
    }
    Some(held)
}
