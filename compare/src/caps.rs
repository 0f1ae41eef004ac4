//! Figures about 4,294,967,295, where request 2.5's mark turns: chunks with an extra that brings their cycles to it, and with great extras at every op.
use crate::case::Case;
use crate::form::Chunk;
use crate::nesting::Around::{Arm, Body, FirstArm, SecondArm};
use crate::nesting::{counted, nested};
use crate::pieces::{chunk_l, chunk_l_array, func, longer_l, ops, with_extra};
use crate::verify::oracle;

const CAP: i64 = u32::MAX as i64;

/// Chunks of each shape that a row is made of, none of them at the cap.
fn shapes() -> Vec<Chunk> {
    let mut held = vec![
        func(ops![YIELD]),
        func(ops![YIELD, YIELD, RETURN]),
        func(ops![CONST, IF 4, YIELD, ELSE 5, TRAP, END_IF, RETURN]),
        func(ops![CONST, IF 3, LEN, END_IF]),
        func(ops![CONST, IF 4, LEN, ELSE 6, YIELD, RETURN, END_IF]),
        func(ops![LOOP 4, LEN, BREAK 4, END_LOOP, YIELD]),
        func(ops![LOOP 3, RETURN, END_LOOP, YIELD]),
        func(ops![LOOP 8, CONST, IF 5, LEN, BREAK 8, END_IF, RETURN, END_LOOP]),
        chunk_l_array(3),
        longer_l(0, ops![IF 12, YIELD, BREAK 19, END_IF]),
        longer_l(2, ops![IF 12, YIELD, BREAK 19, END_IF]),
    ];
    held.extend([0, 1, 2, 357_913_938, 357_913_939, 357_913_940].map(|n| chunk_l(&[0, n, 1])));
    held.extend([1, 2, 3].map(|depth| counted(depth, 7, Vec::new())));
    held.extend([3, 100, 256].map(|n| nested(n, &[Arm, FirstArm, SecondArm, Body], None)));
    held
}

/// An extra on an op brings the figure near the cap, if the op is passed once: two below it to two above.
fn near(see: &mut impl FnMut(Case)) {
    for held in shapes() {
        let Ok((cycles, _)) = oracle::cycles(&Case::of(&[held.clone()]).module.chunks[0]) else {
            panic!("this chunk has cycles")
        };
        for i in [0, 1, held.ops.len() / 2, held.ops.len() - 1] {
            for more in -2..=2 {
                let extra = CAP - i64::from(cycles) + more;
                if i < held.ops.len() && (0..CAP).contains(&extra) {
                    see(Case::of(&[with_extra(&held, i, extra as u32)]));
                }
            }
        }
    }
}

/// A great extra at every op, at the first 40 of a long chunk, and a half and a third of it: what a cut on the way leaves depends on arms, breaks and passes.
fn great(see: &mut impl FnMut(Case)) {
    for held in shapes() {
        for i in 0..held.ops.len().min(40) {
            for extra in [
                u32::MAX - 1,
                u32::MAX - 2,
                u32::MAX - 12,
                u32::MAX / 2,
                u32::MAX / 3,
            ] {
                see(Case::of(&[with_extra(&held, i, extra)]));
            }
        }
    }
}

/// Loops in one another whose products pass 2^64 and 2^128, passed and, the outermost of them, passed 0 times.
fn products(see: &mut impl FnMut(Case)) {
    for passes in [2, 65_535, 65_536, 65_537, 4_294_967_295] {
        for depth in [1, 2, 3, 4, 5, 8, 64, 255] {
            see(Case::of(&[counted(depth, passes, Vec::new())]));
            let mut none = counted(depth, passes, Vec::new());
            // The outermost loop's end is its start.
            none.ops[2].a = none.ops[0].a;
            see(Case::of(&[none]));
        }
    }
}

/// Callers of chunks at the cap and above it, whose marks are their own.
fn callers(see: &mut impl FnMut(Case)) {
    let callees = [
        ops![YIELD],
        ops![YIELD, YIELD],
        ops![RETURN],
        ops![LEN, CALL 2],
    ];
    for ops in callees {
        for extra in [0, u32::MAX - 2, u32::MAX - 1] {
            let callee = with_extra(&func(ops.clone()), 0, extra);
            for own in [0, u32::MAX - 11, u32::MAX - 10, u32::MAX - 9, u32::MAX - 1] {
                let caller = with_extra(&func(ops![CALL 1, CALL 2]), 0, own);
                see(Case::of(&[caller, callee.clone(), func(ops![YIELD])]));
            }
        }
    }
}

pub fn all(mut see: impl FnMut(Case)) {
    near(&mut see);
    great(&mut see);
    products(&mut see);
    callers(&mut see);
}
