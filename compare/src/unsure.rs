//! Modules about request 2.8: the cases of its readings with what they say, chunk L about 2^63, values set in other rows than the loop, loops that share slots,
//! other refusals before, in and behind such a loop, callers, and random modules in which blocks were put around what sets a value.
use crate::ALL;
use crate::case::Case;
use crate::counts::Counts;
use crate::every;
use crate::form::{self, Chunk, Op};
use crate::kinds::*;
use crate::limits;
use crate::moved::{self, put_in};
use crate::nesting::{Around, nested};
use crate::pieces::{chunk, chunk_l, header, loop_at, op, ops, own_targets, tail, with_extra};
use crate::placed::{self, Stretch};
use crate::programs;
use crate::random::Random;
use crate::refusals::UNSURE_COUNT;
use crate::steps;
use crate::sure;
use crate::sure_cases::{self, arm, array, counter, outer};
use crate::table::{self, Each, Outcome};

/// Each case of the readings: the plain rule has its 16, the cycle walk is what is said, and all comparisons.
fn readings(counts: &mut Counts) {
    for (name, held, said) in sure_cases::all() {
        let case = Case::of(&[held]);
        let place = match said {
            Outcome::Refused(UNSURE_COUNT, _, place) => Some(place),
            _ => None,
        };
        assert_eq!(sure::unsure(&case, 0), place, "{name}");
        let ours = table::cycles(&case.words, 0);
        counts.comparisons += 1;
        if ours != said {
            counts.differ("cycles", &ours, &said, &name);
        }
        counts.compare(&case, &ALL);
    }
}

/// Chunk L with ends and steps so that end - 1 + step lies about 2^63 - 1, and starts for counts of 0 and above.
fn about_limit(counts: &mut Counts) {
    let max = i128::from(i64::MAX);
    for end in [-1, 0, 1, 2, 3, 1 << 31, 1 << 62, max - 2, max - 1, max] {
        for sum in max - 2..=max + 2 {
            let step = sum - end + 1;
            for start in [
                end + 1,
                end,
                end - 1,
                end - 2,
                end - step,
                end - step - 1,
                0,
                -max - 1,
            ] {
                let [Ok(start), Ok(end), Ok(step)] = [start, end, step].map(i64::try_from) else {
                    continue;
                };
                steps::chunk_l_with(counts, [start, end, step], false);
                steps::chunk_l_with(counts, [start, end, step], true);
            }
        }
    }
}

const START: Stretch = |_| ops![CONST, SET_LOCAL];
const END: Stretch = |_| ops![CONST 1, SET_LOCAL 1];
const LOOPED: Stretch = loop_at;
const STREAMED: Stretch = |_| ops![STREAM];
const ENDED: Stretch = |_| ops![RETURN];
const ARRAYED: Stretch = |_| ops![NEW_COMPOSITE 2 b ARRAY, SET_LOCAL 3];
const COPIED: Stretch = |_| ops![GET_LOCAL 3, SET_LOCAL 4];
const LENGTH: Stretch = |_| ops![GET_LOCAL 4, LEN, SET_LOCAL 1];
const FIRST_LENGTH: Stretch = |_| ops![GET_LOCAL 4, LEN, SET_LOCAL];

/// The stretches that blocks are put about: both orders of the two values, the start set twice, two loops, a dead loop, the end or the start an array's
/// length, and Stream chunks, whose values may stand before Stream.
const STRETCHES: [&[Stretch]; 10] = [
    &[START, END, LOOPED],
    &[END, START, LOOPED],
    &[START, START, END, LOOPED],
    &[START, END, LOOPED, LOOPED],
    &[START, END, ENDED, LOOPED],
    &[ARRAYED, COPIED, START, LENGTH, LOOPED],
    &[ARRAYED, COPIED, FIRST_LENGTH, END, LOOPED],
    &[STREAMED, START, END, LOOPED],
    &[START, STREAMED, END, LOOPED],
    &[START, END, STREAMED, LOOPED],
];

/// Every way to put at most two blocks about them, for a loop that is passed three times or not at all.
fn places(counts: &mut Counts) {
    for stretches in STRETCHES {
        placed::each(stretches, 2, |mut ops| {
            let streaming = ops.iter().any(|op| op.kind == STREAM);
            let mode = if streaming { STREAMING } else { FUNC };
            ops.extend(ops![RESET]);
            for end in [3, 0] {
                let held = chunk(mode, 4, &[0, end, 1], ops.clone());
                counts.compare(&Case::of(&[held]), &ALL);
            }
        });
    }
}

/// Where a slot may be set: nowhere, before the outer loop, in its body before or behind the inner loop, in an arm there, and in the inner loop.
const SETS: usize = 6;

/// A loop in a loop, each slot set at one of those places; the outer loop counts slot 0 up to slot 1, the inner one v up to e.
fn shared(sets: [usize; 4], v: usize, e: usize) -> Chunk {
    let at = |place: usize| {
        let slots = (0..4).filter(move |&slot| sets[slot] == place);
        slots.flat_map(|slot| [op(CONST, 0, slot % 2), op(SET_LOCAL, 0, slot)])
    };
    let mut ops: Vec<Op> = at(1).collect();
    let outer = ops.len();
    ops.extend(ops![LOOP]);
    ops.extend(header(0, 1));
    ops.extend(at(2));
    let arm: Vec<Op> = at(3).collect();
    if !arm.is_empty() {
        ops.push(op(IF, 0, ops.len() + arm.len() + 1));
        ops.extend(arm);
        ops.extend(ops![END_IF]);
    }
    let inner = ops.len();
    ops.extend(ops![LOOP]);
    ops.extend(header(v, e));
    ops.extend(at(4));
    ops.extend(tail(v, 2));
    ops.extend(ops![END_LOOP]);
    ops[inner].a = ops.len() as u16;
    ops.extend(at(5));
    ops.extend(tail(0, 2));
    ops.extend(ops![END_LOOP]);
    ops[outer].a = ops.len() as u16;
    chunk(FUNC, 4, &[0, 3, 1], own_targets(ops))
}

fn loops_in_loops(counts: &mut Counts) {
    for k in 0..SETS.pow(4) {
        let sets = [1, 6, 36, 216].map(|n| k / n % SETS);
        for (v, e) in [(2, 3), (2, 0), (2, 1), (0, 3), (0, 1), (3, 2), (1, 3)] {
            counts.compare(&Case::of(&[shared(sets, v, e)]), &ALL);
        }
    }
}

/// Chunks with an unsure loop, and L.
fn some() -> Vec<Chunk> {
    let far = chunk_l(&[0, 2, i64::MAX]);
    vec![arm(), outer(), array(), counter(), far, chunk_l(&[0, 3, 1])]
}

/// Before each op of such a chunk: a loop with no count, one that ends the row, and Ifs in one another, the deepest of which may be too deep. And open text at
/// each op.
fn other_refusals(counts: &mut Counts) {
    let mut before = vec![
        ops![LOOP 2, END_LOOP],
        ops![LOOP 3, BREAK, END_LOOP],
        ops![RETURN],
        ops![LOOP 3, RETURN, END_LOOP],
    ];
    before.extend([255, 256, 257].map(|depth| nested(depth, &[Around::Arm], None).ops));
    for held in some() {
        for i in 0..held.ops.len() {
            counts.compare(&Case::of(&[with_extra(&held, i, u32::MAX)]), &ALL);
        }
        for more in &before {
            for at in 0..=held.ops.len() {
                let ops = put_in(&held.ops, at, more);
                let held = Chunk {
                    ops,
                    ..held.clone()
                };
                counts.compare(&Case::of(&[held]), &ALL);
            }
        }
    }
}

/// Modules of three chunks, one of them at least with an unsure loop: the first refusal in call order counts.
fn callers(counts: &mut Counts) {
    let mut held = limits::each_refusal();
    held.extend(some());
    limits::threes(&held, &mut |case| {
        if (0..case.chunks.len()).any(|c| sure::unsure(&case, c).is_some()) {
            counts.compare(&case, &ALL);
        }
    });
}

/// The row with the values of each counted loop set right before it, in slots of its own.
fn own_values(row: &Chunk) -> Chunk {
    let mut ops = row.ops.clone();
    for p in (0..row.ops.len()).rev() {
        let kinds = row.ops[p..].iter().map(|op| op.kind).take(2);
        if !kinds.eq([LOOP, GET_LOCAL]) {
            continue;
        }
        let (v, e) = (2 * p, 2 * p + 1);
        let back = usize::from(ops[p].a) - 6;
        ops.splice(p + 1..p + 5, header(v, e));
        ops.splice(back..back + 5, tail(v, 2));
        let values = [
            op(CONST, 0, 0),
            op(SET_LOCAL, 0, v),
            op(CONST, 0, 1),
            op(SET_LOCAL, 0, e),
        ];
        ops = put_in(&ops, p, &values);
    }
    Chunk { ops, ..row.clone() }
}

/// The small rows that are set apart, with values that are sure: else no loop in a block would be among them any more.
fn own_rows(counts: &mut Counts) {
    every::rows(7, |case| {
        if sure::unsure(&case, 0).is_some() {
            let held = own_values(&case.chunks[0]);
            counts.compare(&Case::of(&[held]), &[Each::Chunk]);
        }
    });
}

/// Random modules from a seed of their own, so that they move no other module; the steps of some are drawn anew.
fn random_modules(counts: &mut Counts, seed: u64, modules: u64) {
    let mut random = Random(seed.rotate_left(32) ^ 0x2828);
    for _ in 0..modules {
        let mut chunks = programs::own_targets(programs::module(&mut random));
        let callees = programs::callees(&mut random, chunks.len());
        let stepping = random.one_in(4);
        for held in &mut chunks {
            if stepping {
                *held = steps::drawn(held.clone(), &mut random);
            }
            *held = moved::some(held, &mut random).unwrap_or_else(|| held.clone());
        }
        let words = form::write(&chunks);
        if words.len() <= form::MOST_WORDS {
            counts.compare(&Case::new(words, callees), &ALL);
        }
    }
}

/// With so many random modules.
pub fn all(counts: &mut Counts, seed: u64, modules: u64) {
    readings(counts);
    about_limit(counts);
    places(counts);
    loops_in_loops(counts);
    other_refusals(counts);
    callers(counts);
    own_rows(counts);
    random_modules(counts, seed, modules);
}
