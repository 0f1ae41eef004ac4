//! Inputs about the limits of document 01, and its worked cases with the figures that it gives.
use crate::case::Case;
use crate::form::{self, Chunk, Op};
use crate::kinds::*;
use crate::nesting::Around::{self, Arm, Body, FirstArm, SecondArm};
use crate::nesting::{counted, nested};
use crate::pieces::{chunk, chunk_l, chunk_l_array, func, op, ops, own_targets};
use crate::refusals::*;
use crate::strays;
use crate::table::{self, Outcome};

/// Nesting about 256 and far beyond it, with what is charged at the edge.
fn nesting(see: &mut impl FnMut(Case)) {
    let shapes: [&[Around]; 7] = [
        &[Arm],
        &[FirstArm],
        &[SecondArm],
        &[Body],
        &[Arm, FirstArm, SecondArm, Body],
        &[Body, Arm],
        &[SecondArm, FirstArm],
    ];
    for around in shapes {
        for depth in [1, 2, 254, 255, 256, 257, 258, 300, 2000] {
            for inside in [
                None,
                Some(op(YIELD, 0, 0)),
                Some(op(TRAP, 0, 0)),
                Some(op(CONST, 0, 0)),
            ] {
                let mut held = nested(depth, around, inside);
                see(Case::of(std::slice::from_ref(&held)));
                if depth < 300 {
                    for greatest in [depth - 1, depth, held.ops.len() - 1] {
                        held.extras = vec![0; greatest.min(held.ops.len() - 1)];
                        held.extras.push(u32::MAX);
                        see(Case::of(std::slice::from_ref(&held)));
                    }
                }
            }
        }
    }
    for depth in [1, 2, 5, 10, 100, 255, 256, 257, 258] {
        for passes in [0, 1, 2, 3, 7] {
            see(Case::of(&[counted(depth, passes, Vec::new())]));
        }
    }
    for around in [Arm, Body] {
        see(Case::of(&[nested(5000, &[around], None)]));
    }
    see(Case::of(&[nested(8190, &[Arm], None)]));
}

/// Starts of a loop, and distances of its end.
const STARTS: [i64; 11] = [
    0,
    1,
    -1,
    5,
    1 << 31,
    1 << 32,
    -(1 << 32),
    i64::MAX,
    i64::MAX - 1,
    i64::MIN,
    i64::MIN + 1,
];
const DISTANCES: [i64; 12] = [
    -2,
    -1,
    0,
    1,
    2,
    3,
    (1 << 32) - 2,
    (1 << 32) - 1,
    1 << 32,
    (1 << 32) + 1,
    i64::MAX,
    i64::MIN,
];

/// Counts about 2^32 and the limits of 64 bits.
fn counts(see: &mut impl FnMut(Case)) {
    for start in STARTS {
        for distance in DISTANCES {
            for step in [1, 2, 0, -1, i64::MAX, i64::MIN] {
                let stop = start.wrapping_add(distance);
                see(Case::of(&[chunk_l(&[start, stop, step])]));
                see(Case::of(&[chunk_l(&[
                    start,
                    start.saturating_add(distance),
                    step,
                ])]));
            }
        }
    }
    for length in [0, 1, 2, 255, 256, 257, 32_767, 32_768, 65_534, 65_535] {
        see(Case::of(&[chunk_l_array(length)]));
    }
}

/// Word counts about 16,384 and chunk counts about 256, with chains and rings of calls.
fn sizes(see: &mut impl FnMut(Case)) {
    for ops in [16_381, 16_382] {
        for kind in [YIELD, CONST, NEW_COMPOSITE, CHECKED_NEG, GET_DATA_INDEXED] {
            let a = if kind == NEW_COMPOSITE { 65_535 } else { 0 };
            see(Case::of(&[chunk(
                0,
                65_535,
                &[],
                (0..ops).map(|_| op(kind, 0, a)).collect(),
            )]));
        }
    }
    for ops in [5_460, 5_459] {
        let mut held = chunk(FUNC, 0, &[], (0..ops).map(|_| op(YIELD, 0, 0)).collect());
        held.extras = vec![u32::MAX / 5_460; ops];
        see(Case::of(std::slice::from_ref(&held)));
        held.extras[ops - 1] = u32::MAX;
        see(Case::of(std::slice::from_ref(&held)));
    }
    for chunks in [255usize, 256] {
        let calling = |callee: &dyn Fn(usize) -> usize| {
            let held = (0..chunks).map(|c| {
                chunk(
                    0,
                    65_535,
                    &[],
                    vec![op(CALL, (c % 3) as u8, callee(c)), op(CONST, 0, 0)],
                )
            });
            Case::of(&held.collect::<Vec<_>>())
        };
        see(calling(&|c| c + 1));
        see(calling(&|c| c.wrapping_sub(1) & 0xffff));
        see(calling(&|c| (c + 1) % chunks));
        see(calling(&|c| (c * 7 + 3) % 300));
        see(calling(&|c| c));
    }
}

/// Stream chunks of at most four ops over Stream, Reset, a plain op, Trap, If and EndIf.
fn streams(see: &mut impl FnMut(Case)) {
    let alphabet = [
        op(STREAM, 0, 0),
        op(RESET, 0, 0),
        op(CONST, 0, 0),
        op(TRAP, 0, 0),
        op(END_IF, 0, 0),
        op(IF, 0, 2),
        op(IF, 0, 3),
    ];
    for length in 0..=5u32 {
        for k in 0..7usize.pow(length) {
            let ops = (0..length).map(|i| Op {
                ..alphabet[k / 7usize.pow(i) % 7]
            });
            see(Case::of(&[chunk(STREAMING, 1, &[], ops.collect())]));
        }
    }
}

/// So many Loops in one another around a break, or around nothing.
fn open_loops(loops: usize, inside: Option<Op>) -> Chunk {
    let end = 2 * loops + usize::from(inside.is_some());
    let mut ops: Vec<Op> = (0..loops).map(|i| op(LOOP, 0, end - i)).collect();
    ops.extend(inside);
    ops.extend((0..loops).map(|_| op(END_LOOP, 0, 0)));
    chunk(FUNC, 0, &[], own_targets(ops))
}

/// A chunk, with its own targets and with each stray.
fn with_strays(held: &Chunk, callees: &[u32], see: &mut impl FnMut(Case)) {
    let each = strays::each(held).chain([held.clone()]);
    each.for_each(|held| see(Case::new(form::write(&[held]), callees.to_vec())));
}

/// One stray of so many is taken where there are many breaks: about one of each break.
const EACH_BREAK: usize = 7;

/// Strays in few Loops and in as many as there may be, and before all that a walk may be refused by: nesting, open text, counts, the tallest stack.
fn stray_breaks(see: &mut impl FnMut(Case)) {
    let breaks = [BREAK, BREAK_IF].map(|kind| Some(op(kind, 0, 0)));
    for loops in [1, 2, 31, 32, 33, 255, 256, 257, 511, 512, 513, 4_095, 8_190] {
        for inside in [None, breaks[0], breaks[1]] {
            with_strays(&open_loops(loops, inside), &[], see);
        }
    }
    for blocks in [254, 255, 256, 257, 300] {
        for inside in breaks {
            let held = nested(blocks, &[Arm, SecondArm, Body, FirstArm], inside);
            let some = strays::each(&held).step_by(EACH_BREAK);
            for (open, mut strayed) in some.enumerate() {
                strayed.extras = vec![0; open];
                strayed.extras.push(u32::MAX);
                see(Case::of(&[strayed]));
            }
        }
    }
    let tall = ops![CALL, LOOP 4, BREAK 4, END_LOOP];
    with_strays(&chunk(FUNC, 1, &[], tall), &[u32::MAX], see);
}

/// Breaks before the range of a Stream chunk, in a Loop of it and behind it: only those in it are looked at.
fn outside_breaks(see: &mut impl FnMut(Case)) {
    let held = ops![YIELD, LOOP 5, BREAK, BREAK 4, BREAK 5, BREAK 6, BREAK_IF 1, BREAK_IF 5];
    for before in &held {
        for inside in &held {
            for behind in &held {
                let mut ops = ops![YIELD, STREAM, LOOP 5, YIELD, END_LOOP, RESET, YIELD];
                (ops[0], ops[3], ops[6]) = (*before, *inside, *behind);
                see(Case::of(&[chunk(STREAMING, 0, &[], ops)]));
            }
        }
    }
}

/// A chunk for each refusal that the ops of one may meet, and one that meets none.
pub fn each_refusal() -> Vec<Chunk> {
    let mut open = func(ops![YIELD]);
    open.extras = vec![u32::MAX];
    vec![
        func(vec![]),
        chunk(STREAMING, 0, &[], vec![]),
        chunk(STREAMING, 0, &[], ops![STREAM]),
        func(ops![IF]),
        func(ops![END_IF]),
        nested(257, &[Arm], None),
        open,
        func(ops![LOOP 2, END_LOOP]),
        func(ops![LOOP 3, BREAK, END_LOOP]),
        func(ops![YIELD, LOOP 4, BREAK_IF 5, END_LOOP]),
    ]
}

/// Modules of three of these, in which each chunk calls the next one, the one before, or one that there is not: in a sheet the first refusal in call order
/// counts.
pub fn threes(held: &[Chunk], see: &mut impl FnMut(Case)) {
    let n = held.len();
    for k in 0..n.pow(3) {
        for callee in [|c| c + 1, |c: usize| c.wrapping_sub(1), |_| usize::MAX] {
            let mut chunks = [k % n, k / n % n, k / n / n].map(|i| held[i].clone());
            for (c, chunk) in chunks.iter_mut().enumerate() {
                chunk.ops.push(op(CALL, 0, callee(c)));
            }
            see(Case::of(&chunks));
        }
    }
}

pub fn all(mut see: impl FnMut(Case)) {
    nesting(&mut see);
    counts(&mut see);
    sizes(&mut see);
    streams(&mut see);
    stray_breaks(&mut see);
    outside_breaks(&mut see);
    threes(&each_refusal(), &mut see);
}

/// Document 01's own figures, as it gives them: the chunk, the callee bytes, and the values of the cycle walk and of the stack walk that it names.
type Worked = (
    &'static str,
    Chunk,
    Vec<u32>,
    Option<Outcome>,
    Option<Outcome>,
);

fn cycles(value: i64, ends: bool) -> Option<Outcome> {
    Some(Outcome::Answer(vec![value, i64::from(ends)]))
}

fn stack(peak: i64, delta: i64, bytes: i64) -> Option<Outcome> {
    Some(Outcome::Answer(vec![peak, delta, bytes]))
}

fn refused(number: u32, place: usize) -> Option<Outcome> {
    Some(Outcome::Refused(number, 0, place))
}

fn open_text(at: usize) -> Chunk {
    let mut held = chunk(FUNC, 0, &[], ops![RETURN, YIELD]);
    held.extras = vec![0, 0];
    held.extras[at] = u32::MAX;
    held
}

/// A case of the cycle walk alone.
fn walk(name: &'static str, held: Chunk, said: Option<Outcome>) -> Worked {
    (name, held, vec![], said, None)
}

/// A case of both walks, with no callees.
fn walks(
    name: &'static str,
    held: Chunk,
    cycles: Option<Outcome>,
    stack: Option<Outcome>,
) -> Worked {
    (name, held, vec![], cycles, stack)
}

/// A Call alone of the greatest callee, by the stack walk.
fn greatest(name: &'static str, locals: u16, said: Option<Outcome>) -> Worked {
    let held = chunk(FUNC, locals, &[], ops![CALL]);
    (name, held, vec![u32::MAX], None, said)
}

/// Chunk L and its constants.
fn counted_cases() -> Vec<Worked> {
    let l = |start, end| chunk_l(&[start, end, 1]);
    let far = || refused(NO_COUNT, 4);
    let tall = stack(3, table::ENDS, 160);
    let most = cycles(4_294_967_295, true);
    vec![
        walks("chunk L", l(0, 3), cycles(48, true), tall),
        walk("constant 1 made 0", l(0, 0), cycles(12, true)),
        walk("made -1", l(0, -1), cycles(12, true)),
        walk("made 2^32 - 1", l(0, (1 << 32) - 1), most),
        walks("made 2^32", l(0, 1 << 32), far(), far()),
        walks("start -1, end 2^63 - 1", l(-1, i64::MAX), far(), far()),
    ]
}

/// Rows, ranges, extras and nesting.
fn row_cases() -> Vec<Worked> {
    let trapped = func(ops![CONST, IF 4, TRAP, ELSE 5, YIELD, END_IF, RETURN]);
    let empty = chunk(FUNC, 3, &[], vec![]);
    let nothing = chunk(STREAMING, 0, &[], ops![RESET, STREAM]);
    let looped = func(ops![LOOP 3, BREAK 3, END_LOOP]);
    let blocks = |n| nested(n, &[Arm], None);
    let deep = || refused(TOO_DEEP, 0);
    let crossed = || refused(CROSSED, 0);
    let none = || cycles(0, false);
    vec![
        walk("Else charged to an ended arm", trapped, cycles(7, true)),
        walks("no ops, locals 3", empty, none(), stack(0, 0, 96)),
        walk("open text", open_text(0), refused(OPEN_TEXT, 0)),
        walk("open text behind a Return", open_text(1), cycles(2, true)),
        walk("256 blocks", blocks(256), cycles(512, false)),
        walks("257 blocks", blocks(257), deep(), deep()),
        walks("If to the length", func(ops![IF 1]), crossed(), crossed()),
        walk("Loop to the length", looped, cycles(2, false)),
        walks("Reset before Stream", nothing, none(), stack(0, 0, 0)),
    ]
}

pub fn cases() -> Vec<Worked> {
    let most = stack(134_217_727, 1, 4_294_967_264);
    let mut cases = counted_cases();
    cases.extend(row_cases());
    cases.push(greatest("greatest callee", 0, most));
    cases.push(greatest(
        "greatest callee, one local",
        1,
        refused(TOO_TALL, 0),
    ));
    cases
}
