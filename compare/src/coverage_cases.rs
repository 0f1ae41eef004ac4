//! The smallest cases of request 2.9's readings, each with what these say of whether every way through gives up its turn.
use crate::form::{Chunk, Op};
use crate::kinds::*;
use crate::pieces::{chunk, func, op, ops, with_extra};
use crate::sure_cases;
use crate::table::{NEVER, NO, YES};

/// A chunk alone as a module, by a name, the list that is lent, and the answer.
pub struct Told {
    pub name: &'static str,
    pub chunk: Chunk,
    pub list: Vec<u32>,
    pub said: i64,
}

fn told(name: &'static str, ops: Vec<Op>, said: i64) -> Told {
    listed(name, ops, &[], said)
}

fn listed(name: &'static str, ops: Vec<Op>, list: &[u32], said: i64) -> Told {
    Told {
        name,
        chunk: func(ops),
        list: list.to_vec(),
        said,
    }
}

/// `Loop 4, Yield, BreakIf 4, EndLoop`, which has no count.
pub fn uncounted() -> Vec<Op> {
    ops![LOOP 4, YIELD, BREAK_IF 4, END_LOOP]
}

/// So many Ifs in one another around these ops; the first stands at `from`.
pub fn ifs_at(from: usize, depth: usize, inside: Vec<Op>) -> Vec<Op> {
    let last = from + 2 * depth + inside.len() - 1;
    let mut ops: Vec<Op> = (0..depth).map(|i| op(IF, 0, last - i)).collect();
    ops.extend(inside);
    ops.extend((0..depth).map(|_| op(END_IF, 0, 0)));
    ops
}

/// A Loop at `from` around so many Ifs in one another around its Break.
fn around(from: usize, depth: usize) -> Vec<Op> {
    let target = from + 2 * depth + 3;
    let mut ops = vec![op(LOOP, 0, target)];
    ops.extend(ifs_at(from + 1, depth, vec![op(BREAK, 0, target)]));
    ops.extend(ops![END_LOOP]);
    ops
}

/// `If, Yield, Else, (such a Loop), EndIf`.
fn armed(depth: usize) -> Vec<Op> {
    let mut ops = ops![IF 3, YIELD, ELSE];
    ops.extend(around(3, depth));
    ops[2].a = ops.len() as u16;
    ops.extend(ops![END_IF]);
    ops
}

fn yield_then(depth: usize) -> Vec<Op> {
    let mut ops = ops![YIELD];
    ops.extend(ifs_at(1, depth, vec![]));
    ops
}

/// `Loop, Yield, Break, (257 Ifs in one another), BreakIf, EndLoop`: what is behind Break is dead, and were it looked at, BreakIf would not have yielded.
fn dead() -> Vec<Op> {
    let mut ops = ops![LOOP 519, YIELD, BREAK 519];
    ops.extend(ifs_at(3, 257, vec![]));
    ops.extend(ops![BREAK_IF 519, END_LOOP]);
    ops
}

fn loops() -> Vec<Told> {
    let inner = ops![LOOP 7, LOOP 4, BREAK 4, END_LOOP, YIELD, BREAK_IF 7, END_LOOP];
    let ends_behind = ops![LOOP 4, BREAK_IF 4, YIELD, END_LOOP];
    let twice = ops![LOOP 5, BREAK_IF 5, YIELD, BREAK_IF 5, END_LOOP];
    vec![
        told("Break, not yielded", ops![LOOP 3, BREAK 3, END_LOOP], NO),
        told("Yield, Break", ops![LOOP 4, YIELD, BREAK 4, END_LOOP], YES),
        told(
            "Yield behind a loop that is never left",
            ops![LOOP 2, END_LOOP, YIELD],
            NEVER,
        ),
        told("Yield, BreakIf", uncounted(), YES),
        told("BreakIf, Yield", ends_behind, NO),
        told("BreakIf, Yield, BreakIf", twice, NO),
        told(
            "Yield before a loop",
            ops![YIELD, LOOP 4, BREAK 4, END_LOOP],
            YES,
        ),
        told("a loop inside, left first", inner, YES),
    ]
}

fn arms() -> Vec<Told> {
    let both_break = ops![
        LOOP 10, IF 5, YIELD, BREAK 10, ELSE 7, YIELD, BREAK 10, END_IF, BREAK_IF 10, END_LOOP
    ];
    let ends_after = ops![YIELD, IF 4, LOOP 4, END_LOOP, END_IF];
    let one_ends = ops![IF 4, LOOP 3, END_LOOP, ELSE 5, YIELD, END_IF];
    let other_ends = ops![IF 3, YIELD, ELSE 5, LOOP 5, END_LOOP, END_IF];
    let none_ends = ops![IF 4, LOOP 3, END_LOOP, ELSE 6, LOOP 6, END_LOOP, END_IF];
    vec![
        told("arms that both yield and break", both_break, YES),
        told("If, Yield, EndIf", ops![IF 2, YIELD, END_IF], NO),
        told("Yield, If, EndIf", ops![YIELD, IF 2, END_IF], YES),
        told("Yield, and an arm that never ends", ends_after, YES),
        told(
            "an arm that never ends",
            ops![IF 3, LOOP 3, END_LOOP, END_IF],
            NO,
        ),
        told("both arms", ops![IF 3, YIELD, ELSE 4, YIELD, END_IF], YES),
        told("one of two", ops![IF 3, YIELD, ELSE 3, END_IF], NO),
        told("the second of two", ops![IF 2, ELSE 3, YIELD, END_IF], NO),
        told("the first never ends", one_ends, YES),
        told("the second never ends", other_ends, YES),
        told("neither ends", none_ends, NEVER),
        told(
            "Return in an arm",
            ops![IF 3, RETURN, ELSE 4, YIELD, END_IF],
            NO,
        ),
    ]
}

fn lists() -> Vec<Told> {
    let native = ops![CALL_VERIFIED_NATIVE 1];
    let external = ops![CALL_EXTERNAL_NATIVE 1];
    let most = u32::MAX;
    vec![
        listed("Call 1 over (0, 1)", ops![CALL 1], &[0, 1], YES),
        listed("Call 1 over (0, 2)", ops![CALL 1], &[0, 2], NO),
        listed("Call 1 over the greatest", ops![CALL 1], &[1, most], NO),
        listed("Call 1 over (0)", ops![CALL 1], &[0], NO),
        listed(
            "Call 1 over a longer list",
            ops![CALL 1],
            &[0, 1, 0, 1],
            YES,
        ),
        listed("Call 3 past the module", ops![CALL 3], &[0, 0, 0, 1], YES),
        listed("the chunk itself", ops![CALL], &[1], YES),
        listed("arguments are no matter", ops![CALL b 255], &[1], YES),
        listed("a native", native, &[1, 1], NO),
        listed("an external native", external, &[1, 1], NO),
    ]
}

fn deep() -> Vec<Told> {
    vec![
        told("Yield, 256 Ifs", yield_then(256), YES),
        told("Yield, 257 Ifs", yield_then(257), NO),
        told("257 dead Ifs", dead(), YES),
        told(
            "a Loop around 256 Ifs around its Break",
            around(0, 256),
            NEVER,
        ),
        told("a Loop around 255 Ifs around its Break", around(0, 255), NO),
        told("Yield or a Loop around 255 Ifs", armed(255), YES),
        told("Yield or a Loop around 254 Ifs", armed(254), NO),
        told("8,000 Ifs", ifs_at(0, 8_000, vec![]), NO),
    ]
}

fn others() -> Vec<Told> {
    let of = |name, chunk, said| Told {
        name,
        chunk,
        list: vec![],
        said,
    };
    let stream = |ops| chunk(STREAMING, 0, &[], ops);
    let before = stream(ops![RESET, YIELD, STREAM, YIELD]);
    let outside = stream(ops![YIELD, STREAM, LEN, RESET, YIELD]);
    let greatest = with_extra(&func(ops![YIELD]), 0, u32::MAX);
    vec![
        told("Yield", ops![YIELD], YES),
        told("another plain op", ops![LEN], NO),
        told("no ops", vec![], NO),
        told("Return", ops![RETURN], NO),
        told("Trap", ops![TRAP], NO),
        told("Return, Yield", ops![RETURN, YIELD], YES),
        told("Trap, Yield", ops![TRAP, YIELD], YES),
        of("Reset before Stream", before, NO),
        of("Yields outside the range", outside, NO),
        of("a Stream chunk", stream(ops![STREAM, YIELD, RESET]), YES),
        of(
            "a Reentrant chunk",
            chunk(REENTRANT, 0, &[], ops![YIELD]),
            YES,
        ),
        of("no 8", greatest, YES),
        of("no 16", sure_cases::arm(), NO),
        told("no 9 and never", ops![LOOP 2, END_LOOP], NEVER),
    ]
}

pub fn all() -> impl Iterator<Item = Told> {
    [others(), loops(), arms(), lists(), deep()]
        .into_iter()
        .flatten()
}
