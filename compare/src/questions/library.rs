//! Request 2.1: chunks that others call. The whole figures are worked out by hand.
use super::{Asked, List};
use crate::form::{self, Chunk, MOST_CHUNKS, Op};
use crate::kinds::*;
use crate::pieces::{chunk, chunk_l, func, longer_l, op, ops, with_extra};
use crate::pinnaclemug::ROW;
use crate::refusals::*;

/// Which figure of the callee, and which Calls: those that the walk visits.
fn charges(list: &mut List) {
    let chain = [func(ops![CALL 1]), func(ops![CALL 2]), func(ops![YIELD])];
    list.sheet("whole: a chain of three", &chain)
        .whole(&[21, 11, 1]);
    let behind = [func(ops![YIELD]), func(ops![CALL]), func(ops![CALL 1])];
    list.sheet("whole: callees before their callers", &behind)
        .whole(&[1, 11, 21]);
    let both = [
        func(ops![YIELD, RETURN]),
        func(ops![CALL, CALL 2]),
        func(ops![CALL, YIELD]),
    ];
    list.sheet("whole: callees on both sides", &both)
        .whole(&[3, 37, 14]);
    let unvisited = [func(ops![RETURN, CALL 1]), func(ops![YIELD])];
    list.sheet("whole: a Call that is not visited", &unvisited)
        .whole(&[2, 1]);
    list.order("whole: its order", &unvisited, 2).is(&[1, 0]);
    list.sheet("whole: a callee outside the module", &[func(ops![CALL 1])])
        .is(&[10, 1, 32, 10]);
    let diamond = [
        func(ops![CALL 1, CALL 2]),
        func(ops![CALL 3, CALL 9]),
        func(ops![CALL 3, YIELD]),
        func(ops![LEN]),
    ];
    list.sheet("whole: a diamond", &diamond)
        .whole(&[55, 22, 13, 2]);
}

/// A callee that never returns, and one whose range alone counts.
fn callees(list: &mut List) {
    let trap = [func(ops![CALL 1, YIELD]), func(ops![TRAP])];
    list.sheet("whole: a callee that never returns", &trap)
        .whole(&[12, 1]);
    let stream = chunk(
        STREAMING,
        0,
        &[],
        ops![YIELD, STREAM, SET_DATA_INDEXED, RESET],
    );
    list.sheet("whole: a Stream callee", &[func(ops![CALL 1]), stream])
        .whole(&[18, 8]);
    let endless = [func(ops![LOOP 3, CALL 1, END_LOOP]), func(ops![TRAP])];
    list.sheet("whole: a Call in a loop without a count", &endless)
        .refused(NO_COUNT, 0, 0);
}

/// The longest chains: each chunk calls the next one, the one before it, and as often as the figure has room for.
fn chains(list: &mut List) {
    let most = usize::from(MOST_CHUNKS);
    let up: Vec<Chunk> = (1..=most).map(|c| func(vec![op(CALL, 0, c)])).collect();
    let figures: Vec<i64> = (0..most).map(|c| 10 * (most - c) as i64).collect();
    list.sheet("whole: 256 chunks, each calls the next", &up)
        .whole(&figures);
    let down = (0..most).map(|c| func(vec![op(CALL, 0, c.checked_sub(1).unwrap_or(most))]));
    let figures: Vec<i64> = (0..most).map(|c| 10 * (c + 1) as i64).collect();
    list.sheet(
        "whole: 256 chunks, each calls the one before",
        &down.collect::<Vec<_>>(),
    )
    .whole(&figures);
    let mut twice: Vec<Chunk> = (1..31)
        .map(|c| func(vec![op(CALL, 0, c), op(CALL, 0, c)]))
        .collect();
    twice.push(func(vec![]));
    let figures: Vec<i64> = (0..31)
        .map(|c| (20 * ((1i64 << (30 - c)) - 1)).min(i64::from(u32::MAX)))
        .collect();
    list.sheet("whole: two Calls of two Calls, 30 deep", &twice)
        .whole(&figures);
}

/// A chunk of one op with this extra.
fn extra(ops: Vec<Op>, extra: u32) -> Chunk {
    with_extra(&func(ops), 0, extra)
}

/// The cap: a callee there is only a great number, and its Call's extra alone is asked for open text.
fn cap(list: &mut List) {
    let most = i64::from(u32::MAX);
    let great = || extra(ops![YIELD], u32::MAX - 1);
    list.sheet("whole: a callee at the cap", &[func(ops![CALL 1]), great()])
        .is(&[10, 1, 32, most, most, 0, 0, most]);
    let raised = [extra(ops![CALL 1], u32::MAX - 1), func(ops![YIELD])];
    list.sheet("whole: the greatest extra that is no open text", &raised)
        .whole(&[most, 1]);
    let open = [extra(ops![CALL 1], u32::MAX), great()];
    list.sheet("whole: open text at the Call", &open)
        .refused(OPEN_TEXT, 0, 0);
    let unpassed = [longer_l(0, ops![CALL 1, POP_N b 1]), great()];
    list.sheet("whole: a callee at the cap, passed 0 times", &unpassed)
        .whole(&[12, most]);
}

/// Bodies, breaks and arms.
fn blocks(list: &mut List) {
    let callee = || func(ops![YIELD, YIELD, RETURN]);
    let body = longer_l(3, ops![CALL 1, POP_N b 1]);
    list.sheet("whole: a Call in a counted body", &[body, callee()])
        .whole(&[93, 4]);
    let left = longer_l(3, ops![CALL 1, POP_N b 1, BREAK_IF 18]);
    list.sheet("whole: a Call in the costliest break", &[left, callee()])
        .whole(&[112, 4]);
    let arms = func(ops![
        CONST, IF 4, CALL 1, ELSE 7, SET_DATA_INDEXED, SET_DATA_INDEXED, SET_DATA_INDEXED, END_IF, RETURN
    ]);
    list.sheet(
        "whole: the callee makes the other arm the greater",
        &[arms, func(ops![CALL 9, CALL 9])],
    )
    .whole(&[36, 20]);
}

/// A row of numbers a chunk; the words are looked at before the tray.
fn trays(list: &mut List) {
    let held = form::write(&[chunk_l(&[0, 3, 1])]);
    list.tray(
        "whole: chunk L, tray one short",
        Asked::Sheet,
        &held,
        ROW - 1,
    )
    .refused(SHORT_TRAY, 0, 0);
    list.tray(
        "whole: chunk L, tray as long as need be",
        Asked::Sheet,
        &held,
        ROW,
    )
    .is(&[48, 3, 160, 48]);
}

pub fn all(list: &mut List) {
    charges(list);
    callees(list);
    chains(list);
    cap(list);
    blocks(list);
    trays(list);
}
