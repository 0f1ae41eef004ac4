//! Request 2.8: counts that a path may not keep to, refusal 16. What the request's readings say is written beside each.
use super::{Asked, List};
use crate::form::{self, Chunk, Op};
use crate::moved::put_in;
use crate::nesting::{Around, nested};
use crate::pieces::{chunk_l, func, ops};
use crate::pinnaclemug::ROW;
use crate::refusals::*;
use crate::sure_cases::{self, arm, array, before_stream, counter, outer};
use crate::table::{ENDS, Outcome};

/// The readings' cases: the cycle walk, and where it is refused the sheet, which is so too.
fn readings(list: &mut List) {
    for (name, held, said) in sure_cases::all() {
        let held = [held];
        if let Outcome::Refused(number, c, p) = said {
            list.sheet(&format!("sure: {name}, sheet"), &held)
                .refused(number, c, p);
        }
        list.cycles(&format!("sure: {name}"), &held, 0).said = Some(said);
    }
}

/// The count alone and the stack walk do not ask.
fn untested(list: &mut List) {
    let counts = [
        ("the end set in an arm", arm(), 6, 3),
        ("values set in an outer row", outer(), 6, 3),
        ("values before Stream", before_stream(), 5, 3),
        ("an array made in an arm", array(), 9, 2),
        ("the end is the outer counter", counter(), 11, 0),
        ("the outer counter's own loop", counter(), 4, 2),
        ("L with 0, 2, 2^63-1", chunk_l(&[0, 2, i64::MAX]), 4, 1),
    ];
    for (name, held, p, count) in counts {
        let held = [held];
        list.count(&format!("sure: {name}, count at {p}"), &held, 0, p)
            .is(&[count]);
        list.stack(&format!("sure: {name}, stack"), &held, 0, &[]);
        list.order(&format!("sure: {name}, order"), &held, 1)
            .is(&[0]);
    }
    list.stack("sure: L, stack", &[chunk_l(&[0, 2, i64::MAX])], 0, &[])
        .is(&[3, ENDS, 160]);
}

/// The chunk with more ops before a position.
fn with(held: Chunk, at: usize, more: Vec<Op>) -> Chunk {
    Chunk {
        ops: put_in(&held.ops, at, &more),
        ..held
    }
}

/// The greatest number of blocks and one more, before the loop and behind it.
fn deep(list: &mut List) {
    let deep = nested(257, &[Around::Arm], None).ops;
    let before = [with(arm(), 6, deep.clone())];
    list.cycles("sure: 257 Ifs before it", &before, 0)
        .refused(TOO_DEEP, 0, 0);
    let behind = [with(arm(), 17, deep)];
    list.cycles("sure: 257 Ifs behind it", &behind, 0)
        .refused(UNSURE_COUNT, 0, 6);
    list.stack("sure: 257 Ifs behind it, stack", &behind, 0, &[])
        .refused(TOO_DEEP, 0, 0);
}

/// What comes before the walk: 13, 10, 5, 6 and 15.
fn behind(list: &mut List) {
    let words = form::write(&[arm()]);
    list.tray("sure: short tray", Asked::Sheet, &words, ROW - 1)
        .refused(SHORT_TRAY, 0, 0);
    list.sheet("sure: ring", &[with(arm(), 17, ops![CALL])])
        .refused(RING, 0, 0);
    let refused = [
        ("backward", ops![IF], BACKWARD, 17),
        ("crossed", ops![END_IF], CROSSED, 0),
    ];
    for (name, more, number, place) in refused {
        let mut held = arm();
        held.ops.extend(more);
        list.cycles(&format!("sure: {name} behind it"), &[held], 0)
            .refused(number, 0, place);
    }
    let mut stray = arm();
    stray.ops[10].a = 0;
    list.cycles("sure: its own BreakIf is stray", &[stray], 0)
        .refused(STRAY_BREAK, 0, 10);
}

/// Chunk after chunk in call order.
fn modules(list: &mut List) {
    let called = [func(ops![CALL 1]), arm()];
    list.sheet("sure: in the callee", &called)
        .refused(UNSURE_COUNT, 1, 6);
    list.order("sure: in the callee, order", &called, 2)
        .is(&[1, 0]);
    list.cycles("sure: in the callee, its caller", &called, 0)
        .is(&[10, 0]);
    list.cycles("sure: in the callee, the callee", &called, 1)
        .refused(UNSURE_COUNT, 1, 6);
    let calling = || with(arm(), 17, ops![CALL 1]);
    list.sheet("sure: in the caller", &[calling(), chunk_l(&[0, 3, 1])])
        .refused(UNSURE_COUNT, 0, 6);
    list.sheet("sure: in both", &[calling(), counter()])
        .refused(UNSURE_COUNT, 1, 11);
    let endless = func(ops![LOOP 2, END_LOOP]);
    list.sheet("sure: no count in the callee", &[calling(), endless])
        .refused(NO_COUNT, 1, 0);
    let stray = func(ops![CALL 1, LOOP 4, BREAK, END_LOOP]);
    list.sheet("sure: a stray break in the caller", &[stray, outer()])
        .refused(UNSURE_COUNT, 1, 6);
}

pub fn all(list: &mut List) {
    readings(list);
    untested(list);
    deep(list);
    behind(list);
    modules(list);
}
