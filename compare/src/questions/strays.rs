//! Request 2.4: breaks that do not name the target of the innermost Loop around them. What the documents say is written beside each.
use super::{Asked, List};
use crate::form::{self, Chunk, Op};
use crate::kinds::*;
use crate::pieces::{chunk, chunk_l, func, op, ops};
use crate::pinnaclemug::ROW;
use crate::refusals::*;

/// Both walks of a chunk alone and its sheet, which have the same refusal.
fn refused(list: &mut List, name: &str, held: Chunk, number: u32, place: usize) {
    let held = [held];
    list.cycles(&format!("stray: {name}"), &held, 0)
        .refused(number, 0, place);
    list.stack(&format!("stray: {name}, stack"), &held, 0, &[])
        .refused(number, 0, place);
    list.sheet(&format!("stray: {name}, sheet"), &held)
        .refused(number, 0, place);
}

/// A Func chunk of these ops, whose first stray stands here.
fn stray(list: &mut List, name: &str, ops: Vec<Op>, place: usize) {
    refused(list, name, func(ops), STRAY_BREAK, place);
}

/// The innermost Loop: not one around it, and not one that is closed.
fn innermost(list: &mut List) {
    let outer = ops![LOOP 6, LOOP 4, BREAK 6, END_LOOP, BREAK 6, END_LOOP];
    stray(list, "Break of the outer loop", outer, 2);
    let own = func(ops![LOOP 6, LOOP 4, BREAK 4, END_LOOP, BREAK 6, END_LOOP]);
    let own = [own];
    list.cycles("stray: none, each Break of its own loop", &own, 0)
        .is(&[4, 0]);
    list.sheet("stray: none, each Break of its own loop, sheet", &own)
        .is(&[4, 0, 0, 4]);
    let outer = ops![LOOP 7, LOOP 5, BREAK_IF 7, BREAK 5, END_LOOP, BREAK 7, END_LOOP];
    stray(list, "BreakIf of the outer loop", outer, 2);
    let closed = ops![LOOP 6, LOOP 4, BREAK 4, END_LOOP, BREAK 4, END_LOOP];
    stray(list, "Break of a closed loop", closed, 4);
}

/// An arm is inside the Loop around its If.
fn arms(list: &mut List) {
    let kept = func(ops![LOOP 5, IF 3, BREAK 5, END_IF, END_LOOP]);
    refused(list, "none, Break in an arm", kept, NO_COUNT, 0);
    let arm = ops![LOOP 5, IF 3, BREAK 4, END_IF, END_LOOP];
    stray(list, "Break out of its arm", arm, 2);
    let second = ops![LOOP 8, IF 4, BREAK 8, ELSE 5, BREAK 5, END_IF, BREAK 8, END_LOOP];
    stray(list, "Break in the second arm", second, 4);
    let inner = ops![LOOP 8, IF 5, LOOP 5, BREAK 8, END_LOOP, END_IF, BREAK 8, END_LOOP];
    stray(list, "Break of a loop around the arm", inner, 3);
}

/// What may stand for a target: its neighbours, 256 more, and the greatest.
fn operands(list: &mut List) {
    stray(list, "Break 0", ops![LOOP 3, BREAK, END_LOOP], 1);
    for a in [1, 2, 4, 259, 65_535] {
        let mut ops = ops![LOOP 3, BREAK, END_LOOP];
        ops[1].a = a;
        list.func(&format!("stray: Break {a} for Break 3"), ops)
            .refused(STRAY_BREAK, 0, 1);
    }
}

/// The first by position, dead ops too.
fn places(list: &mut List) {
    let two = ops![LOOP 4, BREAK_IF, BREAK, END_LOOP];
    stray(list, "the first of two", two, 1);
    let last = ops![LOOP 4, BREAK_IF 4, BREAK, END_LOOP];
    stray(list, "the second of two", last, 2);
    let dead = ops![LOOP 4, RETURN, BREAK, END_LOOP];
    stray(list, "Break behind Return", dead, 2);
    let dead = ops![RETURN, LOOP 4, BREAK, END_LOOP];
    stray(list, "loop behind Return", dead, 2);
    let dead = ops![LOOP 4, RETURN, BREAK, END_LOOP, YIELD];
    stray(list, "Break behind Return, then Yield", dead, 2);
}

/// What lies outside the range is not looked at.
fn ranges(list: &mut List) {
    let stream = |ops| chunk(STREAMING, 0, &[], ops);
    let before = [stream(ops![BREAK 7, STREAM, YIELD, RESET])];
    list.cycles("stray: none, Break 7 before Stream", &before, 0)
        .is(&[1, 0]);
    list.stack("stray: none, Break 7 before Stream, stack", &before, 0, &[])
        .is(&[0, 0, 0]);
    list.sheet("stray: none, Break 7 before Stream, sheet", &before)
        .is(&[1, 0, 0, 1]);
    let around = ops![
        LOOP 3, BREAK, END_LOOP, STREAM, YIELD, RESET, LOOP 9, BREAK, END_LOOP
    ];
    list.sheet("stray: none, loops outside the range", &[stream(around)])
        .is(&[1, 0, 0, 1]);
    let inside = stream(ops![STREAM, LOOP 4, BREAK, END_LOOP, RESET]);
    refused(list, "Break in the range", inside, STRAY_BREAK, 2);
}

/// What is tested before 15: 12, 13, 10, 3, 4, 5 and 6, wherever their ops stand.
fn behind(list: &mut List) {
    let looped = || func(ops![LOOP 3, BREAK, END_LOOP]);
    let stream = |ops| chunk(STREAMING, 0, &[], ops);
    list.cycles("stray: chunk 1 of one", &[looped()], 1)
        .refused(NO_SUCH_CHUNK, 1, 0);
    let words = form::write(&[looped()]);
    list.tray("stray: short tray", Asked::Sheet, &words, ROW - 1)
        .refused(SHORT_TRAY, 0, 0);
    let ring = func(ops![LOOP 3, BREAK, END_LOOP, CALL]);
    list.sheet("stray: ring", &[ring]).refused(RING, 0, 0);
    let held = stream(ops![LOOP 3, BREAK, END_LOOP, RESET]);
    refused(list, "no Stream", held, NO_STREAM, 0);
    let held = stream(ops![STREAM, LOOP 4, BREAK, END_LOOP]);
    refused(list, "no Reset", held, NO_RESET, 0);
    let held = func(ops![LOOP 3, BREAK, END_LOOP, IF 1]);
    refused(list, "backward behind it", held, BACKWARD, 3);
    let held = func(ops![LOOP 3, BREAK, END_LOOP, IF 5, YIELD]);
    refused(list, "crossed behind it", held, CROSSED, 0);
}

/// So many Ifs in one another around these ops.
fn ifs_around(n: usize, inside: Vec<Op>) -> Vec<Op> {
    let last = 2 * n + inside.len() - 1;
    let mut ops: Vec<Op> = (0..n).map(|i| op(IF, 0, last - i)).collect();
    ops.extend(inside);
    ops.extend((0..n).map(|_| op(END_IF, 0, 0)));
    ops
}

/// What is tested behind 15: 7, 8, 9 and 11, since 15 comes before the walk.
fn before(list: &mut List) {
    let mut open = func(ops![YIELD, LOOP 4, BREAK_IF, END_LOOP]);
    open.extras = vec![u32::MAX];
    refused(list, "open text before it", open, STRAY_BREAK, 2);
    let deep = ifs_around(257, ops![LOOP 260, BREAK, END_LOOP]);
    stray(list, "257 Ifs around it", deep, 258);
    let uncounted = ops![LOOP 2, END_LOOP, LOOP 5, BREAK, END_LOOP];
    stray(list, "no count before it", uncounted, 3);
    let tall = [chunk(FUNC, 1, &[], ops![CALL, LOOP 4, BREAK, END_LOOP])];
    list.stack("stray: too tall, stack", &tall, 0, &[u32::MAX])
        .refused(STRAY_BREAK, 0, 2);
}

/// Chunk after chunk in call order, right behind that chunk's 6.
fn modules(list: &mut List) {
    let looped = || ops![LOOP 3, BREAK, END_LOOP];
    let calling = || func(ops![LOOP 3, BREAK, END_LOOP, CALL 1]);
    let both = [calling(), func(looped())];
    list.sheet("stray: in both chunks", &both)
        .refused(STRAY_BREAK, 1, 1);
    list.order("stray: in both chunks, order", &both, 2)
        .is(&[1, 0]);
    for c in [0, 1] {
        list.cycles(&format!("stray: in both chunks, chunk {c}"), &both, c)
            .refused(STRAY_BREAK, c, 1);
        list.stack(&format!("stray: the same, chunk {c}, stack"), &both, c, &[])
            .refused(STRAY_BREAK, c, 1);
    }
    let endless = [calling(), func(ops![LOOP 2, END_LOOP])];
    list.sheet("stray: no count in the callee", &endless)
        .refused(NO_COUNT, 1, 0);
    let crossed = [calling(), func(ops![END_IF])];
    list.sheet("stray: crossed in the callee", &crossed)
        .refused(CROSSED, 1, 0);
    let caller = [func(ops![END_IF, CALL 1]), func(looped())];
    list.sheet("stray: in the callee, crossed in its caller", &caller)
        .refused(STRAY_BREAK, 1, 1);
    let after = [calling(), func(ops![YIELD])];
    list.sheet("stray: in the caller", &after)
        .refused(STRAY_BREAK, 0, 1);
}

/// Chunk L with BreakIf 0: the reader, the count and the order do not test it.
fn untested(list: &mut List) {
    let mut l = chunk_l(&[0, 3, 1]);
    l.ops[8].a = 0;
    let held = [l.clone()];
    refused(list, "L with BreakIf 0", l, STRAY_BREAK, 8);
    list.read("stray: L with BreakIf 0, read", &form::write(&held))
        .is(&[1]);
    list.count("stray: L with BreakIf 0, count at 4", &held, 0, 4)
        .is(&[3]);
    list.order("stray: L with BreakIf 0, order", &held, 1)
        .is(&[0]);
    let free = func(ops![BREAK 65535, BREAK_IF 65535, END_LOOP 65535]);
    list.read("stray: operands are free", &form::write(&[free]))
        .is(&[1]);
    let end = func(ops![LOOP 3, BREAK 3, END_LOOP 65535]);
    list.sheet("stray: none, EndLoop 65535", &[end])
        .is(&[2, 0, 0, 2]);
}

pub fn all(list: &mut List) {
    innermost(list);
    arms(list);
    operands(list);
    places(list);
    ranges(list);
    behind(list);
    before(list);
    modules(list);
    untested(list);
}
