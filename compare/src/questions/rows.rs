//! Ranges, targets, rows, arms, loops, extras and nesting: the cycle walk.
use super::List;
use crate::form::{self, Chunk, Op};
use crate::kinds::*;
use crate::nesting::{Around, nested};
use crate::pieces::{chunk, chunk_l, op, ops};
use crate::refusals::*;

/// Words that are refused, and a chunk with nothing to walk.
fn words(list: &mut List) {
    list.walk_words("no words", &[]).refused(BAD_HEAD, 0, 0);
    let bad = [form::write(&[chunk(FUNC, 0, &[], vec![])]), vec![u32::MAX]].concat();
    list.walk_words("no op", &bad).refused(BAD_WORD, 0, 2);
    list.cycles("no ops", &[chunk(FUNC, 3, &[], vec![])], 0)
        .is(&[0, 0]);
}

/// The range of a Stream chunk: Stream and Reset themselves are not charged.
fn ranges(list: &mut List) {
    list.stream("no Stream", ops![YIELD, RESET]);
    list.stream("no Reset", ops![STREAM, YIELD]);
    list.stream(
        "Stream, Yield, Yield, Reset",
        ops![STREAM, YIELD, YIELD, RESET],
    )
    .is(&[2, 0]);
    list.stream("Reset before Stream", ops![RESET, YIELD, STREAM, YIELD])
        .is(&[0, 0]);
    list.func(
        "the same in a Func chunk",
        ops![RESET, YIELD, STREAM, YIELD],
    );
}

/// What stands outside the range of a Stream chunk: the targets are looked at there too, the row is not.
fn outside(list: &mut List) {
    list.stream("Break before Stream", ops![BREAK, STREAM, YIELD, RESET])
        .is(&[1, 0]);
    list.stream("Break behind Stream", ops![STREAM, BREAK, YIELD, RESET])
        .refused(CROSSED, 0, 0);
    list.stream("EndIf behind Reset", ops![STREAM, IF 3, RESET, END_IF])
        .refused(CROSSED, 0, 0);
    list.stream("backward behind Reset", ops![STREAM, YIELD, RESET, IF])
        .refused(BACKWARD, 0, 3);
    list.stream("backward without Stream", ops![IF, RESET])
        .refused(NO_STREAM, 0, 0);
}

/// Refusal 5, and targets that may stand. The operand of EndLoop is free.
fn targets(list: &mut List) {
    list.func("If to the length", ops![IF 2, YIELD])
        .refused(CROSSED, 0, 0);
    list.func("If past the length", ops![IF 3, YIELD]);
    list.func("Loop to the length", ops![LOOP 3, BREAK 3, END_LOOP])
        .is(&[2, 0]);
    list.func("Loop past the length", ops![LOOP 4, BREAK 4, END_LOOP]);
    list.func("Loop backward, then If", ops![YIELD, LOOP 1, IF]);
    list.func("Else backward", ops![IF 2, ELSE 1, END_IF]);
    list.func("backward behind EndIf", ops![END_IF, IF 1]);
    list.func(
        "operand of EndLoop not read",
        ops![LOOP 3, BREAK 3, END_LOOP 65535],
    )
    .is(&[2, 0]);
}

/// Refusal 6, dead ops looked at too, and breaks that no loop is around.
fn crossed(list: &mut List) {
    let rows = [
        ("EndIf alone", ops![END_IF]),
        ("Else alone", ops![ELSE 1]),
        ("EndLoop alone", ops![END_LOOP]),
        ("EndIf behind Return", ops![RETURN, END_IF]),
        ("Loop without EndLoop", ops![LOOP 2, YIELD]),
        ("Else without EndIf", ops![IF 2, ELSE 3, YIELD, YIELD]),
        (
            "If out of a loop",
            ops![LOOP 4, IF 4, YIELD, END_LOOP, END_IF],
        ),
        ("Break outside", ops![YIELD, BREAK]),
        ("BreakIf outside", ops![YIELD, BREAK_IF]),
        ("Break in an arm outside", ops![IF 2, BREAK, END_IF]),
        (
            "Break behind a loop",
            ops![LOOP 3, BREAK 3, END_LOOP, BREAK],
        ),
    ];
    for (name, ops) in rows {
        list.func(name, ops).refused(CROSSED, 0, 0);
    }
}

fn arms(list: &mut List) {
    let ended = ops![CONST, IF 4, TRAP, ELSE 5, YIELD, END_IF, RETURN];
    list.func("ended arm and Else", ended).is(&[7, 1]);
    list.func("greater second arm", ops![IF 3, YIELD, ELSE 4, DIV, END_IF]);
    list.func("ended arms", ops![IF 3, TRAP, ELSE 4, TRAP, END_IF, YIELD]);
    list.func("ended arm without Else", ops![IF 2, RETURN, END_IF, YIELD]);
}

/// A body ends without a break if the walk visits none.
fn loops(list: &mut List) {
    list.func("Loop, Break, EndLoop", ops![LOOP 3, BREAK 3, END_LOOP]);
    list.func("Loop, EndLoop", ops![LOOP 2, END_LOOP]);
    list.func(
        "Break behind Return",
        ops![LOOP 4, RETURN, BREAK 4, END_LOOP, YIELD],
    )
    .is(&[3, 1]);
    list.func(
        "Break in an arm, then Return",
        ops![LOOP 6, IF 3, BREAK 6, END_IF, RETURN, END_LOOP, YIELD],
    );
    list.func(
        "Break of an inner loop, then Break",
        ops![LOOP 6, LOOP 4, BREAK 4, END_LOOP, BREAK 6, END_LOOP, YIELD],
    );
    list.func(
        "Break of an inner loop, then Return",
        ops![LOOP 6, LOOP 4, BREAK 4, END_LOOP, RETURN, END_LOOP, YIELD],
    );
}

fn two_chunks(list: &mut List) {
    let held = [ops![YIELD], ops![END_IF]].map(|ops| chunk(FUNC, 0, &[], ops));
    list.cycles("two chunks, chunk 0", &held, 0);
    list.cycles("two chunks, chunk 1", &held, 1);
    list.cycles("two chunks, chunk 2", &held, 2)
        .refused(NO_SUCH_CHUNK, 2, 0);
    list.count("two chunks, chunk 1, count at 0", &held, 1, 0);
}

/// An extra for the first op of two.
fn sums(list: &mut List) {
    for (name, extra) in [
        ("extra 5 + 6 * 65536", 0x0006_0005),
        ("extra 4294967293", u32::MAX - 2),
        ("extra 4294967294", u32::MAX - 1),
    ] {
        let mut held = chunk(FUNC, 0, &[], ops![CONST, YIELD]);
        held.extras = vec![extra];
        list.cycles(name, &[held], 0);
    }
}

/// Five ops, all extras 0 but the greatest for the op at i.
fn open(mode: u8, ops: Vec<Op>, i: usize) -> [Chunk; 1] {
    let mut held = chunk(mode, 0, &[], ops);
    held.extras = vec![0; held.ops.len()];
    held.extras[i] = u32::MAX;
    [held]
}

/// Refusal 8; on EndLoop the count is asked for first. Else and EndIf are charged behind arms that ended.
fn open_texts(list: &mut List) {
    let plain = || ops![CONST, RETURN, YIELD, YIELD, YIELD];
    let arms = || ops![IF 3, TRAP, ELSE 4, TRAP, END_IF];
    let arm = ops![IF 2, RETURN, END_IF, YIELD, YIELD];
    let uncounted = ops![LOOP 3, YIELD, END_LOOP, YIELD, YIELD];
    let refused = [
        ("open text on Const", plain(), 0),
        ("open text on Return", plain(), 1),
        ("open text on Else behind an ended arm", arms(), 2),
        ("open text in the second arm", arms(), 3),
        ("open text on EndIf behind ended arms", arms(), 4),
        ("open text on EndIf behind an ended arm", arm, 2),
    ];
    for (name, ops, i) in refused {
        list.cycles(name, &open(FUNC, ops, i), 0)
            .refused(OPEN_TEXT, 0, i);
    }
    list.cycles(
        "open text on EndLoop, no count",
        &open(FUNC, uncounted, 2),
        0,
    )
    .refused(NO_COUNT, 0, 0);
}

/// Ops that are not charged are not looked at.
fn not_visited(list: &mut List) {
    let plain = ops![CONST, RETURN, YIELD, YIELD, YIELD];
    let once = ops![LOOP 3, BREAK 3, END_LOOP, YIELD, YIELD];
    let ended = || ops![LOOP 4, RETURN, BREAK 4, END_LOOP, YIELD];
    let stream = || ops![CONST, STREAM, YIELD, RESET, YIELD];
    for (name, mode, ops, i, said) in [
        ("open text behind Return", FUNC, plain, 2, [3, 1]),
        (
            "open text on EndLoop that is not reached",
            FUNC,
            once,
            2,
            [4, 0],
        ),
        ("open text on Break behind Return", FUNC, ended(), 2, [3, 1]),
        (
            "open text behind a loop that ends the row",
            FUNC,
            ended(),
            4,
            [3, 1],
        ),
        ("open text before Stream", STREAMING, stream(), 0, [1, 0]),
        ("open text on Stream", STREAMING, stream(), 1, [1, 0]),
        ("open text on Reset", STREAMING, stream(), 3, [1, 0]),
    ] {
        list.cycles(name, &open(mode, ops, i), 0).is(&said);
    }
}

/// So many Ifs in one another behind an op.
fn ifs(first: Op, n: usize) -> Vec<Op> {
    let mut ops = vec![first];
    ops.extend((0..n).map(|i| op(IF, 0, 2 * n - i)));
    ops.extend((0..n).map(|_| op(END_IF, 0, 0)));
    ops
}

/// 256 blocks in one another are walked; behind a Return any number stands.
fn deep(list: &mut List) {
    let yielding = |n| ifs(op(YIELD, 0, 0), n);
    list.func("256 Ifs behind Yield", yielding(256))
        .is(&[513, 0]);
    for n in [257, 8_000, 8_190] {
        list.func(&format!("{n} Ifs behind Yield"), yielding(n))
            .refused(TOO_DEEP, 0, 0);
    }
    for n in [257, 8_000] {
        list.func(&format!("{n} Ifs behind Return"), ifs(op(RETURN, 0, 0), n))
            .is(&[2, 1]);
    }
    let loops = |n| [nested(n, &[Around::Body], None)];
    list.cycles("256 Loops", &loops(256), 0).is(&[512, 0]);
    for n in [257, 5_460] {
        list.cycles(&format!("{n} Loops"), &loops(n), 0)
            .refused(TOO_DEEP, 0, 0);
    }
}

/// Refusals 5 to 9 of one chunk, at other places and chunks.
fn elsewhere(list: &mut List) {
    let func = |ops| chunk(FUNC, 1, &[], ops);
    list.stream("no Stream behind Dup", ops![DUP, RESET]);
    list.cycles("If back to itself", &[func(ops![DUP, IF 1])], 0);
    let second = [func(ops![DUP]), func(ops![DUP, DUP, LOOP 5])];
    list.cycles("Loop past the length in chunk 1", &second, 1);
    list.cycles("Break behind Dup", &[func(ops![DUP, BREAK])], 0);
    let mut open = func(ops![DUP, YIELD, YIELD]);
    open.extras = vec![7, 0, u32::MAX];
    list.cycles("open text at 2", &[open], 0);
    let endless = func(ops![DUP, LOOP 4, YIELD, END_LOOP]);
    list.cycles("no count at 1", &[endless], 0);
    let two = [func(ops![RETURN]), func(ops![CALL])];
    list.cycles("chunk 2 of two that call", &two, 2)
        .refused(NO_SUCH_CHUNK, 2, 0);
    let far = u32::MAX as usize;
    list.count("chunk 4294967295 of two that call", &two, far, 3)
        .refused(NO_SUCH_CHUNK, far, 0);
}

/// A Reentrant chunk is walked whole.
fn reentrant(list: &mut List) {
    let mut yielding = chunk_l(&[0, 3, 1]);
    yielding.mode = REENTRANT;
    yielding.ops.insert(9, op(YIELD, 0, 0));
    yielding.ops[4].a = 16;
    yielding.ops[8].a = 16;
    list.cycles("L Reentrant, Yield in the body", &[yielding], 0);
    let two = chunk(REENTRANT, 0, &[], ops![YIELD, YIELD]);
    list.sheet("two Yields, Reentrant", &[two]);
}

pub fn all(list: &mut List) {
    words(list);
    ranges(list);
    outside(list);
    targets(list);
    crossed(list);
    arms(list);
    loops(list);
    two_chunks(list);
    sums(list);
    open_texts(list);
    not_visited(list);
    deep(list);
    elsewhere(list);
    reentrant(list);
}
