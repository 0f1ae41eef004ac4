//! The stack walk of small chunks: peak, delta and bytes.
use super::{List, Question};
use crate::form::{Chunk, Op, word};
use crate::kinds::*;
use crate::nesting::{Around, nested};
use crate::pieces::{chunk, chunk_l, op, ops};
use crate::refusals::*;
use crate::table::ENDS;

/// A Func chunk of these ops alone, with no callees.
fn alone<'a>(list: &'a mut List, name: &str, ops: Vec<Op>) -> &'a mut Question {
    list.stack(name, &[chunk(FUNC, 0, &[], ops)], 0, &[])
}

fn chunks(list: &mut List) {
    list.stack("no ops, 3 locals", &[chunk(FUNC, 3, &[], vec![])], 0, &[])
        .is(&[0, 0, 96]);
    let two = [
        chunk(FUNC, 1, &[], ops![CONST]),
        chunk(FUNC, 2, &[], ops![CONST, CONST]),
    ];
    list.stack("chunk 0 of two", &two, 0, &[]);
    list.stack("chunk 1 of two", &two, 1, &[]);
    list.stack("chunk 2 of two", &two, 2, &[])
        .refused(NO_SUCH_CHUNK, 2, 0);
    list.stack_words("no words", &[]).refused(BAD_HEAD, 0, 0);
    let head = word(MODULE, 0, 2);
    list.stack_words("chunk missing", &[head])
        .refused(BAD_WORD, 0, 1);
}

fn documented(list: &mut List) {
    list.stack("L", &[chunk_l(&[0, 3, 1])], 0, &[])
        .is(&[3, ENDS, 160]);
    list.stack(
        "L, the end 4294967296",
        &[chunk_l(&[0, 1 << 32, 1])],
        0,
        &[],
    )
    .refused(NO_COUNT, 0, 4);
}

/// Callee bytes are looked up by chunk index in the lent list alone, and are 0 past its end.
fn calls(list: &mut List) {
    let held = |locals, ops| [chunk(FUNC, locals, &[], ops)];
    list.stack("one Call", &held(0, ops![CALL]), 0, &[u32::MAX])
        .is(&[134_217_727, 1, 4_294_967_264]);
    list.stack("one Call, one local", &held(1, ops![CALL]), 0, &[u32::MAX])
        .refused(TOO_TALL, 0, 0);
    let callees = [0, 64];
    list.stack("Call 1 over 0, 64", &held(0, ops![CALL 1]), 0, &callees)
        .is(&[2, 1, 64]);
    list.stack(
        "Call 1 with an argument",
        &held(0, ops![CALL 1 b 1]),
        0,
        &callees,
    );
    list.stack(
        "callee past the list's end",
        &held(0, ops![CALL 2]),
        0,
        &callees,
    )
    .is(&[1, 1, 32]);
    let two = [
        chunk(FUNC, 1, &[], ops![RETURN]),
        chunk(FUNC, 1, &[], ops![CALL]),
    ];
    list.stack("too tall in chunk 1", &two, 1, &[u32::MAX, 9])
        .refused(TOO_TALL, 1, 0);
    list.stack("as tall as may be in chunk 1", &two, 1, &[4_294_967_263]);
    list.stack("chunk 65535 of two", &two, 65_535, &[])
        .refused(NO_SUCH_CHUNK, 65_535, 0);
}

/// A part's peak is counted from the part's start; before an arm If has shrunk.
fn one_arm(list: &mut List) {
    let below = ops![POP_N b 9, IF 3, CONST, END_IF];
    alone(list, "PopN 9, If 3, Const 0, EndIf", below).is(&[1, -9, 32]);
    alone(list, "PopN 9, Const 0", ops![POP_N b 9, CONST]);
    let negative = ops![IF 2, POP_N b 3, END_IF];
    alone(list, "If alone, negative arm", negative).is(&[0, -1, 0]);
    alone(
        list,
        "If alone, positive arm",
        ops![IF 3, CONST, CONST, END_IF],
    );
    alone(list, "If alone, arm ended", ops![IF 2, RETURN, END_IF]);
}

fn two_arms(list: &mut List) {
    let first = ops![CONST, IF 4, RETURN, ELSE 6, CONST, CONST, END_IF];
    alone(list, "first arm ended", first);
    let second = ops![IF 3, POP_N b 4, ELSE 4, RETURN, END_IF];
    alone(list, "second arm ended", second);
    let both = ops![IF 4, CONST, TRAP, ELSE 6, CONST, RETURN, END_IF, CONST, CONST];
    alone(list, "both arms ended", both);
}

/// Chunk L with one Const more in its body, and no Return.
fn counted() -> Chunk {
    let mut held = chunk_l(&[0, 3, 1]);
    held.ops.insert(9, op(CONST, 0, 0));
    held.ops.pop();
    held.ops[4].a = 16;
    held.ops[8].a = 16;
    held
}

/// A loop whose body ends without a break that is visited ends the row.
fn loops(list: &mut List) {
    list.stack("loop with a count", &[counted()], 0, &[]);
    let left = ops![LOOP 5, CONST, CONST, BREAK 5, END_LOOP];
    alone(list, "loop left by a break", left);
    let ends = ops![LOOP 4, CONST, RETURN, END_LOOP, CONST, CONST];
    alone(list, "body that ends", ends).is(&[1, ENDS, 32]);
    let dead = ops![LOOP 4, RETURN, BREAK 4, END_LOOP, YIELD];
    alone(list, "break behind a Return", dead).is(&[0, ENDS, 0]);
    alone(
        list,
        "loop with no count",
        ops![CONST, LOOP 4, YIELD, END_LOOP],
    );
    let endless = chunk(FUNC, 1, &[], ops![DUP, LOOP 4, YIELD, END_LOOP]);
    let two = [chunk(FUNC, 1, &[], ops![RETURN]), endless];
    list.stack("no count in chunk 1", &two, 1, &[]);
}

fn deepest(list: &mut List) {
    let blocks = |n| [nested(n, &[Around::Arm], None)];
    list.stack("blocks 256", &blocks(256), 0, &[])
        .is(&[0, -1, 0]);
    list.stack("blocks 257", &blocks(257), 0, &[])
        .refused(TOO_DEEP, 0, 0);
}

fn rows(list: &mut List) {
    let stream = |locals, ops| [chunk(STREAMING, locals, &[], ops)];
    let range = ops![CONST, STREAM, CONST, CONST, RESET, CONST];
    list.stack("Stream chunk", &stream(0, range), 0, &[]);
    list.stack("no Stream", &stream(0, ops![RESET]), 0, &[]);
    list.stack("no Reset", &stream(0, ops![STREAM]), 0, &[]);
    list.stack("no Reset behind Dup", &stream(0, ops![DUP, STREAM]), 0, &[]);
    let swapped = ops![RESET, CONST, STREAM, CONST];
    list.stack("Reset before Stream", &stream(1, swapped), 0, &[])
        .is(&[0, 0, 32]);
    alone(list, "If that leads back", ops![CONST, IF 1, END_IF]);
    alone(list, "EndIf alone", ops![END_IF]).refused(CROSSED, 0, 0);
    let func = |ops| [chunk(FUNC, 1, &[], ops)];
    list.stack(
        "Else that leads back",
        &func(ops![IF 2, ELSE 1, END_IF]),
        0,
        &[],
    );
    let crossing = func(ops![IF 2, IF 3, END_IF, END_IF]);
    list.stack("Ifs that cross", &crossing, 0, &[])
        .refused(CROSSED, 0, 0);
}

/// Both walks of Stream chunks with markers doubled or out of place.
fn markers(list: &mut List) {
    for (name, ops) in [
        (
            "ops before and behind",
            ops![CHECKED_NEG, STREAM, GET_DATA_INDEXED, RESET, RETURN],
        ),
        ("Reset first", ops![RESET, STREAM, GET_DATA_INDEXED]),
        ("markers doubled", ops![STREAM, STREAM, RESET, DUP, RESET]),
    ] {
        let held = [chunk(STREAMING, 4, &[], ops)];
        list.cycles(&format!("{name}, cycles"), &held, 0);
        list.stack(&format!("{name}, stack"), &held, 0, &[]);
    }
}

/// Ops whose fields count, alone and behind a Const.
fn figures(list: &mut List) {
    alone(list, "GetIndex b 0", ops![GET_INDEX]);
    alone(list, "GetIndex b 1", ops![GET_INDEX b BOUNDED]);
    alone(list, "Trap 8", ops![CONST, TRAP 8]);
    alone(list, "Trap 9", ops![CONST, TRAP 9]);
    alone(list, "verified native b 3", ops![CALL_VERIFIED_NATIVE b 3]);
    alone(
        list,
        "verified native b 131",
        ops![CALL_VERIFIED_NATIVE b 131],
    );
    alone(
        list,
        "external native b 255",
        ops![CALL_EXTERNAL_NATIVE b 255],
    );
    alone(list, "NewComposite of 3", ops![NEW_COMPOSITE 3]);
}

pub fn all(list: &mut List) {
    chunks(list);
    documented(list);
    calls(list);
    one_arm(list);
    two_arms(list);
    loops(list);
    deepest(list);
    rows(list);
    markers(list);
    figures(list);
}
