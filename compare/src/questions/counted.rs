//! Chunk L and loops whose end is the length of an array: the cycle walk and the count.
use super::{List, Question};
use crate::form::{Chunk, Op};
use crate::kinds::*;
use crate::pieces::{chunk, chunk_l, chunk_l_array, header, op, ops, own_targets, tail};
use crate::refusals::*;

fn l() -> Chunk {
    chunk_l(&[0, 3, 1])
}

/// Chunk L with these constants: start, end and step.
fn l_of<'a>(list: &'a mut List, name: &str, constants: &[i64]) -> &'a mut Question {
    list.cycles(name, &[chunk_l(constants)], 0)
}

fn constants(list: &mut List) {
    let max = i64::MAX;
    l_of(list, "L", &[0, 3, 1]).is(&[48, 1]);
    l_of(list, "L, end 0", &[0, 0, 1]).is(&[12, 1]);
    l_of(list, "L, end -1", &[0, -1, 1]).is(&[12, 1]);
    l_of(list, "L, end 357913940", &[0, 357_913_940, 1]);
    l_of(list, "L, end 357913941", &[0, 357_913_941, 1]);
    l_of(list, "L, end 4294967295", &[0, 4_294_967_295, 1]).is(&[4_294_967_295, 1]);
    l_of(list, "L, end 4294967296", &[0, 4_294_967_296, 1]).refused(NO_COUNT, 0, 4);
    l_of(list, "L, start -1, end 2^63-1", &[-1, max, 1]).refused(NO_COUNT, 0, 4);
    l_of(list, "L, start 2^63-1, end -2", &[max, -2, 1]).is(&[12, 1]);
    l_of(list, "L, step 2", &[0, 3, 2]);
    l_of(list, "L, step 0", &[0, 3, 0]);
    l_of(list, "L, step -1", &[0, 3, -1]);
}

/// Chunk L with another op at a position.
fn changed<'a>(list: &'a mut List, name: &str, i: usize, other: Op) -> &'a mut Question {
    let mut held = l();
    held.ops[i] = other;
    list.cycles(name, &[held], 0)
}

fn near_misses(list: &mut List) {
    changed(list, "L, end copied", 2, op(GET_LOCAL, 0, 0));
    changed(list, "L, end not set", 3, op(SET_LOCAL, 0, 2));
    changed(list, "L, one slot for both", 6, op(GET_LOCAL, 0, 0)).refused(NO_COUNT, 0, 4);
    changed(list, "L, CmpGt for CmpGe", 7, op(CMP_GT, 0, 0));
    changed(list, "L, Not for BreakIf", 8, op(NOT, 0, 0));
    changed(list, "L, Break for BreakIf", 8, op(BREAK, 0, 15));
    changed(list, "L, GetLocal 1 in the tail", 9, op(GET_LOCAL, 0, 1));
    changed(list, "L, step past the constants", 10, op(CONST, 0, 3));
    changed(list, "L, Add for CheckedAdd", 11, op(ADD, 0, 0));
    changed(list, "L, PopN 1", 12, op(POP_N, 1, 0));
    changed(list, "L, SetLocal 1 in the tail", 13, op(SET_LOCAL, 0, 1));
    changed(list, "L, Yield for Return", 15, op(YIELD, 0, 0));
}

/// Chunk L with four ops more, right behind BreakIf.
fn longer<'a>(list: &'a mut List, name: &str, ops: Vec<Op>) -> &'a mut Question {
    let mut held = l();
    held.ops.splice(9..9, ops);
    held.ops[4].a = 19;
    held.ops[8].a = 19;
    list.cycles(name, &[held], 0)
}

/// A break in an arm costs what the arm does up to it, not what the loop's body does.
fn bodies(list: &mut List) {
    longer(list, "L, four Yields", ops![YIELD, YIELD, YIELD, YIELD]);
    longer(
        list,
        "L, start set in the body",
        ops![CONST, SET_LOCAL, YIELD, YIELD],
    );
    longer(
        list,
        "L, end set in the body",
        ops![YIELD, YIELD, CONST 1, SET_LOCAL 1],
    );
    longer(
        list,
        "L, break in a short arm",
        ops![CONST, IF 12, BREAK 19, END_IF],
    )
    .is(&[60, 1]);
    let long = ops![IF 12, CALL_VERIFIED_NATIVE, BREAK 19, END_IF];
    longer(list, "L, break in a long arm", long).is(&[93, 1]);
}

/// Positions, also some that no module reaches: the place is the one handed in.
fn positions(list: &mut List) {
    for p in [
        0,
        4,
        5,
        15,
        16,
        u32::MAX as usize,
        4_294_967_300,
        usize::MAX,
    ] {
        let asked = list.count(&format!("L, chunk 0, count at {p}"), &[l()], 0, p);
        match p {
            4 => asked.is(&[3]),
            _ => asked.refused(NO_COUNT, 0, p),
        }
    }
}

/// Chunks that there are not: the chunk is the one handed in.
fn no_such_chunk(list: &mut List) {
    for c in [1, 1 << 32] {
        let asked = list.cycles(&format!("L, chunk {c}"), &[l()], c);
        asked.refused(NO_SUCH_CHUNK, c, 0);
    }
    for c in [1, usize::MAX] {
        let asked = list.count(&format!("L, chunk {c}, count at 4"), &[l()], c, 4);
        asked.refused(NO_SUCH_CHUNK, c, 0);
    }
}

/// Chunk L with each op up to its EndLoop made a Yield, other steps, and sets inside the body; and its end from an array.
fn counts(list: &mut List) {
    for length in [0, 3, 65_535] {
        let name = format!("L, the end from an array of {length}");
        list.count(&name, &[chunk_l_array(length)], 0, 9);
    }
    for i in 0..15 {
        let mut held = l();
        held.ops[i] = op(YIELD, 0, 0);
        list.count(&format!("L, Yield at {i}, the count"), &[held], 0, 4);
    }
    for constants in [[0, 3, 0], [0, 3, -1], [7, 3, 2], [-4, 1 << 31, 5]] {
        let name = format!("L with {constants:?}, the count");
        list.count(&name, &[chunk_l(&constants)], 0, 4);
    }
    for slot in [0, 1, 2] {
        let mut held = l();
        held.ops.insert(9, op(SET_LOCAL, 0, slot));
        held.ops[4].a = 16;
        held.ops[8].a = 16;
        let name = format!("L, SetLocal {slot} in the body, the count");
        list.count(&name, &[held], 0, 4);
    }
}

/// Eleven ops, a loop at 11 that counts slot 0 up to slot 1, and Reset.
fn eleven(mode: u8, locals: u16, mut ops: Vec<Op>) -> [Chunk; 1] {
    ops.push(op(LOOP, 0, 22));
    ops.extend(header(0, 1));
    ops.extend(tail(0, 1));
    ops.extend(ops![END_LOOP, RESET]);
    [chunk(mode, locals, &[0, 1], own_targets(ops))]
}

/// The cycle walk and the count of such a chunk.
fn both(list: &mut List, name: &str, locals: u16, ops: Vec<Op>) {
    let held = eleven(FUNC, locals, ops);
    list.cycles(name, &held, 0);
    list.count(&format!("{name}, chunk 0, count at 11"), &held, 0, 11);
}

/// The end from an array's literal, from a tuple's, and from a copy of itself.
fn arrays(list: &mut List) {
    let array = ops![
        NEW_COMPOSITE 5 b ARRAY, SET_LOCAL 2, CONST, SET_LOCAL, GET_LOCAL 2, LEN, SET_LOCAL 1,
        YIELD, YIELD, YIELD, YIELD
    ];
    both(list, "array", 3, array);
    let tuple = ops![
        NEW_COMPOSITE 5 b TUPLE, SET_LOCAL 2, CONST, SET_LOCAL, GET_LOCAL 2, LEN, SET_LOCAL 1,
        YIELD, YIELD, YIELD, YIELD
    ];
    both(list, "tuple", 3, tuple);
    let itself = ops![
        GET_LOCAL 2, SET_LOCAL 2, CONST, SET_LOCAL, GET_LOCAL 2, LEN, SET_LOCAL 1, YIELD, YIELD,
        YIELD, YIELD
    ];
    both(list, "array copied to itself", 3, itself);
}

/// The end from an array that was copied.
fn copies(list: &mut List) {
    let once = ops![
        NEW_COMPOSITE 5 b ARRAY, SET_LOCAL 2, GET_LOCAL 2, SET_LOCAL 3, CONST, SET_LOCAL,
        GET_LOCAL 3, LEN, SET_LOCAL 1, YIELD, YIELD
    ];
    both(list, "copied array", 4, once);
    let replaced = ops![
        NEW_COMPOSITE 5 b ARRAY, SET_LOCAL 2, GET_LOCAL 2, SET_LOCAL 3, NEW_COMPOSITE 9 b ARRAY,
        SET_LOCAL 2, CONST, SET_LOCAL, GET_LOCAL 3, LEN, SET_LOCAL 1
    ];
    both(list, "copied array, replaced behind", 4, replaced);
    let twice = ops![
        NEW_COMPOSITE 7 b ARRAY, SET_LOCAL 2, GET_LOCAL 2, SET_LOCAL 3, GET_LOCAL 3, SET_LOCAL 4,
        CONST, SET_LOCAL, GET_LOCAL 4, LEN, SET_LOCAL 1
    ];
    both(list, "array copied twice", 5, twice);
}

/// The search for a value runs back past Stream, and a count that rests on it is unsure.
fn before_stream(list: &mut List) {
    let before = ops![
        CONST, SET_LOCAL, CONST 1, SET_LOCAL 1, STREAM, YIELD, YIELD, YIELD, YIELD, YIELD, YIELD
    ];
    let held = eleven(STREAMING, 2, before);
    list.cycles("values before Stream", &held, 0)
        .refused(UNSURE_COUNT, 0, 11);
    list.count("values before Stream, chunk 0, count at 11", &held, 0, 11)
        .is(&[1]);
}

pub fn all(list: &mut List) {
    constants(list);
    near_misses(list);
    bodies(list);
    positions(list);
    no_such_chunk(list);
    counts(list);
    arrays(list);
    copies(list);
    before_stream(list);
}
