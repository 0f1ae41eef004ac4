//! Request 2.7: loops that step by other numbers than 1. What the request says is written beside each.
use super::List;
use crate::form::{Chunk, Constant};
use crate::loops::{Ends, made};
use crate::pieces::{chunk_l, chunk_l_array, func, ops, with_extra};
use crate::refusals::*;
use crate::table::ENDS;

const MIN: i64 = i64::MIN;
const MAX: i64 = i64::MAX;
const CAP: i64 = u32::MAX as i64;

/// Chunk L's constants, start, end and step; its count; and its cycles and their mark, or none where the next sum may leave 64 bits: there request 2.8 refuses
/// the cycle walk and the sheet by 16.
const COUNTED: [(Ends, i64, Option<[i64; 2]>); 15] = [
    ([0, 3, 1], 3, Some([48, 0])),
    ([0, 3, 2], 2, Some([36, 0])),
    ([0, 3, 3], 1, Some([24, 0])),
    ([0, 3, 4], 1, Some([24, 0])),
    ([0, 3, 1 << 62], 1, Some([24, 0])),
    ([7, 7, MAX], 0, Some([12, 0])),
    ([3, 0, 2], 0, Some([12, 0])),
    ([MAX, MIN, 5], 0, Some([12, 0])),
    ([0, 1 << 33, 1 << 33], 1, Some([24, 0])),
    ([0, MAX, 1 << 62], 2, None),
    ([0, MAX, MAX], 1, None),
    ([0, MAX, MAX - 1], 2, None),
    ([-1, MAX - 1, MAX], 1, None),
    ([0, 8_589_934_590, 2], CAP, Some([CAP, 1])),
    ([0, MAX, (1 << 31) + 1], CAP, None),
];

/// Its constants where it has no count: the distance leaves 64 bits, the quotient 32, or the step is not over 0.
const UNCOUNTED: [Ends; 8] = [
    [-1, MAX, 1],
    [-1, MAX, 2],
    [-1, MAX, MAX],
    [MIN, 0, 1 << 62],
    [0, 8_589_934_591, 2],
    [0, MAX, 1 << 31],
    [0, 3, 0],
    [0, 3, -1],
];

fn counted(list: &mut List) {
    for (ends, count, figure) in COUNTED {
        let held = [chunk_l(&ends)];
        list.count(&format!("step: L with {ends:?}, count"), &held, 0, 4)
            .is(&[count]);
        let name = format!("step: L with {ends:?}");
        let walk = list.cycles(&name, &held, 0);
        match figure {
            Some([cycles, mark]) => walk.marked(&[cycles, 1], &[mark]),
            None => walk.refused(UNSURE_COUNT, 0, 4),
        }
        let sheet = list.sheet(&format!("{name}, sheet"), &held);
        match figure {
            Some([cycles, mark]) => sheet.marked(&[cycles, 3, 160, cycles], &[mark]),
            None => sheet.refused(UNSURE_COUNT, 0, 4),
        }
    }
}

/// A chunk alone whose Loop at this position has no count: the count, both walks and the sheet.
fn none(list: &mut List, name: &str, held: Chunk, place: usize) {
    let held = [held];
    list.count(&format!("step: {name}, count"), &held, 0, place)
        .refused(NO_COUNT, 0, place);
    list.cycles(&format!("step: {name}"), &held, 0)
        .refused(NO_COUNT, 0, place);
    list.stack(&format!("step: {name}, stack"), &held, 0, &[])
        .refused(NO_COUNT, 0, place);
    list.sheet(&format!("step: {name}, sheet"), &held)
        .refused(NO_COUNT, 0, place);
}

fn uncounted(list: &mut List) {
    for ends in UNCOUNTED {
        none(list, &format!("L with {ends:?}"), chunk_l(&ends), 4);
    }
    let mut other = chunk_l(&[0, 3, 1]);
    other.constants[2] = Constant::Other;
    none(list, "L, a step that is no integer", other, 4);
}

/// Loops that the original has no count for: the walks go on, to an answer or to what is met behind.
fn behind(list: &mut List) {
    let far = [0, 1 << 33, 1 << 33];
    let held = [with_extra(&chunk_l(&far), 14, u32::MAX)];
    list.cycles("step: open text at EndLoop", &held, 0)
        .refused(OPEN_TEXT, 0, 14);
    list.sheet("step: open text at EndLoop, sheet", &held)
        .refused(OPEN_TEXT, 0, 14);
    list.stack("step: open text at EndLoop, stack", &held, 0, &[])
        .is(&[3, ENDS, 160]);
    let second = made(|body| body.row(&[far, [0, 1 << 33, 1]]));
    none(list, "the second of two loops has no count", second, 19);
    let deep = [made(|body| {
        body.bare(far);
        body.ifs(257, |_| ());
    })];
    list.cycles("step: 257 Ifs behind", &deep, 0)
        .refused(TOO_DEEP, 0, 0);
    list.stack("step: 257 Ifs behind, stack", &deep, 0, &[])
        .refused(TOO_DEEP, 0, 0);
    let tall = [made(|body| {
        body.bare(far);
        body.ops.extend(ops![CALL]);
    })];
    list.stack("step: too tall behind, stack", &tall, 0, &[u32::MAX])
        .refused(TOO_TALL, 0, 0);
}

/// The stack depends on no count: with steps of 2 it is chunk L's. And an array of 7 by threes.
fn stacks_and_arrays(list: &mut List) {
    for ends in [[0, 3, 2], [0, 1 << 33, 1 << 33]] {
        let name = format!("step: L with {ends:?}, stack");
        list.stack(&name, &[chunk_l(&ends)], 0, &[])
            .is(&[3, ENDS, 160]);
    }
    let mut array = chunk_l_array(7);
    array.constants[2] = Constant::Int(3);
    let array = [array];
    list.count("step: an array of 7 by threes, count", &array, 0, 9)
        .is(&[3]);
    list.cycles("step: an array of 7 by threes", &array, 0)
        .marked(&[58, 1], &[0]);
}

/// Loops in one another, two passes each, and callers of chunk L with a step of 2.
fn nested_and_called(list: &mut List) {
    let nested = made(|body| body.counted([0, 3, 2], |body| body.bare([0, 5, 3])));
    let nested = [nested];
    list.cycles("step: a loop in a loop", &nested, 0)
        .marked(&[102, 0], &[0]);
    list.count("step: a loop in a loop, the inner count", &nested, 0, 13)
        .is(&[2]);
    let called = [func(ops![CALL 1]), chunk_l(&[0, 3, 2])];
    list.sheet("step: a caller", &called)
        .marked(&[10, 5, 160, 46, 36, 3, 160, 36], &[0, 0]);
    let far = [func(ops![CALL 1]), chunk_l(&[0, 1 << 33, 1 << 33])];
    list.sheet("step: a caller of a loop of one far step", &far)
        .marked(&[10, 5, 160, 34, 24, 3, 160, 24], &[0, 0]);
    let text = with_extra(&func(ops![CALL 1]), 0, u32::MAX);
    let open = [text, chunk_l(&[0, 1 << 33, 1 << 33])];
    list.sheet("step: open text in the caller of such a loop", &open)
        .refused(OPEN_TEXT, 0, 0);
}

pub fn all(list: &mut List) {
    counted(list);
    uncounted(list);
    behind(list);
    stacks_and_arrays(list);
    nested_and_called(list);
}
