//! Request 2.5: figures about the cap, and whether they are marked as cut.
use super::{Asked, List};
use crate::form::{self, Chunk, Op};
use crate::pieces::{chunk_l, func, longer_l, ops, with_extra};
use crate::pinnaclemug::ROW;
use crate::refusals::*;

/// The greatest extra that is no open text: with one cycle it is at the cap, with two it is over.
const GREAT: u32 = u32::MAX - 1;

const MOST: i64 = u32::MAX as i64;

/// A chunk with the great extra at op `i`.
fn great(ops: Vec<Op>, i: usize) -> Chunk {
    with_extra(&func(ops), i, GREAT)
}

/// Both the walk of a chunk alone and its sheet: cycles, whether the row ends, the mark, peak and bytes.
fn both(list: &mut List, name: &str, held: Chunk, said: [i64; 5]) {
    let [cycles, ends, mark, peak, bytes] = said;
    let held = [held];
    list.cycles(&format!("mark: {name}"), &held, 0)
        .marked(&[cycles, ends], &[mark]);
    list.sheet(&format!("mark: the sheet of {name}"), &held)
        .marked(&[cycles, peak, bytes, cycles], &[mark]);
}

/// The cap itself, and one over.
fn turns(list: &mut List) {
    both(
        list,
        "Yield at the cap",
        great(ops![YIELD], 0),
        [MOST, 0, 0, 0, 0],
    );
    both(
        list,
        "Return over the cap",
        great(ops![RETURN], 0),
        [MOST, 1, 1, 0, 0],
    );
    both(
        list,
        "Yield, Yield",
        great(ops![YIELD, YIELD], 0),
        [MOST, 0, 1, 0, 0],
    );
    let near = |extra| with_extra(&chunk_l(&[0, 357_913_940, 1]), 0, extra);
    both(
        list,
        "L, end 357,913,940",
        near(0),
        [MOST - 3, 1, 0, 3, 160],
    );
    both(list, "L, at the cap", near(3), [MOST, 1, 0, 3, 160]);
    both(list, "L, one over", near(4), [MOST, 1, 1, 3, 160]);
    let far = chunk_l(&[0, MOST, 1]);
    both(list, "L, end 4,294,967,295", far, [MOST, 1, 1, 3, 160]);
}

/// What was cut on the way counts only where the figure has it.
fn on_the_way(list: &mut List) {
    let body = |end| with_extra(&longer_l(end, ops![YIELD]), 9, GREAT);
    both(list, "a body passed 0 times", body(0), [12, 1, 0, 3, 160]);
    both(list, "a body passed once", body(1), [MOST, 1, 1, 3, 160]);
    let dead = great(ops![RETURN, YIELD], 1);
    both(list, "behind a Return", dead, [2, 1, 0, 0, 0]);
    let left = longer_l(0, ops![IF 12, YIELD, BREAK 19, END_IF]);
    let left = with_extra(&left, 10, GREAT);
    both(list, "the costliest break", left, [MOST, 1, 1, 2, 128]);
    let arm = great(ops![CONST, IF 4, YIELD, ELSE 5, YIELD, END_IF], 4);
    both(list, "an arm", arm, [MOST, 0, 1, 1, 32]);
    let once = great(ops![LOOP 4, YIELD, BREAK 4, END_LOOP], 1);
    both(
        list,
        "a body that never gets to its end",
        once,
        [MOST, 0, 1, 0, 0],
    );
}

/// Callees never touch a mark, and `whole` has none.
fn callees(list: &mut List) {
    let calls = || func(ops![CALL 1]);
    let at = [calls(), great(ops![YIELD], 0)];
    list.sheet("mark: a callee at the cap", &at)
        .marked(&[10, 1, 32, MOST, MOST, 0, 0, MOST], &[0, 0]);
    let over = [calls(), great(ops![YIELD, YIELD], 0)];
    list.sheet("mark: a callee that is cut", &over)
        .marked(&[10, 1, 32, MOST, MOST, 0, 0, MOST], &[0, 1]);
    let own = [with_extra(&calls(), 0, u32::MAX - 9), func(ops![YIELD])];
    list.sheet("mark: a caller that is cut", &own)
        .marked(&[MOST, 1, 32, MOST, 1, 0, 0, 1], &[1, 0]);
}

/// Five numbers a chunk.
fn trays(list: &mut List) {
    let held = form::write(&[great(ops![YIELD, YIELD], 0)]);
    list.tray("mark: tray one short", Asked::Sheet, &held, ROW - 1)
        .refused(SHORT_TRAY, 0, 0);
    list.tray("mark: tray as long as need be", Asked::Sheet, &held, ROW)
        .marked(&[MOST, 0, 0, MOST], &[1]);
    let mut open = great(ops![YIELD, YIELD], 0);
    open.extras.push(u32::MAX);
    list.sheet("mark: a refusal has none", &[open])
        .refused(OPEN_TEXT, 0, 1);
}

pub fn all(list: &mut List) {
    turns(list);
    on_the_way(list);
    callees(list);
    trays(list);
}
