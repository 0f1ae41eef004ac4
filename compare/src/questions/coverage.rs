//! Request 2.9: whether every way through a chunk gives up its turn. What the request's readings say is written beside each.
use super::{Asked, List};
use crate::coverage_cases::{self, uncounted};
use crate::form::{self, word};
use crate::kinds::*;
use crate::pieces::{chunk, func, ops};
use crate::pinnaclemug::ROW;
use crate::refusals::*;
use crate::table::{NO, YES};

/// The readings' cases, each a chunk alone.
fn readings(list: &mut List) {
    for told in coverage_cases::all() {
        let name = format!("yields: {}", told.name);
        list.yields(&name, &[told.chunk], 0, &told.list)
            .is(&[told.said]);
    }
}

/// 1, 2 and 12, which come first.
fn words(list: &mut List) {
    let held = form::write(&[func(ops![YIELD])]);
    list.yields_words("yields: no words", &[])
        .refused(BAD_HEAD, 0, 0);
    list.yields_words("yields: no chunk", &held[..1])
        .refused(BAD_WORD, 0, 1);
    let field = [held[0], held[1], word(YIELD, 0, 1)];
    list.yields_words("yields: Yield with a field", &field)
        .refused(BAD_WORD, 0, 2);
    for c in [1, 7, 65_536, (1 << 32) + 7] {
        list.yields("yields: no such chunk", &[func(ops![END_IF])], c, &[1])
            .refused(NO_SUCH_CHUNK, c, 0);
    }
}

/// 3, 4, 5, 6 and 15.
fn ranges(list: &mut List) {
    let stream = |ops| chunk(STREAMING, 0, &[], ops);
    let refused = [
        ("no Stream", stream(ops![RESET]), NO_STREAM, 0),
        ("no Reset", stream(ops![STREAM]), NO_RESET, 0),
        ("an If to itself", func(ops![YIELD, IF 1]), BACKWARD, 1),
        ("an EndIf of no If", func(ops![YIELD, END_IF]), CROSSED, 0),
        ("a break in no Loop", func(ops![BREAK 1]), CROSSED, 0),
        (
            "a stray break",
            func(ops![LOOP 4, BREAK_IF 3, YIELD, END_LOOP]),
            STRAY_BREAK,
            1,
        ),
    ];
    for (name, held, number, place) in refused {
        list.yields(&format!("yields: {name}"), &[held], 0, &[])
            .refused(number, 0, place);
    }
}

/// Chunks of a module: which is asked, and what other questions say of it.
fn modules(list: &mut List) {
    let called = || [func(ops![CALL 1]), func(ops![LEN, YIELD])];
    list.yields("yields: the callee is not listed", &called(), 0, &[])
        .is(&[NO]);
    list.yields("yields: the callee is listed", &called(), 0, &[0, 1])
        .is(&[YES]);
    list.yields("yields: the callee itself", &called(), 1, &[])
        .is(&[YES]);
    let stray = func(ops![LOOP 3, BREAK 2, END_LOOP]);
    list.yields(
        "yields: a stray break in another chunk",
        &[func(ops![YIELD]), stray],
        0,
        &[],
    )
    .is(&[YES]);
    let ring = [func(ops![CALL])];
    list.sheet("yields: a ring, sheet", &ring)
        .refused(RING, 0, 0);
    list.yields("yields: a ring", &ring, 0, &[0]).is(&[NO]);
    let uncounted = [func(uncounted())];
    list.sheet("yields: no count, sheet", &uncounted)
        .refused(NO_COUNT, 0, 0);
    let words = form::write(&uncounted);
    list.tray(
        "yields: no count, short tray",
        Asked::Sheet,
        &words,
        ROW - 1,
    )
    .refused(SHORT_TRAY, 0, 0);
}

pub fn all(list: &mut List) {
    readings(list);
    words(list);
    ranges(list);
    modules(list);
}
