//! Calls: orders, rings and trays, and sheets of modules whose chunks call each other.
use super::{Asked, List};
use crate::form::{self, Chunk, MOST_CHUNKS};
use crate::kinds::*;
use crate::nesting::{Around, nested};
use crate::pieces::{chunk, func, op, ops};
use crate::refusals::*;
use crate::typical;

/// Chunks that call these chunks, with so many locals as `locals` gives for their index and `arguments` for each call.
fn calling(callees: &[&[usize]], arguments: u8, locals: fn(usize) -> usize) -> Vec<Chunk> {
    let held = callees.iter().enumerate().map(|(c, called)| {
        let ops = called.iter().map(|&callee| op(CALL, arguments, callee));
        chunk(FUNC, locals(c) as u16, &[], ops.collect())
    });
    held.collect()
}

/// Calls without arguments in chunks without locals.
fn bare(callees: &[&[usize]]) -> Vec<Chunk> {
    calling(callees, 0, |_| 0)
}

/// Calls of one argument in chunks of so many locals as their index.
fn rising(callees: &[&[usize]]) -> Vec<Chunk> {
    calling(callees, 1, |c| c)
}

/// The ring's chunk is the one that is met while its own visit is open.
fn rings(list: &mut List) {
    list.order("ring of one", &bare(&[&[0]]), 1)
        .refused(RING, 0, 0);
    list.order("ring of two", &bare(&[&[1], &[0]]), 2)
        .refused(RING, 0, 0);
    list.order("ring reached from outside", &bare(&[&[1], &[2], &[1]]), 3)
        .refused(RING, 1, 0);
    list.order("ring behind a listed chunk", &bare(&[&[], &[2], &[1]]), 3)
        .refused(RING, 1, 0);
}

/// A callee outside the module is skipped; calls behind a Return are looked at too.
fn orders(list: &mut List) {
    let outside = bare(&[&[2, 1], &[65_535]]);
    list.order("callees outside the module", &outside, 2)
        .is(&[1, 0]);
    let diamond = bare(&[&[1, 2], &[3], &[3], &[]]);
    list.order("diamond", &diamond, 4);
    let dead = [func(ops![RETURN, CALL 1]), func(vec![])];
    list.order("dead Call", &dead, 2).is(&[1, 0]);
    list.order("dead Call of itself", &[func(ops![RETURN, CALL])], 1)
        .refused(RING, 0, 0);
}

/// As many chunks as there may be, each of which calls the next, and the last this one.
fn chain(last: usize) -> Vec<Chunk> {
    let chunks = usize::from(MOST_CHUNKS);
    let callees = (1..chunks).chain([last]).map(|c| [c]).collect::<Vec<_>>();
    bare(&callees.iter().map(|c| &c[..]).collect::<Vec<_>>())
}

fn chains(list: &mut List) {
    list.order("chain of 256", &chain(256), 256);
    list.order("ring of 256", &chain(0), 256)
        .refused(RING, 0, 0);
}

/// The words are looked at before the tray, and the tray before the ring.
fn trays(list: &mut List) {
    let two = bare(&[&[1], &[]]);
    list.order("tray one too short", &two, 1)
        .refused(SHORT_TRAY, 0, 0);
    list.order("tray long enough", &two, 2);
    list.order("tray longer", &two, 4);
    list.order("ring, tray one too short", &bare(&[&[1], &[0]]), 1)
        .refused(SHORT_TRAY, 0, 0);
    list.tray("no words, no tray", Asked::Order, &[], 0)
        .refused(BAD_HEAD, 0, 0);
    list.tray(
        "chunk missing, no tray",
        Asked::Order,
        &form::write(&two)[..2],
        0,
    )
    .refused(BAD_WORD, 0, 2);
}

/// Orders and sheets of the same modules.
fn sheets(list: &mut List) {
    let diamond = rising(&[&[3, 1], &[2], &[], &[2, 9]]);
    let ring = rising(&[&[1], &[2], &[3, 1], &[]]);
    let itself = rising(&[&[], &[7], &[2]]);
    list.order("diamond with locals", &diamond, 4);
    list.order("diamond with locals, short tray", &diamond, 3)
        .refused(SHORT_TRAY, 0, 0);
    list.order("ring of chunks 1 and 2", &ring, 5);
    list.order("ring of chunks 1 and 2, no tray", &ring, 0)
        .refused(SHORT_TRAY, 0, 0);
    list.order("chunk 2 calls itself", &itself, 3)
        .refused(RING, 2, 0);
    list.sheet("sheet: diamond with locals", &diamond);
    list.sheet("sheet: ring of chunks 1 and 2", &ring);
    list.sheet("sheet: chunk 2 calls itself", &itself)
        .refused(RING, 2, 0);
    let diamond = form::write(&diamond);
    list.tray("sheet: diamond, tray one short", Asked::Sheet, &diamond, 15)
        .refused(SHORT_TRAY, 0, 0);
    list.tray(
        "sheet: ring, short tray",
        Asked::Sheet,
        &form::write(&ring),
        4,
    )
    .refused(SHORT_TRAY, 0, 0);
    list.sheet("sheet: a receiver's program", &typical::program());
}

/// 256 chunks, each of which calls the next with one argument.
fn long_chain(list: &mut List) {
    let up: Vec<[usize; 1]> = (0..usize::from(MOST_CHUNKS)).map(|c| [c + 1]).collect();
    let up = rising(&up.iter().map(|c| &c[..]).collect::<Vec<_>>());
    list.order("chain of 256 with locals", &up, 300);
    list.sheet("sheet: chain of 256 with locals", &up);
}

/// Refusals of a sheet: chunk 0 calls chunk 2, whose refusal comes before those of the others.
fn refused_sheets(list: &mut List) {
    let func = |ops| chunk(FUNC, 1, &[], ops);
    let mut open = func(ops![DUP, PUSH_IMMEDIATE]);
    open.extras = vec![3, u32::MAX];
    let refused = [
        ("no Reset", chunk(STREAMING, 0, &[], ops![DUP, STREAM])),
        ("backward", func(ops![LOOP 1, END_LOOP, ELSE 1])),
        ("crossed", func(ops![BREAK_IF])),
        ("too deep", nested(257, &[Around::Arm, Around::Body], None)),
        ("open text", open),
    ];
    for (name, last) in refused {
        let endless = func(ops![LOOP 3, YIELD, END_LOOP]);
        let held = [func(ops![CALL 2]), endless, last];
        list.sheet(&format!("sheet: {name} in the callee"), &held);
    }
    let mut open = rising(&[&[2], &[], &[]]);
    open[0].extras = vec![u32::MAX];
    open[2].ops = ops![DUP, LOOP 3, END_LOOP];
    list.sheet("sheet: no count in the callee, open text in chunk 0", &open);
}

pub fn all(list: &mut List) {
    rings(list);
    orders(list);
    chains(list);
    trays(list);
    sheets(list);
    long_chain(list);
    refused_sheets(list);
}
