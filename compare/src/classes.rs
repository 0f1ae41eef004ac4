//! The classes of modules whose times and instructions are measured.
use crate::form::{self, Chunk};
use crate::kinds::*;
use crate::nesting::{Around, counted, nested};
use crate::pieces::{chunk, chunk_l, header, op, own_targets, tail};
use crate::typical;

/// One chunk of plain ops alone, a module of so many words.
pub fn plain(words: usize) -> Vec<Chunk> {
    vec![chunk(
        0,
        0,
        &[],
        (0..words - 2).map(|_| op(DUP, 0, 0)).collect(),
    )]
}

/// A row of many small blocks.
fn blocks(n: usize) -> Vec<Chunk> {
    let mut ops = Vec::new();
    for _ in 0..n {
        let i = ops.len();
        ops.extend([
            op(CONST, 0, 0),
            op(IF, 0, i + 4),
            op(YIELD, 0, 0),
            op(ELSE, 0, i + 5),
            op(DUP, 0, 0),
            op(END_IF, 0, 0),
        ]);
    }
    vec![chunk(FUNC, 0, &[], ops)]
}

/// Chunk L's loop as often as so many words have room for, its values set before each.
pub fn loops(words: usize) -> Vec<Chunk> {
    let mut held = chunk_l(&[0, 3, 1]);
    held.ops.pop();
    let one: Vec<_> = held.ops.drain(..).collect();
    for k in 0..(words - 14) / one.len() {
        for part in &one {
            let target = if part.kind == LOOP { 15 * k as u16 } else { 0 };
            held.ops.push(form::Op {
                a: part.a + target,
                ..*part
            });
        }
    }
    held.ops = own_targets(held.ops);
    vec![held]
}

/// As many counted loops as so many words have room for. Their starts are all set at the front of the chunk and their common end first of all, so that both
/// values of each are searched back past the loops before it.
fn far_back(words: usize) -> Vec<Chunk> {
    let loops = (words - 16) / 13;
    let mut ops = vec![op(CONST, 0, 1), op(SET_LOCAL, 0, 0)];
    for v in 1..=loops {
        ops.extend([op(CONST, 0, 0), op(SET_LOCAL, 0, v)]);
    }
    for v in 1..=loops {
        ops.push(op(LOOP, 0, ops.len() + 11));
        ops.extend(header(v, 0));
        ops.extend(tail(v, 2));
        ops.push(op(END_LOOP, 0, 0));
    }
    let ops = own_targets(ops);
    vec![chunk(FUNC, loops as u16 + 1, &[0, 3, 1], ops)]
}

/// So many counted loops in one another, 15 ops each, around a body of plain ops that makes up so many words.
fn around(loops: usize, words: usize) -> Vec<Chunk> {
    let inside = (0..words - 14 - 15 * loops).map(|_| op(DUP, 0, 0));
    vec![counted(loops, 3, inside.collect())]
}

/// Chunks of so many ops that call each other in a chain, each the next.
fn calling(chunks: usize, length: usize) -> Vec<Chunk> {
    let one = |c| {
        let mut ops: Vec<_> = (0..length).map(|_| op(YIELD, 0, 0)).collect();
        ops[length / 2] = op(CALL, 0, c + 1);
        chunk(FUNC, 1, &[], ops)
    };
    (0..chunks.min(256)).map(one).collect()
}

/// A chain of chunks of 62 words.
pub fn chain(words: usize) -> Vec<Chunk> {
    calling(words / 62, 61)
}

/// A class of modules by about how many words they have.
pub type Class = (&'static str, fn(usize) -> Vec<Chunk>);

/// The classes whose time a word grows with the words on both sides.
pub const SEARCHING: [Class; 3] = [
    ("loop ends set far back", far_back),
    ("64 loops around a long body", |words| around(64, words)),
    ("254 loops around a long body", |words| around(254, words)),
];

/// A chunk of Calls alone, to 256 chunks by turns, a module of so many words.
fn calls(words: usize) -> Vec<Chunk> {
    let calls = (0..words - 2).map(|i| op(CALL, 0, i % 256));
    vec![chunk(FUNC, 0, &[], calls.collect())]
}

/// 255 Ifs in one another.
fn deep() -> Vec<Chunk> {
    vec![nested(255, &[Around::Arm], None)]
}

/// A module by its name.
pub type Named = (&'static str, Vec<Chunk>);

/// Those of which the module sheet is measured.
pub fn of_sheets() -> Vec<Named> {
    let mut held = vec![
        ("plain ops, one chunk", plain(16_002)),
        ("256 chunks in a chain", chain(16_000)),
        ("255 blocks in one another", deep()),
        ("counted loops", loops(16_000)),
    ];
    held.extend(SEARCHING.map(|(name, class)| (name, class(16_000))));
    held.extend([
        ("typical program", typical::program()),
        ("256 small chunks in a chain", calling(256, 2)),
        ("chunk L", vec![chunk_l(&[0, 3, 1])]),
        ("one chunk of one op", calling(1, 1)),
    ]);
    held
}

/// Those of which the cycle walk of the first chunk is measured.
pub fn of_walks() -> Vec<Named> {
    let mut held = vec![
        ("plain ops, one chunk", plain(16_002)),
        ("blocks one after another", blocks(2_730)),
        ("255 blocks in one another", deep()),
        ("counted loops", loops(16_000)),
    ];
    held.extend(SEARCHING.map(|(name, class)| (name, class(16_000))));
    held
}

/// The list that is lent to the test of yields: of 256 callees every other one always yields.
pub fn list() -> Vec<u32> {
    (0..256).map(|c| c % 2).collect()
}

/// Those of which the test of yields is measured, on the first chunk.
pub fn of_yields() -> Vec<Named> {
    vec![
        ("plain ops, one chunk", plain(16_002)),
        ("calls, one chunk", calls(16_002)),
        ("blocks one after another", blocks(2_730)),
        ("255 blocks in one another", deep()),
        ("counted loops", loops(16_000)),
        ("chunk L", vec![chunk_l(&[0, 3, 1])]),
    ]
}
