//! The times of the reader and of the writer, each beside plain Rust, on whole modules.
use crate::form::{self, Chunk, MOST_WORDS, greatest_b};
use crate::kinds::*;
use crate::lists::{Lists, chunks_of};
use crate::pieces::{chunk, op};
use crate::random::Random;
use crate::rounds::{heading, row};
use crate::{pinnaclemug, writer};
use std::hint::black_box;

/// As many ops as one chunk has room for.
const MOST_OPS: usize = MOST_WORDS - 2;

fn read(name: &str, words: &[u32]) {
    let chunks = chunks_of(words).len();
    assert_eq!(pinnaclemug::read(words), Ok(chunks), "{name}");
    row(
        name,
        words.len(),
        || pinnaclemug::read(black_box(words)),
        || form::read(black_box(words)),
    );
}

fn written(name: &str, chunks: &[Chunk]) {
    let lists = Lists::of(chunks);
    let lent = lists.lent();
    let (mut left, mut right) = (vec![0; MOST_WORDS], vec![0; MOST_WORDS]);
    let words = writer::write(&lent, &mut right).expect("each part fits");
    assert_eq!(pinnaclemug::write(&lent, &mut left), Ok(words), "{name}");
    assert_eq!(left, right, "{name}");
    row(
        name,
        words,
        || pinnaclemug::write(black_box(&lent), black_box(&mut left)),
        || writer::write(black_box(&lent), black_box(&mut right)),
    );
}

/// Ops whose a and b are both not 0.
fn full_ops(random: &mut Random) -> Chunk {
    let mut full = || {
        let kind = random.pick(&[
            CALL,
            NEW_COMPOSITE,
            CALL_VERIFIED_NATIVE,
            CALL_EXTERNAL_NATIVE,
        ]);
        let b = 1 + random.below(u64::from(greatest_b(kind))) as u8;
        op(kind, b, 1 + random.below(65_535) as usize)
    };
    chunk(FUNC, 0, &[], (0..MOST_OPS).map(|_| full()).collect())
}

/// The tables: each module is read, then each is written, and some that tell only in writing.
pub fn times(random: &mut Random) {
    let modules = [
        (
            "plain ops, one chunk",
            random.equal_chunks(1, 0, MOST_OPS, 0),
        ),
        ("256 chunks", random.equal_chunks(256, 1, 50, 4)),
        ("many constants", random.equal_chunks(1, 4_095, 2, 0)),
        ("many extras", random.equal_chunks(1, 0, 5_460, 5_460)),
    ];
    heading("read");
    for (name, words) in &modules {
        read(name, words);
    }
    heading("written");
    for (name, words) in &modules {
        written(name, &chunks_of(words));
    }
    for (name, words) in [
        ("plain ops, 1,024 words", 1_024),
        ("plain ops, 4,096 words", 4_096),
    ] {
        written(name, &chunks_of(&random.equal_chunks(1, 0, words - 2, 0)));
    }
    let mut zeros = chunks_of(&modules[0].1);
    zeros[0].extras = vec![0; MOST_OPS];
    written("extras of 0, all dropped", &zeros);
    written("ops with both fields", &[full_ops(random)]);
    written("small module", &chunks_of(&random.equal_chunks(1, 0, 1, 0)));
}
