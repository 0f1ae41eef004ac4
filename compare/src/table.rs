//! The comparisons: for each a name, our answer and the original's, on the same input.
use crate::case::Case;
use crate::expected::{self, Expected};
use crate::kinds::STREAMING;
use crate::pinnaclemug::{self, HEIGHT, ROW};
use crate::verify::oracle::FIELDS;

/// A spoilt buffer has a word changed that was to be left as it was; it is what no side expects.
#[derive(Clone, Debug, PartialEq)]
pub enum Outcome {
    Answer(Vec<i64>),
    Refused(u32, usize, usize),
    Spoilt,
}

use Outcome::{Answer, Refused, Spoilt};

/// What a comparison is made for: once a module, for some trays that are too short by so many words (in the place of a position), for every chunk, or for every
/// chunk and position.
#[derive(Clone, Copy, PartialEq)]
pub enum Each {
    Module,
    Short,
    Chunk,
    Position,
}

/// Of the numbers of an answer some are figures that a loop's step brings down.
pub struct Comparison {
    pub name: &'static str,
    pub each: Each,
    pub is_figure: fn(usize) -> bool,
    pub ours: fn(&Case, usize, usize) -> Outcome,
    pub original: fn(&Case, usize, usize) -> Expected,
}

/// A comparison more is a line more. Our side is a proved function in each.
pub const COMPARISONS: [Comparison; 12] = [
    Comparison {
        name: "cycles",
        each: Each::Chunk,
        is_figure: |i| i == 0,
        ours: |case, c, _| cycles(&case.words, c),
        original: |case, c, _| expected::cycles(case, c),
    },
    Comparison {
        name: "mark",
        each: Each::Chunk,
        is_figure: |_| true,
        ours: |case, c, _| numbers_of(walk(&case.words, c), |walk| vec![walk[2]]),
        original: |case, c, _| expected::mark(case, c),
    },
    Comparison {
        name: "public cycles",
        each: Each::Chunk,
        is_figure: |_| true,
        ours: |case, c, _| our_public_cycles(case, c),
        original: |case, c, _| expected::public_cycles(case, c),
    },
    Comparison {
        name: "count",
        each: Each::Position,
        is_figure: |_| true,
        ours: |case, c, p| count(&case.words, c, p),
        original: expected::count,
    },
    Comparison {
        name: "stack",
        each: Each::Chunk,
        is_figure: |_| false,
        ours: |case, c, _| stack(&case.words, c, &case.callees),
        original: |case, c, _| expected::stack(case, c),
    },
    Comparison {
        name: "yields",
        each: Each::Chunk,
        is_figure: |_| false,
        ours: |case, c, _| yields(&case.words, c, &case.callees),
        original: |case, c, _| expected::yields(case, c),
    },
    Comparison {
        name: "order",
        each: Each::Module,
        is_figure: |_| false,
        ours: |case, _, _| order(&case.words, case.chunks.len() + spare(case)),
        original: |case, _, _| expected::order(case),
    },
    Comparison {
        name: "sheet",
        each: Each::Module,
        is_figure: |i| i % FIELDS == 0,
        ours: |case, _, _| numbers_of(our_sheet(case), |lines| fields(lines).collect()),
        original: |case, _, _| expected::sheet(case),
    },
    Comparison {
        name: "sheet, marks",
        each: Each::Module,
        is_figure: |_| true,
        ours: |case, _, _| numbers_of(our_sheet(case), |lines| column(lines, MARK).collect()),
        original: |case, _, _| expected::marks(case),
    },
    Comparison {
        name: "whole",
        each: Each::Module,
        is_figure: |_| true,
        ours: |case, _, _| numbers_of(our_sheet(case), |lines| column(lines, WHOLE).collect()),
        original: |case, _, _| expected::wholes(case),
    },
    Comparison {
        name: "order, short tray",
        each: Each::Short,
        is_figure: |_| false,
        ours: |case, _, less| order(&case.words, case.chunks.len().saturating_sub(less)),
        original: |_, _, _| expected::short_tray(),
    },
    Comparison {
        name: "sheet, short tray",
        each: Each::Short,
        is_figure: |_| false,
        ours: |case, _, less| sheet(&case.words, (ROW * case.chunks.len()).saturating_sub(less)),
        original: |_, _, _| expected::short_tray(),
    },
];

/// How many words a tray is longer than it has to be.
fn spare(case: &Case) -> usize {
    case.words.len() % 6
}

/// Our lines in a tray that may be longer than it has to be.
pub fn our_sheet(case: &Case) -> Outcome {
    sheet(&case.words, ROW * case.chunks.len() + spare(case))
}

/// Where the mark and the whole figure stand in a line of ours.
pub const MARK: usize = 1;
pub const WHOLE: usize = 4;

/// The numbers of our lines that the original has too: cycles, peak and bytes.
pub fn fields<T: Copy>(lines: &[T]) -> impl Iterator<Item = T> {
    let each = lines.chunks(ROW);
    each.flat_map(|line| [line[0], line[2], line[3]])
}

/// One of those that it has not, of each line.
pub fn column<T: Copy>(lines: &[T], place: usize) -> impl Iterator<Item = T> {
    lines.iter().skip(place).step_by(ROW).copied()
}

/// Some numbers of an answer, or the refusal.
pub fn numbers_of(outcome: Outcome, numbers: impl Fn(&[i64]) -> Vec<i64>) -> Outcome {
    match outcome {
        Answer(all) => Answer(numbers(&all)),
        refused => refused,
    }
}

/// A refusal of the proved side.
pub fn unpacked(refusal: pinnaclemug::Refusal) -> Outcome {
    Refused(
        refusal.number,
        refusal.chunk as usize,
        refusal.place as usize,
    )
}

/// The cycles, 1 if the row ends, and 1 if the cycles are cut.
pub fn walk(words: &[u32], c: usize) -> Outcome {
    match pinnaclemug::cycles(words, c as u32) {
        Ok(walk) => Answer(vec![
            i64::from(walk.cycles),
            i64::from(walk.ends),
            i64::from(walk.cut),
        ]),
        Err(refusal) => unpacked(refusal),
    }
}

/// The same without the mark, which the original has not.
pub fn cycles(words: &[u32], c: usize) -> Outcome {
    numbers_of(walk(words, c), |walk| walk[..2].to_vec())
}

/// The cycles of a chunk; in a Stream chunk with those of Stream and Reset, which the original adds.
pub fn public(case: &Case, c: usize, walk: Outcome) -> Outcome {
    match walk {
        Answer(values) if case.chunks[c].mode == STREAMING => {
            Answer(vec![(values[0] + 2).min(i64::from(u32::MAX))])
        }
        Answer(values) => Answer(vec![values[0]]),
        refused => refused,
    }
}

pub fn our_public_cycles(case: &Case, c: usize) -> Outcome {
    public(case, c, cycles(&case.words, c))
}

pub fn count(words: &[u32], c: usize, p: usize) -> Outcome {
    match pinnaclemug::count(words, c as u32, p as u32) {
        Ok(passes) => Answer(vec![i64::from(passes)]),
        Err(refusal) => unpacked(refusal),
    }
}

/// What "ends" is among the values of a stack walk.
pub const ENDS: i64 = i64::MAX;

/// The stack walk's peak, delta and bytes. A refusal has to leave the lent array as it was.
pub fn stack(words: &[u32], c: usize, callees: &[u32]) -> Outcome {
    let before: [i64; HEIGHT] = [i64::MIN, 77, -5];
    let mut out = before;
    match pinnaclemug::stack(words, c as u32, callees, &mut out) {
        Ok(false) => Answer(out.to_vec()),
        Ok(true) if out[1] == 0 => Answer(vec![out[0], ENDS, out[2]]),
        Err(refusal) if out == before => unpacked(refusal),
        _ => Spoilt,
    }
}

/// The answers of whether every way through gives up its turn.
pub const NO: i64 = 0;
pub const YES: i64 = 1;
pub const NEVER: i64 = 2;

pub fn yields(words: &[u32], c: usize, list: &[u32]) -> Outcome {
    match pinnaclemug::yields(words, c as u32, list) {
        Ok(coverage) => Answer(vec![i64::from(coverage)]),
        Err(refusal) => unpacked(refusal),
    }
}

/// What stands at a place of a tray before the call.
fn pattern(i: usize) -> u32 {
    (i as u32).wrapping_mul(0x9e37_79b9) ^ 0xa5a5_a5a5
}

/// A function with a tray of so much room, each chunk having `wide` words of it: the numbers in the tray, and all words beyond them, or on a refusal all there
/// are, as they were.
fn with_tray(
    room: usize,
    wide: usize,
    call: impl FnOnce(&mut [u32]) -> Result<usize, pinnaclemug::Refusal>,
) -> Outcome {
    let mut tray: Vec<u32> = (0..room).map(pattern).collect();
    let (outcome, written) = match call(&mut tray) {
        Ok(chunks) => {
            let numbers = tray[..wide * chunks].iter().map(|&word| i64::from(word));
            (Answer(numbers.collect()), wide * chunks)
        }
        Err(refusal) => (unpacked(refusal), 0),
    };
    let left = (written..room).all(|i| tray[i] == pattern(i));
    if left { outcome } else { Spoilt }
}

/// The call order in a tray of so much room.
pub fn order(words: &[u32], room: usize) -> Outcome {
    with_tray(room, 1, |tray| pinnaclemug::order(words, tray))
}

/// The module sheet in a tray of so much room.
pub fn sheet(words: &[u32], room: usize) -> Outcome {
    with_tray(room, ROW, |tray| pinnaclemug::sheet(words, tray))
}
