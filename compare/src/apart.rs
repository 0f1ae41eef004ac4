//! The smallest inputs of docs/DIFFERENCES.md, on which document 01 and the original part: what each of the two says.
use crate::case::Case;
use crate::counts::Counts;
use crate::expected::refused;
use crate::form::{Chunk, Op};
use crate::kinds::*;
use crate::pieces::{chunk, chunk_l, op, ops};
use crate::refusals::*;
use crate::sure_cases::{arm, counter};
use crate::table::{COMPARISONS, Outcome};
use crate::verify::oracle;
use Outcome::{Answer, Refused};

/// What is asked of the original.
#[derive(Clone, Copy, PartialEq)]
enum Of {
    Cycles,
    PublicCycles,
    Stack,
}
use Of::{Cycles, PublicCycles, Stack};

/// The chunk, the bytes of its callee 0, our outcome and the original's.
struct Part {
    name: &'static str,
    of: Of,
    chunk: Chunk,
    callee: u32,
    ours: Outcome,
    original: Outcome,
}

fn original(of: Of, case: &Case) -> Outcome {
    let chunk = &case.module.chunks[0];
    let answer = match of {
        Cycles => oracle::cycles(chunk).map(|(n, ends)| vec![i64::from(n), i64::from(ends)]),
        PublicCycles => oracle::public_cycles(chunk).map(|n| vec![i64::from(n)]),
        Stack => oracle::stack(chunk, &case.callees).map(|(peak, delta, bytes)| {
            vec![
                i64::from(peak),
                delta.map_or(0, i64::from),
                i64::from(bytes),
            ]
        }),
    };
    match answer {
        Ok(values) => Answer(values),
        Err(refusal) => refused(refusal, 0),
    }
}

fn crossed(name: &'static str, ops: Vec<Op>, original: Outcome) -> Part {
    Part {
        name,
        of: Cycles,
        chunk: chunk(FUNC, 0, &[], ops),
        callee: 0,
        ours: Refused(CROSSED, 0, 0),
        original,
    }
}

/// Breaks that name another target than their own Loop's: ours is 15 at this place.
fn stray(name: &'static str, chunk: Chunk, place: usize, original: Outcome) -> Part {
    Part {
        name,
        of: Cycles,
        chunk,
        callee: 0,
        ours: Refused(STRAY_BREAK, 0, place),
        original,
    }
}

fn public(name: &'static str, chunk: Chunk, ours: Outcome, original: Outcome) -> Part {
    Part {
        name,
        of: PublicCycles,
        chunk,
        callee: 0,
        ours,
        original,
    }
}

fn answer(cycles: i64, ends: bool) -> Outcome {
    Answer(vec![cycles, i64::from(ends)])
}

/// Ranges that are no row.
fn rows() -> Vec<Part> {
    // If 2, If 40, If 4, If 40, ..: each If to the end is walked twice over, inside the If before it and behind that.
    let twice = |i: usize| op(IF, 0, if i % 2 == 0 { i + 2 } else { 40 });
    let twice = (0..40).map(twice).collect();
    let past = ops![STREAM, IF 3, RESET, END_IF];
    let mut outside = crossed("If past the range", past, answer(3, false));
    outside.chunk.mode = STREAMING;
    let endless = ops![LOOP 3, BREAK, YIELD];
    let crossing = ops![IF 2, IF 3, END_IF, END_IF];
    vec![
        crossed("If to the length", ops![IF 1], answer(1, false)),
        crossed("EndIf alone", ops![END_IF], answer(1, false)),
        crossed("EndLoop alone", ops![END_LOOP], answer(1, false)),
        crossed("Else alone", ops![ELSE 1], answer(1, false)),
        crossed("Break in no loop", ops![BREAK], answer(1, true)),
        crossed("BreakIf in no loop", ops![BREAK_IF], answer(1, false)),
        crossed("Loop with no body", ops![LOOP 1], Refused(NO_COUNT, 0, 0)),
        crossed("Loop with no EndLoop", endless, answer(2, false)),
        crossed("Ifs that cross", crossing, answer(6, false)),
        crossed("40 Ifs that cross", twice, answer(57_310, false)),
        outside,
        Part {
            name: "too tall",
            of: Stack,
            chunk: chunk(FUNC, 1, &[], ops![CALL]),
            callee: u32::MAX,
            ours: Refused(TOO_TALL, 0, 0),
            original: Answer(vec![134_217_727, 1, 0]),
        },
    ]
}

/// The original does not read what a break names.
fn strays() -> Vec<Part> {
    let outer = ops![LOOP 6, LOOP 4, BREAK 6, END_LOOP, BREAK 6, END_LOOP];
    let mut header = chunk_l(&[0, 3, 1]);
    header.ops[8].a = 0;
    vec![
        stray(
            "Break out of two loops",
            chunk(FUNC, 0, &[], outer),
            2,
            answer(4, false),
        ),
        stray("BreakIf 0 in chunk L", header, 8, answer(48, true)),
    ]
}

/// The original does not divide a loop's distance by its step.
fn steps() -> Vec<Part> {
    let stepping = |name, constants: [i64; 3], cycles, original| Part {
        name,
        of: Cycles,
        chunk: chunk_l(&constants),
        callee: 0,
        ours: answer(cycles, true),
        original,
    };
    let far = 1 << 33;
    let none = Refused(NO_COUNT, 0, 4);
    vec![
        stepping("chunk L by twos", [0, 3, 2], 36, answer(48, true)),
        stepping("a distance of one step", [0, far, far], 24, none),
    ]
}

/// The original takes a value from where it was last set by position, whether or not a path comes from there with it.
fn unsure() -> Vec<Part> {
    let unsure = |name, chunk, place, cycles, ends| Part {
        name,
        of: Cycles,
        chunk,
        callee: 0,
        ours: Refused(UNSURE_COUNT, 0, place),
        original: answer(cycles, ends),
    };
    vec![
        unsure("an end that is set in an arm", arm(), 6, 48, false),
        unsure("an end that is the outer counter", counter(), 11, 50, false),
        unsure("a sum that may leave 64 bits", chunk_l(&[0, 2, i64::MAX]), 4, 36, true),
    ]
}

/// What the original's public functions do beside the walk.
fn functions() -> Vec<Part> {
    let held = |mode, ops| chunk(mode, 0, &[], ops);
    let mut yielding = chunk_l(&[0, 3, 1]);
    yielding.mode = REENTRANT;
    yielding.ops.insert(9, op(YIELD, 0, 0));
    yielding.ops[4].a = 16;
    yielding.ops[8].a = 16;
    vec![
        public(
            "Stream and Reset charged",
            held(STREAMING, ops![STREAM, RESET]),
            answer(0, false),
            Answer(vec![2]),
        ),
        public(
            "targets tested before Stream is looked for",
            held(STREAMING, ops![IF]),
            Refused(NO_STREAM, 0, 0),
            Refused(BACKWARD, 0, 0),
        ),
        public(
            "a Reentrant chunk cut at its yields",
            held(REENTRANT, ops![YIELD, YIELD]),
            answer(2, false),
            Answer(vec![1]),
        ),
        public(
            "a yielding loop of a Reentrant chunk passed once",
            yielding,
            answer(51, true),
            Answer(vec![20]),
        ),
    ]
}

/// Each input has to give both answers.
pub fn all(counts: &mut Counts) {
    let parts = [rows(), strays(), steps(), unsure(), functions()];
    for part in parts.into_iter().flatten() {
        let case = Case::new(crate::form::write(&[part.chunk]), vec![part.callee]);
        let row = if part.of == Stack { "stack" } else { "cycles" };
        let comparison = COMPARISONS.iter().find(|held| held.name == row);
        let ours = (comparison.expect("a comparison").ours)(&case, 0, 0);
        for (side, met, said) in [
            ("ours", ours, part.ours),
            ("original", original(part.of, &case), part.original),
        ] {
            counts.comparisons += 1;
            if met != said {
                counts.differ(side, &met, &said, part.name);
            }
        }
    }
}
