//! Modules whose loops step by other numbers than 1: chunk L about the limits of request 2.7, chunks of more loops, and random modules.
use crate::ALL;
use crate::case::Case;
use crate::counts::Counts;
use crate::form::{self, Chunk, Constant};
use crate::loops;
use crate::pieces::{chunk_l, chunk_l_array, with_extra};
use crate::pinnaclemug::ROW;
use crate::programs;
use crate::random::Random;
use crate::refusals::*;
use crate::stepping::{self, passes};
use crate::table::{self, ENDS, Outcome};
use Outcome::{Answer, Refused};

const CAP: i64 = u32::MAX as i64;

/// Small steps, and steps about the limits of 32 and of 64 bits.
const STEPS: [i64; 13] = [
    1,
    2,
    3,
    7,
    (1 << 31) - 1,
    1 << 31,
    (1 << 31) + 1,
    1 << 32,
    (1 << 32) + 1,
    1 << 33,
    1 << 62,
    i64::MAX - 1,
    i64::MAX,
];

/// Some that make no count.
const NO_STEPS: [i64; 3] = [0, -1, i64::MIN];

const STARTS: [i64; 12] = [
    0,
    1,
    -1,
    7,
    1 << 31,
    -(1 << 32),
    1 << 62,
    -(1 << 62),
    i64::MAX - 1,
    i64::MAX,
    i64::MIN,
    i64::MIN + 1,
];

/// About these an end lies from its start, and about so many steps: those at which chunk L's cycles and the count itself come to their limits are among them.
const DISTANCES: [i128; 8] = [
    0,
    7,
    1 << 32,
    1 << 33,
    1 << 62,
    1 << 63,
    -(1 << 63),
    2 - (1 << 64),
];
const COUNTS: [i128; 8] = [
    1,
    2,
    3,
    357_913_940,
    357_913_941,
    4_294_967_294,
    4_294_967_295,
    4_294_967_296,
];

/// The ends that there are within two of those, each once.
fn ends(start: i64, step: i64) -> Vec<i64> {
    let steps = COUNTS.map(|count| count * i128::from(step));
    let distances = DISTANCES.into_iter().chain(steps);
    let near = distances.flat_map(|distance| (-2..=2).map(move |more| distance + more));
    let ends = near.filter_map(|distance| i64::try_from(i128::from(start) + distance).ok());
    let mut ends: Vec<i64> = ends.collect();
    ends.sort_unstable();
    ends.dedup();
    ends
}

/// "Where the count is above 0, end - 1 + step must not exceed 2^63-1": request 2.8's condition that chunk L may break.
fn is_sure(count: u32, stop: i64, step: i64) -> bool {
    count == 0 || stop - 1 <= i64::MAX - step
}

/// What the documents say of chunk L with this count, sure or not: of the count, of both walks and of the sheet. If EndLoop is open text, it is met behind
/// the count, and behind 16.
fn said(count: Option<u32>, sure: bool, open: bool) -> [Outcome; 4] {
    let Some(count) = count else {
        return [0; 4].map(|_| Refused(NO_COUNT, 0, 4));
    };
    let figure = 12 + 12 * i64::from(count);
    let (cycles, mark) = (figure.min(CAP), i64::from(figure > CAP));
    let walked = |numbers: &[i64]| match (sure, open) {
        (false, _) => Refused(UNSURE_COUNT, 0, 4),
        (true, true) => Refused(OPEN_TEXT, 0, 14),
        (true, false) => Answer(numbers.to_vec()),
    };
    [
        Answer(vec![i64::from(count)]),
        walked(&[cycles, 1, mark]),
        Answer(vec![3, ENDS, 160]),
        walked(&[cycles, mark, 3, 160, cycles]),
    ]
}

/// Chunk L with these constants, its EndLoop open text or not: ours is what is said, and all comparisons.
pub fn chunk_l_with(counts: &mut Counts, constants: [i64; 3], open: bool) {
    let [start, stop, step] = constants;
    let mut held = chunk_l(&constants);
    if open {
        held = with_extra(&held, 14, u32::MAX);
    }
    let case = Case::of(&[held]);
    let words = &case.words;
    let ours = [
        table::count(words, 0, 4),
        table::walk(words, 0),
        table::stack(words, 0, &[]),
        table::sheet(words, ROW),
    ];
    let count = passes(start, stop, step);
    let sure = count.is_some_and(|count| is_sure(count, stop, step));
    let said = said(count, sure, open);
    let names = ["count", "cycles", "stack", "sheet"];
    for (name, (ours, said)) in names.into_iter().zip(ours.iter().zip(&said)) {
        counts.comparisons += 1;
        if ours != said {
            counts.differ(name, ours, said, &format!("chunk L with {constants:?}"));
        }
    }
    counts.compare(&case, &ALL);
}

fn about_limits(counts: &mut Counts) {
    for start in STARTS {
        for step in STEPS.into_iter().chain(NO_STEPS) {
            for stop in ends(start, step) {
                chunk_l_with(counts, [start, stop, step], false);
                chunk_l_with(counts, [start, stop, step], true);
            }
        }
    }
}

/// Chunk L with the length of an array for its end.
fn arrays(counts: &mut Counts) {
    for length in [0, 1, 2, 3, 7, 255, 65_534, 65_535] {
        for start in STARTS.into_iter().chain([2, 65_534, 65_535, -65_536]) {
            for step in STEPS.into_iter().chain(NO_STEPS) {
                let mut held = chunk_l_array(length);
                held.constants = [start, 3, step].map(Constant::Int).to_vec();
                let case = Case::of(&[held]);
                let ours = table::count(&case.words, 0, 9);
                let said = match passes(start, length as i64, step) {
                    Some(count) => Answer(vec![i64::from(count)]),
                    None => Refused(NO_COUNT, 0, 9),
                };
                counts.comparisons += 1;
                if ours != said {
                    let at = format!("an array of {length}, start {start}, step {step}");
                    counts.differ("count", &ours, &said, &at);
                }
                counts.compare(&case, &ALL);
            }
        }
    }
}

/// The chunk with other steps, drawn from those above, and some of its other integers far from the rest.
pub fn drawn(mut held: Chunk, random: &mut Random) -> Chunk {
    for constant in &mut held.constants {
        if let Constant::Int(value) = constant
            && random.one_in(3)
        {
            let near = random.below(5) as i64 - 2;
            let about = random.pick(&[0, 1 << 32, 1 << 33, 1 << 62, i64::MAX, i64::MIN]);
            *value = near.wrapping_add(about);
        }
    }
    for p in 0..held.ops.len() {
        if let Some(place) = stepping::step_place(&held, p) {
            let steps: &[i64] = if random.one_in(20) { &NO_STEPS } else { &STEPS };
            held.ops[place].a = held.constants.len() as u16;
            held.constants.push(Constant::Int(random.pick(steps)));
        }
    }
    held
}

/// Random modules from a seed of their own, so that they move no other module.
fn random_modules(counts: &mut Counts, seed: u64, modules: u64) {
    let mut random = Random(!seed);
    for _ in 0..modules {
        let chunks = programs::own_targets(programs::module(&mut random));
        let callees = programs::callees(&mut random, chunks.len());
        let chunks = chunks.into_iter().map(|chunk| drawn(chunk, &mut random));
        let words = form::write(&chunks.collect::<Vec<_>>());
        if words.len() <= form::MOST_WORDS {
            counts.compare(&Case::new(words, callees), &ALL);
        }
    }
}

/// With so many random modules.
pub fn all(counts: &mut Counts, seed: u64, modules: u64) {
    about_limits(counts);
    arrays(counts);
    loops::all(counts);
    random_modules(counts, seed, modules);
}
