//! Request 2.9: whether every way through gives up its turn. The cases of its readings, every small row, random modules over lists of numbers of all sorts, and
//! spines of about 256 blocks. Each answer has to be met, in ranges with no block past the limit and in deeper ones.
use crate::case::Case;
use crate::counts::Counts;
use crate::coverage_cases;
use crate::document::{self, DEEPEST};
use crate::expected::{self, Expected};
use crate::form::{self, Chunk, Op};
use crate::kinds::*;
use crate::pieces::{self, func, op, ops};
use crate::programs;
use crate::random::Random;
use crate::short_rows;
use crate::table::{self, Each, Outcome};

/// How often each answer was met: no, yes and never, in ranges in which no block lies too deep, and in the others.
#[derive(Default)]
struct Met([[u64; 3]; 2]);

impl Met {
    fn compare(&mut self, counts: &mut Counts, case: &Case) {
        counts.compare(case, &[Each::Chunk]);
        for (c, chunk) in case.chunks.iter().enumerate() {
            if let Expected::Same(Outcome::Answer(coverage)) = expected::yields(case, c) {
                let (from, to) = document::range(chunk).expect("there is an answer");
                let deeper = document::depth(&chunk.ops[from..to]) > DEEPEST;
                self.0[usize::from(deeper)][coverage[0] as usize] += 1;
            }
        }
    }

    /// A run that has not met all has not looked.
    fn print(&self) {
        for (ranges, [no, yes, never]) in ["at most 256 deep", "deeper"].iter().zip(self.0) {
            println!("yields, {ranges}: {no} no, {yes} yes, {never} never");
            assert!(no.min(yes).min(never) > 0, "each answer is met");
        }
    }
}

/// Each case of the readings: the answer is what is said, and all comparisons of a chunk.
fn readings(counts: &mut Counts, met: &mut Met) {
    for told in coverage_cases::all() {
        let case = Case::new(form::write(&[told.chunk]), told.list);
        let ours = table::yields(&case.words, 0, &case.callees);
        let said = Outcome::Answer(vec![told.said]);
        counts.comparisons += 1;
        if ours != said {
            counts.differ("yields", &ours, &said, told.name);
        }
        met.compare(counts, &case);
    }
}

/// Every row of at most seven ops over what gives up the turn, what does not, and what leaves; chunk 1 is listed.
fn rows(counts: &mut Counts, met: &mut Met) {
    let plain = ops![YIELD, CALL 1, CALL 2, RETURN, DUP];
    short_rows::all(7, &plain, |ops| {
        let case = Case::new(form::write(&[func(ops)]), vec![0, 1]);
        met.compare(counts, &case);
    });
}

/// Of the numbers that a list may hold, 1 alone counts.
const NUMBERS: [u32; 6] = [1, 1, 1, 0, 2, u32::MAX];

/// The chunk with Yields and Calls in the place of some plain ops.
fn giving(mut chunk: Chunk, chunks: usize, random: &mut Random) -> Chunk {
    for held in &mut chunk.ops {
        let is_plain = !matches!(held.kind, IF..=RETURN);
        if is_plain && random.one_in(3) {
            *held = match random.below(2) {
                0 => op(YIELD, 0, 0),
                _ => op(CALL, 0, random.below(chunks as u64 + 1) as usize),
            };
        }
    }
    chunk
}

/// From a seed of their own, so that they move no other module.
fn random_modules(counts: &mut Counts, met: &mut Met, random: &mut Random, modules: u64) {
    for _ in 0..modules {
        let chunks = programs::own_targets(programs::module(random));
        let n = chunks.len();
        let mut list = programs::callees(random, n);
        list.fill_with(|| random.pick(&NUMBERS));
        let chunks = chunks.into_iter().map(|chunk| giving(chunk, n, random));
        let words = form::write(&chunks.collect::<Vec<_>>());
        if words.len() <= form::MOST_WORDS {
            met.compare(counts, &Case::new(words, list));
        }
    }
}

/// Blocks in one another, each of a drawn form, with ops on the way in and out.
struct Spine<'a> {
    random: &'a mut Random,
    ops: Vec<Op>,
    /// of how many places one has an op
    rare: u64,
    /// of how many blocks one is a Loop
    loops: u64,
}

impl Spine<'_> {
    /// An op here, of what may stand here.
    fn here(&mut self, in_loop: bool) {
        let row = ops![YIELD, CALL 1, CALL 2, RETURN, DUP, YIELD, DUP];
        let body = ops![YIELD, CALL 1, DUP, BREAK_IF, BREAK_IF, BREAK, YIELD];
        let held = self.random.pick(if in_loop { &body } else { &row });
        self.ops.push(held);
    }

    fn now_and_then(&mut self, rare: u64, in_loop: bool) {
        if self.random.one_in(rare) {
            self.here(in_loop);
        }
    }

    fn open(&mut self, kind: u8) -> usize {
        self.ops.push(op(kind, 0, 0));
        self.ops.len() - 1
    }

    /// So many blocks more.
    fn blocks(&mut self, depth: usize, in_loop: bool) {
        if depth == 0 {
            return self.now_and_then(2, in_loop);
        }
        self.now_and_then(self.rare, in_loop);
        if self.random.one_in(self.loops) {
            self.body(depth);
        } else {
            self.arms(depth, in_loop);
        }
        self.now_and_then(self.rare, in_loop);
    }

    /// A Loop; most have a break somewhere.
    fn body(&mut self, depth: usize) {
        let from = self.open(LOOP);
        self.blocks(depth - 1, true);
        if !self.random.one_in(4) {
            let kind = self.random.pick(&[BREAK, BREAK_IF]);
            self.open(kind);
        }
        self.ops[from].a = self.open(END_LOOP) as u16 + 1;
    }

    /// An If, or one with two arms, of which the first or the second goes on.
    fn arms(&mut self, depth: usize, in_loop: bool) {
        let form = self.random.below(4);
        let from = self.open(IF);
        if form == 2 {
            self.now_and_then(2, in_loop);
        } else {
            self.blocks(depth - 1, in_loop);
        }
        if form < 2 {
            self.ops[from].a = self.open(END_IF) as u16;
            return;
        }
        let other = self.open(ELSE);
        self.ops[from].a = other as u16 + 1;
        if form == 2 {
            self.blocks(depth - 1, in_loop);
        } else {
            self.now_and_then(2, in_loop);
        }
        self.ops[other].a = self.open(END_IF) as u16;
    }
}

/// How many spines there are of a depth.
const SPINES: usize = 1_500;

/// Of 250 to 262 blocks in one another.
fn spines(counts: &mut Counts, met: &mut Met, random: &mut Random) {
    for depth in 250..=262 {
        for _ in 0..SPINES {
            let (rare, loops) = (random.pick(&[4, 40, 400]), random.pick(&[2, 40, 400]));
            let ops = Vec::new();
            let mut spine = Spine {
                random: &mut *random,
                ops,
                rare,
                loops,
            };
            spine.blocks(depth, false);
            let held = func(pieces::own_targets(spine.ops));
            met.compare(counts, &Case::new(form::write(&[held]), vec![0, 1]));
        }
    }
}

/// With so many random modules.
pub fn all(counts: &mut Counts, seed: u64, modules: u64) {
    let mut met = Met::default();
    let mut random = Random(seed.rotate_left(32) ^ 0x2929);
    readings(counts, &mut met);
    rows(counts, &mut met);
    random_modules(counts, &mut met, &mut random, modules);
    spines(counts, &mut met, &mut random);
    met.print();
}
