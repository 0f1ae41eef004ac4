//! Compares the proved writer with a plain Rust one on the same lent lists: what they answer, and whole trays. What is written has to read as what was lent.
use crate::form::{self, MOST_WORDS};
use crate::kinds::YIELD;
use crate::lists::{COUNTS, EDGES, Lists, chunks_of};
use crate::pinnaclemug::{self, LENT_CHUNK, LENT_CONSTANT, LENT_OP, Refusal};
use crate::random::Random;
use crate::refusals::{SHORT_TRAY, UNFIT_PART};
use crate::shelved;
use crate::writer::{self, CONSTANT_WORDS, EXTRA_WORDS};

/// What stands in a tray and behind it before a call, its place added: the kind is that of no word.
const UNTOUCHED: u32 = 0xa5a5_0000;

/// By how much a tray is longer than it has to be, and how much is looked at behind it.
const SPARE: usize = 3;

/// A module of no more words than these is written into trays of every length.
const FEW: usize = 12;

/// How many differences are printed, and how much of each list.
const SHOWN: u64 = 20;
const SHOWN_NUMBERS: usize = 40;

/// How many lists were lent, how the calls ended, and how many differed.
#[derive(Default)]
pub struct Counts {
    lists: u64,
    written: u64,
    unfit: u64,
    short: u64,
    pub differences: u64,
}

/// Whether the words are those of chunks without an extra of 0 at the end, which are the lent ones again when each has the zeros that it lacks.
fn reads_as(words: &[u32], lists: &Lists) -> bool {
    let Ok(mut chunks) = form::read(words) else {
        return false;
    };
    let trimmed = chunks.iter().all(|held| held.extras.last() != Some(&0));
    let again = form::write(&chunks) == words;
    let (heads, _) = lists.lent().chunks.as_chunks();
    for (held, &[_, _, _, _, extras]) in chunks.iter_mut().zip(heads) {
        let length = held.extras.len().max(extras as usize);
        held.extras.resize(length, 0);
    }
    trimmed && again && Lists::of(&chunks) == *lists
}

/// More words than these the lists do not have.
fn most_words(lists: &Lists) -> usize {
    let [chunks, constants, ops, extras] = lists.0.each_ref().map(Vec::len);
    let constants = CONSTANT_WORDS * (constants / LENT_CONSTANT);
    let extras = EXTRA_WORDS * extras;
    (1 + chunks / LENT_CHUNK + constants + ops / LENT_OP + extras).min(MOST_WORDS)
}

impl Counts {
    /// Both writers on these lists in a tray of so much room: what the Rust wrote, or its refusal. What lies behind the words is left; a refusal leaves all.
    pub fn call(&mut self, lists: &Lists, room: usize) -> Result<Vec<u32>, Refusal> {
        let lent = lists.lent();
        let before: Vec<u32> = (UNTOUCHED..).take(room + SPARE).collect();
        let (mut left, mut right) = (before.clone(), before.clone());
        let proved = pinnaclemug::write(&lent, &mut left[..room]);
        let plain = writer::write(&lent, &mut right[..room]);
        let (words, behind) = right.split_at(plain.unwrap_or(0));
        let good = before.ends_with(behind) && (plain.is_err() || reads_as(words, lists));
        if proved != plain || left != right || !good {
            let what = format!("proved {proved:?}, Rust {plain:?}, room {room}");
            self.differ(&what, lists);
        }
        match plain {
            Ok(_) => self.written += 1,
            Err(refusal) if refusal.number == SHORT_TRAY => self.short += 1,
            Err(_) => self.unfit += 1,
        }
        plain.map(|_| words.to_vec())
    }

    /// Both writers on these lists in a tray with room to spare. Where there are words, also in one of just so much room and in one that is a word too short;
    /// where there are few, in trays of every length. What is refused there is refused without any room too.
    pub fn compare(&mut self, lists: &Lists) {
        self.lists += 1;
        let outcome = self.call(lists, most_words(lists) + SPARE);
        let rooms = match outcome.map(|words| words.len()) {
            Ok(words) if words <= FEW => 0..words + SPARE,
            Ok(words) => words - 1..words + 1,
            Err(_) => 0..1,
        };
        for room in rooms {
            let _ = self.call(lists, room);
        }
    }

    /// A difference. The first few are printed.
    pub fn differ(&mut self, what: &str, lists: &Lists) {
        self.differences += 1;
        if self.differences <= SHOWN {
            println!("difference: {what}");
            for (name, list) in ["chunks", "constants", "ops", "extras"]
                .iter()
                .zip(&lists.0)
            {
                let some = list.len().min(SHOWN_NUMBERS);
                println!("  {name}, {} numbers: {:x?}", list.len(), &list[..some]);
            }
        }
    }

    pub fn print(&self) {
        println!(
            "{} lists lent to the writer in {} calls: {} written, {} refused by {UNFIT_PART}, {} refused by {SHORT_TRAY}, {} differences",
            self.lists,
            self.written + self.unfit + self.short,
            self.written,
            self.unfit,
            self.short,
            self.differences
        );
    }
}

/// A Yield as it is lent.
pub const LENT_YIELD: [u32; LENT_OP] = [YIELD as u32, 0, 0];

/// Each number of a head and of a constant at its edges, and every list of a few extras with a few ops.
fn every_field(counts: &mut Counts) {
    for x in EDGES {
        for y in EDGES {
            counts.compare(&Lists::one_chunk([x, y], &[], &[], &[]));
            for form in EDGES {
                let constants = [[0, 1, 2], [form, x, y]];
                counts.compare(&Lists::one_chunk([0, 0], &constants, &[], &[]));
            }
        }
    }
    for ops in 0..6 {
        for length in 0..7 {
            for bits in 0..1 << length {
                let extras: Vec<u32> = (0..length).map(|i| (bits >> i & 1) * u32::MAX).collect();
                counts.compare(&Lists::one_chunk(
                    [0, 0],
                    &[],
                    &[LENT_YIELD; 6][..ops],
                    &extras,
                ));
            }
        }
    }
}

/// Every kind and some beyond, with a and b at their edges: alone, and between two others in a second chunk.
fn every_op(counts: &mut Counts) {
    for kind in (0..=300).chain([65_536, 1 << 24, 1 << 31, u32::MAX]) {
        for a in EDGES {
            for b in EDGES {
                let op = [kind, a, b];
                counts.compare(&Lists::one_chunk([0, 0], &[], &[op], &[]));
                let mut lists = Lists::one_chunk([0, 0], &[], &[LENT_YIELD], &[]);
                lists.push([0, 0], &[], &[LENT_YIELD, op, LENT_YIELD], &[]);
                counts.compare(&lists);
            }
        }
    }
}

/// Counts that are great, and those whose double, triple or fourfold passes 32 bits.
const GREAT: [u32; 8] = [
    65_536,
    1 << 30,
    0x5555_5555,
    0x5555_5556,
    1 << 31,
    0xaaaa_aaaa,
    u32::MAX - 1,
    u32::MAX,
];

/// The number whose triple is 1 modulo 2^32.
const THIRD: u32 = 0xaaaa_aaab;

/// Each count, small or great, over a short list of zeros: of a chunk alone, and of the first of two that make up the list modulo 2^32.
fn every_count(counts: &mut Counts) {
    for count in COUNTS {
        for length in 0..10 {
            for whole in [length, THIRD.wrapping_mul(length)] {
                for number in (0..5).chain(GREAT).chain([whole]) {
                    for chunks in [1, 2] {
                        let mut lists = Lists::empty(chunks);
                        // The lists behind the first are in the order of the counts.
                        lists.0[1 + count - COUNTS.start].resize(length as usize, 0);
                        lists.heads()[chunks - 1][count] = whole.wrapping_sub(number);
                        lists.heads()[0][count] = number;
                        counts.compare(&lists);
                    }
                }
            }
        }
    }
}

/// So many chunks of so many words in all: the last has constants, extras and extras of 0 behind them, and Yields fill it up; the others have nothing.
fn filled(words: usize, chunks: usize, constants: usize, extras: usize, zeros: usize) -> Lists {
    let ops = words - 1 - chunks - CONSTANT_WORDS * constants - EXTRA_WORDS * extras;
    let mut lists = Lists::empty(chunks - 1);
    let extras = [vec![7; extras], vec![0; zeros]].concat();
    let constants = vec![[0, 1, 2]; constants];
    lists.push([0, 0], &constants, &vec![LENT_YIELD; ops], &extras);
    lists
}

/// Chunk counts and lengths about their limits, and some that fit modulo 2^16.
fn limits(counts: &mut Counts) {
    for chunks in [0, 1, 255, 256, 257, 65_537] {
        counts.compare(&Lists::empty(chunks));
    }
    for words in (MOST_WORDS - 3..MOST_WORDS + 4).chain([65_536 + 300]) {
        for chunks in [1, 255, 256, 257] {
            counts.compare(&filled(words, chunks, 0, 0, 0));
            counts.compare(&filled(words, chunks, 4_000, 0, 0));
            counts.compare(&filled(words, chunks, 0, 5_000, 0));
            counts.compare(&filled(words, chunks, 0, 0, 70_000));
            counts.compare(&filled(words, chunks, 1_000, 1_000, 9));
        }
    }
}

/// Each number at each edge and with each bit turned, each list cut and lengthened, and each count moved to the next chunk's.
fn every_damage(counts: &mut Counts, held: &Lists) {
    let mut lists = held.clone();
    for (of, list) in held.0.iter().enumerate() {
        for (i, &number) in list.iter().enumerate() {
            for changed in EDGES
                .into_iter()
                .chain((0..32).map(|bit| number ^ 1 << bit))
            {
                lists.0[of][i] = changed;
                counts.compare(&lists);
            }
            lists.0[of][i] = number;
        }
        for length in 0..list.len() {
            lists.0[of].truncate(length);
            counts.compare(&lists);
            lists.0[of].clone_from(list);
        }
        for number in EDGES {
            lists.0[of].push(number);
            counts.compare(&lists);
            lists.0[of].clone_from(list);
        }
    }
    for c in 0..lists.heads().len() {
        for count in COUNTS {
            lists.move_count(c, count, 1);
            counts.compare(&lists);
            lists.clone_from(held);
        }
    }
}

/// A random module with extras of 0 among its own and behind them.
fn random_module(random: &mut Random) -> Lists {
    let mut chunks = chunks_of(&random.module());
    for held in &mut chunks {
        random.zeros(&mut held.extras);
    }
    Lists::of(&chunks)
}

fn random_lists(counts: &mut Counts, random: &mut Random) {
    for _ in 0..200_000 {
        let lists = random_module(random);
        counts.compare(&lists);
        for changes in [1, 1, 1, 1, 2, 3] {
            let mut damaged = lists.clone();
            for _ in 0..changes {
                random.damage_lists(&mut damaged);
            }
            counts.compare(&damaged);
        }
    }
}

pub fn all(counts: &mut Counts, random: &mut Random) {
    shelved::all(counts);
    every_field(counts);
    every_op(counts);
    every_count(counts);
    limits(counts);
    for _ in 0..50 {
        every_damage(counts, &random_module(random));
    }
    random_lists(counts, random);
}
