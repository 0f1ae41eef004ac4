//! Compares the proved reader and the proved writer with plain Rust, on the same words and on the same lent lists: the outcomes, then the times.
mod form;
#[allow(dead_code)]
mod kinds;
mod lists;
mod measured;
#[allow(dead_code)]
mod picks;
#[allow(dead_code)]
mod pieces;
#[allow(dead_code)]
mod pinnaclemug;
mod random;
#[allow(dead_code)]
mod refusals;
mod rounds;
mod shelf;
mod shelved;
mod writer;

use form::{Chunk, Refusal, word};
use kinds::*;
use lists::Lists;
use random::Random;

/// The Rust reading's outcome as the proved reader gives it: the chunk is 0 for every refusal.
fn plain(reading: &Result<Vec<Chunk>, Refusal>) -> Result<usize, pinnaclemug::Refusal> {
    match reading {
        Ok(chunks) => Ok(chunks.len()),
        Err(refusal) => Err(pinnaclemug::Refusal {
            number: refusal.number,
            chunk: 0,
            place: refusal.place as u32,
        }),
    }
}

/// How many lists were read, by the number of the outcome, and how many differed; and the counts of the writer.
#[derive(Default)]
struct Counts {
    by_number: [u64; 3],
    differences: u64,
    shelf: shelf::Counts,
}

impl Counts {
    /// Both sides on these words. What the Rust accepts also has to be the words again when it is written, and goes through both writers.
    fn compare(&mut self, words: &[u32]) {
        let reading = form::read(words);
        if let Ok(chunks) = &reading {
            self.shelf.compare(&Lists::of(chunks));
        }
        let (left, right) = (pinnaclemug::read(words), plain(&reading));
        if left != right || reading.is_ok_and(|chunks| form::write(&chunks) != words) {
            self.differences += 1;
            println!(
                "difference: proved {left:?}, Rust {right:?}, words {:x?}",
                &words[..words.len().min(40)]
            );
        }
        self.by_number[right.map_or_else(|refusal| refusal.number as usize, |_| 0)] += 1;
    }

    fn lists(&self) -> u64 {
        self.by_number.iter().sum()
    }
}

/// Every cut, every bit turned and every word made 4,294,967,295.
fn every_damage(counts: &mut Counts, module: &[u32]) {
    for n in 0..=module.len() {
        counts.compare(&module[..n]);
    }
    let mut words = module.to_vec();
    for i in 0..module.len() {
        for bit in 0..32 {
            words[i] = module[i] ^ 1 << bit;
            counts.compare(&words);
        }
        words[i] = u32::MAX;
        counts.compare(&words);
        words[i] = module[i];
    }
}

/// Every kind and b, with some a, in each place of a module: first, behind its head, behind a chunk's head, inside constants of both kinds, behind an op and
/// behind each half of an extra.
fn every_word(counts: &mut Counts) {
    let fronts: [&[u32]; 8] = [
        &[],
        &[word(MODULE, 0, 1)],
        &[word(MODULE, 0, 2), word(CHUNK, 0, 0)],
        &[word(MODULE, 0, 1), word(CHUNK, 0, 0), word(INTEGER, 0, 9)],
        &[word(MODULE, 0, 1), word(CHUNK, 0, 0), word(OTHER, 0, 0)],
        &[word(MODULE, 0, 1), word(CHUNK, 0, 0), word(CONST, 0, 0)],
        &[
            word(MODULE, 0, 2),
            word(CHUNK, 0, 0),
            word(CONST, 0, 0),
            word(EXTRA, 0, 9),
        ],
        &[
            word(MODULE, 0, 1),
            word(CHUNK, 0, 0),
            word(CONST, 0, 0),
            word(CONST, 0, 0),
            word(EXTRA, 0, 9),
            word(EXTRA, 1, 9),
        ],
    ];
    for front in fronts {
        for kind_and_b in 0..65_536 {
            for a in [0, 1, 256, 257, 65_535] {
                let mut words = front.to_vec();
                words.push(kind_and_b << 16 | a);
                counts.compare(&words);
            }
        }
    }
}

/// Chunk counts and lengths about their limits.
fn edges(counts: &mut Counts) {
    for announced in [0, 1, 2, 255, 256, 257] {
        for chunks in 0..259 {
            let mut words = vec![word(MODULE, 0, announced)];
            words.resize(chunks + 1, word(CHUNK, 0, 0));
            counts.compare(&words);
        }
    }
    for announced in 0..3 {
        for length in form::MOST_WORDS - 3..form::MOST_WORDS + 3 {
            let mut words = vec![word(MODULE, 0, announced), word(CHUNK, 0, 0)];
            words.resize(length, word(DUP, 0, 0));
            counts.compare(&words);
        }
    }
}

fn random_lists(counts: &mut Counts, random: &mut Random) {
    for _ in 0..100_000 {
        let mut words = random.module();
        counts.compare(&words);
        for _ in 0..4 {
            if !words.is_empty() {
                random.damage(&mut words);
            }
            counts.compare(&words);
        }
        counts.compare(&random.noise());
    }
}

fn main() {
    let seed = std::env::args()
        .nth(1)
        .map_or(1, |text| text.parse().expect("the seed is a number"));
    let mut random = Random(seed);
    let mut counts = Counts::default();
    println!("seed {seed}");
    edges(&mut counts);
    every_word(&mut counts);
    for _ in 0..50 {
        every_damage(&mut counts, &random.module());
    }
    random_lists(&mut counts, &mut random);
    shelf::all(&mut counts.shelf, &mut random);
    let same = counts.differences == 0 && counts.shelf.differences == 0;
    // Of sides that differ no times are taken.
    if same {
        measured::times(&mut random);
    }
    println!(
        "{} lists read: {} accepted, {} refused by 1, {} refused by 2, {} differences",
        counts.lists(),
        counts.by_number[0],
        counts.by_number[1],
        counts.by_number[2],
        counts.differences
    );
    counts.shelf.print();
    std::process::exit(if same { 0 } else { 1 });
}
