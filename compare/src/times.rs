//! Times of the proved functions and of the original on the same words.
use crate::bytecode::Module;
use crate::case;
use crate::classes::{self, Class, SEARCHING, chain, loops, plain};
use crate::expected;
use crate::form::{self, Chunk};
use crate::pinnaclemug::{self, ROW};
use crate::rounds::round;
use crate::table;
use crate::verify::oracle;
use std::hint::black_box;
use std::time::{Duration, Instant};

/// The module as the original holds it, by the plain reading.
fn parsed(words: &[u32]) -> Module {
    let Ok(chunks) = form::read(words) else {
        panic!("these words are a module")
    };
    case::module(&chunks)
}

/// How many rounds are made: the most, and the fewest where they take longer than this.
const ROUNDS: usize = 60;
const FEWEST: usize = 5;
const LONG: Duration = Duration::from_secs(4);

/// The fastest of 60 rounds each, or of fewer where they take long: ours, the original with a plain reading before it, and the original alone. The three come
/// in turns, so that none has the quieter machine; a round makes some 100,000 words of calls.
fn timed<T, U>(
    name: &str,
    words: &[u32],
    mut ours: impl FnMut(&[u32]) -> T,
    original: impl Fn(&Module) -> U,
) {
    let module = parsed(words);
    let calls = 1 + 100_000 / words.len();
    let mut best = [f64::MAX; 3];
    let start = Instant::now();
    for made in 0..ROUNDS {
        if made >= FEWEST && start.elapsed() > LONG {
            break;
        }
        let met = [
            round(words.len(), calls, || ours(black_box(words))),
            round(words.len(), calls, || original(&parsed(black_box(words)))),
            round(words.len(), calls, || original(black_box(&module))),
        ];
        for (held, time) in best.iter_mut().zip(met) {
            *held = held.min(time);
        }
    }
    let [ours, read, alone] = best;
    println!(
        "{name:<38} {:>6} {ours:>8.2} {read:>14.2} {alone:>10.2} {:>6.2}",
        words.len(),
        ours / read
    );
}

/// The whole module: `pm_sheet`, and what the original has for a sheet. Both have to give the same lines.
fn sheet(name: &str, chunks: &[Chunk]) {
    let words = form::write(chunks);
    let mut tray = vec![0; ROW * chunks.len()];
    let lines = pinnaclemug::sheet(&words, &mut tray);
    assert_eq!(lines, Ok(chunks.len()), "{name} has a sheet");
    let compared: Vec<u32> = table::fields(&tray).collect();
    assert_eq!(Some(compared), oracle::sheet(&parsed(&words)), "{name}");
    let ours = |words: &[u32]| pinnaclemug::sheet(words, &mut tray);
    timed(name, &words, ours, oracle::sheet);
}

/// The cycle walk of the first chunk. Both have to give the same cycles.
fn cycles(name: &str, chunks: &[Chunk]) {
    let words = form::write(chunks);
    let original = |module: &Module| oracle::cycles(&module.chunks[0]);
    let (cycles, ends) = original(&parsed(&words)).expect("an answer");
    let ours = |words: &[u32]| pinnaclemug::cycles(words, 0);
    let compared = ours(&words).map(|walk| (walk.cycles, walk.ends));
    assert_eq!(compared, Ok((cycles, ends)), "{name}");
    timed(name, &words, ours, original);
}

/// The test of yields on the first chunk. Both have to give the same answer.
fn yields(name: &str, chunks: &[Chunk]) {
    let words = form::write(chunks);
    let list = classes::list();
    let always = oracle::listed(&list);
    let original = |module: &Module| oracle::coverage(&module.chunks[0], black_box(&always));
    let coverage = original(&parsed(&words)).expect("an answer");
    let number = expected::coverage_number(coverage);
    let ours = |words: &[u32]| pinnaclemug::yields(words, 0, black_box(&list));
    assert_eq!(ours(&words).map(i64::from), Ok(number), "{name}");
    timed(name, &words, ours, original);
}

fn heading(of: &str) {
    println!(
        "{:<38} {:>6} {:>8} {:>14} {:>10} {:>6}",
        format!("nanoseconds a word, {of}"),
        "words",
        "ours",
        "read, original",
        "original",
        "ratio"
    );
}

/// The sheet of a class at growing sizes.
fn growth((name, class): Class, sizes: &[usize]) {
    for &words in sizes {
        sheet(&format!("{name}, {words}"), &class(words));
    }
}

fn sheets() {
    heading("sheet");
    for (name, chunks) in classes::of_sheets() {
        sheet(name, &chunks);
    }
}

fn sheets_growing() {
    heading("sheet growing");
    let even: [Class; 3] = [("plain", plain), ("loops", loops), ("chain", chain)];
    for class in even {
        growth(class, &[1_000, 2_000, 4_000, 8_000, 16_000]);
    }
    let [far, few, many] = SEARCHING;
    growth(far, &[2_000, 4_000, 8_000, 16_000]);
    growth(few, &[2_000, 4_000, 8_000, 16_000]);
    // 254 loops are 3,824 words by themselves.
    growth(many, &[4_000, 8_000, 16_000]);
}

fn walks() {
    heading("cycles of chunk 0");
    for (name, chunks) in classes::of_walks() {
        cycles(name, &chunks);
    }
}

fn coverages() {
    heading("yields of chunk 0");
    for (name, chunks) in classes::of_yields() {
        yields(name, &chunks);
    }
}

/// The ratio is ours by the original with the reading, since ours reads the words too.
pub fn print() {
    sheets();
    sheets_growing();
    walks();
    coverages();
}
