//! The times of the proved side and of plain Rust on the same input, as a row of a table.
use std::hint::black_box;
use std::time::Instant;

/// How many rounds each side has, and about how many words a round goes through.
const ROUNDS: usize = 100;
const ROUND_WORDS: usize = 800_000;

/// Nanoseconds a word of one round of so many calls.
pub fn round<T>(words: usize, calls: usize, mut call: impl FnMut() -> T) -> f64 {
    let start = Instant::now();
    for _ in 0..calls {
        black_box(call());
    }
    start.elapsed().as_nanos() as f64 / calls as f64 / words as f64
}

/// What stands above the rows.
pub fn heading(of: &str) {
    println!(
        "{:<26} {:>6} {:>10} {:>10} {:>10}",
        format!("nanoseconds a word {of}"),
        "words",
        "proved",
        "Rust",
        "ratio"
    );
}

/// The fastest of the rounds for each side, in turns, so that neither has the quieter machine.
pub fn row<T, U>(
    name: &str,
    words: usize,
    mut proved: impl FnMut() -> T,
    mut plain: impl FnMut() -> U,
) {
    let calls = 1 + ROUND_WORDS / words;
    let (mut left, mut right) = (f64::MAX, f64::MAX);
    for _ in 0..ROUNDS {
        left = left.min(round(words, calls, &mut proved));
        right = right.min(round(words, calls, &mut plain));
    }
    println!(
        "{name:<26} {words:>6} {left:>10.2} {right:>10.2} {:>10.2}",
        left / right
    );
}
