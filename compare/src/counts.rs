//! Makes the comparisons of a module, and counts their outcomes.
use crate::case::{self, Case};
use crate::expected::Expected;
use crate::kinds::LOOP;
use crate::stands::{self, Stands};
use crate::table::{COMPARISONS, Comparison, Each, Outcome};
use std::collections::BTreeMap;

/// An outcome as it is counted.
#[derive(Clone, Copy, PartialEq, Eq, PartialOrd, Ord)]
enum Met {
    Answer,
    Refusal(u32),
    Apart(&'static str),
    Stepping(Stands),
}

/// What ours counts as, and what it has to be. Where a loop steps by another number than 1 it counts by how it stands to the original's, and where it may not
/// stand so, that is shown for what it has to be.
fn met(case: &Case, of: &Comparison, ours: &Outcome, expected: Expected) -> (Met, Outcome) {
    match expected {
        Expected::Same(outcome @ Outcome::Answer(_)) => (Met::Answer, outcome),
        Expected::Same(outcome @ Outcome::Refused(number, ..)) => (Met::Refusal(number), outcome),
        Expected::Same(Outcome::Spoilt) => panic!("the original has no lent buffer"),
        Expected::Apart(reason, outcome) => (Met::Apart(reason), outcome),
        Expected::Stepping(outcome, original) => {
            match stands::how(case, of.each, of.is_figure, ours, &original) {
                Stands::Against => (Met::Stepping(Stands::Against), original),
                how => (Met::Stepping(how), outcome),
            }
        }
    }
}

/// Each position of a chunk, and some behind it; of a long module the Loops alone, since the proved count reads the words anew at each.
fn positions(case: &Case, c: usize, mut see: impl FnMut(usize)) {
    let ops = &case.chunks[c].ops;
    let short = case.words.len() < 120;
    (0..ops.len() + 2)
        .filter(|&p| short || ops.get(p).is_some_and(|op| op.kind == LOOP))
        .for_each(&mut see);
    see(u32::MAX as usize);
}

/// By how many words a short tray is short: by one, by two, or by all.
const SHORT: [usize; 3] = [1, 2, usize::MAX];

/// How often each outcome was met in each comparison, and how many differed.
#[derive(Default)]
pub struct Counts {
    pub modules: u64,
    pub comparisons: u64,
    pub differences: u64,
    met: BTreeMap<(usize, Met), u64>,
}

impl Counts {
    /// The comparisons that are made once a module, for short trays, once a chunk, or for each position, if they are among those wanted.
    pub fn compare(&mut self, case: &Case, wanted: &[Each]) {
        self.modules += 1;
        for (row, comparison) in COMPARISONS.iter().enumerate() {
            if !wanted.contains(&comparison.each) {
                continue;
            }
            match comparison.each {
                Each::Module => self.one(row, case, 0, 0),
                Each::Short => SHORT.iter().for_each(|&less| self.one(row, case, 0, less)),
                Each::Chunk => (0..case.chunks.len()).for_each(|c| self.one(row, case, c, 0)),
                Each::Position => (0..case.chunks.len())
                    .for_each(|c| positions(case, c, |p| self.one(row, case, c, p))),
            }
        }
    }

    fn one(&mut self, row: usize, case: &Case, c: usize, p: usize) {
        let comparison = &COMPARISONS[row];
        let expected = (comparison.original)(case, c, p);
        let ours = (comparison.ours)(case, c, p);
        let (met, expected) = met(case, comparison, &ours, expected);
        self.comparisons += 1;
        *self.met.entry((row, met)).or_default() += 1;
        if ours != expected {
            let stepping = match met {
                Met::Stepping(how) => format!(", stepping, {how}"),
                _ => String::new(),
            };
            let at = format!("chunk {c}, position {p}{stepping}");
            self.differ(comparison.name, &ours, &expected, &at);
            self.show(case);
        }
    }

    /// A difference. The first few are printed.
    pub fn differ(&mut self, name: &str, ours: &Outcome, expected: &Outcome, at: &str) {
        self.differences += 1;
        if self.differences <= 20 {
            println!("difference in {name}, {at}: ours {ours:?}, but it should be {expected:?}");
        }
    }

    fn show(&self, case: &Case) {
        if self.differences <= 20 {
            let some = case.words.len().min(200);
            println!(
                "  words {:x?}, callees {:?}",
                &case.words[..some],
                case.callees
            );
            for (c, chunk) in case.chunks.iter().enumerate().take(8) {
                println!("  chunk {c}: {}", case::text(chunk));
            }
        }
    }

    /// One line for each comparison, and behind it one for those in which a loop steps by another number than 1.
    pub fn print(&self) {
        for (row, comparison) in COMPARISONS.iter().enumerate() {
            let (mut line, mut stepping) = (Vec::new(), Vec::new());
            for ((_, met), n) in self.met.iter().filter(|((of, _), _)| *of == row) {
                match met {
                    Met::Answer => line.push(format!("{n} answers")),
                    Met::Refusal(number) => line.push(format!("{n} refused by {number}")),
                    Met::Apart(reason) => line.push(format!("{n} apart ({reason})")),
                    Met::Stepping(how) => stepping.push(format!("{n} {how}")),
                }
            }
            println!("{}: {}", comparison.name, line.join(", "));
            if !stepping.is_empty() {
                println!("{}, stepping: {}", comparison.name, stepping.join(", "));
            }
        }
    }
}
