//! What our answers have to be, by the original and by the documents.
use crate::case::Case;
use crate::document::{self, Refusal};
use crate::exact::{self, Exact};
use crate::kinds::REENTRANT;
use crate::refusals::*;
use crate::stepping;
use crate::sure;
use crate::table::{self, ENDS, NEVER, NO, Outcome, WHOLE, YES};
use crate::verify::oracle::{self, FIELDS};
use Outcome::{Answer, Refused};

/// What our answer has to be: the original's, or where a test that the documents alone have sets the input apart, what that test says. Where a loop steps by
/// another number than 1 it is what request 2.7 says, and behind it stands the original's answer, to which ours has to stand as the request allows.
pub enum Expected {
    Same(Outcome),
    Apart(&'static str, Outcome),
    Stepping(Outcome, Outcome),
}

use Expected::{Apart, Same, Stepping};

pub fn refused(refusal: Refusal, c: usize) -> Outcome {
    Refused(refusal.0, c, refusal.1)
}

/// Why an input is set apart.
const NO_ROW: &str = "no row";
const STRAY: &str = "stray break";
const UNSURE: &str = "unsure count";

/// What a chunk is refused by before any walk that the original has no test for: 6, and behind it 15. Its answer is held against ours only where neither is
/// met.
fn set_apart(case: &Case, c: usize) -> Option<Expected> {
    let refusal = document::chunk_row(&case.chunks[c]).err()?;
    let reason = match refusal.0 {
        CROSSED => NO_ROW,
        STRAY_BREAK => STRAY,
        _ => return None,
    };
    Some(Apart(reason, refused(refusal, c)))
}

/// What the cycle walk of a chunk is set apart for: 6 or 15 before it, or in it 16, which the stack walk does not test.
fn walk_apart(case: &Case, c: usize) -> Option<Expected> {
    let unsure = || Some(Refused(UNSURE_COUNT, c, sure::unsure(case, c)?));
    set_apart(case, c).or_else(|| Some(Apart(UNSURE, unsure()?)))
}

/// Where the range is no row: refusal 6. The original is asked too where that is short, since its walk may take exponential time on such a range.
fn crossed(chunk: &crate::bytecode::Chunk, c: usize) -> Expected {
    let reason = if chunk.ops.len() > 12 {
        "no row, not handed to the original"
    } else if oracle::cycles(chunk).is_ok() {
        "no row, answered by the original"
    } else {
        "no row, refused by the original too"
    };
    Apart(reason, Refused(CROSSED, c, 0))
}

/// How loops are counted: by ones, as the original does whatever their steps are, or by their steps, as request 2.7 does.
#[derive(Clone, Copy, PartialEq)]
enum By {
    Ones,
    Steps,
}

/// What is expected, by what is found with each way to count. Where nothing steps by another number than 1 that is the original's; where the original's is set
/// apart it stays so. What a sheet meets by steps may be a 16 of a chunk that the original does not get to: there too it is set apart.
fn counted(steps: bool, found: impl Fn(By) -> Expected) -> Expected {
    let original = found(By::Ones);
    if !steps {
        return original;
    }
    match (original, found(By::Steps)) {
        (_, unsure @ Apart(UNSURE, _)) => unsure,
        (Same(original), Same(outcome) | Apart(_, outcome)) => Stepping(outcome, original),
        (Apart(reason, _), Same(outcome) | Apart(_, outcome)) => Apart(reason, outcome),
        _ => panic!("by one way to count there is no other beside it"),
    }
}

fn of_chunk(case: &Case, c: usize, found: impl Fn(By) -> Expected) -> Expected {
    counted(stepping::any(&case.chunks[c]), found)
}

fn of_module(case: &Case, found: impl Fn(By) -> Expected) -> Expected {
    counted(case.chunks.iter().any(stepping::any), found)
}

fn count_by(case: &Case, c: usize, p: usize, by: By) -> Option<u32> {
    match by {
        By::Ones => oracle::count(&case.module.chunks[c], p),
        By::Steps => stepping::count(case, c, p),
    }
}

pub fn count(case: &Case, c: usize, p: usize) -> Expected {
    counted(stepping::steps(&case.chunks[c], p), |by| {
        Same(match count_by(case, c, p, by) {
            Some(n) => Answer(vec![i64::from(n)]),
            None => Refused(NO_COUNT, c, p),
        })
    })
}

fn cycles_by(case: &Case, c: usize, by: By) -> Expected {
    match walk_apart(case, c) {
        Some(Apart(NO_ROW, _)) => crossed(&case.module.chunks[c], c),
        Some(apart) => apart,
        None => Same(walked_cycles(case, c, by)),
    }
}

pub fn cycles(case: &Case, c: usize) -> Expected {
    of_chunk(case, c, |by| cycles_by(case, c, by))
}

/// The original's cycles, and 1 if the row ends. By steps, refusals and endings are the original's of the level chunk, and the cycles the plain walk's.
fn walked_cycles(case: &Case, c: usize, by: By) -> Outcome {
    let walk = match by {
        By::Ones => oracle::cycles(&case.module.chunks[c]),
        By::Steps => oracle::cycles(&stepping::level(case, c))
            .map(|(_, ends)| (exact::capped(plain(case, c, &[], by)), ends)),
    };
    match walk {
        Ok((cycles, ends)) => Answer(vec![i64::from(cycles), i64::from(ends)]),
        Err(refusal) => refused(refusal, c),
    }
}

/// The cycles of a chunk that is walked without a refusal, by the plain walk without a cap, with what the callees' runs add.
fn plain(case: &Case, c: usize, callees: &[u32], by: By) -> u128 {
    let exact = Exact {
        chunk: &case.chunks[c],
        callees,
        count: |p| count_by(case, c, p, by).expect("a walked loop has a count"),
    };
    let (from, to) = document::range(&case.chunks[c]).expect("a walked chunk has a range");
    exact.cycles(from, to)
}

/// Why a mark is set apart: whether one is yes.
fn reason(cut: bool) -> &'static str {
    if cut { "cut" } else { "exact" }
}

/// The cycles, 1 if the row ends, and 1 if the plain walk without a cap has more than 4,294,967,295. Up to that number the two have to have the same.
fn walk_by(case: &Case, c: usize, by: By) -> Expected {
    let mut walk = match cycles_by(case, c, by) {
        Same(Answer(walk)) => walk,
        other => return other,
    };
    let figure = plain(case, c, &[], by);
    let capped = i64::from(exact::capped(figure));
    assert_eq!(capped, walk[0], "the plain walk has other cycles");
    walk.push(i64::from(exact::is_cut(figure)));
    Same(Answer(walk))
}

/// A whole cycle walk, for the stored list.
pub fn walk(case: &Case, c: usize) -> Expected {
    of_chunk(case, c, |by| walk_by(case, c, by))
}

/// Marks are set apart, since they are the plain walk's.
fn marked(expected: Expected) -> Expected {
    match expected {
        Same(Answer(marks)) => Apart(reason(marks.contains(&1)), Answer(marks)),
        other => other,
    }
}

fn mark_by(case: &Case, c: usize, by: By) -> Expected {
    match walk_by(case, c, by) {
        Same(Answer(walk)) => Same(Answer(vec![walk[2]])),
        other => other,
    }
}

pub fn mark(case: &Case, c: usize) -> Expected {
    marked(of_chunk(case, c, |by| mark_by(case, c, by)))
}

/// The marks of a sheet that there is; else its refusal.
fn marks_by(case: &Case, by: By) -> Expected {
    let chunks = match sheet_by(case, by) {
        Same(Answer(_)) => 0..case.chunks.len(),
        refused => return refused,
    };
    let marks = chunks.map(|c| match mark_by(case, c, by) {
        Same(Answer(mark)) => mark[0],
        _ => panic!("a chunk of a sheet has cycles"),
    });
    Same(Answer(marks.collect()))
}

pub fn marks(case: &Case) -> Expected {
    marked(of_module(case, |by| marks_by(case, by)))
}

fn public_cycles_by(case: &Case, c: usize, by: By) -> Expected {
    let ours = || table::our_public_cycles(case, c);
    let chunk = &case.module.chunks[c];
    if let Some(apart) = walk_apart(case, c) {
        return apart;
    }
    if let Err(refusal @ Refusal(NO_STREAM | NO_RESET, 0)) = document::chunk_row(&case.chunks[c])
        && oracle::forward(chunk).is_err()
    {
        return Apart("the original tests targets first", refused(refusal, c));
    }
    if case.chunks[c].mode == REENTRANT {
        return Apart("Reentrant: the original cuts at yields", ours());
    }
    if by == By::Steps {
        return Same(table::public(case, c, walked_cycles(case, c, by)));
    }
    Same(match oracle::public_cycles(chunk) {
        Ok(cycles) => Answer(vec![i64::from(cycles)]),
        Err(refusal) => refused(refusal, c),
    })
}

pub fn public_cycles(case: &Case, c: usize) -> Expected {
    of_chunk(case, c, |by| public_cycles_by(case, c, by))
}

fn stack_by(case: &Case, c: usize, callees: &[u32], by: By) -> Expected {
    if let Some(apart) = set_apart(case, c) {
        return apart;
    }
    let walk = match by {
        By::Ones => oracle::stack(&case.module.chunks[c], callees),
        By::Steps => oracle::stack(&stepping::level(case, c), callees),
    };
    match walk {
        Ok((peak, _, _)) if document::too_tall(case.chunks[c].locals, i64::from(peak)) => {
            Apart("too tall", Refused(TOO_TALL, c, 0))
        }
        Ok((peak, delta, bytes)) => Same(Answer(vec![
            i64::from(peak),
            delta.map_or(ENDS, i64::from),
            i64::from(bytes),
        ])),
        Err(refusal) => Same(refused(refusal, c)),
    }
}

/// Over the lent callees.
pub fn stack(case: &Case, c: usize) -> Expected {
    of_chunk(case, c, |by| stack_by(case, c, &case.callees, by))
}

/// The number of the original's answer: `PM_NO`, `PM_YES` or `PM_NEVER`.
pub fn coverage_number(coverage: Option<bool>) -> i64 {
    match coverage {
        Some(false) => NO,
        Some(true) => YES,
        None => NEVER,
    }
}

/// Over the lent list. No count is asked, so that it does not matter how loops are counted.
pub fn yields(case: &Case, c: usize) -> Expected {
    if let Some(apart) = set_apart(case, c) {
        return apart;
    }
    let always = oracle::listed(&case.callees);
    Same(match oracle::coverage(&case.module.chunks[c], &always) {
        Ok(coverage) => Answer(vec![coverage_number(coverage)]),
        Err(refusal) => refused(refusal, c),
    })
}

pub fn order(case: &Case) -> Expected {
    Same(match oracle::order(&case.module) {
        Ok(order) => Answer(order.into_iter().map(|c| c as i64).collect()),
        Err(c) => Refused(RING, c, 0),
    })
}

/// The original has no tray.
pub fn short_tray() -> Expected {
    Apart("short tray", Refused(SHORT_TRAY, 0, 0))
}

/// Chunk after chunk in the original's order: cycles, peak and bytes by chunk index, or the first refusal.
fn sheet_by(case: &Case, by: By) -> Expected {
    let order = match oracle::order(&case.module) {
        Ok(order) => order,
        Err(c) => return Same(Refused(RING, c, 0)),
    };
    let mut lines = vec![0; FIELDS * order.len()];
    let mut bytes = vec![0; order.len()];
    for c in order {
        if let Some(apart) = walk_apart(case, c) {
            return apart;
        }
        let cost = match walked_cycles(case, c, by) {
            Answer(cost) => cost,
            refused => return Same(refused),
        };
        let stack = match stack_by(case, c, &bytes, by) {
            Same(Answer(stack)) => stack,
            other => return other,
        };
        lines[FIELDS * c..FIELDS * (c + 1)].copy_from_slice(&[cost[0], stack[0], stack[2]]);
        bytes[c] = stack[2] as u32;
    }
    if by == By::Ones {
        // `module_wcmu` goes through the module by itself, and has to find the same bytes.
        let whole = oracle::module_bytes(&case.module).unwrap_or_default();
        assert!(bytes == whole, "module_wcmu has other bytes than {bytes:?}");
    }
    Same(Answer(lines))
}

pub fn sheet(case: &Case) -> Expected {
    of_module(case, |by| sheet_by(case, by))
}

/// The original has no such field. Its walk has, where each Call's extra is raised by the callee's figure; where that would make an extra open text, the
/// figures are ours. By steps it is the plain walk that has it, whatever the extras. A refused sheet is refused as before.
fn wholes_by(case: &Case, by: By) -> Expected {
    let order = match (sheet_by(case, by), oracle::order(&case.module)) {
        (Same(Answer(_)), Ok(order)) => order,
        (refused, _) => return refused,
    };
    let mut figures = vec![0; order.len()];
    for c in order {
        let figure = match by {
            By::Ones => oracle::cycles_over(&case.module.chunks[c], &figures),
            By::Steps => Some(exact::capped(plain(case, c, &figures, by))),
        };
        match figure {
            Some(figure) => figures[c] = figure,
            None => {
                let figures = |lines: &[i64]| table::column(lines, WHOLE).collect();
                let ours = table::numbers_of(table::our_sheet(case), figures);
                return Apart("a callee's figure is no extra", ours);
            }
        }
    }
    Same(Answer(figures.into_iter().map(i64::from).collect()))
}

pub fn wholes(case: &Case) -> Expected {
    of_module(case, |by| wholes_by(case, by))
}

/// All numbers of the lines: the original's, the marks, and the figures with callees.
fn lines_by(case: &Case, by: By) -> Expected {
    let lines = match sheet_by(case, by) {
        Same(Answer(lines)) => lines,
        refused => return refused,
    };
    let Same(Answer(marks)) = marks_by(case, by) else {
        panic!("a sheet has marks")
    };
    let joined = |figures: Vec<i64>| {
        let each = lines.chunks(FIELDS).zip(&marks).zip(figures);
        let joined =
            each.flat_map(|((line, mark), figure)| [line[0], *mark, line[1], line[2], figure]);
        Answer(joined.collect())
    };
    match wholes_by(case, by) {
        Same(Answer(figures)) => Same(joined(figures)),
        Apart(reason, Answer(figures)) => Apart(reason, joined(figures)),
        refused => refused,
    }
}

/// The same, for the stored list.
pub fn lines(case: &Case) -> Expected {
    of_module(case, |by| lines_by(case, by))
}
