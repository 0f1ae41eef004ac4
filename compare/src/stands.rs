//! How our outcome stands to the original's where a loop steps by another number than 1.
use crate::case::Case;
use crate::form::Op;
use crate::kinds::*;
use crate::refusals::*;
use crate::table::{Each, Outcome};
use crate::verify::oracle;
use Outcome::{Answer, Refused};
use std::fmt;

#[derive(Clone, Copy, Debug, PartialEq, Eq, PartialOrd, Ord)]
pub enum Stands {
    Equal,
    /// some figure is below the original's, none above, and all else is equal
    Below,
    /// the same refusal
    Refused(u32),
    /// an answer where the original has no count
    Answered,
    /// a refusal that is met behind the loop that the original has no count for
    Later(u32),
    /// what the request does not allow
    Against,
}

impl fmt::Display for Stands {
    fn fmt(&self, f: &mut fmt::Formatter) -> fmt::Result {
        match self {
            Stands::Equal => write!(f, "equal"),
            Stands::Below => write!(f, "below"),
            Stands::Refused(number) => write!(f, "refused by {number} the same"),
            Stands::Answered => write!(f, "answered where the original refuses by {NO_COUNT}"),
            Stands::Later(number) => write!(f, "refused by {number} later than its {NO_COUNT}"),
            Stands::Against => write!(f, "against the request"),
        }
    }
}

/// Two answers by their numbers, of which some are figures that may be below.
fn numbers(ours: &[i64], original: &[i64], is_figure: fn(usize) -> bool) -> Stands {
    let pairs = || ours.iter().zip(original).enumerate();
    let fits = |(i, (ours, original))| ours == original || (is_figure(i) && ours < original);
    if ours == original {
        Stands::Equal
    } else if ours.len() == original.len() && pairs().all(fits) {
        Stands::Below
    } else {
        Stands::Against
    }
}

/// When a walk meets a refusal at a position, as a number that grows along the walk: a count is asked for right before EndLoop is charged, and an Else is
/// charged right before its EndIf.
fn moment(ops: &[Op], number: u32, place: usize) -> usize {
    let target = usize::from(ops[place].a);
    match (number, ops[place].kind) {
        (NO_COUNT, LOOP) => 2 * (target - 1) - 1,
        (OPEN_TEXT, ELSE) => 2 * target - 1,
        _ => 2 * place,
    }
}

/// Whether a refusal is met later than the missing count of the loop at `p`, in the walk of the same chunk. 7 and 11 name no place.
fn later(ops: &[Op], p: usize, number: u32, place: usize) -> bool {
    match number {
        TOO_DEEP | TOO_TALL => place == 0,
        OPEN_TEXT | NO_COUNT if place < ops.len() => {
            moment(ops, number, place) > moment(ops, NO_COUNT, p)
        }
        _ => false,
    }
}

/// Whether chunk `d` stands behind chunk `c` in the call order.
fn behind(case: &Case, c: usize, d: usize) -> bool {
    let order = oracle::order(&case.module).unwrap_or_default();
    let place = |of| order.iter().position(|&held| held == of);
    place(c).zip(place(d)).is_some_and(|(c, d)| c < d)
}

/// Our outcome beside the original's: in a sheet a chunk behind the one that the original stops at may be refused by anything that a chunk may.
pub fn how(
    case: &Case,
    each: Each,
    is_figure: fn(usize) -> bool,
    ours: &Outcome,
    original: &Outcome,
) -> Stands {
    match (ours, original) {
        (Answer(ours), Answer(original)) => numbers(ours, original, is_figure),
        (Refused(number, ..), _) if ours == original => Stands::Refused(*number),
        (Answer(_), Refused(NO_COUNT, ..)) => Stands::Answered,
        (&Refused(number, d, place), &Refused(NO_COUNT, c, p)) => {
            let is_later = match number {
                _ if c == d => later(&case.chunks[c].ops, p, number, place),
                NO_STREAM..=NO_COUNT | TOO_TALL | STRAY_BREAK => {
                    each == Each::Module && behind(case, c, d)
                }
                _ => false,
            };
            if is_later {
                Stands::Later(number)
            } else {
                Stands::Against
            }
        }
        _ => Stands::Against,
    }
}
