//! The uncapped cycles of a chunk, by document 01's rules as plain Rust reads them over positions: request 2.5's mark says whether they are over 4,294,967,295.
//! Nothing here is taken from the original but the counts of loops, which are handed in: the original's, or where a loop steps by another number than 1 those
//! of request 2.7. Sums and products stop at 2^128 - 1: the mark is the same for any cap above 4,294,967,295.
use crate::document;
use crate::form::Chunk;
use crate::kinds::*;

/// A chunk that is walked without a refusal, what each callee's run adds to its Calls, by chunk index, and the count of the Loop at a position.
pub struct Exact<'a, F: Fn(usize) -> u32> {
    pub chunk: &'a Chunk,
    pub callees: &'a [u32],
    pub count: F,
}

/// A figure up to the cap.
pub fn capped(figure: u128) -> u32 {
    figure.min(u128::from(u32::MAX)) as u32
}

/// Whether a figure is greater than the cap.
pub fn is_cut(figure: u128) -> bool {
    figure > u128::from(u32::MAX)
}

impl<F: Fn(usize) -> u32> Exact<'_, F> {
    /// The figure of a range.
    pub fn cycles(&self, from: usize, to: usize) -> u128 {
        self.row(from, to, &mut None).0
    }

    /// "charge is cycles plus extra", and of a Call its callee's run.
    fn charge(&self, i: usize) -> u128 {
        let op = &self.chunk.ops[i];
        let extra = self.chunk.extras.get(i).copied().unwrap_or(0);
        let run = match op.kind {
            CALL => self.callees.get(usize::from(op.a)).copied().unwrap_or(0),
            _ => 0,
        };
        document::figures(op).0 as u128 + u128::from(extra) + u128::from(run)
    }

    /// A row: its cycles, and whether it ends. Its breaks are noted by their cost from its start.
    fn row(&self, from: usize, to: usize, breaks: &mut Option<u128>) -> (u128, bool) {
        let ops = &self.chunk.ops;
        let (mut i, mut cost) = (from, 0u128);
        while i < to {
            cost = cost.saturating_add(self.charge(i));
            let t = usize::from(ops[i].a);
            let (more, ends, next) = match ops[i].kind {
                TRAP | RETURN => (0, true, to),
                BREAK | BREAK_IF => {
                    *breaks = Some(breaks.map_or(cost, |most| most.max(cost)));
                    (0, ops[i].kind == BREAK, i + 1)
                }
                IF if ops[t - 1].kind == ELSE && t - 1 > i => self.arms(i, t, breaks),
                IF => {
                    let (arm, _) = self.row(i + 1, t, breaks);
                    (arm.saturating_add(self.charge(t)), false, t + 1)
                }
                LOOP => self.passes(i, t),
                _ => (0, false, i + 1),
            };
            cost = cost.saturating_add(more);
            if ends {
                return (cost, true);
            }
            i = next;
        }
        (cost, false)
    }

    /// Behind an If at `i` with a second arm from `t` on: what both arms add, whether the row ends, and where it goes on.
    fn arms(&self, i: usize, t: usize, breaks: &mut Option<u128>) -> (u128, bool, usize) {
        let end = usize::from(self.chunk.ops[t - 1].a);
        let (then, first) = self.row(i + 1, t - 1, breaks);
        let (other, second) = self.row(t, end, breaks);
        let greater = then.saturating_add(self.charge(t - 1)).max(other);
        let more = greater.saturating_add(self.charge(end));
        (more, first && second, end + 1)
    }

    /// Behind a Loop at `i` with that target: the same of its passes.
    fn passes(&self, i: usize, target: usize) -> (u128, bool, usize) {
        let mut breaks = None;
        let (body, ends) = self.row(i + 1, target - 1, &mut breaks);
        if ends {
            return (body.max(breaks.unwrap_or(0)), breaks.is_none(), target);
        }
        let pass = body.saturating_add(self.charge(target - 1));
        let all = pass.saturating_mul(u128::from((self.count)(i)));
        (all.saturating_add(breaks.unwrap_or(0)), false, target)
    }
}
