//! Random values and ops for programs.
use crate::form::{Op, greatest_b, uses_a};
use crate::kinds::*;
use crate::pieces::op;
use crate::random::Random;

impl Random {
    /// One of some values.
    pub fn pick<T: Copy>(&mut self, values: &[T]) -> T {
        values[self.below(values.len() as u64) as usize]
    }

    pub fn one_in(&mut self, n: u64) -> bool {
        self.below(n) == 0
    }

    /// A value that a constant may have: mostly small, else about a limit of a count.
    pub fn value(&mut self) -> i64 {
        let near = self.below(5) as i64 - 2;
        let about = match self.below(16) {
            0..=9 => return self.below(7) as i64 - 1,
            10 => 0,
            11 => 1 << 32,
            12 => -(1 << 32),
            13 => i64::MAX,
            14 => i64::MIN,
            _ => self.below(u64::MAX) as i64,
        };
        about.saturating_add(near)
    }

    /// An op that opens, closes and leaves no block and ends no row.
    pub fn plain(&mut self) -> Op {
        loop {
            let kind = self.below(u64::from(OPS)) as u8;
            if matches!(kind, IF..=RETURN | TRAP) {
                continue;
            }
            let b = self.below(u64::from(greatest_b(kind)) + 1) as u8;
            let b = if greatest_b(kind) == 255 && self.one_in(2) {
                b % 4
            } else {
                b
            };
            let a = match kind {
                CONST => self.below(6),
                GET_LOCAL | SET_LOCAL => 4 + self.below(4),
                _ => self.pick(&[0, 1, 2, 3, 7, 65_535]),
            };
            return op(kind, b, if uses_a(kind) { a as usize } else { 0 });
        }
    }
}
