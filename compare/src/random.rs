//! Random modules and random damage, all from one seed.
use crate::form::{greatest_b, uses_a, word};
use crate::kinds::*;

/// The generator splitmix64.
pub struct Random(pub u64);

impl Random {
    fn next(&mut self) -> u64 {
        self.0 = self.0.wrapping_add(0x9e37_79b9_7f4a_7c15);
        let mut z = self.0;
        z = (z ^ (z >> 30)).wrapping_mul(0xbf58_476d_1ce4_e5b9);
        z = (z ^ (z >> 27)).wrapping_mul(0x94d0_49bb_1331_11eb);
        z ^ (z >> 31)
    }

    /// A number below `end`.
    pub fn below(&mut self, end: u64) -> u64 {
        self.next() % end
    }

    fn half(&mut self) -> u16 {
        self.next() as u16
    }

    fn byte_below(&mut self, end: u8) -> u8 {
        self.below(u64::from(end)) as u8
    }

    /// An op with fields that its kind allows.
    pub fn op(&mut self) -> u32 {
        let kind = self.byte_below(OPS);
        let b = self.below(u64::from(greatest_b(kind)) + 1) as u8;
        let a = if uses_a(kind) { self.half() } else { 0 };
        word(kind, b, a)
    }

    pub fn constant(&mut self, words: &mut Vec<u32>) {
        let integer = self.below(3) > 0;
        for b in 0..4 {
            words.push(if integer {
                word(INTEGER, b, self.half())
            } else {
                word(OTHER, b, 0)
            });
        }
    }

    pub fn extra(&mut self, words: &mut Vec<u32>) {
        for b in 0..2 {
            words.push(word(EXTRA, b, self.half()));
        }
    }

    /// A chunk of so many constants, ops and extras.
    pub fn chunk(&mut self, words: &mut Vec<u32>, constants: usize, ops: usize, extras: usize) {
        words.push(word(CHUNK, self.byte_below(3), self.half()));
        for _ in 0..constants {
            self.constant(words);
        }
        for _ in 0..ops {
            words.push(self.op());
        }
        for _ in 0..extras {
            self.extra(words);
        }
    }

    /// A module of so many chunks, each of so many constants, ops and extras.
    pub fn equal_chunks(
        &mut self,
        chunks: usize,
        constants: usize,
        ops: usize,
        extras: usize,
    ) -> Vec<u32> {
        let mut words = vec![word(MODULE, 0, chunks as u16)];
        for _ in 0..chunks {
            self.chunk(&mut words, constants, ops, extras);
        }
        words
    }

    /// A module in form: most are short, a few have up to 256 chunks.
    pub fn module(&mut self) -> Vec<u32> {
        let count = if self.below(200) == 0 {
            1 + self.below(256)
        } else {
            1 + self.below(5)
        };
        let mut words = vec![word(MODULE, 0, count as u16)];
        for _ in 0..count {
            let constants = self.below(4) as usize;
            let ops = self.below(12) as usize;
            let extras = self.below(ops as u64 + 1) as usize;
            self.chunk(&mut words, constants, ops, extras);
        }
        words
    }

    /// A word of any kind, or of one that stands in modules.
    pub fn any_word(&mut self) -> u32 {
        match self.below(4) {
            0 => self.next() as u32,
            1 => self.op(),
            2 => word(
                self.byte_below(OPS + 1),
                self.byte_below(5),
                self.below(3) as u16,
            ),
            _ => word(
                MODULE - 1 + self.byte_below(8),
                self.byte_below(5),
                self.below(3) as u16,
            ),
        }
    }

    /// One change somewhere: a word set, a bit turned, a word put in, taken out or written twice, two words exchanged, the end cut, the head's count moved.
    pub fn damage(&mut self, words: &mut Vec<u32>) {
        let i = self.below(words.len() as u64) as usize;
        let j = self.below(words.len() as u64) as usize;
        match self.below(8) {
            0 => words[i] = self.any_word(),
            1 => words[i] ^= 1 << self.below(32),
            2 => words.insert(i, self.any_word()),
            3 => drop(words.remove(i)),
            4 => words.insert(i, words[i]),
            5 => words.swap(i, j),
            6 => words.truncate(i),
            _ => {
                words[0] = words[0]
                    .wrapping_add(1)
                    .wrapping_sub(2 * self.below(2) as u32)
            }
        }
    }

    /// A head, a chunk's head, and words of any kind behind them.
    pub fn noise(&mut self) -> Vec<u32> {
        let mut words = vec![
            word(MODULE, 0, self.below(4) as u16),
            word(CHUNK, self.byte_below(4), 1),
        ];
        for _ in 0..self.below(8) {
            words.push(self.any_word());
        }
        words
    }
}
