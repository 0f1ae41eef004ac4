//! Random modules whose ops are mostly rows: arms, counted loops, breaks, traps and calls, with near misses of each.
use crate::form::{Chunk, Constant, Op, uses_a};
use crate::kinds::*;
use crate::pieces::{self, header, op, tail};
use crate::random::Random;

/// Where the Calls of a module may lead, besides out of it.
#[derive(Clone, Copy)]
enum Calls {
    Up,
    Down,
    Anywhere,
}

/// A chunk in the making.
struct Maker<'a> {
    random: &'a mut Random,
    constants: Vec<Constant>,
    ops: Vec<Op>,
    /// ops that may still come
    room: usize,
    calls: Calls,
    chunk: u64,
    chunks: u64,
}

impl Maker<'_> {
    fn push(&mut self, kind: u8, b: u8, a: usize) -> usize {
        self.ops.push(op(kind, b, a));
        self.room = self.room.saturating_sub(1);
        self.ops.len() - 1
    }

    fn push_all(&mut self, ops: &[Op]) {
        for held in ops {
            self.push(held.kind, held.b, usize::from(held.a));
        }
    }

    /// The index of a constant of this value, which is put in if there is none yet.
    fn constant(&mut self, value: i64) -> usize {
        let is = |held: &Constant| matches!(held, Constant::Int(v) if *v == value);
        if let Some(i) = self.constants.iter().position(is) {
            return i;
        }
        self.constants.push(Constant::Int(value));
        self.constants.len() - 1
    }

    fn plain(&mut self) {
        let held = self.random.plain();
        self.push_all(&[held]);
    }

    fn call(&mut self) {
        let (c, n) = (self.chunk, self.chunks);
        let callee = match self.calls {
            Calls::Up if c + 1 < n => c + 1 + self.random.below(n - c - 1),
            Calls::Down if c > 0 => self.random.below(c),
            Calls::Anywhere => self.random.below(n + 2),
            _ => self.random.pick(&[n, n + 1, 65_535]),
        };
        let arguments = self.random.pick(&[0, 0, 1, 2, 3, 255]);
        self.push(CALL, arguments, callee as usize);
    }

    /// Some items, and sometimes an op that ends the row or leaves the loop, with or without dead ops behind it.
    fn row(&mut self, depth: u32, in_loop: bool) {
        for _ in 0..self.random.below(4) {
            self.item(depth, in_loop);
        }
        if self.random.one_in(5) {
            match self.random.below(if in_loop { 6 } else { 3 }) {
                0 => self.push(RETURN, 0, 0),
                1 | 2 => {
                    let code = self.random.pick(&[0, 1, 8, 9, 300]);
                    self.push(TRAP, 0, code)
                }
                _ => {
                    let operand = self.random.below(20) as usize;
                    self.push(BREAK, 0, operand)
                }
            };
            if self.random.one_in(3) {
                self.item(depth, in_loop);
            }
        }
    }

    fn item(&mut self, depth: u32, in_loop: bool) {
        if depth == 0 || self.room == 0 {
            return self.plain();
        }
        match self.random.below(16) {
            0..=4 => self.plain(),
            5 => self.call(),
            6 if in_loop => {
                let operand = self.random.below(20) as usize;
                self.push(BREAK_IF, 0, operand);
            }
            6 | 7 => {
                let from = self.push(IF, 0, 0);
                self.row(depth - 1, in_loop);
                let end = self.push(END_IF, 0, 0);
                self.ops[from].a = end as u16;
            }
            8..=10 => {
                let from = self.push(IF, 0, 0);
                self.row(depth - 1, in_loop);
                let other = self.push(ELSE, 0, 0);
                self.ops[from].a = other as u16 + 1;
                self.row(depth - 1, in_loop);
                let end = self.push(END_IF, 0, 0);
                self.ops[other].a = end as u16;
            }
            11 => self.open_loop(depth),
            _ => self.counted_loop(depth),
        }
    }

    /// A loop with no header; most of their bodies leave it.
    fn open_loop(&mut self, depth: u32) {
        let from = self.push(LOOP, 0, 0);
        self.row(depth - 1, true);
        if !self.random.one_in(4) {
            self.push(BREAK, 0, 0);
        }
        self.close(from);
    }

    fn close(&mut self, from: usize) {
        let operand = self.random.below(20) as usize;
        let end = self.push(END_LOOP, 0, operand);
        self.ops[from].a = end as u16 + 1;
    }

    /// A value set in a slot: by a constant, or by the length of an array that may have been copied.
    fn set_value(&mut self, slot: usize) {
        match self.random.below(12) {
            0..=6 => {
                let value = self.random.value();
                let index = self.constant(value);
                self.push(CONST, 0, index);
            }
            7 => {
                let index = self.random.below(8) as usize;
                self.push(CONST, 0, index);
            }
            8 => self.plain(),
            _ => {
                let kind = if self.random.one_in(8) { STRUCT } else { ARRAY };
                let length = self.random.pick(&[0, 1, 2, 3, 9, 65_535]);
                self.push(NEW_COMPOSITE, kind, length);
                let mut held = self.random.below(4) as usize;
                self.push(SET_LOCAL, 0, held);
                for _ in 0..self.random.below(3) {
                    self.push(GET_LOCAL, 0, held);
                    held = self.random.below(6) as usize;
                    self.push(SET_LOCAL, 0, held);
                    if self.random.one_in(4) {
                        self.plain();
                    }
                }
                self.push(GET_LOCAL, 0, held);
                self.push(LEN, 0, 0);
            }
        }
        self.push(SET_LOCAL, 0, slot);
    }

    /// A counted loop; one in three has some change somewhere from the values on.
    fn counted_loop(&mut self, depth: u32) {
        let start = self.ops.len();
        let v = self.random.below(4) as usize;
        let e = match self.random.below(20) {
            0 => v,
            _ => (v + 1 + self.random.below(3) as usize) % 4,
        };
        for slot in if self.random.one_in(2) {
            [v, e]
        } else {
            [e, v]
        } {
            if !self.random.one_in(12) {
                self.set_value(slot);
            }
        }
        if self.random.one_in(4) {
            self.plain();
        }
        let from = self.push(LOOP, 0, 0);
        let operand = self.random.below(20) as usize;
        self.push_all(&header(v, e));
        self.ops[from + 4].a = operand as u16;
        self.row(depth - 1, true);
        let step = match self.random.below(8) {
            0 => self.random.value(),
            1 => 2,
            _ => 1,
        };
        let step = self.constant(step);
        self.push_all(&tail(v, step));
        self.close(from);
        if self.random.one_in(3) {
            self.miss(start);
        }
    }

    /// One op from `start` on changed: another slot or index, another kind, or another b.
    fn miss(&mut self, start: usize) {
        let i = start + self.random.below((self.ops.len() - start) as u64) as usize;
        let held = &mut self.ops[i];
        match held.kind {
            CONST..=SET_LOCAL => held.a = self.random.below(5) as u16,
            POP_N => held.b = self.random.below(5) as u8,
            NEW_COMPOSITE => held.b = self.random.below(4) as u8,
            CMP_GE => held.kind = CMP_GT,
            BREAK_IF => *held = op(YIELD, 0, 0),
            CHECKED_ADD => held.kind = CHECKED_SUB,
            LOOP | IF | ELSE => held.a = held.a.wrapping_add(self.random.pick(&[1, 65_535, 5])),
            _ => *held = self.random.plain(),
        }
    }

    /// The rows of a Stream chunk: before Stream, the range, and behind Reset; now and then a marker is missing, doubled or out of place.
    fn stream(&mut self) {
        let markers: &[u8] = match self.random.below(16) {
            0 => &[STREAM],
            1 => &[RESET],
            2 => &[],
            3 => &[RESET, STREAM],
            4 => &[STREAM, STREAM, RESET],
            5 => &[STREAM, RESET, RESET],
            6 => &[RESET, STREAM, RESET],
            _ => &[STREAM, RESET],
        };
        for &marker in markers {
            self.row(3, false);
            self.push(marker, 0, 0);
        }
        self.row(2, false);
    }

    /// Extras from the first op on: small, about the cap, and the greatest.
    fn extras(&mut self) -> Vec<u32> {
        let most = match self.random.below(4) {
            0..=1 => 0,
            _ => self.random.below(self.ops.len() as u64 + 1),
        };
        let bold = self.random.one_in(3);
        (0..most)
            .map(|_| match self.random.below(if bold { 40 } else { 24 }) {
                0..=15 => 0,
                16..=23 => self.random.below(50) as u32,
                24..=30 => self.random.below(1 << 32) as u32,
                31..=38 => u32::MAX - 1 - self.random.below(40) as u32,
                _ => u32::MAX,
            })
            .collect()
    }

    fn chunk(mut self) -> Chunk {
        for _ in 0..self.random.below(3) {
            self.constants.push(Constant::Other);
            let value = self.random.value();
            self.constant(value);
        }
        let mode = self
            .random
            .pick(&[FUNC, FUNC, FUNC, FUNC, REENTRANT, STREAMING, STREAMING]);
        let depth = 1 + self.random.below(5) as u32;
        match mode {
            STREAMING => self.stream(),
            _ => (0..1 + self.random.below(3)).for_each(|_| self.row(depth, false)),
        }
        if self.random.one_in(8) && !self.ops.is_empty() {
            self.damage();
        }
        Chunk {
            locals: self.random.pick(&[0, 1, 2, 3, 8, 8, 200, 65_535]),
            mode,
            extras: self.extras(),
            constants: self.constants,
            ops: self.ops,
        }
    }

    /// One change that may leave no row: an op taken out, written twice, exchanged with another, or put in, or a target moved.
    fn damage(&mut self) {
        let end = self.ops.len() as u64;
        let (i, j) = (
            self.random.below(end) as usize,
            self.random.below(end) as usize,
        );
        match self.random.below(5) {
            0 => drop(self.ops.remove(i)),
            1 => {
                let Op { kind, b, a } = self.ops[i];
                self.ops.insert(i, Op { kind, b, a });
            }
            2 => self.ops.swap(i, j),
            3 => {
                let kind = self.random.pick(&[
                    IF, ELSE, END_IF, LOOP, END_LOOP, BREAK, BREAK_IF, RETURN, YIELD,
                ]);
                let a = if uses_a(kind) {
                    self.random.below(end + 2)
                } else {
                    0
                };
                self.ops.insert(i, op(kind, 0, a as usize));
            }
            _ => {
                if matches!(self.ops[i].kind, IF | ELSE | LOOP) {
                    self.ops[i].a = self.random.below(end + 2) as u16;
                }
            }
        }
    }
}

/// The chunks with their breaks' own targets.
pub fn own_targets(chunks: Vec<Chunk>) -> Vec<Chunk> {
    let own = |chunk: Chunk| Chunk {
        ops: pieces::own_targets(chunk.ops),
        ..chunk
    };
    chunks.into_iter().map(own).collect()
}

/// The chunks of a module; most have few. Their breaks name anything.
pub fn module(random: &mut Random) -> Vec<Chunk> {
    let chunks = match random.below(1000) {
        0 => 1 + random.below(256),
        1..=500 => 1,
        _ => 1 + random.below(5),
    };
    let calls = random.pick(&[Calls::Up, Calls::Down, Calls::Down, Calls::Anywhere]);
    (0..chunks)
        .map(|chunk| {
            let room = 4 + random.below(if chunks > 5 { 8 } else { 40 }) as usize;
            let maker = Maker {
                random,
                constants: Vec::new(),
                ops: Vec::new(),
                room,
                calls,
                chunk,
                chunks,
            };
            maker.chunk()
        })
        .collect()
}

/// A lent callee list: none, one a chunk, or shorter or longer; bytes about multiples of 32 and the greatest.
pub fn callees(random: &mut Random, chunks: usize) -> Vec<u32> {
    let length = match random.below(4) {
        0 => 0,
        1 => random.below(chunks as u64 + 3),
        _ => chunks as u64,
    };
    (0..length)
        .map(|_| match random.below(8) {
            0..=4 => random.below(500) as u32,
            5 => random.pick(&[31, 32, 33, 64, 8160, 8191, 8192]),
            6 => u32::MAX - random.below(300) as u32,
            _ => random.below(1 << 32) as u32,
        })
        .collect()
}
