//! Chunks of loops that step by other numbers than 1: in one another and one behind the other, before what else a walk is refused by, and called by others. Of
//! some loops the original has no count where ours does, so that ours goes on.
use crate::ALL;
use crate::case::Case;
use crate::counts::Counts;
use crate::form::{self, Chunk, Op};
use crate::kinds::*;
use crate::limits;
use crate::pieces::{chunk, header, op, ops, own_targets, tail, with_extra};
use crate::stepping;

/// Start, end and step of a loop.
pub type Ends = [i64; 3];

/// Loops that both sides count, that ours alone does, and that neither does.
const LOOPS: [Ends; 9] = [
    [0, 3, 1],
    [0, 3, 2],
    [3, 0, 2],
    [0, 1 << 33, 1 << 33],
    [0, 1 << 33, 1],
    [0, 8_589_934_590, 2],
    [0, 8_589_934_591, 2],
    [0, i64::MAX, (1 << 31) + 1],
    [-1, i64::MAX, 5],
];

/// A chunk in the making. Each loop has three constants and two slots of its own.
#[derive(Default)]
pub struct Body {
    constants: Vec<i64>,
    pub ops: Vec<Op>,
}

impl Body {
    /// How many slots its loops have.
    fn slots(&self) -> usize {
        self.constants.len() / 3 * 2
    }

    /// A loop around something.
    pub fn counted(&mut self, ends: Ends, inside: impl FnOnce(&mut Body)) {
        let (first, v) = (self.constants.len(), self.slots());
        self.constants.extend(ends);
        self.ops.extend([op(CONST, 0, first), op(SET_LOCAL, 0, v)]);
        self.ops
            .extend([op(CONST, 0, first + 1), op(SET_LOCAL, 0, v + 1)]);
        let from = self.ops.len();
        self.ops.push(op(LOOP, 0, 0));
        self.ops.extend(header(v, v + 1));
        inside(self);
        self.ops.extend(tail(v, first + 2));
        self.ops.push(op(END_LOOP, 0, 0));
        self.ops[from].a = self.ops.len() as u16;
    }

    /// A loop with nothing but its header and tail.
    pub fn bare(&mut self, ends: Ends) {
        self.counted(ends, |_| ());
    }

    /// Such loops, one behind the other.
    pub fn row(&mut self, loops: &[Ends]) {
        loops.iter().for_each(|&ends| self.bare(ends));
    }

    /// An If with a bare loop in each arm.
    fn arms(&mut self, first: Ends, second: Ends) {
        let from = self.ops.len();
        self.ops.extend(ops![IF]);
        self.bare(first);
        let other = self.ops.len();
        self.ops.extend(ops![ELSE]);
        self.bare(second);
        self.ops[from].a = other as u16 + 1;
        self.ops[other].a = self.ops.len() as u16;
        self.ops.extend(ops![END_IF]);
    }

    /// So many Ifs in one another around something.
    pub fn ifs(&mut self, depth: usize, inside: impl FnOnce(&mut Body)) {
        let from = self.ops.len();
        self.ops.extend((0..depth).map(|_| op(IF, 0, 0)));
        inside(self);
        let end = self.ops.len() + depth - 1;
        for i in 0..depth {
            self.ops[from + i].a = (end - i) as u16;
        }
        self.ops.extend((0..depth).map(|_| op(END_IF, 0, 0)));
    }
}

/// The chunk that is made.
pub fn made(make: impl FnOnce(&mut Body)) -> Chunk {
    let mut body = Body::default();
    make(&mut body);
    let locals = body.slots() as u16;
    chunk(FUNC, locals, &body.constants, own_targets(body.ops))
}

/// What three loops are to one another: behind, inside and in arms of one another, and in a body that has no way to its end.
const SHAPES: [fn(&mut Body, [Ends; 3]); 7] = [
    |body, loops| body.row(&loops),
    |body, [a, b, c]| body.counted(a, |body| body.counted(b, |body| body.bare(c))),
    |body, [a, b, c]| body.counted(a, |body| body.row(&[b, c])),
    |body, [a, b, c]| {
        body.counted(a, |body| body.bare(b));
        body.bare(c);
    },
    |body, [a, b, c]| {
        body.arms(a, b);
        body.bare(c);
    },
    |body, [a, b, c]| body.counted(a, |body| body.arms(b, c)),
    |body, [a, b, c]| {
        body.counted(a, |body| {
            body.bare(b);
            body.ops.extend(ops![BREAK]);
        });
        body.bare(c);
    },
];

/// Each three of the loops.
fn threes() -> impl Iterator<Item = [Ends; 3]> {
    let n = LOOPS.len();
    (0..n.pow(3)).map(move |k| [k % n, k / n % n, k / n / n].map(|i| LOOPS[i]))
}

fn shapes(counts: &mut Counts) {
    for make in SHAPES {
        for loops in threes() {
            let held = made(|body| make(body, loops));
            counts.compare(&Case::of(&[held]), &ALL);
        }
    }
}

/// Open text at each op of two loops, before, in and behind those that the original has no count for.
fn open_texts(counts: &mut Counts) {
    let shapes: [fn(&mut Body, Ends, Ends); 3] = [
        |body, a, b| body.row(&[a, b]),
        |body, a, b| body.counted(a, |body| body.bare(b)),
        |body, a, b| body.arms(a, b),
    ];
    for make in shapes {
        for [a, b, _] in threes().take(LOOPS.len().pow(2)) {
            let held = made(|body| make(body, a, b));
            for i in 0..held.ops.len() {
                counts.compare(&Case::of(&[with_extra(&held, i, u32::MAX)]), &ALL);
            }
        }
    }
}

/// Ifs in one another, the deepest of which may be too deep, before, behind, inside and around a loop, and behind it in a loop or an If.
const DEEP: [fn(&mut Body, Ends, usize); 6] = [
    |body, ends, depth| {
        body.ifs(depth, |_| ());
        body.bare(ends);
    },
    |body, ends, depth| {
        body.bare(ends);
        body.ifs(depth, |_| ());
    },
    |body, ends, depth| body.counted(ends, |body| body.ifs(depth, |_| ())),
    |body, ends, depth| body.ifs(depth, |body| body.bare(ends)),
    |body, ends, depth| {
        body.counted([0, 3, 2], |body| {
            body.bare(ends);
            body.ifs(depth, |_| ());
        })
    },
    |body, ends, depth| {
        body.ifs(1, |body| {
            body.bare(ends);
            body.ifs(depth, |_| ());
        })
    },
];

fn deep(counts: &mut Counts) {
    for make in DEEP {
        for ends in LOOPS {
            for depth in 253..=258 {
                let held = made(|body| make(body, ends, depth));
                counts.compare(&Case::of(&[held]), &ALL);
            }
        }
    }
}

/// A Call of the greatest callee behind a loop: too tall for a stack walk that gets there.
fn tall(counts: &mut Counts) {
    for ends in LOOPS {
        let held = made(|body| {
            body.bare(ends);
            body.ops.extend(ops![CALL 1]);
        });
        let case = Case::new(form::write(&[held]), vec![0, u32::MAX]);
        counts.compare(&case, &ALL);
    }
}

/// A loop in whose body this chunk is called.
fn calling(ends: Ends, callee: usize) -> Chunk {
    let call = [op(CALL, 0, callee), op(POP_N, 1, 0)];
    made(|body| body.counted(ends, |body| body.ops.extend(call)))
}

/// Three chunks with a loop each: each calls the next, the last two call the first, or the first calls the last and that the second.
fn callers(counts: &mut Counts) {
    for [a, b, c] in threes() {
        for callees in [[1, 2, 3], [3, 0, 0], [2, 3, 1]] {
            let each = [a, b, c].into_iter().zip(callees);
            let held: Vec<Chunk> = each.map(|(ends, callee)| calling(ends, callee)).collect();
            counts.compare(&Case::of(&held), &ALL);
        }
    }
}

/// Modules of three chunks with a refusal or a loop in each, some of which steps: the first refusal in call order counts.
fn first_refusals(counts: &mut Counts) {
    let mut held = limits::each_refusal();
    held.extend([LOOPS[1], LOOPS[3], LOOPS[6]].map(|ends| made(|body| body.bare(ends))));
    limits::threes(&held, &mut |case| {
        if case.chunks.iter().any(stepping::any) {
            counts.compare(&case, &ALL);
        }
    });
}

pub fn all(counts: &mut Counts) {
    shapes(counts);
    open_texts(counts);
    deep(counts);
    tall(counts);
    callers(counts);
    first_refusals(counts);
}
