//! The four lists that the writer is lent, and random changes of them.
use crate::form::{self, Chunk, Constant, Op};
use crate::pinnaclemug::{LENT_CHUNK, LENT_CONSTANT, LENT_OP, Lent};
use crate::random::Random;
use std::ops::Range;

/// Numbers about the ends of what a field may be.
pub const EDGES: [u32; 10] = [0, 1, 2, 3, 4, 255, 256, 65_535, 65_536, u32::MAX];

/// Where the counts of constants, ops and extras stand among the numbers of a chunk.
pub const COUNTS: Range<usize> = 2..LENT_CHUNK;

/// Chunks, constants, ops and extras.
#[derive(Clone, Default, PartialEq)]
pub struct Lists(pub [Vec<u32>; 4]);

/// The chunks of words that are a module.
pub fn chunks_of(words: &[u32]) -> Vec<Chunk> {
    form::read(words).ok().expect("the words are a module")
}

fn lent_constant(constant: &Constant) -> [u32; LENT_CONSTANT] {
    match *constant {
        Constant::Int(value) => [0, value as u32, (value >> 32) as u32],
        Constant::Other => [1, 0, 0],
    }
}

fn lent_op(op: &Op) -> [u32; LENT_OP] {
    [u32::from(op.kind), u32::from(op.a), u32::from(op.b)]
}

impl Lists {
    /// The lists of these chunks.
    pub fn of(chunks: &[Chunk]) -> Lists {
        let mut lists = Lists::default();
        for chunk in chunks {
            let constants: Vec<_> = chunk.constants.iter().map(lent_constant).collect();
            let ops: Vec<_> = chunk.ops.iter().map(lent_op).collect();
            let head = [u32::from(chunk.locals), u32::from(chunk.mode)];
            lists.push(head, &constants, &ops, &chunk.extras);
        }
        lists
    }

    /// So many chunks without anything.
    pub fn empty(chunks: usize) -> Lists {
        Lists([vec![0; LENT_CHUNK * chunks], vec![], vec![], vec![]])
    }

    /// One chunk by its locals and type and its own, none of which has to fit.
    pub fn one_chunk(
        head: [u32; 2],
        constants: &[[u32; LENT_CONSTANT]],
        ops: &[[u32; LENT_OP]],
        extras: &[u32],
    ) -> Lists {
        let mut lists = Lists::default();
        lists.push(head, constants, ops, extras);
        lists
    }

    /// The same behind others.
    pub fn push(
        &mut self,
        head: [u32; 2],
        constants: &[[u32; LENT_CONSTANT]],
        ops: &[[u32; LENT_OP]],
        extras: &[u32],
    ) {
        let counts = [constants.len(), ops.len(), extras.len()];
        let lists = &mut self.0;
        lists[0].extend(head);
        lists[0].extend(counts.map(|count| count as u32));
        lists[1].extend(constants.as_flattened());
        lists[2].extend(ops.as_flattened());
        lists[3].extend(extras);
    }

    pub fn lent(&self) -> Lent<'_> {
        let [chunks, constants, ops, extras] = &self.0;
        Lent {
            chunks,
            constants,
            ops,
            extras,
        }
    }

    /// The numbers of each chunk.
    pub fn heads(&mut self) -> &mut [[u32; LENT_CHUNK]] {
        self.0[0].as_chunks_mut().0
    }

    /// So much of a count of chunk c moves to the next chunk's, if it has so much and there is a next one.
    pub fn move_count(&mut self, c: usize, count: usize, much: u32) {
        if let Some([from, to, ..]) = self.heads().get_mut(c..)
            && from[count] >= much
        {
            from[count] -= much;
            to[count] = to[count].wrapping_add(much);
        }
    }
}

impl Random {
    fn index(&mut self, end: usize) -> usize {
        self.below(end as u64) as usize
    }

    /// An extra made 0, or one of 0 put in, and some at the end. There may be more extras than ops then.
    pub fn zeros(&mut self, extras: &mut Vec<u32>) {
        let i = self.index(extras.len() + 1);
        match self.below(6) {
            0 => extras.insert(i, 0),
            1 | 2 if i < extras.len() => extras[i] = 0,
            _ => {}
        }
        let end = extras.len() + self.index(3) * self.index(6);
        extras.resize(end, 0);
    }

    /// One change somewhere: a number set, a bit turned, a number put in or taken out, a list cut or lengthened, some of a count moved to the next chunk.
    pub fn damage_lists(&mut self, lists: &mut Lists) {
        let of = self.index(4);
        let list = &mut lists.0[of];
        let i = self.index(list.len() + 1);
        match self.below(9) {
            0 | 1 if i < list.len() => list[i] = self.pick(&EDGES),
            2 | 3 if i < list.len() => list[i] ^= 1 << self.below(32),
            4 if i < list.len() => drop(list.remove(i)),
            5 => list.insert(i, self.pick(&EDGES)),
            6 => list.truncate(i),
            7 => list.resize(list.len() + 1 + self.index(6), self.pick(&EDGES)),
            _ => {
                let c = self.index(lists.heads().len() + 1);
                let count = COUNTS.start + self.index(COUNTS.len());
                lists.move_count(c, count, 1 + self.below(3) as u32);
            }
        }
    }
}
