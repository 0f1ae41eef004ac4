//! The filed words of document 01 as plain Rust reads them: a `Vec` of chunks, or a refusal with its place. And back to words.
use crate::kinds::*;
use crate::refusals::{BAD_HEAD, BAD_WORD};

/// A constant: an integer, or any other.
#[derive(Clone, Copy)]
pub enum Constant {
    Int(i64),
    Other,
}

/// An op by its kind and fields.
#[derive(Clone, Copy)]
pub struct Op {
    pub kind: u8,
    pub b: u8,
    pub a: u16,
}

/// Func, Reentrant and Stream are the types 0, 1 and 2.
#[derive(Clone)]
pub struct Chunk {
    pub locals: u16,
    pub mode: u8,
    pub constants: Vec<Constant>,
    pub ops: Vec<Op>,
    pub extras: Vec<u32>,
}

/// A refusal: its number and its place.
pub struct Refusal {
    pub number: u32,
    pub place: usize,
}

/// "At most 16,384 words."
pub const MOST_WORDS: usize = 16_384;

/// "chunk count 1..256"
pub const MOST_CHUNKS: u16 = 256;

/// The word of a kind with its fields b and a.
pub fn word(kind: u8, b: u8, a: u16) -> u32 {
    u32::from(kind) << 24 | u32::from(b) << 16 | u32::from(a)
}

fn kind(word: u32) -> u8 {
    (word >> 24) as u8
}

fn field_b(word: u32) -> u8 {
    (word >> 16) as u8
}

fn field_a(word: u32) -> u16 {
    word as u16
}

/// "Field a: index, slot or target of 0, 1, 2, 21, 22, 24..27, 30, 64, 65; count of 34; code of 50."
pub const fn uses_a(kind: u8) -> bool {
    matches!(
        kind,
        CONST..=SET_LOCAL
            | IF
            | ELSE
            | LOOP..=BREAK_IF
            | CALL
            | NEW_COMPOSITE
            | TRAP
            | CALL_VERIFIED_NATIVE
            | CALL_EXTERNAL_NATIVE
    )
}

/// The greatest b: the arguments of calls and the count of PopN are free, NewComposite has four kinds and GetIndex two; else it is not used.
pub const fn greatest_b(kind: u8) -> u8 {
    match kind {
        CALL | POP_N | CALL_VERIFIED_NATIVE | CALL_EXTERNAL_NATIVE => 255,
        NEW_COMPOSITE => ENUM,
        GET_INDEX => BOUNDED,
        _ => 0,
    }
}

/// "Op fields not named here are 0."
fn op_of(word: u32) -> Option<Op> {
    let op = Op {
        kind: kind(word),
        b: field_b(word),
        a: field_a(word),
    };
    let good = op.kind < OPS && op.b <= greatest_b(op.kind) && (op.a == 0 || uses_a(op.kind));
    good.then_some(op)
}

/// The words with the place of the next one.
struct Reader<'a> {
    words: &'a [u32],
    at: usize,
}

impl Reader<'_> {
    fn bad<T>(&self) -> Result<T, Refusal> {
        Err(Refusal {
            number: BAD_WORD,
            place: self.at,
        })
    }

    fn next_kind(&self) -> Option<u8> {
        self.words.get(self.at).map(|&word| kind(word))
    }

    /// The next word, if there is one and it passes.
    fn take(&mut self, passes: impl Fn(u32) -> bool) -> Result<u32, Refusal> {
        match self.words.get(self.at) {
            Some(&word) if passes(word) => {
                self.at += 1;
                Ok(word)
            }
            _ => self.bad(),
        }
    }

    /// "four words with b 0, 1, 2, 3": kind 202 holds 16 bits each, lowest first; kind 203 has a 0.
    fn constant(&mut self, of: u8) -> Result<Constant, Refusal> {
        let mut bits = 0u64;
        for b in 0..4 {
            let word = self
                .take(|w| kind(w) == of && field_b(w) == b && (of == INTEGER || field_a(w) == 0))?;
            bits |= u64::from(field_a(word)) << (16 * u32::from(b));
        }
        Ok(if of == INTEGER {
            Constant::Int(bits as i64)
        } else {
            Constant::Other
        })
    }

    fn constants(&mut self) -> Result<Vec<Constant>, Refusal> {
        let mut constants = Vec::new();
        while let Some(of @ (INTEGER | OTHER)) = self.next_kind() {
            constants.push(self.constant(of)?);
        }
        Ok(constants)
    }

    fn ops(&mut self) -> Result<Vec<Op>, Refusal> {
        let mut ops = Vec::new();
        while self.next_kind().is_some_and(|kind| kind < OPS) {
            let Some(op) = op_of(self.words[self.at]) else {
                return self.bad();
            };
            ops.push(op);
            self.at += 1;
        }
        Ok(ops)
    }

    /// "two words of kind 204, b 0 then 1, holding the low and the high 16 bits", no more of them than ops.
    fn extras(&mut self, most: usize) -> Result<Vec<u32>, Refusal> {
        let mut extras = Vec::new();
        while self.next_kind() == Some(EXTRA) {
            if extras.len() == most {
                return self.bad();
            }
            let low = self.take(|w| field_b(w) == 0)?;
            let high = self.take(|w| kind(w) == EXTRA && field_b(w) == 1)?;
            extras.push(u32::from(field_a(low)) | u32::from(field_a(high)) << 16);
        }
        Ok(extras)
    }

    /// "kind 200 (a: locals; b: 0 Func, 1 Reentrant, 2 Stream), constants, ops, extras, in that order"
    fn chunk(&mut self) -> Result<Chunk, Refusal> {
        let head = self.take(|w| kind(w) == CHUNK && field_b(w) <= STREAMING)?;
        let constants = self.constants()?;
        let ops = self.ops()?;
        let extras = self.extras(ops.len())?;
        Ok(Chunk {
            locals: field_a(head),
            mode: field_b(head),
            constants,
            ops,
            extras,
        })
    }
}

/// "one word of kind 199 (a: chunk count 1..256, b 0), then the chunks"
pub fn read(words: &[u32]) -> Result<Vec<Chunk>, Refusal> {
    let bad_head = Err(Refusal {
        number: BAD_HEAD,
        place: 0,
    });
    if words.is_empty() || words.len() > MOST_WORDS {
        return bad_head;
    }
    let count = field_a(words[0]);
    if kind(words[0]) != MODULE || field_b(words[0]) != 0 || count < 1 || count > MOST_CHUNKS {
        return bad_head;
    }
    let mut reader = Reader { words, at: 1 };
    let mut chunks = Vec::with_capacity(usize::from(count));
    for _ in 0..count {
        chunks.push(reader.chunk()?);
    }
    if reader.at < words.len() {
        return reader.bad();
    }
    Ok(chunks)
}

/// The words of a constant.
fn constant_words(constant: &Constant) -> [u32; 4] {
    match constant {
        Constant::Int(value) => [0, 1, 2, 3].map(|b| word(INTEGER, b, (value >> (16 * b)) as u16)),
        Constant::Other => [0, 1, 2, 3].map(|b| word(OTHER, b, 0)),
    }
}

/// The words of chunks.
pub fn write(chunks: &[Chunk]) -> Vec<u32> {
    let mut words = vec![word(MODULE, 0, chunks.len() as u16)];
    for chunk in chunks {
        words.push(word(CHUNK, chunk.mode, chunk.locals));
        words.extend(chunk.constants.iter().flat_map(constant_words));
        words.extend(chunk.ops.iter().map(|op| word(op.kind, op.b, op.a)));
        words.extend(
            chunk
                .extras
                .iter()
                .flat_map(|&x| [word(EXTRA, 0, x as u16), word(EXTRA, 1, (x >> 16) as u16)]),
        );
    }
    words
}
