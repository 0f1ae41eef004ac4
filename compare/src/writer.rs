//! The writer in plain Rust, over the same lent lists: a pass that checks and counts, then one that writes. Nothing is allocated.
use crate::form::{MOST_CHUNKS, MOST_WORDS, greatest_b, uses_a, word};
use crate::kinds::*;
use crate::pinnaclemug::{LENT_CHUNK, LENT_CONSTANT, LENT_OP, Lent, Refusal};
use crate::refusals::{SHORT_TRAY, UNFIT_PART};

/// The words of a constant and of an extra.
pub const CONSTANT_WORDS: usize = 4;
pub const EXTRA_WORDS: usize = 2;

/// The greatest a and b of each kind of op.
static GREATEST: [[u32; 2]; OPS as usize] = {
    let mut greatest = [[0; 2]; OPS as usize];
    let mut kind = 0;
    while kind < OPS {
        let a = if uses_a(kind) { u16::MAX } else { 0 };
        greatest[kind as usize] = [a as u32, greatest_b(kind) as u32];
        kind += 1;
    }
    greatest
};

fn op_fits(&[kind, a, b]: &[u32; LENT_OP]) -> bool {
    GREATEST
        .get(kind as usize)
        .is_some_and(|&[most_a, most_b]| a <= most_a && b <= most_b)
}

fn constant_fits(constant: &[u32; LENT_CONSTANT]) -> bool {
    matches!(constant, [0, ..] | [1, 0, 0])
}

/// A chunk with its own of each list.
struct Own<'a> {
    locals: u32,
    mode: u32,
    constants: &'a [[u32; LENT_CONSTANT]],
    ops: &'a [[u32; LENT_OP]],
    extras: &'a [u32],
}

impl Own<'_> {
    fn words(&self) -> usize {
        1 + CONSTANT_WORDS * self.constants.len() + self.ops.len() + EXTRA_WORDS * self.extras.len()
    }

    fn fits(&self) -> bool {
        self.locals <= u32::from(u16::MAX)
            && self.mode <= u32::from(STREAMING)
            && self.extras.len() <= self.ops.len()
            && self.constants.iter().all(constant_fits)
            && self.ops.iter().all(op_fits)
    }

    /// The words into a tray that is as long as they are.
    fn write(&self, tray: &mut [u32]) {
        let (head, tray) = tray.split_at_mut(1);
        head[0] = word(CHUNK, self.mode as u8, self.locals as u16);
        let (constants, tray) = tray.split_at_mut(CONSTANT_WORDS * self.constants.len());
        let (ops, extras) = tray.split_at_mut(self.ops.len());
        let (constants, _) = constants.as_chunks_mut();
        for (words, constant) in constants.iter_mut().zip(self.constants) {
            *words = constant_words(constant);
        }
        for (place, &[kind, a, b]) in ops.iter_mut().zip(self.ops) {
            *place = kind << 24 | b << 16 | a;
        }
        let (extras, _) = extras.as_chunks_mut();
        for (words, &extra) in extras.iter_mut().zip(self.extras) {
            *words = extra_words(extra);
        }
    }
}

/// One that is no integer has two zeros behind its 1, as it has in its words.
fn constant_words(&[form, low, high]: &[u32; LENT_CONSTANT]) -> [u32; CONSTANT_WORDS] {
    let kind = if form == 0 { INTEGER } else { OTHER };
    [
        word(kind, 0, low as u16),
        word(kind, 1, (low >> 16) as u16),
        word(kind, 2, high as u16),
        word(kind, 3, (high >> 16) as u16),
    ]
}

fn extra_words(extra: u32) -> [u32; EXTRA_WORDS] {
    [
        word(EXTRA, 0, extra as u16),
        word(EXTRA, 1, (extra >> 16) as u16),
    ]
}

/// How many extras are held against 0 at once.
const STRIDE: usize = 8;

/// The extras without those of 0 at the end.
fn trimmed(mut extras: &[u32]) -> &[u32] {
    while let Some((rest, last)) = extras.split_last_chunk()
        && *last == [0; STRIDE]
    {
        extras = rest;
    }
    while let [rest @ .., 0] = extras {
        extras = rest;
    }
    extras
}

/// What no chunk has taken yet.
#[derive(Clone, Copy)]
struct Shelf<'a> {
    chunks: &'a [[u32; LENT_CHUNK]],
    constants: &'a [[u32; LENT_CONSTANT]],
    ops: &'a [[u32; LENT_OP]],
    extras: &'a [u32],
}

impl<'a> Shelf<'a> {
    /// None where a list does not hold whole parts.
    fn of(lent: &Lent<'a>) -> Option<Self> {
        let (chunks, []) = lent.chunks.as_chunks() else {
            return None;
        };
        let (constants, []) = lent.constants.as_chunks() else {
            return None;
        };
        let (ops, []) = lent.ops.as_chunks() else {
            return None;
        };
        Some(Shelf {
            chunks,
            constants,
            ops,
            extras: lent.extras,
        })
    }

    /// The next chunk, without the extras of 0 at its end. None where there is no chunk, or a count reaches past its list.
    fn take(&mut self) -> Option<Own<'a>> {
        let &[locals, mode, constants, ops, extras] = self.chunks.split_off_first()?;
        Some(Own {
            locals,
            mode,
            constants: self.constants.split_off(..constants as usize)?,
            ops: self.ops.split_off(..ops as usize)?,
            extras: trimmed(self.extras.split_off(..extras as usize)?),
        })
    }

    /// How many words the module has. None where there is no module, or something does not fit.
    fn words(mut self) -> Option<usize> {
        let chunks = self.chunks.len();
        if chunks < 1 || chunks > usize::from(MOST_CHUNKS) {
            return None;
        }
        let mut words = 1;
        for _ in 0..chunks {
            let own = self.take()?;
            words += own.words();
            if words > MOST_WORDS || !own.fits() {
                return None;
            }
        }
        let left_over = self.constants.len() + self.ops.len() + self.extras.len();
        (left_over == 0).then_some(words)
    }

    /// The words of a module that fits into a tray that is as long as they are.
    fn write(mut self, tray: &mut [u32]) {
        let (head, mut tray) = tray.split_at_mut(1);
        head[0] = word(MODULE, 0, self.chunks.len() as u16);
        while let Some(own) = self.take() {
            let (front, behind) = tray.split_at_mut(own.words());
            own.write(front);
            tray = behind;
        }
    }
}

fn refused(number: u32) -> Refusal {
    Refusal {
        number,
        chunk: 0,
        place: 0,
    }
}

/// The words of the lent parts into the tray: how many there are.
pub fn write(lent: &Lent, tray: &mut [u32]) -> Result<usize, Refusal> {
    let shelf = Shelf::of(lent).ok_or(refused(UNFIT_PART))?;
    let words = shelf.words().ok_or(refused(UNFIT_PART))?;
    let tray = tray.get_mut(..words).ok_or(refused(SHORT_TRAY))?;
    shelf.write(tray);
    Ok(words)
}
