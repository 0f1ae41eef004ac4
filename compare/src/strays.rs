//! Strays on purpose: breaks that do not name the target of the innermost Loop around them, which is refusal 15.
use crate::form::{Chunk, Op};
use crate::kinds::LOOP;
use crate::pieces::{is_break, loop_around};
use crate::random::Random;

/// A break at a position, what it names, and whether the breaks behind it are to name 0, so that it is the first stray of more.
struct Stray {
    at: usize,
    names: u16,
    more: bool,
}

/// What the break at `i` may name in the place of its own Loop's target: 0, the positions beside that target, the one 256 off, its Loop's position, the target
/// of the Loop around its Loop, and that of the last Loop before it, which may be closed.
fn others(ops: &[Op], i: usize, around: usize) -> Vec<u16> {
    let own = ops[around].a;
    let outer = loop_around(ops, around);
    let last = (0..i).rfind(|&p| ops[p].kind == LOOP);
    let mut named = vec![0, own.wrapping_sub(1), own.wrapping_add(1), own ^ 256];
    named.push(around as u16);
    named.extend(outer.into_iter().chain(last).map(|p| ops[p].a));
    named.retain(|&a| a != own);
    named
}

/// The breaks of a list that a Loop is around, each with that Loop.
fn breaks(ops: &[Op]) -> impl Iterator<Item = (usize, usize)> {
    let breaks = (0..ops.len()).filter(|&i| is_break(&ops[i]));
    breaks.filter_map(|i| Some((i, loop_around(ops, i)?)))
}

/// Every stray that the breaks of a list allow.
fn all(ops: &[Op]) -> Vec<Stray> {
    let mut strays = Vec::new();
    for (at, around) in breaks(ops) {
        let stray = |names, more| Stray { at, names, more };
        let named = others(ops, at, around).into_iter();
        strays.extend(named.map(|a| stray(a, false)));
        if ops[at + 1..].iter().any(is_break) {
            strays.push(stray(0, true));
        }
    }
    strays
}

fn filed(from: &Chunk, stray: &Stray) -> Chunk {
    let mut held = from.clone();
    held.ops[stray.at].a = stray.names;
    if stray.more {
        let behind = held.ops[stray.at + 1..].iter_mut();
        behind.filter(|op| is_break(op)).for_each(|op| op.a = 0);
    }
    held
}

/// The chunk with each of its strays.
pub fn each(from: &Chunk) -> impl Iterator<Item = Chunk> {
    let strays = all(&from.ops).into_iter();
    strays.map(|stray| filed(from, &stray))
}

/// The chunk with one of its strays, by a number. None where no break is in a Loop.
pub fn one(from: &Chunk, number: usize) -> Option<Chunk> {
    let strays = all(&from.ops);
    let which = number.checked_rem(strays.len())?;
    Some(filed(from, &strays[which]))
}

/// How many breaks there are to one stray in random modules.
const RARE: u64 = 40;

/// The chunks with a stray here and there, which names what a stray may or any position. None where none is drawn.
pub fn some(chunks: &[Chunk], random: &mut Random) -> Option<Vec<Chunk>> {
    let mut held = chunks.to_vec();
    let mut drawn = false;
    for (chunk, from) in held.iter_mut().zip(chunks) {
        for (i, around) in breaks(&from.ops) {
            if random.one_in(RARE) {
                let mut named = others(&from.ops, i, around);
                named.push(random.below(from.ops.len() as u64 + 2) as u16);
                chunk.ops[i].a = random.pick(&named);
                drawn = true;
            }
        }
    }
    drawn.then_some(held)
}
