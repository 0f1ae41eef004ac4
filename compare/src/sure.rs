//! Request 2.8: counts that a path may not keep to. "every SetLocal that the search stopped at must stand directly in the row that holds the Loop, inside the
//! walked range. Where the count is above 0, end - 1 + step must not exceed 2^63-1." A plain rule over positions, written from the request and from document
//! 01's words on the count. Of our side it has nothing; of the original it has whether there is a count, the two values as a check, and the order in which a walk meets refusals.
use crate::case::Case;
use crate::document::{self, Refusal};
use crate::form::{Chunk, Op};
use crate::kinds::*;
use crate::refusals::NO_COUNT;
use crate::stepping;
use crate::verify::oracle;

/// What a search found: the value, and each SetLocal that it stopped at.
struct Found {
    value: i64,
    stops: Vec<usize>,
}

impl Found {
    fn with(mut self, stop: usize) -> Found {
        self.stops.push(stop);
        self
    }
}

fn plain(value: i64) -> Found {
    Found {
        value,
        stops: Vec::new(),
    }
}

/// "The search runs backward and ends at the first SetLocal of that slot": where that stands, and the op right before it.
fn last_set(ops: &[Op], from: usize, slot: u16) -> Option<(usize, &Op)> {
    let sets = |op: &Op| op.kind == SET_LOCAL && op.a == slot;
    let stop = ops[..from].iter().rposition(sets)?;
    Some((stop, &ops[stop.checked_sub(1)?]))
}

/// "has NewComposite of kind 1 right before it, whose a is the length; an array copied from another local is followed to its literal from the copying
/// GetLocal"
fn length(ops: &[Op], from: usize, slot: u16) -> Option<Found> {
    let (stop, before) = last_set(ops, from, slot)?;
    let found = match (before.kind, before.b) {
        (NEW_COMPOSITE, ARRAY) => plain(i64::from(before.a)),
        (GET_LOCAL, _) => length(ops, stop - 1, before.a)?,
        _ => return None,
    };
    Some(found.with(stop))
}

/// "right before it stands Const of an integer, or GetLocal of an array and then Len; else there is none"
fn value(chunk: &Chunk, p: usize, slot: u16) -> Option<Found> {
    let (stop, before) = last_set(&chunk.ops, p, slot)?;
    let found = match before.kind {
        CONST => plain(stepping::integer(chunk, before.a)?),
        LEN => match chunk.ops[stop.checked_sub(2)?] {
            Op {
                kind: GET_LOCAL, a, ..
            } => length(&chunk.ops, stop - 2, a)?,
            _ => return None,
        },
        _ => return None,
    };
    Some(found.with(stop))
}

/// The walked range of a chunk, and of each of its positions which If, Else or Loop opened the row that its op stands in directly; none is the range's own row.
struct Rows {
    from: usize,
    opened_by: Vec<Option<usize>>,
}

impl Rows {
    /// The range has to be a row.
    fn of(ops: &[Op], from: usize, to: usize) -> Rows {
        let (mut open, mut opened_by) = (Vec::new(), Vec::new());
        for (i, op) in ops[from..to].iter().enumerate() {
            if matches!(op.kind, ELSE | END_IF | END_LOOP) {
                open.pop();
            }
            opened_by.push(open.last().copied());
            if matches!(op.kind, IF | ELSE | LOOP) {
                open.push(i);
            }
        }
        Rows { from, opened_by }
    }

    /// Whether two positions, the second of which is in the range, stand directly in one and the same row of it.
    fn same(&self, stop: usize, p: usize) -> bool {
        let row = |i: usize| self.opened_by[i - self.from];
        stop >= self.from && row(stop) == row(p)
    }
}

/// "end - 1 + step must not exceed 2^63-1", in whole numbers
fn fits(end: i64, step: i64) -> bool {
    i128::from(end) - 1 + i128::from(step) < 1 << 63
}

/// Whether the Loop at `p` has a count, and that against one of the two conditions. The values have to be those that the original's searches find.
fn is_unsure(case: &Case, c: usize, rows: &Rows, p: usize) -> bool {
    let chunk = &case.chunks[c];
    let Some(count) = stepping::count(case, c, p) else {
        return false;
    };
    let found = |at: usize| value(chunk, p, chunk.ops[at].a).expect("a count has two values");
    let (start, end) = (found(p + 1), found(p + 2));
    let ends = Some((start.value, end.value));
    assert_eq!(ends, oracle::ends(&case.module.chunks[c], p));
    let step = stepping::step(chunk, p).expect("a count has a step");
    let mut stops = start.stops.into_iter().chain(end.stops);
    !stops.all(|stop| rows.same(stop, p)) || (count > 0 && !fits(end.value, step))
}

/// The Loops of a chunk's range that are so, whether a walk gets to them or not; none where no walk is made.
fn loops(case: &Case, c: usize) -> Vec<usize> {
    let chunk = &case.chunks[c];
    let is_loop = |op: &Op| op.kind == LOOP;
    if !chunk.ops.iter().any(is_loop) || document::chunk_row(chunk).is_err() {
        return Vec::new();
    }
    let (from, to) = document::range(chunk).expect("a walked chunk has a range");
    let rows = Rows::of(&chunk.ops, from, to);
    let each = (from..to).filter(|&p| is_loop(&chunk.ops[p]));
    each.filter(|&p| is_unsure(case, c, &rows, p)).collect()
}

/// Where the cycle walk of a chunk is refused by 16, if it is: at the Loop that it asks for its count first and that has one only against the conditions. That
/// is the original's 9 in a chunk in which those Loops have no count: "tested right after 9", so all that is met before it is the same.
pub fn unsure(case: &Case, c: usize) -> Option<usize> {
    let unsure = loops(case, c);
    if unsure.is_empty() {
        return None;
    }
    match oracle::cycles(&stepping::level_without(case, c, &unsure)) {
        Err(Refusal(NO_COUNT, p)) if unsure.contains(&p) => Some(p),
        _ => None,
    }
}
