//! Sheets with every op kind, document 01's worked cases, the longest modules, and random ones.
use super::List;
use crate::form::{self, Chunk, MOST_WORDS, Op};
use crate::kinds::*;
use crate::limits;
use crate::pieces::{chunk, chunk_l, op, ops};
use crate::programs;
use crate::random::Random;

/// A row with one op of a kind behind six Dups, in the smallest block that allows it, and so many Dups behind it.
fn alone(kind: u8, b: u8, a: usize, behind: usize) -> Chunk {
    let mut ops: Vec<Op> = (0..6).map(|_| op(DUP, 0, 0)).collect();
    ops.extend(match kind {
        IF | END_IF => ops![IF 7, END_IF],
        ELSE => ops![IF 8, ELSE 8, END_IF],
        LOOP..=BREAK => ops![LOOP 9, BREAK 9, END_LOOP],
        BREAK_IF => ops![LOOP 10, BREAK_IF 10, BREAK 10, END_LOOP],
        _ => vec![op(kind, b, a)],
    });
    ops.extend((0..behind).map(|_| op(DUP, 0, 0)));
    chunk(FUNC, u16::from(kind), &[], ops)
}

/// A chunk for each kind: with nothing behind the op its growth shows, with Dups behind it what it leaves. Then the kinds whose fields count.
pub fn kinds(list: &mut List) {
    let fields = [
        (CALL, 4, 300),
        (NEW_COMPOSITE, TUPLE, 9),
        (NEW_COMPOSITE, ENUM, 2),
        (GET_INDEX, BOUNDED, 0),
        (TRAP, 0, 8),
        (TRAP, 0, 9),
        (POP_N, 7, 0),
        (CALL_VERIFIED_NATIVE, 3, 1),
        (CALL_VERIFIED_NATIVE, 130, 1),
        (CALL_EXTERNAL_NATIVE, 128, 0),
        (CALL_EXTERNAL_NATIVE, 127, 65_535),
    ];
    for behind in [0, 12] {
        let call = |kind| if kind == CALL { 300 } else { 0 };
        let each = (0..OPS).map(|kind| alone(kind, 0, call(kind), behind));
        let name = format!("sheet: every kind, {behind} Dups behind it");
        list.sheet(&name, &each.collect::<Vec<_>>());
        let each = fields.iter().map(|&(kind, b, a)| alone(kind, b, a, behind));
        let name = format!("sheet: kinds whose fields count, {behind} Dups behind");
        list.sheet(&name, &each.collect::<Vec<_>>());
    }
}

/// Document 01's worked cases, with what it says.
pub fn worked_cases(list: &mut List) {
    for (name, held, callees, cycles, stack) in limits::cases() {
        let held = [held];
        if cycles.is_some() {
            list.cycles(name, &held, 0).said = cycles;
        }
        if stack.is_some() {
            list.stack(name, &held, 0, &callees).said = stack;
        }
    }
    list.sheet("sheet: chunk L", &[chunk_l(&[0, 3, 1])])
        .is(&[48, 3, 160, 48]);
}

/// As many words as there may be, and one more.
pub fn longest(list: &mut List) {
    let plain: Vec<u8> = (0..OPS)
        .filter(|&kind| !matches!(kind, IF..=RETURN | TRAP))
        .collect();
    let ops = |n: usize| (0..n).map(|i| op(plain[i % plain.len()], 0, 0)).collect();
    let most = MOST_WORDS - 2;
    list.sheet(
        "sheet: all words ops",
        &[chunk(FUNC, 65_535, &[], ops(most))],
    );
    list.cycles(
        "one word too many",
        &[chunk(FUNC, 0, &[], ops(most + 1))],
        0,
    );
    let mut held = chunk(FUNC, 0, &[], ops(5_460));
    held.extras = (0..5_460).map(|i| 800_000 - i).collect();
    list.cycles("an extra for each op", &[held], 0);
}

/// So many random modules of at most 300 words, each with one question.
pub fn random_modules(list: &mut List, modules: usize) {
    let mut random = Random(1);
    let mut made = 0;
    while made < modules {
        let held = programs::own_targets(programs::module(&mut random));
        let callees = programs::callees(&mut random, held.len());
        let c = random.below(held.len() as u64) as usize;
        if form::write(&held).len() > 300 {
            continue;
        }
        let name = format!("random module {made}");
        match made % 6 {
            0 | 3 => list.sheet(&name, &held),
            1 => list.cycles(&name, &held, c),
            2 => list.stack(&name, &held, c, &callees),
            4 => list.order(&name, &held, held.len()),
            _ => {
                let p = held[c].ops.iter().position(|op| op.kind == LOOP);
                list.count(&name, &held, c, p.unwrap_or(0))
            }
        };
        made += 1;
    }
}
