//! The worked cases of the writer: what is lent, and the words or the refusal that there have to be.
use crate::form::{self, MOST_WORDS, word};
use crate::kinds::*;
use crate::lists::Lists;
use crate::pieces::{chunk, ops};
use crate::pinnaclemug::{self, LENT_CHUNK, LENT_CONSTANT, LENT_OP};
use crate::refusals::{SHORT_TRAY, UNFIT_PART};
use crate::shelf::{Counts, LENT_YIELD};

/// What is lent with the room of the tray, and the words or the number of the refusal.
struct Worked {
    name: &'static str,
    lists: Lists,
    room: usize,
    said: Result<Vec<u32>, u32>,
}

fn worked(name: &'static str, lists: Lists, room: usize, said: Result<Vec<u32>, u32>) -> Worked {
    Worked {
        name,
        lists,
        room,
        said,
    }
}

/// These words, into a tray of 16,384.
fn words(name: &'static str, lists: Lists, words: Vec<u32>) -> Worked {
    worked(name, lists, MOST_WORDS, Ok(words))
}

/// Refusal 14, for the same tray.
fn unfit(name: &'static str, lists: Lists) -> Worked {
    worked(name, lists, MOST_WORDS, Err(UNFIT_PART))
}

/// A module of one chunk of this type, without locals.
fn alone(mode: u8, behind: &[u32]) -> Vec<u32> {
    [&[word(MODULE, 0, 1), word(CHUNK, mode, 0)], behind].concat()
}

fn extra(low: u16, high: u16) -> [u32; 2] {
    [word(EXTRA, 0, low), word(EXTRA, 1, high)]
}

fn headed(locals: u32, mode: u32) -> Lists {
    Lists::one_chunk([locals, mode], &[], &[], &[])
}

fn yields(ops: usize, extras: &[u32]) -> Lists {
    Lists::one_chunk([0, 0], &[], &vec![LENT_YIELD; ops], extras)
}

fn of_constant(constant: [u32; LENT_CONSTANT]) -> Lists {
    Lists::one_chunk([0, 0], &[constant], &[], &[])
}

fn of_op(op: [u32; LENT_OP]) -> Lists {
    Lists::one_chunk([0, 0], &[], &[op], &[])
}

/// Which extras are dropped, and that they are before anything is counted.
fn zeros() -> Vec<Worked> {
    let yielded = |ops| alone(FUNC, &vec![word(YIELD, 0, 0); ops]);
    let inner = [&yielded(3)[..], &extra(0, 0), &extra(5, 0)].concat();
    vec![
        words("three Yields, extras 0, 5, 0", yields(3, &[0, 5, 0]), inner),
        words(
            "three Yields, extras 0, 0, 0",
            yields(3, &[0, 0, 0]),
            yielded(3),
        ),
        words("one Yield, extras 0, 0", yields(1, &[0, 0]), yielded(1)),
        words("one Yield, extra 0", yields(1, &[0]), yielded(1)),
        unfit("one Yield, extras 0, 7", yields(1, &[0, 7])),
        words(
            "16,382 Yields and extras of 0",
            yields(16_382, &[0; 16_382]),
            yielded(16_382),
        ),
        unfit("16,383 Yields", yields(16_383, &[])),
    ]
}

/// Lists that hold no module.
fn no_module() -> Vec<Worked> {
    let of_chunks = |numbers: &[u32]| Lists([numbers.to_vec(), vec![], vec![], vec![]]);
    let no_chunk = Lists([vec![0; LENT_CHUNK], vec![], vec![], vec![0]]);
    vec![
        unfit("an extra of no chunk, though it is 0", no_chunk),
        unfit(
            "a chunk without its ops",
            of_chunks(&[0, 0, 0, u32::MAX, 0]),
        ),
        unfit("chunks that five does not divide", of_chunks(&[0; 4])),
        unfit("the constant 2, 0, 0", of_constant([2, 0, 0])),
        unfit("the constant 1, 0, 1", of_constant([1, 0, 1])),
        unfit("no chunk", Lists::empty(0)),
    ]
}

/// Fields and chunk counts that fit or do not, and what is not tested.
fn fields() -> Vec<Worked> {
    let other = alone(FUNC, &[0, 1, 2, 3].map(|b| word(OTHER, b, 0)));
    let minus_one = alone(FUNC, &[0, 1, 2, 3].map(|b| word(INTEGER, b, 65_535)));
    let unwalked_words = [&[word(IF, 0, 65_535)][..], &extra(65_535, 65_535)].concat();
    let most_chunks = [[word(MODULE, 0, 256)].as_slice(), &[word(CHUNK, 0, 0); 256]].concat();
    let mut unwalked = chunk(STREAMING, 0, &[], ops![IF 65_535]);
    unwalked.extras.push(u32::MAX);
    vec![
        words("the constant 1, 0, 0", of_constant([1, 0, 0]), other),
        words(
            "the constant -1",
            of_constant([0, u32::MAX, u32::MAX]),
            minus_one,
        ),
        unfit("locals 65,536", headed(65_536, 0)),
        unfit("type 3", headed(0, 3)),
        unfit("a of 65,536", of_op([u32::from(CONST), 65_536, 0])),
        unfit("kind 256", of_op([256, 0, 0])),
        unfit("b of 256", of_op([u32::from(CALL), 0, 256])),
        unfit("GetData with an a", of_op([u32::from(GET_DATA), 1, 0])),
        unfit(
            "NewComposite with b 4",
            of_op([u32::from(NEW_COMPOSITE), 0, 4]),
        ),
        unfit("kind 66", of_op([u32::from(OPS), 0, 0])),
        worked(
            "256 chunks: 257 words",
            Lists::empty(256),
            257,
            Ok(most_chunks),
        ),
        unfit("257 chunks", Lists::empty(257)),
        words(
            "what only a walk minds",
            Lists::of(&[unwalked]),
            alone(STREAMING, &unwalked_words),
        ),
    ]
}

/// Trays that are too short, and one that is longer than the words.
fn trays() -> Vec<Worked> {
    vec![
        worked("14 comes before the tray", headed(0, 3), 0, Err(UNFIT_PART)),
        worked("a tray of one", Lists::empty(1), 1, Err(SHORT_TRAY)),
        worked("a tray of three", Lists::empty(1), 3, Ok(alone(FUNC, &[]))),
    ]
}

/// Each worked case on both sides. And an extra of 0 at the end, which is never written, stays readable.
pub fn all(counts: &mut Counts) {
    for case in [zeros(), no_module(), fields(), trays()]
        .into_iter()
        .flatten()
    {
        let outcome = counts.call(&case.lists, case.room);
        if outcome.map_err(|refusal| refusal.number) != case.said {
            counts.differ(case.name, &case.lists);
        }
        counts.compare(&case.lists);
    }
    let mut held = chunk(FUNC, 0, &[], ops![YIELD]);
    held.extras.push(0);
    let held = [held];
    if pinnaclemug::read(&form::write(&held)) != Ok(1) {
        counts.differ("an extra of 0 is not readable", &Lists::of(&held));
    }
}
