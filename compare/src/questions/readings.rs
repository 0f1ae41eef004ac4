//! The reader: modules that are short, cut, damaged, about their limits, or of fields that are not used.
use super::List;
use crate::form::{self, MOST_WORDS, word};
use crate::kinds::*;
use crate::pieces::{chunk, ops};
use crate::refusals::*;

/// A chunk of three locals, a constant of four different words, two ops, and an extra for the first.
fn good() -> Vec<u32> {
    let mut held = chunk(FUNC, 3, &[0x0004_0003_0002_0001], ops![CONST, RETURN]);
    held.extras = vec![0x0006_0005];
    form::write(&[held])
}

/// Every cut of a module, and every word of it made one of a kind that nothing has.
fn spoilt(list: &mut List) {
    let good = good();
    for n in 0..=good.len() {
        list.read(&format!("cut to {n}"), &good[..n]);
    }
    for i in 0..good.len() {
        let mut words = good.clone();
        words[i] = u32::MAX;
        list.read(&format!("damaged at {i}"), &words);
    }
}

fn shortest(list: &mut List) {
    let words = [word(MODULE, 0, 1), word(CHUNK, 0, 0)];
    list.read("no words", &[]).refused(BAD_HEAD, 0, 0);
    list.read("head alone", &words[..1]);
    list.read("chunk head alone", &words[1..]);
}

/// So many chunks announced, and so many there that are a head alone.
fn chunk_counts(list: &mut List) {
    let counts = [
        (0, 0),
        (1, 1),
        (256, 256),
        (257, 257),
        (1, 2),
        (256, 257),
        (2, 1),
        (256, 255),
        (0, 256),
        (1, 256),
        (257, 256),
    ];
    for (announced, chunks) in counts {
        let mut words = vec![word(MODULE, 0, announced)];
        words.resize(chunks + 1, word(CHUNK, 0, 0));
        list.read(&format!("head {announced}, chunks {chunks}"), &words);
    }
}

/// A constant of both kinds: the first word of the other kind is the bad word.
fn mixed(list: &mut List) {
    for (name, first, second) in [
        ("constant 202 then 203", INTEGER, OTHER),
        ("constant 203 then 202", OTHER, INTEGER),
    ] {
        let words = [
            word(MODULE, 0, 1),
            word(CHUNK, 0, 0),
            word(first, 0, 0),
            word(second, 1, 0),
            word(INTEGER, 2, 0),
            word(INTEGER, 3, 0),
        ];
        list.read(name, &words).refused(BAD_WORD, 0, 3);
    }
}

/// Fields that are not used, and kinds and values that there are not.
fn fields(list: &mut List) {
    let one = |behind: &[u32]| [&[word(MODULE, 0, 1), word(CHUNK, 0, 0)], behind].concat();
    list.read("GetData a 0", &one(&[word(GET_DATA, 0, 0)]));
    list.read("GetData a 1", &one(&[word(GET_DATA, 0, 1)]))
        .refused(BAD_WORD, 0, 2);
    let head = [word(MODULE, 0, 1), word(CHUNK, STREAMING, 9)];
    let plain = word(CONST, 0, 0);
    let behind: [(&str, &[u32]); 6] = [
        ("GetData a 1, Stream", &[word(GET_DATA, 0, 1)]),
        ("a kind past the ops", &[word(OPS, 0, 0)]),
        ("a fifth composite", &[plain, word(NEW_COMPOSITE, 4, 0)]),
        ("GetIndex b 2", &[plain, plain, word(GET_INDEX, 2, 0)]),
        ("half a constant", &[word(INTEGER, 0, 0), word(OTHER, 1, 0)]),
        (
            "two extras for an op",
            &[
                plain,
                word(EXTRA, 0, 1),
                word(EXTRA, 1, 1),
                word(EXTRA, 0, 1),
            ],
        ),
    ];
    for (name, words) in behind {
        list.read(name, &[&head, words].concat());
    }
}

/// As many extras as ops, and one more.
fn extras(list: &mut List) {
    let mut held = chunk(FUNC, 0, &[], ops![CONST, RETURN]);
    held.extras = vec![0x0008_0007; 2];
    list.read(
        "extras as many as ops",
        &form::write(std::slice::from_ref(&held)),
    );
    held.extras.push(0x0008_0007);
    list.read("extras one more", &form::write(&[held]));
}

/// About as many words as there may be. A list of that many that could go on stops short.
fn longest(list: &mut List) {
    let long = |announced, n| {
        let mut words = vec![word(MODULE, 0, announced), word(CHUNK, 0, 0)];
        words.resize(n, word(DUP, 0, 0));
        words
    };
    for n in [MOST_WORDS - 1, MOST_WORDS, MOST_WORDS + 1] {
        list.read(&format!("head 1, one chunk, words {n}"), &long(1, n));
    }
    list.read("head 2, one chunk, words 16384", &long(2, MOST_WORDS))
        .refused(BAD_WORD, 0, MOST_WORDS);
}

pub fn all(list: &mut List) {
    shortest(list);
    spoilt(list);
    extras(list);
    chunk_counts(list);
    mixed(list);
    fields(list);
    longest(list);
}
