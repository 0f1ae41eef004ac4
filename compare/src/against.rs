//! Compares the proved functions with the original Rust, `verify.rs` unchanged, on the same modules.
extern crate value_layout;

mod apart;
#[allow(dead_code)]
#[path = "standin/bytecode.rs"]
mod bytecode;
mod caps;
mod case;
mod classes;
mod counts;
mod coverage;
mod coverage_cases;
mod document;
mod every;
mod exact;
mod expected;
mod form;
#[allow(dead_code)]
mod kinds;
mod limits;
mod loops;
mod moved;
mod nesting;
#[path = "standin/passes.rs"]
mod passes;
mod picks;
mod pieces;
#[allow(dead_code)]
mod pinnaclemug;
mod placed;
mod programs;
mod questions;
#[allow(dead_code)]
mod random;
#[allow(dead_code)]
mod refusals;
#[allow(dead_code)]
mod rounds;
mod short_rows;
mod stands;
mod stepping;
mod steps;
mod store;
mod strays;
mod sure;
mod sure_cases;
mod table;
#[allow(dead_code)]
#[path = "standin/text_size.rs"]
mod text_size;
mod times;
mod typical;
mod unsure;
use passes::{verify_init, verify_typed};

#[allow(dead_code, unexpected_cfgs)]
mod verify {
    include!(concat!(env!("VERIFY_SRC"), "/verify.rs"));
    pub mod oracle;
}

use case::Case;
use counts::Counts;
use form::Op;
use kinds::*;
use pieces::{chunk, chunk_l, chunk_l_array, op};
use random::Random;
use refusals::*;
use table::{Each, Outcome};

const ALL: [Each; 4] = [Each::Module, Each::Short, Each::Chunk, Each::Position];

/// Every op with some fields: both readings of the table have the same figures, and what an op leaves of the depth is `op_depth_effect`'s.
fn tables(counts: &mut Counts) {
    let chunk = chunk(FUNC, 0, &[], Vec::new());
    let held = &Case::of(&[chunk]).module.chunks[0];
    for kind in 0..OPS {
        for b in 0..=form::greatest_b(kind) {
            for a in [0, 1, 2, 7, 8, 9, 10, 255, 256, 65_535] {
                if a > 0 && !form::uses_a(kind) {
                    continue;
                }
                let read = Op { kind, b, a };
                let (cycles, growth, shrink) = document::figures(&read);
                let op = case::op(&read);
                let (c, g, s) = op.figures();
                let ours = Outcome::Answer(vec![cycles, growth, shrink, growth - shrink]);
                let net = i64::from(verify::oracle::net(&op, held));
                let expected = Outcome::Answer(vec![i64::from(c), i64::from(g), i64::from(s), net]);
                counts.comparisons += 1;
                if ours != expected {
                    counts.differ("table", &ours, &expected, &format!("{op:?}"));
                }
            }
        }
    }
}

/// Document 01's worked cases: what it says, what we say, and what the original says.
fn worked(counts: &mut Counts) {
    for (name, chunk, callees, cycles, stack) in limits::cases() {
        let case = Case::new(form::write(&[chunk]), callees);
        for (row, said) in [("cycles", cycles), ("stack", stack)] {
            let Some(said) = said else { continue };
            let comparison = table::COMPARISONS.iter().find(|held| held.name == row);
            let ours = (comparison.expect("a comparison").ours)(&case, 0, 0);
            if ours != said {
                counts.differ(row, &ours, &said, name);
            }
        }
        counts.compare(&case, &ALL);
    }
}

/// Words that are no module, and chunks that there are not: refusals 1, 2 and 12, which only document 01 has. The order and the sheet test no chunk, and their
/// trays are looked at behind the words. The breaks name what was drawn: all three come before 15.
fn refusals(counts: &mut Counts, random: &mut Random) {
    for _ in 0..50_000 {
        let mut words = form::write(&programs::module(random));
        if random.below(4) > 0 {
            random.damage(&mut words);
        }
        let c = random.pick(&[0, 0, 1, 5, 256, 65_535, 16_777_215]);
        let expected = match form::read(&words) {
            Err(refusal) => Outcome::Refused(refusal.number, 0, refusal.place),
            Ok(chunks) if chunks.len() <= c => Outcome::Refused(NO_SUCH_CHUNK, c, 0),
            Ok(_) => continue,
        };
        let p = random.pick(&[0, 3, 65_536, u32::MAX as usize]);
        let mut ours = vec![
            table::cycles(&words, c),
            table::count(&words, c, p),
            table::stack(&words, c, &[64, 0]),
            table::yields(&words, c, &[1, 0]),
        ];
        if let Outcome::Refused(BAD_HEAD | BAD_WORD, ..) = expected {
            let room = random.below(9) as usize;
            ours.extend([table::order(&words, room), table::sheet(&words, room)]);
        }
        for outcome in ours {
            counts.comparisons += 1;
            if outcome != expected {
                counts.differ(
                    "refusals",
                    &outcome,
                    &expected,
                    &format!("chunk {c}, words {words:x?}"),
                );
            }
        }
    }
}

/// Every short list of ops: up to four over fifteen ops, If, Else and Loop, up to six over fewer. From four ops on no target lies before its op.
fn lists(counts: &mut Counts) {
    let few = [
        op(CONST, 0, 0),
        op(SET_LOCAL, 0, 0),
        op(TRAP, 0, 0),
        op(END_IF, 0, 0),
        op(END_LOOP, 0, 0),
        op(BREAK, 0, 0),
        op(BREAK_IF, 0, 0),
    ];
    let more = [
        op(YIELD, 0, 0),
        op(SET_LOCAL, 0, 1),
        op(GET_LOCAL, 0, 0),
        op(GET_LOCAL, 0, 1),
        op(RETURN, 0, 0),
        op(CALL, 0, 0),
        op(CALL, 3, 1),
        op(TRAP, 0, 8),
    ];
    let all: Vec<Op> = few.iter().chain(&more).copied().collect();
    for length in 0..=3 {
        every::flat(length, &all, |_| 0, length + 1, &mut |case| {
            counts.compare(&case, &ALL)
        });
    }
    let mut see = |case: Case| counts.compare(&case, &[Each::Chunk]);
    every::flat(4, &all, |i| i, 5, &mut see);
    every::flat(5, &few, |i| i + 1, 6, &mut see);
    every::flat(6, &few[1..], |i| i + 1, 6, &mut see);
}

/// Every small change of a chunk with a counted loop: one op by every kind, or two by those that its header and tail are made of; and every stretch of its
/// ops.
fn changes(counts: &mut Counts) {
    let mut one: Vec<Op> = (0..OPS).map(|kind| op(kind, 0, 0)).collect();
    one.extend((CONST..=SET_LOCAL).flat_map(|kind| (1..4).map(move |a| op(kind, 0, a))));
    one.extend([1, 2, 3].map(|b| op(POP_N, b, 0)));
    one.extend([ARRAY, STRUCT].map(|b| op(NEW_COMPOSITE, b, 3)));
    one.extend([4, 5, 14, 15, 16, 17].map(|t| op(LOOP, 0, t)));
    let two = [
        op(CONST, 0, 0),
        op(CONST, 0, 2),
        op(GET_LOCAL, 0, 0),
        op(GET_LOCAL, 0, 1),
        op(SET_LOCAL, 0, 0),
        op(SET_LOCAL, 0, 1),
        op(END_LOOP, 0, 0),
        op(BREAK_IF, 0, 0),
        op(YIELD, 0, 0),
    ];
    let mut see = |case: Case| counts.compare(&case, &[Each::Chunk, Each::Position]);
    for held in [
        chunk_l(&[0, 3, 1]),
        chunk_l(&[-2, 1, 5]),
        chunk_l(&[1, 0, 1]),
        chunk_l_array(3),
    ] {
        every::stretches(&held, &mut see);
        every::changes(&held, &one, false, &mut see);
        every::changes(&held, &two, true, &mut see);
    }
}

/// Random modules, and behind some of them the same with strays. These are drawn from a seed of their own, so that they move no other module.
fn random_modules(counts: &mut Counts, random: &mut Random, modules: u64) {
    let mut drawn = Random(!random.0);
    for _ in 0..modules {
        let chunks = programs::own_targets(programs::module(random));
        let callees = programs::callees(random, chunks.len());
        if form::write(&chunks).len() > form::MOST_WORDS {
            continue;
        }
        let strayed = strays::some(&chunks, &mut drawn);
        for held in [Some(chunks), strayed].into_iter().flatten() {
            counts.compare(&Case::new(form::write(&held), callees.clone()), &ALL);
        }
    }
}

/// So many random modules there are to one more whose steps are drawn.
const TO_ONE_STEPPING: u64 = 15;

/// And to one more in which blocks were put around what sets a value.
const TO_ONE_MOVED: u64 = 5;

/// And to one more whose Yields, Calls and lists are drawn.
const TO_ONE_GIVING: u64 = 5;

/// Says of each part how many modules and differences it had, and how long it took up to its end.
fn teller() -> impl FnMut(&str, &Counts) {
    let start = std::time::Instant::now();
    let mut before = (0, 0);
    move |part, counts| {
        println!(
            "{part}: {} modules, {} differences, {} s",
            counts.modules - before.0,
            counts.differences - before.1,
            start.elapsed().as_secs()
        );
        before = (counts.modules, counts.differences);
    }
}

fn run(seed: u64, modules: u64) -> bool {
    let mut random = Random(seed);
    let mut counts = Counts::default();
    let mut told = teller();
    println!("seed {seed}");
    tables(&mut counts);
    worked(&mut counts);
    apart::all(&mut counts);
    limits::all(|case| counts.compare(&case, &[Each::Module, Each::Short, Each::Chunk]));
    refusals(&mut counts, &mut random);
    told("worked cases and limits", &counts);
    caps::all(|case| counts.compare(&case, &[Each::Module, Each::Short, Each::Chunk]));
    told("figures about the cap", &counts);
    lists(&mut counts);
    told("short op lists", &counts);
    every::rows(7, |case| counts.compare(&case, &[Each::Chunk]));
    told("small rows", &counts);
    changes(&mut counts);
    told("changes of counted loops", &counts);
    random_modules(&mut counts, &mut random, modules);
    told("random modules", &counts);
    steps::all(&mut counts, seed, modules / TO_ONE_STEPPING);
    told("loops that step", &counts);
    unsure::all(&mut counts, seed, modules / TO_ONE_MOVED);
    told("unsure counts", &counts);
    coverage::all(&mut counts, seed, modules / TO_ONE_GIVING);
    told("ways that give up their turn", &counts);
    counts.print();
    times::print();
    println!(
        "{} modules, {} comparisons, {} unexplained differences",
        counts.modules, counts.comparisons, counts.differences
    );
    counts.differences == 0
}

fn main() {
    let mut arguments = std::env::args().skip(1).peekable();
    let mode = arguments.next_if(|text| text.parse::<u64>().is_err());
    let mut numbers = arguments.map(|text| text.parse().expect("a number"));
    let seed = numbers.next().unwrap_or(1);
    let modules = numbers.next().unwrap_or(300_000);
    let work = move || match mode.as_deref() {
        None => run(seed, modules),
        Some("times") => {
            times::print();
            true
        }
        Some("store") => {
            store::all();
            true
        }
        Some(other) => panic!("there is no mode {other}"),
    };
    // The original's walks recurse, as does the reading of rows here.
    let thread = std::thread::Builder::new().stack_size(1 << 28);
    let same = thread.spawn(work).expect("a thread").join();
    std::process::exit(if same.is_ok_and(|same| same) { 0 } else { 1 });
}
