//! Finds how much machine stack the proved cycle walk, the proved test of yields, the proved module sheet, the proved writer and the programs `sheet`, `shelf`
//! and `optable` take on the modules that go deepest. A trial of a call is a child process that makes it in a thread of so much stack; a trial of a program is
//! its own process under `ulimit -s`. Where the stack is too small it ends by a signal.
#[allow(dead_code)]
mod form;
#[allow(dead_code)]
mod kinds;
#[allow(dead_code)]
mod lists;
#[allow(dead_code)]
mod picks;
#[allow(dead_code)]
mod pieces;
#[allow(dead_code)]
mod pinnaclemug;
#[allow(dead_code)]
mod random;
#[allow(dead_code)]
mod refusals;

use form::{Chunk, MOST_CHUNKS, MOST_WORDS, Op};
use kinds::*;
use lists::{Lists, chunks_of};
use pieces::{chunk, chunk_l, header, op, ops, own_targets, tail};
use pinnaclemug::{Cycles, ROW, Refusal};
use std::io::Write;
use std::process::{Command, Stdio, exit};
use std::thread;

/// What is asked for, and what must be answered: the cycles of chunk 0, the number of its answer to whether every way through gives up its turn, how many lines
/// the sheet has, or that all words are written from their lists.
#[derive(Clone, Copy)]
enum Asked {
    Cycles(Result<Cycles, Refusal>),
    Yields(u32),
    Sheet(usize),
    Written,
}

/// A module, what is asked, and what it shows.
struct Case {
    name: &'static str,
    words: Vec<u32>,
    asked: Asked,
}

/// One chunk with the constant 1 and these ops.
fn module(ops: Vec<Op>) -> Vec<u32> {
    form::write(&[chunk(FUNC, 0, &[1], ops)])
}

fn walk(name: &'static str, ops: Vec<Op>, cycles: usize, ends: bool) -> Case {
    let answer = Cycles {
        cycles: cycles as u32,
        ends,
        cut: false,
    };
    Case {
        name,
        words: module(ops),
        asked: Asked::Cycles(Ok(answer)),
    }
}

/// A walk that is too deep.
fn too_deep(name: &'static str, ops: Vec<Op>) -> Case {
    let refusal = Refusal {
        number: refusals::TOO_DEEP,
        chunk: 0,
        place: 0,
    };
    Case {
        name,
        words: module(ops),
        asked: Asked::Cycles(Err(refusal)),
    }
}

fn yields(name: &'static str, ops: Vec<Op>, answer: u32) -> Case {
    Case {
        name,
        words: module(ops),
        asked: Asked::Yields(answer),
    }
}

/// The sheet of a module of so many chunks, which it answers.
fn sheet(name: &'static str, words: Vec<u32>, chunks: usize) -> Case {
    Case {
        name,
        words,
        asked: Asked::Sheet(chunks),
    }
}

/// 256 chunks, each of which calls the next, the last one none.
fn chain() -> Vec<u32> {
    let held = (1..=usize::from(MOST_CHUNKS)).map(|c| chunk(FUNC, 0, &[], vec![op(CALL, 0, c)]));
    form::write(&held.collect::<Vec<_>>())
}

/// So many Ifs in one another around these ops; the first If is to stand at this position.
fn ifs(at: usize, blocks: usize, inside: Vec<Op>) -> Vec<Op> {
    let last = at + 2 * blocks + inside.len() - 1;
    let mut ops: Vec<Op> = (0..blocks).map(|i| op(IF, 0, last - i)).collect();
    ops.extend(inside);
    ops.extend((0..blocks).map(|_| op(END_IF, 0, 0)));
    ops
}

/// The answers no and never of `pm_yields`.
const NO: u32 = 0;
const NEVER: u32 = 2;

/// So many Loops in one another, none of which is left.
fn loops(blocks: usize) -> Vec<Op> {
    let mut ops: Vec<Op> = (0..blocks).map(|i| op(LOOP, 0, 2 * blocks - i)).collect();
    ops.extend((0..blocks).map(|_| op(END_LOOP, 0, 0)));
    ops
}

/// So many Ifs in one another, each in the first arm of the one around it, which has an Else.
fn first_arms(blocks: usize) -> Vec<Op> {
    let mut ops: Vec<Op> = (0..blocks)
        .map(|i| op(IF, 0, 3 * blocks - 2 * i - 1))
        .collect();
    ops.extend((0..blocks).flat_map(|i| [op(ELSE, 0, blocks + 2 * i + 1), op(END_IF, 0, 0)]));
    ops
}

/// Within so many Ifs an array of five in slot 2, copied so often from slot 2 to slot 2, whose length is the end of a loop.
fn copies(number: usize, blocks: usize) -> Vec<Op> {
    let mut inside = ops![NEW_COMPOSITE 5 b ARRAY, SET_LOCAL 2];
    for _ in 0..number {
        inside.extend(ops![GET_LOCAL 2, SET_LOCAL 2]);
    }
    inside.extend(ops![CONST, SET_LOCAL, GET_LOCAL 2, LEN, SET_LOCAL 1]);
    let start = blocks + inside.len();
    inside.push(op(LOOP, 0, start + 11));
    inside.extend(header(0, 1));
    inside.extend(tail(0, 0));
    inside.push(op(END_LOOP, 0, 0));
    own_targets(ifs(0, blocks, inside))
}

/// The loop of `copies` counts from 1 to 5, 12 cycles each, with 5 for the break; before it stand 12 cycles and 2 for each copy, around it 2 for each If.
fn copies_cycles(number: usize, blocks: usize) -> usize {
    12 + 2 * number + 2 * blocks + 1 + 4 * 12 + 5
}

/// The deepest walk there is: as many copies as a module has room for beside 255 blocks.
const DEEPEST: (usize, usize) = (7_925, 255);

fn cases() -> Vec<Case> {
    let mut behind = ops![RETURN];
    behind.extend(ifs(1, 8_000, vec![]));
    let deepest = || copies(DEEPEST.0, DEEPEST.1);
    vec![
        walk("no ops", vec![], 0, false),
        walk("8,000 blocks behind Return", behind, 2, true),
        walk("256 blocks: walked", ifs(0, 256, vec![]), 512, false),
        too_deep("8,000 blocks: refused", ifs(0, 8_000, vec![])),
        walk(
            "a count through 8,180 copies",
            copies(8_180, 0),
            copies_cycles(8_180, 0),
            false,
        ),
        walk(
            "the same, 7,925 in 255 blocks",
            deepest(),
            copies_cycles(DEEPEST.0, DEEPEST.1),
            false,
        ),
        yields("yields: no ops", vec![], NO),
        yields("yields: 8,000 blocks", ifs(0, 8_000, vec![]), NO),
        yields("yields: 8,000 loops", loops(8_000), NEVER),
        yields("yields: 5,000 first arms", first_arms(5_000), NO),
        sheet("sheet: no ops", module(vec![]), 1),
        sheet("sheet: 256 blocks", module(ifs(0, 256, vec![])), 1),
        sheet("sheet: 7,925 copies in 255 blocks", module(deepest()), 1),
        sheet("sheet: 256 chunks in a chain", chain(), 256),
        Case {
            name: "writer: as many words as there may be",
            words: form::write(&longest()),
            asked: Asked::Written,
        },
    ]
}

/// One chunk of as many ops as a module has room for.
fn longest() -> [Chunk; 1] {
    let yields = (0..MOST_WORDS - 2).map(|_| op(YIELD, 0, 0));
    [chunk(FUNC, 0, &[], yields.collect())]
}

/// A program, what it reads and what it has to write.
struct Run {
    name: &'static str,
    program: &'static str,
    input: Vec<u8>,
    output: Vec<u8>,
}

fn bytes(words: &[u32]) -> Vec<u8> {
    words.iter().flat_map(|word| word.to_le_bytes()).collect()
}

fn sheet_run(name: &'static str, words: Vec<u32>) -> Run {
    Run {
        name,
        program: "sheet",
        input: bytes(&words),
        output: printed(&words).into_bytes(),
    }
}

/// The lists of the chunks with their lengths, and the words of the chunks.
fn shelf_run(name: &'static str, chunks: &[Chunk]) -> Run {
    let held = Lists::of(chunks);
    let lent = held.lent();
    let lists = [lent.chunks, lent.constants, lent.ops, lent.extras];
    let mut numbers = vec![0];
    numbers.extend(lists.map(|list| list.len() as u32));
    numbers.extend(lists.concat());
    Run {
        name,
        program: "shelf",
        input: bytes(&numbers),
        output: bytes(&form::write(chunks)),
    }
}

/// One of the stored runs of `optable`.
fn table_run(name: &'static str, stored: &str) -> Run {
    let file = |ending| std::fs::read(format!("crates/optable/runs/{stored}.{ending}"));
    Run {
        name,
        program: "optable",
        input: file("in").expect("a stored run"),
        output: file("out").expect("a stored run"),
    }
}

fn runs() -> [Run; 6] {
    let deepest = module(copies(DEEPEST.0, DEEPEST.1));
    let chunk_l = [chunk_l(&[0, 3, 1])];
    [
        sheet_run("program sheet: chunk L", form::write(&chunk_l)),
        sheet_run("program sheet: 256 chunks in a chain", chain()),
        sheet_run("program sheet: 7,925 copies in 255 blocks", deepest),
        shelf_run("program shelf: chunk L", &chunk_l),
        shelf_run("program shelf: as many words as there may be", &longest()),
        table_run("program optable: 66 groups", "longest"),
    ]
}

/// In the child: the call in a thread of so much stack.
fn trial(case: &Case, kib: usize) {
    let words = case.words.clone();
    let asked = case.asked;
    let mut tray = vec![0; MOST_WORDS];
    let lists = Lists::of(&chunks_of(&words));
    let call = move || match asked {
        Asked::Cycles(answer) => pinnaclemug::cycles(&words, 0) == answer,
        Asked::Yields(answer) => pinnaclemug::yields(&words, 0, &[]) == Ok(answer),
        Asked::Sheet(chunks) => pinnaclemug::sheet(&words, &mut tray) == Ok(chunks),
        Asked::Written => pinnaclemug::write(&lists.lent(), &mut tray) == Ok(words.len()),
    };
    let thread = thread::Builder::new().stack_size(kib * 1024).spawn(call);
    let right = thread.expect("a thread starts").join().expect("it ends");
    exit(if right { 0 } else { 1 });
}

/// Whether so much stack is enough for the case of this number.
fn fits(number: usize, kib: usize) -> bool {
    let program = std::env::current_exe().expect("the program has a path");
    let status = Command::new(program)
        .args([number.to_string(), kib.to_string()])
        .stderr(Stdio::null())
        .status()
        .expect("a trial starts");
    match status.code() {
        Some(0) => true,
        None => false,
        Some(code) => panic!("case {number} ends with {code}: another answer, or no thread"),
    }
}

/// What `sheet` has to print: the lines of the proved sheet, in call order.
fn printed(words: &[u32]) -> String {
    let mut order = vec![0; usize::from(MOST_CHUNKS)];
    let mut tray = vec![0; ROW * usize::from(MOST_CHUNKS)];
    let chunks = pinnaclemug::order(words, &mut order).expect("an order");
    pinnaclemug::sheet(words, &mut tray).expect("a sheet");
    let mut text = "chunk cycles peak bytes whole\n".to_string();
    for &c in &order[..chunks] {
        let at = ROW * c as usize;
        let &[cycles, mark, peak, bytes, whole] = &tray[at..at + ROW] else {
            panic!("a row has so many numbers")
        };
        let plus = if mark == 1 { "+" } else { "" };
        text += &format!("{c} {cycles}{plus} {peak} {bytes} {whole}\n");
    }
    text
}

/// How often a program is run with a size before it counts as enough: where its stack begins is drawn anew at each start, by up to some KiB.
const RUNS: usize = 20;

/// Whether the program writes what it has to with so much stack, at each of some runs. Its environment is empty, since that stands on the stack too.
fn program_fits(run: &Run, kib: usize) -> bool {
    (0..RUNS).all(|_| {
        let mut child = Command::new("/bin/sh")
            .args([
                "-c",
                "ulimit -s $0 && exec target/bin/$1",
                &kib.to_string(),
                run.program,
            ])
            .env_clear()
            .stdin(Stdio::piped())
            .stdout(Stdio::piped())
            .stderr(Stdio::null())
            .spawn()
            .expect("a trial starts");
        // A program that has ended by a signal reads no more.
        let _ = child.stdin.take().expect("its input").write_all(&run.input);
        let output = child.wait_with_output().expect("it ends");
        output.status.success() && output.stdout == run.output
    })
}

/// The smallest size in KiB that is enough, in pages.
fn row(name: &str, enough: impl Fn(usize) -> bool) {
    let sizes: Vec<usize> = (4..=2_048).map(|pages| pages * 4).collect();
    let kib = sizes[sizes.partition_point(|&kib| !enough(kib))];
    println!(
        "{name:<45} {kib:>8} {:>10}",
        kib.next_power_of_two().max(64)
    );
}

fn main() {
    let cases = cases();
    let numbers: Vec<usize> = std::env::args()
        .skip(1)
        .map(|text| text.parse().expect("a number"))
        .collect();
    if let [number, kib] = numbers[..] {
        trial(&cases[number], kib);
    }
    println!(
        "{:<45} {:>8} {:>10}",
        "KiB of stack, a thread's start included", "smallest", "power of 2"
    );
    for (number, case) in cases.iter().enumerate() {
        row(case.name, |kib| fits(number, kib));
    }
    for run in runs() {
        row(run.name, |kib| program_fits(&run, kib));
    }
}
