//! Writes the stored questions and their answers for the program `replay`. An answer is the original's; where the original has no such refusal or no such
//! question, it is document 01's, and those lines are listed. Where a loop steps by another number than 1 it is request 2.7's, and the lines are listed by how
//! it stands to the original's. Where document 01, a reading of it or a request says an answer, that has to be the one, and so has our side's everywhere.
use crate::case::Case;
use crate::expected::{self, Expected};
use crate::form;
use crate::pinnaclemug::{self, ROW};
use crate::questions::{self, Asked, Question};
use crate::refusals::*;
use crate::stands::{self, Stands};
use crate::table::{self, COMPARISONS, ENDS, Each, MARK, NEVER, NO, Outcome, WHOLE, YES};
use Expected::{Apart, Same, Stepping};
use std::collections::BTreeMap;
use std::fmt::Display;

/// What stands in a tray before the call.
const BEFORE: i64 = 9;

fn number(asked: Asked) -> u32 {
    match asked {
        Asked::Read => 1,
        Asked::Count => 2,
        Asked::Cycles => 3,
        Asked::Stack => 4,
        Asked::Order => 5,
        Asked::Sheet => 6,
        Asked::Yields => 7,
    }
}

/// The name of the comparison that has the original's answer; it has none for the reading.
fn name(asked: Asked) -> &'static str {
    match asked {
        Asked::Read => "read",
        Asked::Count => "count",
        Asked::Cycles => "cycles",
        Asked::Stack => "stack",
        Asked::Order => "order",
        Asked::Sheet => "sheet",
        Asked::Yields => "yields",
    }
}

/// How many numbers of a tray a chunk has.
fn width(asked: Asked) -> usize {
    match asked {
        Asked::Order => 1,
        Asked::Sheet => ROW,
        _ => 0,
    }
}

/// The refusals 1, 2, 13 and 12 come first and are document 01's; so is a count past every position that the original's arithmetic has room for. Then the
/// comparison says what is expected, and whose answer it is.
fn expected(question: &Question) -> Expected {
    let (asked, c, p) = (question.asked, question.chunk, question.position);
    let chunks = match form::read(&question.words) {
        Ok(chunks) => chunks.len(),
        Err(refusal) => {
            return Apart("words", Outcome::Refused(refusal.number, 0, refusal.place));
        }
    };
    let of_module = matches!(asked, Asked::Order | Asked::Sheet);
    if asked == Asked::Read {
        return Apart("reading", Outcome::Answer(vec![chunks as i64]));
    }
    if question.room < width(asked) * chunks {
        return Apart("short tray", Outcome::Refused(SHORT_TRAY, 0, 0));
    }
    if !of_module && c >= chunks {
        return Apart("no such chunk", Outcome::Refused(NO_SUCH_CHUNK, c, 0));
    }
    if p > u32::MAX as usize {
        return Apart("far position", Outcome::Refused(NO_COUNT, c, p));
    }
    let case = Case::new(question.words.clone(), question.callees.clone());
    match asked {
        Asked::Sheet => return expected::lines(&case),
        Asked::Cycles => return expected::walk(&case, c),
        _ => {}
    }
    let held = COMPARISONS.iter().find(|held| held.name == name(asked));
    (held.expect("a comparison").original)(&case, c, p)
}

/// Our side's answer. A chunk or a position of more than 32 bits cannot be handed over; the program `replay` alone is asked there.
fn ours(question: &Question) -> Option<Outcome> {
    let words = &question.words;
    let (c, p) = (question.chunk, question.position);
    if c.max(p) > u32::MAX as usize {
        return None;
    }
    Some(match question.asked {
        Asked::Read => match pinnaclemug::read(words) {
            Ok(chunks) => Outcome::Answer(vec![chunks as i64]),
            Err(refusal) => table::unpacked(refusal),
        },
        Asked::Count => table::count(words, c, p),
        Asked::Cycles => table::walk(words, c),
        Asked::Stack => table::stack(words, c, &question.callees),
        Asked::Yields => table::yields(words, c, &question.callees),
        Asked::Order => table::order(words, question.room),
        Asked::Sheet => table::sheet(words, question.room),
    })
}

/// An outcome as the archive packs it: the chunk is kept modulo 2^24.
fn packed(outcome: &Outcome) -> Outcome {
    match outcome {
        Outcome::Refused(number, chunk, place) => {
            Outcome::Refused(*number, chunk % (1 << 24), *place)
        }
        other => other.clone(),
    }
}

/// An outcome without its marks, and these: the last number of a cycle walk, the second of each line of a sheet.
fn marks_apart(asked: Asked, outcome: &Outcome) -> (Outcome, Vec<i64>) {
    let Outcome::Answer(values) = outcome else {
        return (outcome.clone(), Vec::new());
    };
    let is_mark = |i: usize| match asked {
        Asked::Cycles => i == 2,
        Asked::Sheet => i % ROW == MARK,
        _ => false,
    };
    let picked = |marks: bool| {
        let each = values.iter().enumerate();
        each.filter(move |(i, _)| is_mark(*i) == marks)
            .map(|(_, &value)| value)
            .collect()
    };
    (Outcome::Answer(picked(false)), picked(true))
}

/// Whose an answer is: the original's, document 01's and why, or request 2.7's and how it stands to the original's.
enum Whose {
    Original,
    Document(&'static str),
    Stepping(Stands),
}

/// Which numbers of an answer a loop's step brings down: the count; the cycles and the mark of a walk; those and the whole figure of each line of a sheet.
fn is_figure(asked: Asked) -> fn(usize) -> bool {
    match asked {
        Asked::Count => |_| true,
        Asked::Cycles => |i| i != 1,
        Asked::Sheet => |i| matches!(i % ROW, 0 | MARK | WHOLE),
        _ => |_| false,
    }
}

/// How the answer stands to the original's.
fn stands(question: &Question, outcome: &Outcome, original: &Outcome) -> Stands {
    let case = Case::new(question.words.clone(), question.callees.clone());
    let each = match question.asked {
        Asked::Sheet => Each::Module,
        _ => Each::Chunk,
    };
    stands::how(&case, each, is_figure(question.asked), outcome, original)
}

/// The answer, and whose it is.
fn answer(question: &Question) -> (Outcome, Whose) {
    let names = question.names.join(" / ");
    let (outcome, whose) = match expected(question) {
        Same(outcome) => (outcome, Whose::Original),
        Apart(reason, outcome) => (outcome, Whose::Document(reason)),
        Stepping(outcome, original) => {
            let how = stands(question, &outcome, &original);
            assert_ne!(how, Stands::Against, "{names}: {outcome:?}, {original:?}");
            (outcome, Whose::Stepping(how))
        }
    };
    let (found, marks) = marks_apart(question.asked, &outcome);
    if let Some(said) = &question.said {
        assert_eq!(&found, said, "{names}: document 01 says something else");
    }
    if let Some(said) = &question.marks {
        assert_eq!(&marks, said, "{names}: request 2.5 says something else");
    }
    if let (Some(figures), Outcome::Answer(lines)) = (&question.wholes, &outcome) {
        let found: Vec<i64> = table::column(lines, WHOLE).collect();
        assert_eq!(&found, figures, "{names}: by hand it is something else");
    }
    if let Some(ours) = ours(question) {
        assert_eq!(ours, packed(&outcome), "{names}: we say something else");
    }
    (outcome, whose)
}

fn coverage(number: i64) -> &'static str {
    match number {
        NO => "no",
        YES => "yes",
        NEVER => "never",
        _ => panic!("there is no such answer"),
    }
}

/// A line as `replay` prints it: for an order or a sheet how many chunks there are, and the whole tray.
fn line(question: &Question, outcome: &Outcome) -> String {
    let text = |&value: &i64| match question.asked {
        Asked::Stack if value == ENDS => "ends".to_string(),
        Asked::Yields => coverage(value).to_string(),
        _ => value.to_string(),
    };
    let (front, mut tray) = match outcome {
        Outcome::Answer(values) => match width(question.asked) {
            0 => (
                values.iter().map(text).collect::<Vec<_>>().join(" "),
                vec![],
            ),
            wide => ((values.len() / wide).to_string(), values.clone()),
        },
        Outcome::Refused(number, c, p) => (format!("refused {number} {c} {p}"), vec![]),
        Outcome::Spoilt => panic!("no side expects that"),
    };
    if width(question.asked) == 0 {
        return front;
    }
    tray.resize(question.room, BEFORE);
    let numbers = tray.iter().map(|number| format!(" {number}"));
    format!("{front}, tray{}", numbers.collect::<String>())
}

/// The 32-bit numbers of a question.
fn numbers(question: &Question) -> Vec<u32> {
    let (c, p) = (question.chunk as u64, question.position as u64);
    let room = match question.asked {
        Asked::Stack | Asked::Yields => question.callees.len(),
        _ => question.room,
    };
    let head = [
        number(question.asked),
        c as u32,
        (c >> 32) as u32,
        p as u32,
        (p >> 32) as u32,
        room as u32,
        question.words.len() as u32,
    ];
    [&head, &question.callees[..], &question.words[..]].concat()
}

/// Lines by what they are listed for.
type Lines<T> = BTreeMap<T, Vec<usize>>;

/// The lists below a heading, each in one row.
fn told<T: Display>(heading: &str, lines: Lines<T>) {
    println!("{heading}:");
    for (reason, lines) in lines {
        let lines: Vec<String> = lines.iter().map(usize::to_string).collect();
        println!("{reason}: {}", lines.join(", "));
    }
}

/// Writes `crates/replay/stdin` and `crates/replay/stdout`, and says what is in them.
pub fn all() {
    let (mut input, mut output) = (Vec::new(), String::new());
    let mut met: BTreeMap<(&str, String), u32> = BTreeMap::new();
    let (mut alone, mut agreed, mut steps) = (Lines::new(), Lines::new(), Lines::new());
    let questions = questions::all();
    for (i, question) in questions.iter().enumerate() {
        let (outcome, whose) = answer(question);
        match whose {
            Whose::Document(reason) => alone.entry(reason).or_default().push(i + 1),
            Whose::Stepping(how) => steps.entry(how).or_default().push(i + 1),
            Whose::Original if question.said.is_some() => {
                agreed.entry(name(question.asked)).or_default().push(i + 1);
            }
            Whose::Original => {}
        }
        let kind = match outcome {
            Outcome::Refused(number, ..) => format!("refused by {number:2}"),
            _ => "answered".to_string(),
        };
        *met.entry((name(question.asked), kind)).or_default() += 1;
        input.extend(numbers(question).into_iter().flat_map(u32::to_le_bytes));
        output += &line(question, &outcome);
        output.push('\n');
    }
    std::fs::write("crates/replay/stdin", &input).expect("the questions are written");
    std::fs::write("crates/replay/stdout", &output).expect("the answers are written");
    println!("{} questions, {} bytes", questions.len(), input.len());
    for ((name, kind), n) in met {
        println!("{name:<6} {kind:<13} {n:>3}");
    }
    told("lines by document 01 alone", alone);
    let said = "lines that document 01 or a reading says, the original the same";
    told(said, agreed);
    told("lines of loops that step by another number than 1", steps);
}
