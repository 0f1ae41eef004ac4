//! The stored questions: document 01's cases and what DECISIONS reads into it, every op kind, every refusal at different places, the limits, near misses of a
//! count, callees, random modules from a fixed seed, stray breaks, figures about the cap, loops that step by other numbers than 1, counts
//! that a path may not keep to, and whether every way through gives up its turn.
mod calls;
mod counted;
mod coverage;
mod library;
mod marks;
mod readings;
mod rows;
mod stacks;
mod steps;
mod strays;
mod sure;
mod whole;

use crate::form::{self, Chunk, Op};
use crate::kinds::*;
use crate::pieces::chunk;
use crate::pinnaclemug::ROW;
use crate::table::Outcome;

#[derive(Clone, Copy, PartialEq)]
pub enum Asked {
    Read,
    Count,
    Cycles,
    Stack,
    Order,
    Sheet,
    Yields,
}

pub struct Question {
    pub names: Vec<String>,
    pub asked: Asked,
    pub chunk: usize,
    pub position: usize,
    pub room: usize,
    pub callees: Vec<u32>,
    pub words: Vec<u32>,
    /// what document 01 says, or a reading of it, marks left out
    pub said: Option<Outcome>,
    /// the marks of a walk or of a sheet's chunks, by request 2.5
    pub marks: Option<Vec<i64>>,
    /// the whole figures of a sheet, by hand
    pub wholes: Option<Vec<i64>>,
}

impl Question {
    fn of(asked: Asked, words: &[u32]) -> Question {
        Question {
            names: Vec::new(),
            asked,
            chunk: 0,
            position: 0,
            room: 0,
            callees: Vec::new(),
            words: words.to_vec(),
            said: None,
            marks: None,
            wholes: None,
        }
    }

    /// Whether another question is the same but for its name.
    fn asks(&self, other: &Question) -> bool {
        (self.asked, self.chunk, self.position, self.room)
            == (other.asked, other.chunk, other.position, other.room)
            && self.callees == other.callees
            && self.words == other.words
    }

    /// Document 01's answer, or that of a reading of it, marks left out.
    fn is(&mut self, values: &[i64]) {
        self.said = Some(Outcome::Answer(values.to_vec()));
    }

    /// The same, with request 2.5's mark of a walk or the marks of a sheet's chunks.
    fn marked(&mut self, values: &[i64], marks: &[i64]) {
        self.is(values);
        self.marks = Some(marks.to_vec());
    }

    /// The whole figures of a sheet's chunks.
    fn whole(&mut self, figures: &[i64]) {
        self.wholes = Some(figures.to_vec());
    }

    /// Document 01's refusal, or that of a reading of it.
    fn refused(&mut self, number: u32, chunk: usize, place: usize) {
        self.said = Some(Outcome::Refused(number, chunk, place));
    }
}

#[derive(Default)]
struct List(Vec<Question>);

impl List {
    /// A question that is there already only gets one more name.
    fn ask(&mut self, name: &str, question: Question) -> &mut Question {
        let found = self.0.iter().position(|held| held.asks(&question));
        let at = found.unwrap_or(self.0.len());
        if found.is_none() {
            self.0.push(question);
        }
        self.0[at].names.push(name.to_string());
        &mut self.0[at]
    }

    fn read(&mut self, name: &str, words: &[u32]) -> &mut Question {
        self.ask(name, Question::of(Asked::Read, words))
    }

    fn count(
        &mut self,
        name: &str,
        held: &[Chunk],
        chunk: usize,
        position: usize,
    ) -> &mut Question {
        let question = Question {
            chunk,
            position,
            ..Question::of(Asked::Count, &form::write(held))
        };
        self.ask(name, question)
    }

    fn cycles(&mut self, name: &str, held: &[Chunk], chunk: usize) -> &mut Question {
        let question = Question {
            chunk,
            ..Question::of(Asked::Cycles, &form::write(held))
        };
        self.ask(name, question)
    }

    /// A question about a chunk over a lent list.
    fn over(
        &mut self,
        name: &str,
        asked: Asked,
        (held, chunk): (&[Chunk], usize),
        callees: &[u32],
    ) -> &mut Question {
        let question = Question {
            chunk,
            callees: callees.to_vec(),
            ..Question::of(asked, &form::write(held))
        };
        self.ask(name, question)
    }

    fn stack(
        &mut self,
        name: &str,
        held: &[Chunk],
        chunk: usize,
        callees: &[u32],
    ) -> &mut Question {
        self.over(name, Asked::Stack, (held, chunk), callees)
    }

    fn yields(
        &mut self,
        name: &str,
        held: &[Chunk],
        chunk: usize,
        callees: &[u32],
    ) -> &mut Question {
        self.over(name, Asked::Yields, (held, chunk), callees)
    }

    /// The call order or the sheet in a tray of so much room.
    fn tray(&mut self, name: &str, asked: Asked, words: &[u32], room: usize) -> &mut Question {
        let question = Question {
            room,
            ..Question::of(asked, words)
        };
        self.ask(name, question)
    }

    fn order(&mut self, name: &str, held: &[Chunk], room: usize) -> &mut Question {
        self.tray(name, Asked::Order, &form::write(held), room)
    }

    /// The tray is two words longer than it has to be.
    fn sheet(&mut self, name: &str, held: &[Chunk]) -> &mut Question {
        let room = ROW * held.len() + 2;
        self.tray(name, Asked::Sheet, &form::write(held), room)
    }

    /// The cycles of chunk 0 of these words, which may be no module.
    fn walk_words(&mut self, name: &str, words: &[u32]) -> &mut Question {
        self.ask(name, Question::of(Asked::Cycles, words))
    }

    /// The stack of chunk 0 of these words, which may be no module.
    fn stack_words(&mut self, name: &str, words: &[u32]) -> &mut Question {
        self.ask(name, Question::of(Asked::Stack, words))
    }

    /// The yields of chunk 0 of these words, which may be no module.
    fn yields_words(&mut self, name: &str, words: &[u32]) -> &mut Question {
        self.ask(name, Question::of(Asked::Yields, words))
    }

    /// The cycles of a Func chunk of these ops alone.
    fn func(&mut self, name: &str, ops: Vec<Op>) -> &mut Question {
        self.cycles(name, &[chunk(FUNC, 0, &[], ops)], 0)
    }

    /// The cycles of a Stream chunk of these ops alone.
    fn stream(&mut self, name: &str, ops: Vec<Op>) -> &mut Question {
        self.cycles(name, &[chunk(STREAMING, 0, &[], ops)], 0)
    }
}

pub fn all() -> Vec<Question> {
    let mut list = List::default();
    readings::all(&mut list);
    whole::kinds(&mut list);
    whole::worked_cases(&mut list);
    counted::all(&mut list);
    rows::all(&mut list);
    stacks::all(&mut list);
    calls::all(&mut list);
    library::all(&mut list);
    whole::longest(&mut list);
    whole::random_modules(&mut list, 18);
    strays::all(&mut list);
    marks::all(&mut list);
    steps::all(&mut list);
    sure::all(&mut list);
    coverage::all(&mut list);
    list.0
}
