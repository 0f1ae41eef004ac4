//! Every way to put a few blocks around, between and behind some stretches of ops, say those that set a loop's values and the loop itself.
use crate::form::Op;
use crate::kinds::*;
use crate::pieces::{header, op, ops, own_targets, tail};

/// An If, an If with two arms, a Loop that a Break leaves, and a Loop that is counted in slots of its own.
#[derive(Clone, Copy, PartialEq)]
enum Block {
    Arm,
    Arms,
    Left,
    Counted,
}

const BLOCKS: [Block; 4] = [Block::Arm, Block::Arms, Block::Left, Block::Counted];

/// The next stretch; or a block's begin, the Else between its arms, or its end.
#[derive(Clone, Copy)]
enum Token {
    Stretch,
    Open(Block),
    Else,
    Close(Block),
}

/// The tokens so far, how many stretches and blocks may still come, and the open blocks, each with whether its Else has to come yet.
struct Placing {
    tokens: Vec<Token>,
    stretches: usize,
    blocks: usize,
    open: Vec<(Block, bool)>,
}

impl Placing {
    /// Goes on with this token, and takes it back behind that.
    fn with(&mut self, token: Token, see: &mut impl FnMut(&[Token])) {
        self.tokens.push(token);
        self.go_on(see);
        self.tokens.pop();
    }

    /// Every way to go on.
    fn go_on(&mut self, see: &mut impl FnMut(&[Token])) {
        if self.stretches > 0 {
            self.stretches -= 1;
            self.with(Token::Stretch, see);
            self.stretches += 1;
        }
        if self.blocks > 0 {
            self.blocks -= 1;
            for block in BLOCKS {
                self.open.push((block, block == Block::Arms));
                self.with(Token::Open(block), see);
                self.open.pop();
            }
            self.blocks += 1;
        }
        match self.open.pop() {
            Some((block, true)) => {
                self.open.push((block, false));
                self.with(Token::Else, see);
                self.open.pop();
                self.open.push((block, true));
            }
            Some((block, false)) => {
                self.with(Token::Close(block), see);
                self.open.push((block, false));
            }
            None if self.stretches == 0 => see(&self.tokens),
            None => {}
        }
    }
}

/// The first slot that the counted blocks may have.
const FREE: usize = 6;

/// Where a block was opened, and its Else if there is one.
struct Opened {
    from: usize,
    other: Option<usize>,
    slot: usize,
}

/// The ops in the making.
#[derive(Default)]
struct Maker {
    ops: Vec<Op>,
    open: Vec<Opened>,
}

impl Maker {
    fn begin(&mut self, block: Block) {
        let slot = FREE + 2 * self.ops.len();
        if block == Block::Counted {
            self.ops.extend([op(CONST, 0, 0), op(SET_LOCAL, 0, slot)]);
            self.ops
                .extend([op(CONST, 0, 1), op(SET_LOCAL, 0, slot + 1)]);
        }
        self.open.push(Opened {
            from: self.ops.len(),
            other: None,
            slot,
        });
        match block {
            Block::Arm | Block::Arms => self.ops.extend(ops![IF]),
            Block::Left => self.ops.extend(ops![LOOP]),
            Block::Counted => {
                self.ops.extend(ops![LOOP]);
                self.ops.extend(header(slot, slot + 1));
            }
        }
    }

    fn other(&mut self) {
        let other = self.ops.len();
        self.ops.extend(ops![ELSE]);
        let open = self.open.last_mut().expect("an If is open");
        open.other = Some(other);
        self.ops[open.from].a = other as u16 + 1;
    }

    fn end(&mut self, block: Block) {
        let Opened { from, other, slot } = self.open.pop().expect("a block is open");
        match block {
            Block::Arm | Block::Arms => {
                self.ops[other.unwrap_or(from)].a = self.ops.len() as u16;
                self.ops.extend(ops![END_IF]);
                return;
            }
            Block::Left => self.ops.extend(ops![BREAK]),
            Block::Counted => self.ops.extend(tail(slot, 2)),
        }
        self.ops.extend(ops![END_LOOP]);
        self.ops[from].a = self.ops.len() as u16;
    }
}

/// A stretch of ops by the position that it comes to stand at.
pub type Stretch = fn(usize) -> Vec<Op>;

fn made(tokens: &[Token], stretches: &[Stretch]) -> Vec<Op> {
    let mut maker = Maker::default();
    let mut stretches = stretches.iter();
    for &token in tokens {
        match token {
            Token::Stretch => {
                let stretch = stretches.next().expect("as many as there are");
                let at = maker.ops.len();
                maker.ops.extend(stretch(at));
            }
            Token::Open(block) => maker.begin(block),
            Token::Else => maker.other(),
            Token::Close(block) => maker.end(block),
        }
    }
    own_targets(maker.ops)
}

/// The stretches in their order with each way to put at most so many blocks.
pub fn each(stretches: &[Stretch], blocks: usize, mut see: impl FnMut(Vec<Op>)) {
    let mut placing = Placing {
        tokens: Vec::new(),
        stretches: stretches.len(),
        blocks,
        open: Vec::new(),
    };
    placing.go_on(&mut |tokens| see(made(tokens, stretches)));
}
