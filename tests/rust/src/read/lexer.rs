//! Blanks, identifiers, signs: a cursor on the text that stands, between steps, after the blanks of the last
//! token.

use crate::refusal::{Refusal, Result, UNCLOSED_COMMENT, UNUSABLE};
use crate::tree::Operator;

const START: u8 = 1;
const IDENTIFIER: u8 = 2;
const LITERAL: u8 = 4;

static CLASSES: [u8; 256] = classes();

const fn classes() -> [u8; 256] {
    let mut classes = [0; 256];
    let mut byte = 0;
    while byte < 128 {
        classes[byte] = match byte as u8 {
            b'a'..=b'z' | b'A'..=b'Z' | b'%' => START | IDENTIFIER | LITERAL,
            b'0'..=b'9' | b'_' | b'$' | b'.' => IDENTIFIER | LITERAL,
            b'+' | b'-' | b'*' | b'/' | b'@' | b'#' | b'!' | b'^' => LITERAL,
            _ => 0,
        };
        byte += 1;
    }
    classes
}

fn is(byte: u8, class: u8) -> bool {
    CLASSES[usize::from(byte)] & class != 0
}

/// The levels of binary operators, loosest first.
#[derive(Clone, Copy, Debug, PartialEq, Eq, PartialOrd, Ord)]
pub enum Level {
    Equiv,
    ImpExp,
    Logical,
    Comparison,
    Term,
    Factor,
    Unary,
}

impl Level {
    /// The level of a right operand.
    pub fn tighter(self) -> Level {
        match self {
            Level::Equiv => Level::ImpExp,
            Level::ImpExp => Level::Logical,
            Level::Logical => Level::Comparison,
            Level::Comparison => Level::Term,
            Level::Term => Level::Factor,
            Level::Factor | Level::Unary => Level::Unary,
        }
    }
}

/// A binary operator as the text has it.
#[derive(Clone, Copy, Debug)]
pub struct Infix {
    pub level: Level,
    pub op: Operator,
    pub swapped: bool,
    pub len: u8,
}

impl Infix {
    /// Whether the operator may stand after `last`, both of them outside brackets: comparisons make no chain,
    /// `==>` and `<==` don't mix, nor do `&&` and `||`.
    pub fn may_follow(self, last: Infix) -> bool {
        match self.level {
            level if level != last.level => level < last.level,
            Level::Comparison => false,
            Level::ImpExp => self.swapped == last.swapped,
            Level::Logical => self.op == last.op,
            _ => true,
        }
    }
}

#[derive(Clone, Copy)]
pub struct Cursor<'a> {
    pub text: &'a [u8],
    pub at: usize,
}

impl<'a> Cursor<'a> {
    /// At the first token of the text.
    pub fn new(text: &'a [u8]) -> Result<Self> {
        let mut cursor = Cursor { text, at: 0 };
        cursor.skip_blanks()?;
        Ok(cursor)
    }

    pub fn rest(&self) -> &'a [u8] {
        &self.text[self.at..]
    }

    /// The next byte; 0, which no token has, at the end.
    pub fn peek(&self) -> u8 {
        self.text.get(self.at).copied().unwrap_or(0)
    }

    pub fn at_end(&self) -> bool {
        self.at == self.text.len()
    }

    pub fn unusable(&self) -> Refusal {
        Refusal::new(UNUSABLE, self.at)
    }

    fn skip_blanks(&mut self) -> Result<()> {
        loop {
            match self.rest() {
                [b' ' | b'\t' | b'\r' | b'\n', ..] => self.at += 1,
                [b'/', b'/', ..] => self.skip_line(),
                [b'/', b'*', ..] => self.skip_long_comment()?,
                _ => return Ok(()),
            }
        }
    }

    fn skip_line(&mut self) {
        let rest = self.rest();
        self.at += rest.iter().position(|&byte| byte == b'\n').unwrap_or(rest.len());
    }

    /// Long comments nest; one never closed is refused at its outermost opening mark.
    fn skip_long_comment(&mut self) -> Result<()> {
        let start = self.at;
        let mut open = 0usize;
        while let Some(pair) = self.text.get(self.at..self.at + 2) {
            match pair {
                b"/*" => open += 1,
                b"*/" => open -= 1,
                _ => {
                    self.at += 1;
                    continue;
                }
            }
            self.at += 2;
            if open == 0 {
                return Ok(());
            }
        }
        Err(Refusal::new(UNCLOSED_COMMENT, start))
    }

    /// Takes `len` bytes and the blanks after them.
    pub fn take(&mut self, len: usize) -> Result<()> {
        self.at += len;
        self.skip_blanks()
    }

    pub fn take_sign(&mut self, sign: &[u8]) -> Result<bool> {
        let found = self.rest().starts_with(sign);
        if found {
            self.take(sign.len())?;
        }
        Ok(found)
    }

    pub fn expect_sign(&mut self, sign: &[u8]) -> Result<()> {
        if self.take_sign(sign)? {
            Ok(())
        } else {
            Err(self.unusable())
        }
    }

    pub fn at_identifier(&self) -> bool {
        is(self.peek(), START)
    }

    /// The identifier that starts here, empty where none does.
    pub fn identifier(&self) -> &'a [u8] {
        if !self.at_identifier() {
            return &[];
        }
        self.run_of(IDENTIFIER)
    }

    /// The custom literal text that starts here, empty where none does.
    pub fn literal(&self) -> &'a [u8] {
        self.run_of(LITERAL)
    }

    fn run_of(&self, class: u8) -> &'a [u8] {
        let rest = self.rest();
        let len = rest.iter().position(|&byte| !is(byte, class)).unwrap_or(rest.len());
        &rest[..len]
    }

    /// A keyword ends where no identifier byte follows.
    fn at_keyword(&self, word: &[u8]) -> bool {
        match self.rest().strip_prefix(word) {
            Some([next, ..]) => !is(*next, IDENTIFIER),
            Some([]) => true,
            None => false,
        }
    }

    pub fn take_keyword(&mut self, word: &[u8]) -> Result<bool> {
        let found = self.at_keyword(word);
        if found {
            self.take(word.len())?;
        }
        Ok(found)
    }

    pub fn expect_keyword(&mut self, word: &[u8]) -> Result<()> {
        if self.take_keyword(word)? {
            Ok(())
        } else {
            Err(self.unusable())
        }
    }

    /// The binary operator that starts here: the longest sign wins.
    pub fn infix(&self) -> Option<Infix> {
        let (level, op, swapped, len) = match self.rest() {
            [b'<', b'=', b'=', b'>', ..] => (Level::Equiv, Operator::Equiv, false, 4),
            [b'<', b'=', b'=', ..] => (Level::ImpExp, Operator::LogicalImp, true, 3),
            [b'<', b'=', ..] => (Level::Comparison, Operator::AtMost, false, 2),
            [b'<', ..] => (Level::Comparison, Operator::Less, false, 1),
            [b'>', b'=', ..] => (Level::Comparison, Operator::AtMost, true, 2),
            [b'>', ..] => (Level::Comparison, Operator::Less, true, 1),
            [b'=', b'=', b'>', ..] => (Level::ImpExp, Operator::LogicalImp, false, 3),
            [b'=', b'=', ..] => (Level::Comparison, Operator::Eq, false, 2),
            [b'!', b'=', ..] => (Level::Comparison, Operator::Neq, false, 2),
            [b'&', b'&', ..] => (Level::Logical, Operator::LogicalAnd, false, 2),
            [b'|', b'|', ..] => (Level::Logical, Operator::LogicalOr, false, 2),
            [b'+', ..] => (Level::Term, Operator::Plus, false, 1),
            [b'-', ..] => (Level::Term, Operator::Minus, false, 1),
            [b'*', ..] => (Level::Factor, Operator::Times, false, 1),
            [b'd', ..] if self.at_keyword(b"div") => (Level::Factor, Operator::Div, false, 3),
            [b'm', ..] if self.at_keyword(b"mod") => (Level::Factor, Operator::Mod, false, 3),
            _ => return None,
        };
        Some(Infix { level, op, swapped, len })
    }
}
