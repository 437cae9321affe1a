//! The reading rules of Parser.dfy, each a function. A rule that fails having kept nothing gives way to the
//! next; one that fails after a kept token refuses the text where the first unusable token begins. Blanks are
//! passed after each token, and a comment in them that never closes refuses the text there and then. Where the
//! first unusable token is the text's end, more must follow; `read` tells that by a number of its own.

mod decl;
mod expr;
mod lexer;
mod stmt;

use crate::refusal::{
    Refusal, Result, DEPTH_LIMIT, ENDED_TOO_SOON, LONG_TEXT, SHORT_TABLE, TABLE_LIMIT, TEXT_LIMIT, TOO_DEEP,
    UNUSABLE,
};
use crate::tree::{Binding, Expr, Name, Program};
use lexer::{Cursor, Infix};

/// Reads a program whose tree fits a table of `table` words.
pub fn read_program(text: &[u8], table: usize) -> Result<Program<'_>> {
    read(text, table, Reader::program)
}

/// Reads an expression whose tree fits a table of `table` words.
pub fn read_expression(text: &[u8], table: usize) -> Result<Expr<'_>> {
    read(text, table, Reader::whole_expr)
}

/// Reads the whole of a text by a rule.
fn read<'a, T>(text: &'a [u8], table: usize, rule: fn(&mut Reader<'a>) -> Result<T>) -> Result<T> {
    let mut reader = Reader::new(text)?;
    let tree = rule(&mut reader).map_err(|refusal| told(text, refusal))?;
    reader.fits(table)?;
    Ok(tree)
}

/// The refusal of a rule as the reading's: where it is `UNUSABLE` at the text's end, the text ended too soon.
fn told(text: &[u8], refusal: Refusal) -> Refusal {
    match refusal {
        Refusal { number: UNUSABLE, place } if place as usize == text.len() => {
            Refusal { number: ENDED_TOO_SOON, place }
        }
        _ => refusal,
    }
}

struct Reader<'a> {
    cursor: Cursor<'a>,
    /// The rules of the galleries opened and not closed.
    depth: usize,
    /// The words of the tree's parts read so far.
    words: usize,
    /// The operator after the last operand.
    infix: Option<Infix>,
}

impl<'a> Reader<'a> {
    fn new(text: &'a [u8]) -> Result<Self> {
        if text.len() > TEXT_LIMIT {
            return Err(Refusal::new(LONG_TEXT, TEXT_LIMIT));
        }
        Ok(Reader { cursor: Cursor::new(text)?, depth: 0, words: 0, infix: None })
    }

    fn fits(&self, table: usize) -> Result<()> {
        if self.words > table.min(TABLE_LIMIT) {
            return Err(Refusal::new(SHORT_TABLE, 0));
        }
        Ok(())
    }

    /// Opens a rule whose first token begins at `place`.
    fn open(&mut self, place: usize) -> Result<()> {
        if self.depth == DEPTH_LIMIT {
            return Err(Refusal::new(TOO_DEEP, place));
        }
        self.depth += 1;
        Ok(())
    }

    fn close(&mut self) {
        self.depth -= 1;
    }

    /// A node with `words` words of its own; its names, sequences and parts count theirs.
    fn node<T>(&mut self, words: usize, node: T) -> T {
        self.words += words;
        node
    }

    /// A whole sequence: a word before each item and one at the end.
    fn sequence<T>(&mut self, items: Vec<T>) -> Vec<T> {
        self.words += items.len() + 1;
        items
    }

    fn name(&mut self) -> Result<Name<'a>> {
        let name = self.cursor.identifier();
        if name.is_empty() {
            return Err(self.cursor.unusable());
        }
        self.keep_name(name)
    }

    fn keep_name(&mut self, name: Name<'a>) -> Result<Name<'a>> {
        self.cursor.take(name.len())?;
        Ok(self.node(2, name))
    }

    /// Items divided by commas, at least one.
    fn list<T>(&mut self, mut item: impl FnMut(&mut Self) -> Result<T>) -> Result<Vec<T>> {
        let mut items = Vec::new();
        loop {
            items.push(item(self)?);
            if !self.cursor.take_sign(b",")? {
                return Ok(self.sequence(items));
            }
        }
    }

    /// Items divided by commas, or none. Every item's first token could begin an expression.
    fn list_or_none<T>(&mut self, item: impl FnMut(&mut Self) -> Result<T>) -> Result<Vec<T>> {
        if self.at_expr() {
            self.list(item)
        } else {
            Ok(self.sequence(Vec::new()))
        }
    }

    fn bracketed_list<T>(&mut self, item: impl FnMut(&mut Self) -> Result<T>) -> Result<Vec<T>> {
        self.cursor.expect_sign(b"(")?;
        let items = self.list_or_none(item)?;
        self.cursor.expect_sign(b")")?;
        Ok(items)
    }

    /// A name and its type.
    fn binding(&mut self) -> Result<Binding<'a>> {
        let name = self.name()?;
        self.cursor.expect_sign(b":")?;
        let typ = self.name()?;
        Ok(Binding { name, typ })
    }

    /// A name and, where a `:` that begins no `:=` follows, its type.
    fn name_and_optional_type(&mut self) -> Result<(Name<'a>, Option<Name<'a>>)> {
        let name = self.name()?;
        let typed = self.cursor.peek() == b':' && !self.cursor.rest().starts_with(b":=");
        let optional_type = if typed {
            self.cursor.take(1)?;
            Some(self.name()?)
        } else {
            None
        };
        Ok(self.node(1, (name, optional_type)))
    }

    fn optional_auto_invariant(&mut self) -> Result<Option<Expr<'a>>> {
        let auto_inv = if self.cursor.take_keyword(b"autoinv")? { Some(self.expr()?) } else { None };
        Ok(self.node(1, auto_inv))
    }
}
