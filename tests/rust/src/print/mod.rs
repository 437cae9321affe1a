//! The prints of Printer.dfy.

mod decl;
mod expr;
mod power;
mod stmt;

use crate::refusal::{
    Refusal, Result, INDENT_LIMIT, LONG_PRINT_INPUT, OUTPUT_LIMIT, SHORT_OUTPUT, TABLE_LIMIT, TEXT_LIMIT,
};
use crate::settings::Settings;
use crate::tree::{Expr, Program};

/// Where an expression's lines break.
#[derive(Clone, Copy, Debug, PartialEq, Eq)]
pub enum Format {
    SingleLine,
    MultipleLines(usize),
}

/// Refusal 6: what a print takes at most, its start indent 0 where none is handed in.
pub fn check_print_input(text: &[u8], words: &[u32], indent: usize) -> Result<()> {
    if text.len() > TEXT_LIMIT || words.len() > TABLE_LIMIT || indent > INDENT_LIMIT {
        return Err(Refusal::new(LONG_PRINT_INPUT, 0));
    }
    Ok(())
}

/// The print of a program, of at most `limit` bytes.
pub fn print_program(program: &Program, limit: usize) -> Result<Vec<u8>> {
    print_program_by(program, Settings::DEFAULT, limit)
}

/// The print of a program by settings, of at most `limit` bytes.
pub fn print_program_by(program: &Program, settings: Settings, limit: usize) -> Result<Vec<u8>> {
    let mut printer = Printer::new(settings, limit);
    printer.program(program)?;
    Ok(printer.bytes)
}

/// The print of an expression, of at most `limit` bytes.
pub fn print_expression(expr: &Expr, format: Format, limit: usize) -> Result<Vec<u8>> {
    let mut printer = Printer::new(Settings::DEFAULT, limit);
    printer.free_expression(expr, format)?;
    Ok(printer.bytes)
}

/// The print of an expression by settings, broken from a start indent on where their form is, of at most `limit`
/// bytes.
pub fn print_expression_by(expr: &Expr, settings: Settings, indent: usize, limit: usize) -> Result<Vec<u8>> {
    let mut printer = Printer::new(settings, limit);
    printer.free_expression(expr, settings.format(indent))?;
    Ok(printer.bytes)
}

struct Printer {
    bytes: Vec<u8>,
    limit: usize,
    settings: Settings,
}

impl Printer {
    fn new(settings: Settings, limit: usize) -> Self {
        Printer { bytes: Vec::new(), limit: limit.min(OUTPUT_LIMIT), settings }
    }

    /// An indent one step deeper.
    fn deeper(&self, indent: usize) -> usize {
        indent + self.settings.step
    }

    /// The same of a format.
    fn more(&self, format: Format) -> Format {
        match format {
            Format::SingleLine => format,
            Format::MultipleLines(indent) => Format::MultipleLines(self.deeper(indent)),
        }
    }

    fn put(&mut self, part: &[u8]) -> Result<()> {
        self.room(part.len())?;
        self.bytes.extend_from_slice(part);
        Ok(())
    }

    fn put_all<const N: usize>(&mut self, parts: [&[u8]; N]) -> Result<()> {
        parts.iter().try_for_each(|part| self.put(part))
    }

    fn indent(&mut self, indent: usize) -> Result<()> {
        self.room(indent)?;
        self.bytes.resize(self.bytes.len() + indent, b' ');
        Ok(())
    }

    fn room(&self, len: usize) -> Result<()> {
        if len > self.limit - self.bytes.len() {
            return Err(Refusal::new(SHORT_OUTPUT, 0));
        }
        Ok(())
    }

    /// A space, or a line break and the indent.
    fn space(&mut self, format: Format) -> Result<()> {
        match format {
            Format::SingleLine => self.put(b" "),
            Format::MultipleLines(indent) => {
                self.put(b"\n")?;
                self.indent(indent)
            }
        }
    }

    /// Items with `, ` between them.
    fn separated<T>(&mut self, items: &[T], mut item: impl FnMut(&mut Self, &T) -> Result<()>) -> Result<()> {
        for (index, each) in items.iter().enumerate() {
            if index > 0 {
                self.put(b", ")?;
            }
            item(self, each)?;
        }
        Ok(())
    }
}
