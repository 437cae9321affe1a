//! The outline of a program's words (REFERENCE, "The outline of a table"): for each word the kind that is expected
//! there, and the place after what stands for it. Words that aren't exactly one program are refused 7, at the first
//! that doesn't fit.

use crate::refusal::{Refusal, Result, MISFIT};

/// What may be expected at a word. A sequence is also expected before each later item and at its end.
#[derive(Clone, Copy, Debug, PartialEq, Eq)]
pub enum Kind {
    SecondWord,
    Bool,
    Operator,
    Mode,
    Expr,
    Stmt,
    AExpr,
    OptionName,
    OptionExpr,
    OptionStmt,
    OptionDefinition,
    Names,
    Exprs,
    Bindings,
    Patterns,
    ClosureBindings,
    ClosureProperties,
    Stmts,
    CallArguments,
    Cases,
    AExprs,
    Taggers,
    FParameters,
    Functions,
    Axioms,
    PParameters,
    Procedures,
    Name,
    Natural,
}

/// A number for each word.
#[derive(Debug, Default, PartialEq, Eq)]
pub struct Outline {
    pub kinds: Vec<u16>,
    pub ends: Vec<u16>,
}

/// The outline of the words of one program over a text of that length.
pub fn outline_program(text_len: usize, words: &[u32]) -> Result<Outline> {
    let mut walker = Walker { text_len, words, outline: Outline::default() };
    walker.program()?;
    let end = walker.at();
    if end < words.len() {
        return Err(Refusal::new(MISFIT, end));
    }
    Ok(walker.outline)
}

struct Walker<'w> {
    text_len: usize,
    words: &'w [u32],
    outline: Outline,
}

impl Walker<'_> {
    fn at(&self) -> usize {
        self.outline.kinds.len()
    }

    /// Passes a word that `fits` where the kind is expected.
    fn word(&mut self, kind: Kind, fits: impl FnOnce(u32) -> bool) -> Result<u32> {
        let place = self.at();
        let word = self.words.get(place).copied().filter(|&word| fits(word));
        self.outline.kinds.push(kind as u16);
        self.outline.ends.push(place as u16 + 1);
        word.ok_or(Refusal::new(MISFIT, place))
    }

    /// Says that what stands for the kind at a place ends here.
    fn ends_here(&mut self, place: usize) -> Result<()> {
        self.outline.ends[place] = self.at() as u16;
        Ok(())
    }

    /// Passes a constructor's word, one of `range`, and its fields by `fields`.
    fn constructor(
        &mut self,
        kind: Kind,
        range: std::ops::RangeInclusive<u32>,
        fields: impl FnOnce(&mut Self, u32) -> Result<()>,
    ) -> Result<()> {
        let place = self.at();
        let word = self.word(kind, |word| range.contains(&word))?;
        fields(self, word)?;
        self.ends_here(place)
    }

    fn bool(&mut self) -> Result<()> {
        self.word(Kind::Bool, |word| word <= 1).map(|_| ())
    }

    fn mode(&mut self) -> Result<()> {
        self.word(Kind::Mode, |word| (1..=3).contains(&word)).map(|_| ())
    }

    fn operator(&mut self) -> Result<()> {
        self.word(Kind::Operator, |word| (1..=16).contains(&word)).map(|_| ())
    }

    /// A name that passes the text's end misfits at its first word.
    fn name(&mut self) -> Result<()> {
        let place = self.at();
        let start = self.word(Kind::Name, |_| true)?;
        let len = self.word(Kind::SecondWord, |_| true)?;
        if u64::from(start) + u64::from(len) > self.text_len as u64 {
            return Err(Refusal::new(MISFIT, place));
        }
        self.ends_here(place)
    }

    fn natural(&mut self) -> Result<()> {
        let place = self.at();
        self.word(Kind::Natural, |_| true)?;
        self.word(Kind::SecondWord, |_| true)?;
        self.ends_here(place)
    }

    fn option(&mut self, kind: Kind, content: fn(&mut Self) -> Result<()>) -> Result<()> {
        let place = self.at();
        if self.word(kind, |word| word <= 1)? == 1 {
            content(self)?;
        }
        self.ends_here(place)
    }

    fn seq(&mut self, kind: Kind, item: fn(&mut Self) -> Result<()>) -> Result<()> {
        let mut marks = vec![self.at()];
        while self.word(kind, |word| word <= 1)? == 1 {
            item(self)?;
            marks.push(self.at());
        }
        marks.into_iter().try_for_each(|mark| self.ends_here(mark))
    }

    fn program(&mut self) -> Result<()> {
        self.seq(Kind::Names, Self::name)?;
        self.seq(Kind::Taggers, Self::two_names)?;
        self.seq(Kind::Functions, Self::function)?;
        self.seq(Kind::Axioms, |w| {
            w.seq(Kind::Names, Self::name)?;
            w.expr()
        })?;
        self.seq(Kind::Procedures, Self::procedure)
    }

    fn two_names(&mut self) -> Result<()> {
        self.name()?;
        self.name()
    }

    fn function(&mut self) -> Result<()> {
        self.name()?;
        self.seq(Kind::FParameters, |w| {
            w.name()?;
            w.bool()?;
            w.name()
        })?;
        self.name()?;
        self.option(Kind::OptionName, Self::name)?;
        self.option(Kind::OptionDefinition, |w| {
            w.exprs()?;
            w.expr()
        })
    }

    fn procedure(&mut self) -> Result<()> {
        self.name()?;
        self.seq(Kind::PParameters, |w| {
            w.name()?;
            w.mode()?;
            w.name()?;
            w.option(Kind::OptionExpr, Self::expr)
        })?;
        self.seq(Kind::AExprs, Self::aexpr)?;
        self.seq(Kind::AExprs, Self::aexpr)?;
        self.option(Kind::OptionStmt, Self::stmt)
    }

    fn aexpr(&mut self) -> Result<()> {
        self.constructor(Kind::AExpr, 1..=2, |w, word| if word == 1 { w.expr() } else { w.stmt() })
    }

    fn stmt(&mut self) -> Result<()> {
        self.constructor(Kind::Stmt, 21..=38, |w, word| match word {
            21 => {
                w.name()?;
                w.bool()?;
                w.option(Kind::OptionName, Self::name)?;
                w.option(Kind::OptionExpr, Self::expr)?;
                w.option(Kind::OptionExpr, Self::expr)?;
                w.stmt()
            }
            22 => w.name_and_expr(),
            23 => w.seq(Kind::Names, Self::name),
            24 | 31 => w.seq(Kind::Stmts, Self::stmt),
            25 => {
                w.name()?;
                w.seq(Kind::CallArguments, |w| {
                    w.mode()?;
                    w.expr()
                })
            }
            26..=29 | 38 => w.expr(),
            30 => {
                w.two_names()?;
                w.stmt()
            }
            32 => {
                w.expr()?;
                w.stmt()?;
                w.stmt()
            }
            33 => w.seq(Kind::Cases, |w| {
                w.expr()?;
                w.stmt()
            }),
            34 => {
                w.seq(Kind::AExprs, Self::aexpr)?;
                w.stmt()
            }
            35 => {
                w.name()?;
                w.stmt()
            }
            36 => w.option(Kind::OptionName, Self::name),
            _ => Ok(()),
        })
    }

    fn name_and_expr(&mut self) -> Result<()> {
        self.name()?;
        self.expr()
    }

    fn exprs(&mut self) -> Result<()> {
        self.seq(Kind::Exprs, Self::expr)
    }

    fn bindings(&mut self) -> Result<()> {
        self.seq(Kind::Bindings, Self::two_names)
    }

    fn patterns(&mut self) -> Result<()> {
        self.seq(Kind::Patterns, Self::exprs)
    }

    fn expr(&mut self) -> Result<()> {
        self.constructor(Kind::Expr, 1..=10, |w, word| match word {
            1 => w.bool(),
            2 => w.natural(),
            3 => w.two_names(),
            4 => {
                w.name()?;
                w.bool()
            }
            5 => {
                w.operator()?;
                w.exprs()
            }
            6 => {
                w.name()?;
                w.exprs()
            }
            7 => w.name_and_expr(),
            8 => {
                w.name()?;
                w.option(Kind::OptionName, Self::name)?;
                w.expr()?;
                w.expr()
            }
            9 => {
                w.bool()?;
                w.bindings()?;
                w.patterns()?;
                w.expr()
            }
            _ => w.closure(),
        })
    }

    fn closure(&mut self) -> Result<()> {
        self.seq(Kind::ClosureBindings, |w| {
            w.name()?;
            w.bindings()?;
            w.expr()
        })?;
        self.two_names()?;
        self.seq(Kind::ClosureProperties, |w| {
            w.patterns()?;
            w.expr()
        })
    }
}
