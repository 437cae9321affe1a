//! The bench profile (REFERENCE, "The bench profile"): the first place of a program's words where a rule is broken.
//! The tree is walked in the order of its words, with a list of the labels whose statements are around.

use crate::print::check_print_input;
use crate::refusal;
use crate::tree::*;
use crate::words::{decode_program, places, Places};
use std::{fmt, vec};

/// The rules, in the order of their numbers.
#[derive(Clone, Copy, Debug, PartialEq, Eq)]
pub enum Rule {
    Statements = 1,
    Bodies,
    Invariants,
    Labels,
}

/// A rule that is broken, and the place of the first word of what breaks it.
#[derive(Clone, Copy, Debug, PartialEq, Eq)]
pub struct Breach {
    pub rule: Rule,
    pub place: usize,
}

#[derive(Clone, Copy, Debug, PartialEq, Eq)]
pub enum Verdict {
    Fits,
    Breaks(Breach),
}

impl fmt::Display for Verdict {
    fn fmt(&self, f: &mut fmt::Formatter<'_>) -> fmt::Result {
        match self {
            Verdict::Fits => write!(f, "fits"),
            Verdict::Breaks(Breach { rule, place }) => write!(f, "rule {} at {place}", *rule as u32),
        }
    }
}

/// Judges the program that words are over a text; refused 6 and 7 as its print is.
pub fn judge_program(text: &[u8], words: &[u32]) -> refusal::Result<Verdict> {
    check_print_input(text, words, 0)?;
    let program = decode_program(text, words)?;
    let Places { procedures, statements } = places(text, &program);
    let mut judge =
        Judge { procedures: procedures.into_iter(), statements: statements.into_iter(), labels: Vec::new() };
    Ok(match judge.program(&program) {
        Ok(()) => Verdict::Fits,
        Err(breach) => Verdict::Breaks(breach),
    })
}

/// Nothing, or the first breach.
type Kept = Result<(), Breach>;

struct Judge<'a> {
    /// Where the procedures and the statements begin that are still to come.
    procedures: vec::IntoIter<usize>,
    statements: vec::IntoIter<usize>,
    /// The labels of the statements around.
    labels: Vec<Name<'a>>,
}

impl<'a> Judge<'a> {
    fn program(&mut self, program: &Program<'a>) -> Kept {
        program.procedures.iter().try_for_each(|procedure| self.procedure(procedure))
    }

    fn procedure(&mut self, procedure: &Procedure<'a>) -> Kept {
        let place = self.procedures.next().expect("each procedure has a place");
        keeps(Rule::Bodies, has_body(procedure), place)?;
        self.conditions(&procedure.pre)?;
        self.conditions(&procedure.post)?;
        self.all(&procedure.body)
    }

    /// The statements among conditions.
    fn conditions(&mut self, conditions: &[AExpr<'a>]) -> Kept {
        conditions.iter().try_for_each(|condition| match condition {
            AExpr::Expr(_) => Ok(()),
            AExpr::Assertion(stmt) => self.stmt(stmt),
        })
    }

    fn all<'s>(&mut self, stmts: impl IntoIterator<Item = &'s Stmt<'a>>) -> Kept
    where
        'a: 's,
    {
        stmts.into_iter().try_for_each(|stmt| self.stmt(stmt))
    }

    fn stmt(&mut self, stmt: &Stmt<'a>) -> Kept {
        let place = self.statements.next().expect("each statement has a place");
        keeps(Rule::Statements, suits_a_bench(stmt), place)?;
        keeps(Rule::Invariants, is_bounded(stmt), place)?;
        keeps(Rule::Labels, self.stays_inside(stmt), place)?;
        self.parts(stmt)
    }

    /// The statements in a statement that keeps the rules, so is no AForall or Choose.
    fn parts(&mut self, stmt: &Stmt<'a>) -> Kept {
        match stmt {
            Stmt::VarDecl(decl) => self.stmt(&decl.body),
            Stmt::Block(stmts) => self.all(stmts),
            Stmt::If(stmt) => self.all([&stmt.thn, &stmt.els]),
            Stmt::IfCase(cases) => self.all(cases.iter().map(|case| &case.body)),
            Stmt::Loop { invariants, body } => {
                self.conditions(invariants)?;
                self.stmt(body)
            }
            Stmt::Labeled { lbl, body } => self.labelled(lbl, body),
            _ => Ok(()),
        }
    }

    fn labelled(&mut self, label: Name<'a>, body: &Stmt<'a>) -> Kept {
        self.labels.push(label);
        self.stmt(body)?;
        self.labels.pop();
        Ok(())
    }

    /// Rule 4: an exit with a label stands inside a statement of that label.
    fn stays_inside(&self, stmt: &Stmt) -> bool {
        match stmt {
            Stmt::Exit(Some(label)) => self.labels.contains(label),
            _ => true,
        }
    }
}

fn keeps(rule: Rule, kept: bool, place: usize) -> Kept {
    if kept {
        Ok(())
    } else {
        Err(Breach { rule, place })
    }
}

/// Rule 1: no Reach, AForall, Choose or Probe.
fn suits_a_bench(stmt: &Stmt) -> bool {
    !matches!(stmt, Stmt::Reach(_) | Stmt::AForall { .. } | Stmt::Choose(_) | Stmt::Probe(_))
}

/// Rule 2: a procedure has a body.
fn has_body(procedure: &Procedure) -> bool {
    procedure.body.is_some()
}

/// Rule 3: a loop has an invariant.
fn is_bounded(stmt: &Stmt) -> bool {
    match stmt {
        Stmt::Loop { invariants, .. } => !invariants.is_empty(),
        _ => true,
    }
}
