//! Random programs for a bench: the breaches of its profile are mended, or most of them.

use super::trees::{random_expression, random_name, random_procedure, random_program, NAMES};
use crate::random::Random;
use crate::tree::*;

/// A program of one to four procedures of about `fuel` nodes, some deep, in which no breach or one in a few is left.
pub fn random_flow(random: &mut Random, fuel: usize) -> Program<'static> {
    let one_in = *random.pick::<Option<usize>>(&[&None, &Some(2), &Some(5), &Some(15)]);
    let mut procedures: Vec<_> = (0..random.between(1, 4)).map(|_| deep_procedure(random, fuel)).collect();
    let mut mender = Mender { random, one_in, labels: Vec::new() };
    procedures.iter_mut().for_each(|procedure| mender.procedure(procedure));
    Program { procedures, ..random_program(random, 5) }
}

/// A procedure with its body in some statements, once in two, or seldom in as many as a table holds, or more.
fn deep_procedure(random: &mut Random, fuel: usize) -> Procedure<'static> {
    let procedure = random_procedure(random, fuel);
    let depth = match random.below(100) {
        0 => random.below(4_000),
        1..=50 => random.below(30),
        _ => 0,
    };
    let body = procedure.body.map(|body| (0..depth).fold(body, |body, _| around(random, body)));
    Procedure { body, ..procedure }
}

/// A statement with a statement in it.
fn around(random: &mut Random, stmt: Stmt<'static>) -> Stmt<'static> {
    match random.below(20) {
        0 => Stmt::Block(vec![Stmt::Return, stmt]),
        1 | 2 => Stmt::Block(vec![Stmt::Exit(Some(random_name(random))), stmt]),
        3 => Stmt::Block(vec![stmt, Stmt::Exit(Some(random_name(random)))]),
        4 => Stmt::If(Box::new(If { cond: Expr::BLiteral(true), thn: stmt, els: Stmt::Return })),
        5 => Stmt::If(Box::new(If { cond: Expr::BLiteral(true), thn: Stmt::Return, els: stmt })),
        6 => Stmt::IfCase(vec![Case { cond: random_expression(random, 0), body: stmt }]),
        7 => Stmt::Loop { invariants: vec![AExpr::Assertion(stmt)], body: Box::new(Stmt::Exit(None)) },
        8 => Stmt::Loop { invariants: vec![AExpr::Expr(Expr::BLiteral(true))], body: Box::new(stmt) },
        9 | 10 => Stmt::Loop { invariants: Vec::new(), body: Box::new(stmt) },
        11 => Stmt::Choose(vec![Stmt::Return, stmt]),
        12 => Stmt::VarDecl(Box::new(VarDecl { variable: variable(random), init: None, body: stmt })),
        _ => Stmt::Labeled { lbl: random_name(random), body: Box::new(stmt) },
    }
}

fn variable(random: &mut Random) -> Variable<'static> {
    Variable { name: random_name(random), is_mutable: true, optional_type: None, auto_inv: None }
}

struct Mender<'r> {
    random: &'r mut Random,
    /// One breach in so many is left, or none.
    one_in: Option<usize>,
    /// The labels of the statements around.
    labels: Vec<Name<'static>>,
}

impl Mender<'_> {
    fn mends(&mut self) -> bool {
        !self.one_in.is_some_and(|times| self.random.once_in(times))
    }

    fn procedure(&mut self, procedure: &mut Procedure<'static>) {
        if procedure.body.is_none() && self.mends() {
            procedure.body = Some(Stmt::Return);
        }
        self.conditions(&mut procedure.pre);
        self.conditions(&mut procedure.post);
        procedure.body.iter_mut().for_each(|body| self.stmt(body));
    }

    fn conditions(&mut self, conditions: &mut [AExpr<'static>]) {
        for condition in conditions {
            if let AExpr::Assertion(stmt) = condition {
                self.stmt(stmt);
            }
        }
    }

    fn stmt(&mut self, stmt: &mut Stmt<'static>) {
        if self.mends() {
            *stmt = suited(std::mem::replace(stmt, Stmt::Return));
        }
        match stmt {
            Stmt::VarDecl(decl) => self.stmt(&mut decl.body),
            Stmt::Block(stmts) | Stmt::Choose(stmts) => stmts.iter_mut().for_each(|stmt| self.stmt(stmt)),
            Stmt::AForall { body, .. } => self.stmt(body),
            Stmt::If(stmt) => {
                self.stmt(&mut stmt.thn);
                self.stmt(&mut stmt.els);
            }
            Stmt::IfCase(cases) => cases.iter_mut().for_each(|case| self.stmt(&mut case.body)),
            Stmt::Loop { invariants, body } => {
                if invariants.is_empty() && self.mends() {
                    invariants.push(AExpr::Expr(random_expression(self.random, 2)));
                }
                self.conditions(invariants);
                self.stmt(body);
            }
            Stmt::Labeled { lbl, body } => {
                self.labels.push(lbl);
                self.stmt(body);
                self.labels.pop();
            }
            Stmt::Exit(label @ Some(_)) => *label = self.label(),
            _ => {}
        }
    }

    /// The bytes of a label around, at any place, or a few of them, or one more.
    fn label(&mut self) -> Option<Name<'static>> {
        if self.labels.is_empty() {
            return (!self.mends()).then(|| random_name(self.random));
        }
        let label = self.labels[self.random.below(self.labels.len())];
        let start = any_place(self.random, label);
        let len = if self.mends() { label.len() } else { self.random.below(label.len() + 2) };
        Some(&NAMES[start..(start + len).min(NAMES.len())])
    }
}

/// A place where these bytes stand.
fn any_place(random: &mut Random, name: Name) -> usize {
    let places = 0..=NAMES.len() - name.len();
    let found: Vec<usize> = places.filter(|place| NAMES[*place..].starts_with(name)).collect();
    found[random.below(found.len())]
}

/// A suitable statement in place of one that isn't.
fn suited(stmt: Stmt<'static>) -> Stmt<'static> {
    match stmt {
        Stmt::Reach(expr) => Stmt::Check(expr),
        Stmt::Probe(expr) => Stmt::Assert(expr),
        Stmt::AForall { name, body, .. } => Stmt::Labeled { lbl: name, body },
        Stmt::Choose(branches) => Stmt::Block(branches),
        suited => suited,
    }
}

#[cfg(test)]
mod tests {
    use super::*;
    use crate::words::encode_program;
    use crate::{judge_program, on_deep_stack};
    use std::collections::BTreeMap;

    /// Programs that fit, and first breaches of each rule.
    #[test]
    fn every_verdict() {
        on_deep_stack(|| {
            let mut met: BTreeMap<String, usize> = BTreeMap::new();
            for index in 0..1000 {
                let words =
                    encode_program(NAMES, &random_flow(&mut Random::new(1, index), index as usize % 60));
                if let Ok(verdict) = judge_program(NAMES, &words) {
                    let shown = verdict.to_string();
                    *met.entry(shown.split(" at").next().unwrap_or("").to_string()).or_default() += 1;
                }
            }
            assert!(met.len() == 5 && met.values().all(|count| *count > 40), "{met:?}");
        });
    }
}
