//! Trees to words. A name's start is where it lies in the text.

use crate::tree::*;

/// The words of a program over `text`.
pub fn encode_program(text: &[u8], program: &Program) -> Vec<u32> {
    encoded(text, |encoder| encoder.program(program)).words
}

/// The words of an expression over `text`.
pub fn encode_expression(text: &[u8], expr: &Expr) -> Vec<u32> {
    encoded(text, |encoder| encoder.expr(expr)).words
}

/// Where a program's procedures and statements begin in its words, each in their order: a procedure with its name.
#[derive(Debug, Default, PartialEq, Eq)]
pub struct Places {
    pub procedures: Vec<usize>,
    pub statements: Vec<usize>,
}

/// The places of a program over `text`.
pub fn places(text: &[u8], program: &Program) -> Places {
    encoded(text, |encoder| encoder.program(program)).places
}

struct Encoder<'a> {
    text: &'a [u8],
    words: Vec<u32>,
    places: Places,
}

fn encoded<'a>(text: &'a [u8], tree: impl FnOnce(&mut Encoder<'a>)) -> Encoder<'a> {
    let mut encoder = Encoder { text, words: Vec::new(), places: Places::default() };
    tree(&mut encoder);
    encoder
}

impl Encoder<'_> {
    fn word(&mut self, word: u32) {
        self.words.push(word);
    }

    fn bool(&mut self, value: bool) {
        self.word(u32::from(value));
    }

    fn name(&mut self, name: &Name) {
        let start = name.as_ptr() as usize - self.text.as_ptr() as usize;
        self.word(start as u32);
        self.word(name.len() as u32);
    }

    fn option<T>(&mut self, option: &Option<T>, content: impl FnOnce(&mut Self, &T)) {
        self.bool(option.is_some());
        if let Some(value) = option {
            content(self, value);
        }
    }

    fn seq<T>(&mut self, items: &[T], item: impl Fn(&mut Self, &T)) {
        for each in items {
            self.word(1);
            item(self, each);
        }
        self.word(0);
    }

    fn program(&mut self, program: &Program) {
        self.seq(&program.types, Self::name);
        self.seq(&program.taggers, |e, tagger| {
            e.name(&tagger.name);
            e.name(&tagger.typ);
        });
        self.seq(&program.functions, Self::function);
        self.seq(&program.axioms, |e, axiom| {
            e.seq(&axiom.explains, Self::name);
            e.expr(&axiom.expr);
        });
        self.seq(&program.procedures, Self::procedure);
    }

    fn function(&mut self, function: &Function) {
        self.name(&function.name);
        self.seq(&function.parameters, |e, param| {
            e.name(&param.name);
            e.bool(param.injective);
            e.name(&param.typ);
        });
        self.name(&function.result_type);
        self.option(&function.tag, Self::name);
        self.option(&function.definition, |e, definition| {
            e.seq(&definition.when, Self::expr);
            e.expr(&definition.body);
        });
    }

    fn procedure(&mut self, procedure: &Procedure) {
        self.places.procedures.push(self.words.len());
        self.name(&procedure.name);
        self.seq(&procedure.parameters, |e, param| {
            e.name(&param.name);
            e.word(param.mode as u32);
            e.name(&param.typ);
            e.option(&param.auto_inv, Self::expr);
        });
        self.seq(&procedure.pre, Self::aexpr);
        self.seq(&procedure.post, Self::aexpr);
        self.option(&procedure.body, Self::stmt);
    }

    fn aexpr(&mut self, aexpr: &AExpr) {
        match aexpr {
            AExpr::Expr(expr) => {
                self.word(1);
                self.expr(expr);
            }
            AExpr::Assertion(stmt) => {
                self.word(2);
                self.stmt(stmt);
            }
        }
    }

    fn stmt(&mut self, stmt: &Stmt) {
        self.places.statements.push(self.words.len());
        self.word(stmt_word(stmt));
        match stmt {
            Stmt::VarDecl(decl) => self.var_decl(decl),
            Stmt::Assign { lhs, rhs } => {
                self.name(lhs);
                self.expr(rhs);
            }
            Stmt::Reinit(vars) => self.seq(vars, Self::name),
            Stmt::Block(stmts) | Stmt::Choose(stmts) => self.seq(stmts, Self::stmt),
            Stmt::Call { name, args } => {
                self.name(name);
                self.seq(args, |e, argument| {
                    e.word(argument.mode as u32);
                    e.expr(&argument.arg);
                });
            }
            Stmt::Check(e) | Stmt::Assume(e) | Stmt::Reach(e) | Stmt::Assert(e) | Stmt::Probe(e) => {
                self.expr(e)
            }
            Stmt::AForall { name, typ, body } => {
                self.name(name);
                self.name(typ);
                self.stmt(body);
            }
            Stmt::If(stmt) => {
                self.expr(&stmt.cond);
                self.stmt(&stmt.thn);
                self.stmt(&stmt.els);
            }
            Stmt::IfCase(cases) => self.seq(cases, |e, case| {
                e.expr(&case.cond);
                e.stmt(&case.body);
            }),
            Stmt::Loop { invariants, body } => {
                self.seq(invariants, Self::aexpr);
                self.stmt(body);
            }
            Stmt::Labeled { lbl, body } => {
                self.name(lbl);
                self.stmt(body);
            }
            Stmt::Exit(label) => self.option(label, Self::name),
            Stmt::Return => {}
        }
    }

    fn var_decl(&mut self, decl: &VarDecl) {
        self.name(&decl.variable.name);
        self.bool(decl.variable.is_mutable);
        self.option(&decl.variable.optional_type, Self::name);
        self.option(&decl.variable.auto_inv, Self::expr);
        self.option(&decl.init, Self::expr);
        self.stmt(&decl.body);
    }

    fn expr(&mut self, expr: &Expr) {
        self.word(expr_word(expr));
        match expr {
            Expr::BLiteral(value) => self.bool(*value),
            Expr::ILiteral(value) => {
                self.word((value >> 32) as u32);
                self.word(*value as u32);
            }
            Expr::CustomLiteral { text, typ } => {
                self.name(text);
                self.name(typ);
            }
            Expr::IdExpr { name, is_old } => {
                self.name(name);
                self.bool(*is_old);
            }
            Expr::OperatorExpr { op, args } => {
                self.word(*op as u32);
                self.seq(&args.0, Self::expr);
            }
            Expr::FunctionCallExpr { name, args } => {
                self.name(name);
                self.seq(args, Self::expr);
            }
            Expr::LabeledExpr { name, body } => {
                self.name(name);
                self.expr(body);
            }
            Expr::LetExpr(node) => {
                self.name(&node.name);
                self.option(&node.optional_type, Self::name);
                self.expr(&node.rhs);
                self.expr(&node.body);
            }
            Expr::QuantifierExpr(node) => {
                self.bool(node.univ);
                self.seq(&node.bindings, Self::binding);
                self.seq(&node.patterns, Self::pattern);
                self.expr(&node.body);
            }
            Expr::ClosureExpr(node) => self.closure(node),
        }
    }

    fn closure(&mut self, closure: &Closure) {
        self.seq(&closure.bindings, |e, binding| {
            e.name(&binding.name);
            e.seq(&binding.params, Self::binding);
            e.expr(&binding.rhs);
        });
        self.name(&closure.result_var);
        self.name(&closure.result_type);
        self.seq(&closure.properties, |e, property| {
            e.seq(&property.triggers, Self::pattern);
            e.expr(&property.body);
        });
    }

    fn binding(&mut self, binding: &Binding) {
        self.name(&binding.name);
        self.name(&binding.typ);
    }

    fn pattern(&mut self, pattern: &Pattern) {
        self.seq(&pattern.exprs, Self::expr);
    }
}

fn expr_word(expr: &Expr) -> u32 {
    match expr {
        Expr::BLiteral(_) => 1,
        Expr::ILiteral(_) => 2,
        Expr::CustomLiteral { .. } => 3,
        Expr::IdExpr { .. } => 4,
        Expr::OperatorExpr { .. } => 5,
        Expr::FunctionCallExpr { .. } => 6,
        Expr::LabeledExpr { .. } => 7,
        Expr::LetExpr(_) => 8,
        Expr::QuantifierExpr(_) => 9,
        Expr::ClosureExpr(_) => 10,
    }
}

fn stmt_word(stmt: &Stmt) -> u32 {
    match stmt {
        Stmt::VarDecl(_) => 21,
        Stmt::Assign { .. } => 22,
        Stmt::Reinit(_) => 23,
        Stmt::Block(_) => 24,
        Stmt::Call { .. } => 25,
        Stmt::Check(_) => 26,
        Stmt::Assume(_) => 27,
        Stmt::Reach(_) => 28,
        Stmt::Assert(_) => 29,
        Stmt::AForall { .. } => 30,
        Stmt::Choose(_) => 31,
        Stmt::If(_) => 32,
        Stmt::IfCase(_) => 33,
        Stmt::Loop { .. } => 34,
        Stmt::Labeled { .. } => 35,
        Stmt::Exit(_) => 36,
        Stmt::Return => 37,
        Stmt::Probe(_) => 38,
    }
}
