//! Random trees, also such as no reading gives: names of any bytes, operators with any number of operands,
//! statements where a text has blocks.

use crate::random::Random;
use crate::tree::*;

/// A text whose parts are the trees' names.
pub static NAMES: &[u8] = b"abc x_1 T old if else (a) |%t 5 div explains out case\n\xff";

/// A program of about `fuel` nodes.
pub fn random_program(random: &mut Random, fuel: usize) -> Program<'static> {
    let mut grower = Grower { random, fuel };
    Program {
        types: grower.some(3, Grower::name),
        taggers: grower.some(3, |g| Tagger { name: g.name(), typ: g.name() }),
        functions: grower.some(3, Grower::function),
        axioms: grower.some(3, |g| Axiom { explains: g.some(3, Grower::name), expr: g.expr() }),
        procedures: grower.some(3, Grower::procedure),
    }
}

/// A procedure of about `fuel` nodes.
pub fn random_procedure(random: &mut Random, fuel: usize) -> Procedure<'static> {
    Grower { random, fuel }.procedure()
}

/// An expression of about `fuel` nodes.
pub fn random_expression(random: &mut Random, fuel: usize) -> Expr<'static> {
    Grower { random, fuel }.expr()
}

/// A name, once in two one of four.
pub fn random_name(random: &mut Random) -> Name<'static> {
    if random.once_in(2) {
        return random.pick::<[u8]>(&[&NAMES[..1], &NAMES[1..2], &NAMES[..3], &NAMES[4..7]]);
    }
    let start = random.below(NAMES.len() + 1);
    let len = random.below((NAMES.len() - start).min(6) + 1);
    &NAMES[start..start + len]
}

struct Grower<'r> {
    random: &'r mut Random,
    fuel: usize,
}

impl Grower<'_> {
    fn name(&mut self) -> Name<'static> {
        random_name(self.random)
    }

    /// Fewer than `bound` items.
    fn some<T>(&mut self, bound: usize, item: impl Fn(&mut Self) -> T) -> Vec<T> {
        let count = if self.fuel == 0 { self.random.below(2) } else { self.random.below(bound) };
        (0..count).map(|_| item(self)).collect()
    }

    fn option<T>(&mut self, content: impl FnOnce(&mut Self) -> T) -> Option<T> {
        self.random.once_in(2).then(|| content(self))
    }

    fn bool(&mut self) -> bool {
        self.random.once_in(2)
    }

    fn function(&mut self) -> Function<'static> {
        Function {
            name: self.name(),
            parameters: self.some(3, |g| FParameter { name: g.name(), injective: g.bool(), typ: g.name() }),
            result_type: self.name(),
            tag: self.option(Self::name),
            definition: self.option(|g| FunctionDefinition { when: g.some(3, Self::expr), body: g.expr() }),
        }
    }

    fn procedure(&mut self) -> Procedure<'static> {
        Procedure {
            name: self.name(),
            parameters: self.some(3, |g| PParameter {
                name: g.name(),
                mode: g.mode(),
                typ: g.name(),
                auto_inv: g.option(Self::expr),
            }),
            pre: self.some(3, Self::aexpr),
            post: self.some(3, Self::aexpr),
            body: self.option(Self::stmt),
        }
    }

    fn mode(&mut self) -> ParameterMode {
        match self.random.below(3) {
            0 => ParameterMode::In,
            1 => ParameterMode::InOut,
            _ => ParameterMode::Out,
        }
    }

    fn aexpr(&mut self) -> AExpr<'static> {
        if self.bool() {
            AExpr::Expr(self.expr())
        } else {
            AExpr::Assertion(self.stmt())
        }
    }

    fn boxed_stmt(&mut self) -> Box<Stmt<'static>> {
        Box::new(self.stmt())
    }

    fn stmt(&mut self) -> Stmt<'static> {
        if self.fuel == 0 {
            return self.last_stmt();
        }
        self.fuel -= 1;
        match self.random.below(20) {
            0 | 1 => Stmt::VarDecl(Box::new(self.var_decl())),
            2 => Stmt::Assign { lhs: self.name(), rhs: self.expr() },
            3 => Stmt::Reinit(self.some(4, Self::name)),
            4..=6 => Stmt::Block(self.some(5, Self::stmt)),
            7 => Stmt::Call {
                name: self.name(),
                args: self.some(4, |g| CallArgument { mode: g.mode(), arg: g.expr() }),
            },
            8 => self.condition(),
            9 => Stmt::AForall { name: self.name(), typ: self.name(), body: self.boxed_stmt() },
            10 => Stmt::Choose(self.some(4, Self::stmt)),
            11..=13 => Stmt::If(Box::new(If { cond: self.expr(), thn: self.stmt(), els: self.stmt() })),
            14 => Stmt::IfCase(self.some(4, |g| Case { cond: g.expr(), body: g.stmt() })),
            15 | 16 => Stmt::Loop { invariants: self.some(3, Self::aexpr), body: self.boxed_stmt() },
            17 | 18 => Stmt::Labeled { lbl: self.name(), body: self.boxed_stmt() },
            _ => Stmt::Exit(self.option(Self::name)),
        }
    }

    fn last_stmt(&mut self) -> Stmt<'static> {
        match self.random.below(4) {
            0 => Stmt::Return,
            1 => Stmt::Exit(self.option(Self::name)),
            2 => self.condition(),
            _ => Stmt::Block(Vec::new()),
        }
    }

    fn condition(&mut self) -> Stmt<'static> {
        let expr = self.expr();
        match self.random.below(5) {
            0 => Stmt::Check(expr),
            1 => Stmt::Assume(expr),
            2 => Stmt::Reach(expr),
            3 => Stmt::Assert(expr),
            _ => Stmt::Probe(expr),
        }
    }

    fn var_decl(&mut self) -> VarDecl<'static> {
        VarDecl {
            variable: Variable {
                name: self.name(),
                is_mutable: self.bool(),
                optional_type: self.option(Self::name),
                auto_inv: self.option(Self::expr),
            },
            init: self.option(Self::expr),
            body: self.stmt(),
        }
    }

    fn boxed_expr(&mut self) -> Box<Expr<'static>> {
        Box::new(self.expr())
    }

    fn expr(&mut self) -> Expr<'static> {
        if self.fuel == 0 {
            return self.last_expr();
        }
        self.fuel -= 1;
        match self.random.below(20) {
            0..=9 => self.operator_expr(),
            10 => Expr::FunctionCallExpr { name: self.name(), args: self.some(4, Self::expr) },
            11 | 12 => Expr::LabeledExpr { name: self.name(), body: self.boxed_expr() },
            13 | 14 => Expr::LetExpr(Box::new(Let {
                name: self.name(),
                optional_type: self.option(Self::name),
                rhs: self.expr(),
                body: self.expr(),
            })),
            15 | 16 => Expr::QuantifierExpr(Box::new(Quantifier {
                univ: self.bool(),
                bindings: self.some(3, Self::binding),
                patterns: self.some(3, Self::pattern),
                body: self.expr(),
            })),
            17 => Expr::ClosureExpr(Box::new(self.closure())),
            _ => self.last_expr(),
        }
    }

    fn last_expr(&mut self) -> Expr<'static> {
        match self.random.below(6) {
            0 => Expr::BLiteral(self.bool()),
            1 => Expr::ILiteral(self.random.next() >> self.random.below(64)),
            2 => Expr::CustomLiteral { text: self.name(), typ: self.name() },
            _ => Expr::IdExpr { name: self.name(), is_old: self.random.once_in(4) },
        }
    }

    /// Mostly with the operands that the operator takes.
    fn operator_expr(&mut self) -> Expr<'static> {
        let op = Operator::ALL[self.random.below(Operator::ALL.len())];
        let count = if self.random.once_in(8) { self.random.below(5) } else { op.argument_count() };
        Expr::OperatorExpr { op, args: Operands((0..count).map(|_| self.expr()).collect()) }
    }

    fn binding(&mut self) -> Binding<'static> {
        Binding { name: self.name(), typ: self.name() }
    }

    fn pattern(&mut self) -> Pattern<'static> {
        Pattern { exprs: self.some(3, Self::expr) }
    }

    fn closure(&mut self) -> Closure<'static> {
        Closure {
            bindings: self.some(3, |g| ClosureBinding {
                name: g.name(),
                params: g.some(3, Self::binding),
                rhs: g.expr(),
            }),
            result_var: self.name(),
            result_type: self.name(),
            properties: self
                .some(3, |g| ClosureProperty { triggers: g.some(3, Self::pattern), body: g.expr() }),
        }
    }
}
