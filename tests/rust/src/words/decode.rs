//! Words to trees. Words that aren't exactly one tree over the text are refused 7, at the first that doesn't
//! fit.

use crate::refusal::{Refusal, Result, MISFIT};
use crate::tree::*;

/// The program whose words these are.
pub fn decode_program<'a>(text: &'a [u8], words: &[u32]) -> Result<Program<'a>> {
    let mut decoder = Decoder { text, words, at: 0 };
    let program = decoder.program()?;
    decoder.ended(program)
}

/// The expression whose words these are.
pub fn decode_expression<'a>(text: &'a [u8], words: &[u32]) -> Result<Expr<'a>> {
    let mut decoder = Decoder { text, words, at: 0 };
    let expr = decoder.expr()?;
    decoder.ended(expr)
}

struct Decoder<'a, 'w> {
    text: &'a [u8],
    words: &'w [u32],
    at: usize,
}

impl<'a> Decoder<'a, '_> {
    fn misfit(&self, place: usize) -> Refusal {
        Refusal::new(MISFIT, place)
    }

    fn word(&mut self) -> Result<u32> {
        let word = *self.words.get(self.at).ok_or(self.misfit(self.words.len()))?;
        self.at += 1;
        Ok(word)
    }

    /// What the next word stands for, by `meaning`.
    fn choice<T>(&mut self, meaning: impl FnOnce(u32) -> Option<T>) -> Result<T> {
        let place = self.at;
        let word = self.word()?;
        meaning(word).ok_or(self.misfit(place))
    }

    fn ended<T>(&self, tree: T) -> Result<T> {
        if self.at < self.words.len() {
            return Err(self.misfit(self.at));
        }
        Ok(tree)
    }

    fn bool(&mut self) -> Result<bool> {
        self.choice(|word| match word {
            0 => Some(false),
            1 => Some(true),
            _ => None,
        })
    }

    fn name(&mut self) -> Result<Name<'a>> {
        let place = self.at;
        let start = self.word()? as usize;
        let len = self.word()? as usize;
        self.text.get(start..start + len).ok_or(self.misfit(place))
    }

    fn option<T>(&mut self, content: impl FnOnce(&mut Self) -> Result<T>) -> Result<Option<T>> {
        if self.bool()? {
            Ok(Some(content(self)?))
        } else {
            Ok(None)
        }
    }

    fn seq<T>(&mut self, item: impl Fn(&mut Self) -> Result<T>) -> Result<Vec<T>> {
        let mut items = Vec::new();
        while self.bool()? {
            items.push(item(self)?);
        }
        Ok(items)
    }

    fn program(&mut self) -> Result<Program<'a>> {
        Ok(Program {
            types: self.seq(Self::name)?,
            taggers: self.seq(|d| Ok(Tagger { name: d.name()?, typ: d.name()? }))?,
            functions: self.seq(Self::function)?,
            axioms: self.seq(|d| Ok(Axiom { explains: d.seq(Self::name)?, expr: d.expr()? }))?,
            procedures: self.seq(Self::procedure)?,
        })
    }

    fn function(&mut self) -> Result<Function<'a>> {
        Ok(Function {
            name: self.name()?,
            parameters: self
                .seq(|d| Ok(FParameter { name: d.name()?, injective: d.bool()?, typ: d.name()? }))?,
            result_type: self.name()?,
            tag: self.option(Self::name)?,
            definition: self
                .option(|d| Ok(FunctionDefinition { when: d.seq(Self::expr)?, body: d.expr()? }))?,
        })
    }

    fn procedure(&mut self) -> Result<Procedure<'a>> {
        Ok(Procedure {
            name: self.name()?,
            parameters: self.seq(Self::procedure_parameter)?,
            pre: self.seq(Self::aexpr)?,
            post: self.seq(Self::aexpr)?,
            body: self.option(Self::stmt)?,
        })
    }

    fn procedure_parameter(&mut self) -> Result<PParameter<'a>> {
        Ok(PParameter {
            name: self.name()?,
            mode: self.mode()?,
            typ: self.name()?,
            auto_inv: self.option(Self::expr)?,
        })
    }

    fn mode(&mut self) -> Result<ParameterMode> {
        self.choice(|word| match word {
            1 => Some(ParameterMode::In),
            2 => Some(ParameterMode::InOut),
            3 => Some(ParameterMode::Out),
            _ => None,
        })
    }

    fn aexpr(&mut self) -> Result<AExpr<'a>> {
        match self.choice(|word| (1..=2).contains(&word).then_some(word))? {
            1 => Ok(AExpr::Expr(self.expr()?)),
            _ => Ok(AExpr::Assertion(self.stmt()?)),
        }
    }

    fn boxed_stmt(&mut self) -> Result<Box<Stmt<'a>>> {
        Ok(Box::new(self.stmt()?))
    }

    fn stmt(&mut self) -> Result<Stmt<'a>> {
        let word = self.choice(|word| (21..=38).contains(&word).then_some(word))?;
        Ok(match word {
            21 => Stmt::VarDecl(Box::new(self.var_decl()?)),
            22 => Stmt::Assign { lhs: self.name()?, rhs: self.expr()? },
            23 => Stmt::Reinit(self.seq(Self::name)?),
            24 => Stmt::Block(self.seq(Self::stmt)?),
            25 => Stmt::Call {
                name: self.name()?,
                args: self.seq(|d| Ok(CallArgument { mode: d.mode()?, arg: d.expr()? }))?,
            },
            26 => Stmt::Check(self.expr()?),
            27 => Stmt::Assume(self.expr()?),
            28 => Stmt::Reach(self.expr()?),
            29 => Stmt::Assert(self.expr()?),
            30 => Stmt::AForall { name: self.name()?, typ: self.name()?, body: self.boxed_stmt()? },
            31 => Stmt::Choose(self.seq(Self::stmt)?),
            32 => Stmt::If(Box::new(If { cond: self.expr()?, thn: self.stmt()?, els: self.stmt()? })),
            33 => Stmt::IfCase(self.seq(|d| Ok(Case { cond: d.expr()?, body: d.stmt()? }))?),
            34 => Stmt::Loop { invariants: self.seq(Self::aexpr)?, body: self.boxed_stmt()? },
            35 => Stmt::Labeled { lbl: self.name()?, body: self.boxed_stmt()? },
            36 => Stmt::Exit(self.option(Self::name)?),
            37 => Stmt::Return,
            _ => Stmt::Probe(self.expr()?),
        })
    }

    fn var_decl(&mut self) -> Result<VarDecl<'a>> {
        Ok(VarDecl {
            variable: Variable {
                name: self.name()?,
                is_mutable: self.bool()?,
                optional_type: self.option(Self::name)?,
                auto_inv: self.option(Self::expr)?,
            },
            init: self.option(Self::expr)?,
            body: self.stmt()?,
        })
    }

    fn boxed_expr(&mut self) -> Result<Box<Expr<'a>>> {
        Ok(Box::new(self.expr()?))
    }

    fn expr(&mut self) -> Result<Expr<'a>> {
        let word = self.choice(|word| (1..=10).contains(&word).then_some(word))?;
        Ok(match word {
            1 => Expr::BLiteral(self.bool()?),
            2 => Expr::ILiteral(u64::from(self.word()?) << 32 | u64::from(self.word()?)),
            3 => Expr::CustomLiteral { text: self.name()?, typ: self.name()? },
            4 => Expr::IdExpr { name: self.name()?, is_old: self.bool()? },
            5 => Expr::OperatorExpr { op: self.operator()?, args: Operands(self.seq(Self::expr)?) },
            6 => Expr::FunctionCallExpr { name: self.name()?, args: self.seq(Self::expr)? },
            7 => Expr::LabeledExpr { name: self.name()?, body: self.boxed_expr()? },
            8 => Expr::LetExpr(Box::new(Let {
                name: self.name()?,
                optional_type: self.option(Self::name)?,
                rhs: self.expr()?,
                body: self.expr()?,
            })),
            9 => Expr::QuantifierExpr(Box::new(Quantifier {
                univ: self.bool()?,
                bindings: self.seq(Self::binding)?,
                patterns: self.seq(Self::pattern)?,
                body: self.expr()?,
            })),
            _ => Expr::ClosureExpr(Box::new(self.closure()?)),
        })
    }

    fn operator(&mut self) -> Result<Operator> {
        self.choice(|word| Operator::ALL.get((word as usize).wrapping_sub(1)).copied())
    }

    fn closure(&mut self) -> Result<Closure<'a>> {
        Ok(Closure {
            bindings: self.seq(|d| {
                Ok(ClosureBinding { name: d.name()?, params: d.seq(Self::binding)?, rhs: d.expr()? })
            })?,
            result_var: self.name()?,
            result_type: self.name()?,
            properties: self
                .seq(|d| Ok(ClosureProperty { triggers: d.seq(Self::pattern)?, body: d.expr()? }))?,
        })
    }

    fn binding(&mut self) -> Result<Binding<'a>> {
        Ok(Binding { name: self.name()?, typ: self.name()? })
    }

    fn pattern(&mut self) -> Result<Pattern<'a>> {
        Ok(Pattern { exprs: self.seq(Self::expr)? })
    }
}
