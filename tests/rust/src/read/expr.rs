//! Expressions: operators by their levels, then prefixes, then primary expressions.

use super::lexer::{Infix, Level};
use super::Reader;
use crate::refusal::{Refusal, Result, LARGE_NATURAL};
use crate::tree::{
    Closure, ClosureBinding, ClosureProperty, Expr, Let, Operands, Operator, Pattern, Quantifier,
};

impl<'a> Reader<'a> {
    /// Whether an expression's first token stands here.
    pub(super) fn at_expr(&self) -> bool {
        match self.cursor.peek() {
            b'(' | b'|' | b'-' | b'0'..=b'9' => true,
            b'!' => !self.cursor.rest().starts_with(b"!="),
            _ => self.cursor.at_identifier(),
        }
    }

    /// An expression that ends with the text.
    pub(super) fn whole_expr(&mut self) -> Result<Expr<'a>> {
        let expr = self.expr()?;
        if !self.cursor.at_end() {
            return Err(self.cursor.unusable());
        }
        Ok(expr)
    }

    pub(super) fn expr(&mut self) -> Result<Expr<'a>> {
        if !self.at_expr() {
            return Err(self.cursor.unusable());
        }
        self.open(self.cursor.at)?;
        let expr = self.operators(Level::Equiv)?;
        self.close();
        Ok(expr)
    }

    fn boxed_expr(&mut self) -> Result<Box<Expr<'a>>> {
        Ok(Box::new(self.expr()?))
    }

    /// Operands with operators of `loosest` level and tighter between them.
    fn operators(&mut self, loosest: Level) -> Result<Expr<'a>> {
        let mut left = self.unary_expr()?;
        let mut last: Option<Infix> = None;
        while let Some(infix) = self.infix {
            if infix.level < loosest || last.is_some_and(|last| !infix.may_follow(last)) {
                break;
            }
            left = if infix.op == Operator::LogicalImp && !infix.swapped {
                self.implies_chain(left)?
            } else {
                self.cursor.take(usize::from(infix.len))?;
                let right = self.operators(infix.level.tighter())?;
                self.binary(infix, left, right)
            };
            last = Some(infix);
        }
        Ok(left)
    }

    /// `==>` leans to the right: the operands are read first.
    fn implies_chain(&mut self, first: Expr<'a>) -> Result<Expr<'a>> {
        let mut lefts = Vec::new();
        let mut last = first;
        while let Some(Infix { op: Operator::LogicalImp, swapped: false, len, .. }) = self.infix {
            self.cursor.take(usize::from(len))?;
            let next = self.operators(Level::Logical)?;
            lefts.push(std::mem::replace(&mut last, next));
        }
        while let Some(left) = lefts.pop() {
            last = self.operator(Operator::LogicalImp, vec![left, last]);
        }
        Ok(last)
    }

    fn binary(&mut self, infix: Infix, left: Expr<'a>, right: Expr<'a>) -> Expr<'a> {
        let args = if infix.swapped { vec![right, left] } else { vec![left, right] };
        self.operator(infix.op, args)
    }

    fn operator(&mut self, op: Operator, args: Vec<Expr<'a>>) -> Expr<'a> {
        let args = Operands(self.sequence(args));
        self.node(2, Expr::OperatorExpr { op, args })
    }

    fn unary_expr(&mut self) -> Result<Expr<'a>> {
        let mut prefixes = Vec::new();
        while let Some(op) = self.take_prefix()? {
            prefixes.push(op);
        }
        let mut expr = self.primary_expr()?;
        self.infix = self.cursor.infix();
        while let Some(op) = prefixes.pop() {
            expr = self.operator(op, vec![expr]);
        }
        Ok(expr)
    }

    fn take_prefix(&mut self) -> Result<Option<Operator>> {
        let op = match self.cursor.rest() {
            [b'-', ..] => Operator::UnaryMinus,
            [b'!', b'=', ..] => return Ok(None),
            [b'!', ..] => Operator::LogicalNot,
            _ => return Ok(None),
        };
        self.cursor.take(1)?;
        Ok(Some(op))
    }

    fn primary_expr(&mut self) -> Result<Expr<'a>> {
        match self.cursor.peek() {
            b'0'..=b'9' => self.natural(),
            b'|' => self.custom_literal(),
            b'(' => self.bracketed(),
            _ => self.worded_expr(),
        }
    }

    /// An expression that begins with a keyword or a name.
    fn worded_expr(&mut self) -> Result<Expr<'a>> {
        let word = self.cursor.identifier();
        match word {
            b"" => return Err(self.cursor.unusable()),
            b"if" | b"val" | b"forall" | b"exists" | b"lift" | b"false" | b"true" | b"old" => {}
            _ => return self.named_expr(),
        }
        self.cursor.take(word.len())?;
        match word {
            b"if" => self.conditional(),
            b"val" => self.let_expr(),
            b"lift" => self.closure(),
            b"old" => self.old_name(),
            b"false" | b"true" => Ok(self.node(2, Expr::BLiteral(word == b"true"))),
            _ => self.quantifier(word == b"forall"),
        }
    }

    fn named_expr(&mut self) -> Result<Expr<'a>> {
        let name = self.name()?;
        match self.cursor.peek() {
            b'(' => {
                let args = self.bracketed_list(Self::expr)?;
                Ok(self.node(1, Expr::FunctionCallExpr { name, args }))
            }
            b':' => {
                self.cursor.take(1)?;
                let body = self.boxed_expr()?;
                Ok(self.node(1, Expr::LabeledExpr { name, body }))
            }
            _ => Ok(self.node(2, Expr::IdExpr { name, is_old: false })),
        }
    }

    fn old_name(&mut self) -> Result<Expr<'a>> {
        let name = self.name()?;
        Ok(self.node(2, Expr::IdExpr { name, is_old: true }))
    }

    fn natural(&mut self) -> Result<Expr<'a>> {
        let start = self.cursor.at;
        let mut value = 0u64;
        let mut len = 0;
        for byte in self.cursor.rest().iter().take_while(|byte| byte.is_ascii_digit()) {
            value = value
                .checked_mul(10)
                .and_then(|tens| tens.checked_add(u64::from(byte - b'0')))
                .ok_or(Refusal::new(LARGE_NATURAL, start))?;
            len += 1;
        }
        self.cursor.take(len)?;
        Ok(self.node(3, Expr::ILiteral(value)))
    }

    /// No blank stands between the literal's text and its `:`.
    fn custom_literal(&mut self) -> Result<Expr<'a>> {
        self.cursor.take(1)?;
        let text = self.cursor.literal();
        if text.is_empty() {
            return Err(self.cursor.unusable());
        }
        self.cursor.at += text.len();
        self.cursor.expect_sign(b":")?;
        let typ = self.name()?;
        self.cursor.expect_sign(b"|")?;
        Ok(self.node(3, Expr::CustomLiteral { text, typ }))
    }

    fn bracketed(&mut self) -> Result<Expr<'a>> {
        self.cursor.take(1)?;
        let expr = self.expr()?;
        self.cursor.expect_sign(b")")?;
        Ok(expr)
    }

    fn conditional(&mut self) -> Result<Expr<'a>> {
        let guard = self.expr()?;
        let thn = self.expr()?;
        self.cursor.expect_keyword(b"else")?;
        let els = self.expr()?;
        Ok(self.operator(Operator::IfThenElse, vec![guard, thn, els]))
    }

    fn let_expr(&mut self) -> Result<Expr<'a>> {
        let (name, optional_type) = self.name_and_optional_type()?;
        self.cursor.expect_sign(b":=")?;
        let rhs = self.expr()?;
        let body = self.expr()?;
        let node = Let { name, optional_type, rhs, body };
        Ok(self.node(1, Expr::LetExpr(Box::new(node))))
    }

    fn quantifier(&mut self, univ: bool) -> Result<Expr<'a>> {
        let bindings = self.list(Self::binding)?;
        let patterns = self.patterns(b"pattern")?;
        let body = self.expr()?;
        let node = Quantifier { univ, bindings, patterns, body };
        Ok(self.node(2, Expr::QuantifierExpr(Box::new(node))))
    }

    /// Lists of expressions, each led by `keyword`.
    fn patterns(&mut self, keyword: &[u8]) -> Result<Vec<Pattern<'a>>> {
        let mut patterns = Vec::new();
        while self.cursor.take_keyword(keyword)? {
            let exprs = self.list(Self::expr)?;
            patterns.push(Pattern { exprs });
        }
        Ok(self.sequence(patterns))
    }

    fn closure(&mut self) -> Result<Expr<'a>> {
        let bindings = self.list(Self::closure_binding)?;
        self.cursor.expect_keyword(b"into")?;
        let result_var = self.name()?;
        self.cursor.expect_sign(b":")?;
        let result_type = self.name()?;
        self.cursor.expect_keyword(b"by")?;
        self.cursor.expect_sign(b"{")?;
        let properties = self.list_or_none(Self::closure_property)?;
        self.cursor.expect_sign(b"}")?;
        let node = Closure { bindings, result_var, result_type, properties };
        Ok(self.node(1, Expr::ClosureExpr(Box::new(node))))
    }

    fn closure_binding(&mut self) -> Result<ClosureBinding<'a>> {
        let name = self.name()?;
        let params = if self.cursor.peek() == b'(' {
            self.bracketed_list(Self::binding)?
        } else {
            self.sequence(Vec::new())
        };
        self.cursor.expect_sign(b":=")?;
        let rhs = self.expr()?;
        Ok(ClosureBinding { name, params, rhs })
    }

    fn closure_property(&mut self) -> Result<ClosureProperty<'a>> {
        let triggers = self.patterns(b"trigger")?;
        let body = self.expr()?;
        Ok(ClosureProperty { triggers, body })
    }
}
