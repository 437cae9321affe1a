//! Expressions, on one line or broken into lines. An operator's print has brackets where its context binds
//! stronger.

use super::power::{BindingPower, Side};
use super::{Format, Printer};
use crate::refusal::Result;
use crate::tree::{Binding, Closure, ClosureBinding, ClosureProperty, Expr, Let, Name, Operator, Quantifier};

impl Printer {
    pub(super) fn line_expression(&mut self, expr: &Expr) -> Result<()> {
        self.free_expression(expr, Format::SingleLine)
    }

    /// An expression in no operator's reach.
    pub(super) fn free_expression(&mut self, expr: &Expr, format: Format) -> Result<()> {
        self.expression(expr, BindingPower::INIT, format)
    }

    pub(super) fn expression(&mut self, expr: &Expr, context: BindingPower, format: Format) -> Result<()> {
        match expr {
            Expr::BLiteral(value) => self.put(if *value { b"true" } else { b"false" }),
            Expr::ILiteral(value) => self.natural(*value),
            Expr::CustomLiteral { text, typ } => self.put_all([b"|", text, b": ", typ, b"|"]),
            Expr::IdExpr { name, is_old: false } => self.put(name),
            Expr::IdExpr { name, is_old: true } => self.put_all([b"old ", name]),
            Expr::OperatorExpr { op, args } => self.operator(*op, &args.0, context, format),
            Expr::FunctionCallExpr { name, args } => self.applied(name, args),
            Expr::LabeledExpr { name, body } => self.endless(context, |printer, inner| {
                printer.put_all([name, b": "])?;
                printer.expression(body, inner, format)
            }),
            Expr::LetExpr(node) => {
                self.endless(context, |printer, inner| printer.let_expr(node, inner, format))
            }
            Expr::QuantifierExpr(node) => {
                self.endless(context, |printer, inner| printer.quantifier(node, inner, format))
            }
            Expr::ClosureExpr(node) => self.closure(node),
        }
    }

    fn natural(&mut self, mut value: u64) -> Result<()> {
        let mut digits = [0; 20];
        let mut start = digits.len();
        loop {
            start -= 1;
            digits[start] = b'0' + (value % 10) as u8;
            value /= 10;
            if value == 0 {
                return self.put(&digits[start..]);
            }
        }
    }

    /// `print`, in brackets unless `power` wins over its context.
    fn parenthesized(
        &mut self,
        power: BindingPower,
        context: BindingPower,
        print: impl FnOnce(&mut Self) -> Result<()>,
    ) -> Result<()> {
        if power.wins_over(context) {
            return print(self);
        }
        self.put(b"(")?;
        print(self)?;
        self.put(b")")
    }

    /// An expression whose last part reaches as far as it can; `print` has that part's context.
    fn endless(
        &mut self,
        context: BindingPower,
        print: impl FnOnce(&mut Self, BindingPower) -> Result<()>,
    ) -> Result<()> {
        let power = BindingPower::ENDLESS_OPERATOR;
        let inner = power.subexpression_power(Side::Right, context);
        self.parenthesized(power, context, |printer| print(printer, inner))
    }

    fn operator(&mut self, op: Operator, args: &[Expr], context: BindingPower, format: Format) -> Result<()> {
        let power = BindingPower::of(op);
        let right = power.subexpression_power(Side::Right, context);
        self.parenthesized(power, context, |printer| match (op.argument_count(), args) {
            (3, [guard, thn, els]) => printer.conditional(guard, thn, els, right, format),
            (2, [a, b]) => {
                let left = power.subexpression_power(Side::Left, context);
                printer.expression(a, left, Format::SingleLine)?;
                printer.put_all([b" ", op.sign()])?;
                printer.right_operand(op, b, right, format)
            }
            (1, [operand]) => {
                printer.put(op.sign())?;
                printer.expression(operand, right, Format::SingleLine)
            }
            _ => printer.applied(op.sign(), args),
        })
    }

    /// Lines break after `==>`, `&&` and `||` only.
    fn right_operand(
        &mut self,
        op: Operator,
        operand: &Expr,
        power: BindingPower,
        format: Format,
    ) -> Result<()> {
        let breaks = matches!(op, Operator::LogicalImp | Operator::LogicalAnd | Operator::LogicalOr);
        let format = if breaks { format } else { Format::SingleLine };
        self.space(format)?;
        self.expression(operand, power, format)
    }

    fn conditional(
        &mut self,
        guard: &Expr,
        thn: &Expr,
        els: &Expr,
        power: BindingPower,
        format: Format,
    ) -> Result<()> {
        let more = self.more(format);
        self.put(b"if ")?;
        self.line_expression(guard)?;
        self.space(more)?;
        self.free_expression(thn, more)?;
        self.space(format)?;
        self.put(b"else")?;
        if matches!(els, Expr::OperatorExpr { op: Operator::IfThenElse, .. }) {
            self.put(b" ")?;
            self.expression(els, power, format)
        } else {
            self.space(more)?;
            self.expression(els, power, more)
        }
    }

    fn applied(&mut self, name: Name, args: &[Expr]) -> Result<()> {
        self.put_all([name, b"("])?;
        self.expression_list(args)?;
        self.put(b")")
    }

    fn expression_list(&mut self, exprs: &[Expr]) -> Result<()> {
        self.separated(exprs, |printer, expr| printer.line_expression(expr))
    }

    pub(super) fn name_and_optional_type(&mut self, name: Name, optional_type: Option<Name>) -> Result<()> {
        self.put(name)?;
        match optional_type {
            Some(typ) => self.put_all([b": ", typ]),
            None => Ok(()),
        }
    }

    fn let_expr(&mut self, node: &Let, power: BindingPower, format: Format) -> Result<()> {
        self.put(b"val ")?;
        self.name_and_optional_type(node.name, node.optional_type)?;
        self.put(b" := ")?;
        self.line_expression(&node.rhs)?;
        self.space(format)?;
        self.expression(&node.body, power, format)
    }

    /// Without bindings the quantifier's word isn't printed, as upstream has it.
    fn quantifier(&mut self, node: &Quantifier, power: BindingPower, format: Format) -> Result<()> {
        if !node.bindings.is_empty() {
            self.put(if node.univ { b"forall " } else { b"exists " })?;
            self.bindings(&node.bindings)?;
        }
        let more = self.more(format);
        for pattern in &node.patterns {
            self.space(more)?;
            self.put(b"pattern ")?;
            self.expression_list(&pattern.exprs)?;
        }
        self.space(more)?;
        self.expression(&node.body, power, more)
    }

    fn bindings(&mut self, bindings: &[Binding]) -> Result<()> {
        self.separated(bindings, |printer, binding| printer.put_all([binding.name, b": ", binding.typ]))
    }

    fn closure(&mut self, node: &Closure) -> Result<()> {
        self.put(b"lift ")?;
        self.separated(&node.bindings, Self::closure_binding)?;
        self.put_all([b" into ", node.result_var, b": ", node.result_type, b" by { "])?;
        self.separated(&node.properties, Self::closure_property)?;
        self.put(b" }")
    }

    fn closure_binding(&mut self, binding: &ClosureBinding) -> Result<()> {
        self.put(binding.name)?;
        if !binding.params.is_empty() {
            self.put(b"(")?;
            self.bindings(&binding.params)?;
            self.put(b")")?;
        }
        self.put(b" := ")?;
        self.line_expression(&binding.rhs)
    }

    fn closure_property(&mut self, property: &ClosureProperty) -> Result<()> {
        for trigger in &property.triggers {
            self.put(b"trigger ")?;
            self.expression_list(&trigger.exprs)?;
            self.put(b" ")?;
        }
        if !property.triggers.is_empty() {
            self.put(b":: ")?;
        }
        self.line_expression(&property.body)
    }
}
