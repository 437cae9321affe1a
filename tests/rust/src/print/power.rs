//! Binding strengths: which brackets a print needs (PrintUtil.dfy).

use crate::tree::Operator;

#[derive(Clone, Copy, Debug, PartialEq, Eq)]
#[allow(clippy::enum_variant_names)]
pub enum TieBreaker {
    OperatorWins,
    ContextWins,
    SameFamilyWins(u8),
}

impl TieBreaker {
    fn break_tie_in_favor_of_operator(self, context: TieBreaker) -> bool {
        self == TieBreaker::OperatorWins
            || context == TieBreaker::OperatorWins
            || (matches!(self, TieBreaker::SameFamilyWins(_)) && self == context)
    }
}

#[derive(Clone, Copy, Debug, PartialEq, Eq)]
pub enum Side {
    Left,
    Right,
}

#[derive(Clone, Copy, Debug, PartialEq, Eq)]
pub struct BindingPower {
    left: u16,
    right: u16,
    tie_breaker: TieBreaker,
}

impl BindingPower {
    pub const INIT: BindingPower = BindingPower::new(0, 0);
    pub const ENDLESS_OPERATOR: BindingPower = BindingPower::new(1000, 0);

    const fn new(left: u16, right: u16) -> Self {
        BindingPower { left, right, tie_breaker: TieBreaker::OperatorWins }
    }

    const fn with(self, tie_breaker: TieBreaker) -> Self {
        BindingPower { tie_breaker, ..self }
    }

    pub fn of(op: Operator) -> Self {
        match op {
            Operator::IfThenElse => Self::ENDLESS_OPERATOR,
            Operator::Equiv => Self::new(20, 20),
            Operator::LogicalImp => Self::new(31, 30),
            Operator::LogicalAnd => Self::new(40, 40).with(TieBreaker::SameFamilyWins(0)),
            Operator::LogicalOr => Self::new(40, 40).with(TieBreaker::SameFamilyWins(1)),
            Operator::Eq | Operator::Neq | Operator::Less | Operator::AtMost => {
                Self::new(50, 50).with(TieBreaker::ContextWins)
            }
            Operator::Plus => Self::new(60, 60),
            Operator::Minus => Self::new(60, 61),
            Operator::Times => Self::new(70, 70),
            Operator::Div | Operator::Mod => Self::new(70, 71),
            Operator::LogicalNot | Operator::UnaryMinus => Self::new(80, 80),
        }
    }

    pub fn wins_over(self, context: BindingPower) -> bool {
        if self.tie_breaker.break_tie_in_favor_of_operator(context.tie_breaker) {
            context.left <= self.left && context.right <= self.right
        } else {
            context.left < self.left && context.right < self.right
        }
    }

    /// What an operand at `side` has for its context, brackets round the whole considered.
    pub fn subexpression_power(self, side: Side, context: BindingPower) -> BindingPower {
        let context = if self.wins_over(context) { context } else { Self::INIT };
        let (left, right) = match side {
            Side::Left => (context.left, self.left),
            Side::Right => (self.right, context.right),
        };
        BindingPower { left, right, tie_breaker: self.tie_breaker }
    }
}
