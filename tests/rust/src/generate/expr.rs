//! Expressions, level by level of the grammar.

use super::names::{KEYWORDS, NO_OPERAND};
use super::source::Source;

/// The signs of each level, tightest last; one chain takes its signs from one row.
const LEVELS: [&[&[&str]]; 6] = [
    &[&["<==>"]],
    &[&["==>"], &["<=="]],
    &[&["&&"], &["||"]],
    &[&["==", "!=", "<", "<=", ">=", ">"]],
    &[&["+", "-"]],
    &[&["*", "div", "mod"]],
];
const COMPARISON: usize = 3;

impl Source<'_> {
    pub fn expr(&mut self) {
        if self.spend() && !self.once_in(4) {
            self.level(0);
        } else {
            self.primary();
        }
    }

    fn level(&mut self, level: usize) {
        let Some(rows) = LEVELS.get(level) else { return self.unary() };
        self.level(level + 1);
        if self.fuel == 0 || !self.once_in(8) {
            return;
        }
        let row = rows[self.random.below(rows.len())];
        let count = if level == COMPARISON { 1 } else { self.random.between(1, 3) };
        for _ in 0..count {
            self.spend();
            let sign = self.random.pick(row);
            self.operator(sign);
            self.level(level + 1);
        }
    }

    fn unary(&mut self) {
        while self.once_in(8) {
            let minus = self.once_in(2) && !self.after_expr;
            self.sign(if minus { "-" } else { "!" });
        }
        self.primary();
    }

    fn primary(&mut self) {
        if !self.spend() {
            return self.atom();
        }
        match self.random.below(30) {
            0..=13 => self.atom(),
            14..=17 if !self.after_expr => self.bracketed(),
            14..=20 => self.call_expr(),
            21 | 22 => self.labeled_expr(),
            23 | 24 => self.conditional(),
            25 | 26 => self.let_expr(),
            27 | 28 => self.quantifier(),
            _ => self.closure(),
        }
    }

    fn atom(&mut self) {
        match self.random.below(12) {
            0 => self.word("true"),
            1 => self.word("false"),
            2..=4 => self.natural(),
            5 => self.custom_literal(),
            6 => {
                self.word("old");
                self.name();
            }
            _ => self.operand_name(),
        }
    }

    /// After an expression `div` and `mod` would be operators.
    fn operand_name(&mut self) {
        if self.after_expr {
            let words = [&NO_OPERAND[..], &["div", "mod"]].concat();
            self.name_outside(&words);
        } else {
            self.name_outside(&NO_OPERAND);
        }
    }

    pub fn bracketed(&mut self) {
        self.sign("(");
        if self.once_in(12) {
            let word = self.random.pick(&KEYWORDS);
            if !NO_OPERAND.contains(&word) {
                self.word(word);
                return self.sign(")");
            }
        }
        self.expr();
        self.sign(")");
    }

    /// Two expressions with nothing between them: the first ends where the second begins.
    fn pair(&mut self) {
        if self.once_in(4) {
            self.bracketed();
            self.bracketed();
        } else {
            self.expr();
            self.next_expr();
        }
    }

    /// An expression after another one; now and then one that is taken for a part of it.
    fn next_expr(&mut self) {
        self.after_expr = !self.once_in(40);
        self.expr();
        self.after_expr = false;
    }

    fn call_expr(&mut self) {
        self.operand_name();
        self.sign("(");
        let count = self.random.below(4);
        self.list(count, Self::expr);
        self.sign(")");
    }

    fn labeled_expr(&mut self) {
        self.operand_name();
        self.sign(":");
        self.expr();
    }

    fn conditional(&mut self) {
        self.word("if");
        self.pair();
        self.word("else");
        self.expr();
    }

    fn let_expr(&mut self) {
        self.word("val");
        self.name();
        self.optional_type();
        self.sign(":=");
        self.pair();
    }

    pub fn optional_type(&mut self) {
        if self.once_in(2) {
            self.sign(":");
            self.type_name();
        }
    }

    pub fn binding(&mut self) {
        self.name();
        self.sign(":");
        self.type_name();
    }

    fn quantifier(&mut self) {
        let word = if self.once_in(2) { "forall" } else { "exists" };
        self.word(word);
        let count = self.random.between(1, 3);
        self.list(count, Self::binding);
        let patterns = self.patterns("pattern");
        if patterns {
            self.next_expr();
        } else {
            self.expr();
        }
    }

    /// Up to two lists led by `keyword`; whether there was one.
    fn patterns(&mut self, keyword: &str) -> bool {
        let count = self.random.below(6).saturating_sub(3);
        for _ in 0..count {
            self.word(keyword);
            let exprs = self.random.between(1, 2);
            self.list(exprs, Self::expr);
        }
        count > 0
    }

    fn closure(&mut self) {
        self.word("lift");
        let count = self.random.between(1, 2);
        self.list(count, Self::closure_binding);
        self.word("into");
        self.name();
        self.sign(":");
        self.type_name();
        self.word("by");
        self.sign("{");
        let count = self.random.below(3);
        self.list(count, Self::closure_property);
        self.sign("}");
    }

    fn closure_binding(&mut self) {
        self.name();
        if self.once_in(2) {
            self.sign("(");
            let count = self.random.below(3);
            self.list(count, Self::binding);
            self.sign(")");
        }
        self.sign(":=");
        self.expr();
    }

    fn closure_property(&mut self) {
        if self.once_in(4) && self.patterns("trigger") {
            self.next_expr();
        } else {
            self.expr();
        }
    }
}
