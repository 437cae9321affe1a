//! Statements and blocks.

use super::names::STATEMENT_WORDS;
use super::source::Source;

impl Source<'_> {
    pub fn block(&mut self) {
        self.sign("{");
        while self.fuel > 0 && !self.once_in(4) {
            self.stmt();
        }
        self.sign("}");
    }

    fn stmt(&mut self) {
        self.spend();
        match self.random.below(24) {
            0 | 1 => self.variable(),
            2 | 3 => self.assign(),
            4 => self.reinit(),
            5 | 6 => self.exit(),
            7 => self.word("return"),
            8..=12 => self.condition(),
            13 => self.forall(),
            14 => self.block(),
            15 => self.choose(),
            16..=18 => self.if_stmt(),
            19 | 20 => self.loop_stmt(),
            21 => self.labeled(),
            _ => self.call_stmt(),
        }
    }

    fn leading_name(&mut self) {
        let words = [&STATEMENT_WORDS[..], &["div", "mod"]].concat();
        self.name_outside(&words);
    }

    fn variable(&mut self) {
        let word = if self.once_in(2) { "var" } else { "val" };
        self.word(word);
        self.name();
        self.optional_type();
        let auto_invariant = self.once_in(4);
        let init = self.once_in(2);
        if auto_invariant {
            self.word("autoinv");
            if init && !self.once_in(12) {
                self.bracketed();
            } else {
                self.expr();
            }
        }
        if init {
            self.sign(":=");
            self.expr();
        }
    }

    fn assign(&mut self) {
        self.leading_name();
        self.sign(":=");
        self.expr();
    }

    fn reinit(&mut self) {
        self.word("reinit");
        let count = self.random.between(1, 3);
        self.list(count, Self::name);
    }

    /// An exit with a label, one before a statement that is no label, or one that takes what follows.
    fn exit(&mut self) {
        self.word("exit");
        match self.random.below(8) {
            0..=3 => self.name(),
            4 => self.bracketed_condition(),
            5 => self.assign(),
            6 => self.block(),
            _ => {}
        }
    }

    fn bracketed_condition(&mut self) {
        if self.once_in(3) {
            self.word("if");
            self.bracketed();
            self.block();
        } else {
            self.condition_word();
            self.bracketed();
        }
    }

    fn condition_word(&mut self) {
        let word = self.random.pick(&["check", "assume", "reach", "assert", "probe"]);
        self.word(word);
    }

    fn condition(&mut self) {
        self.condition_word();
        self.expr();
    }

    fn forall(&mut self) {
        self.word("forall");
        self.binding();
        self.block();
    }

    fn choose(&mut self) {
        self.word("choose");
        self.block();
        while self.once_in(2) {
            self.word("or");
            self.block();
        }
    }

    fn if_stmt(&mut self) {
        self.word("if");
        self.if_cont();
    }

    fn if_cont(&mut self) {
        if self.once_in(3) {
            self.case();
            while self.once_in(2) {
                self.case();
            }
            return;
        }
        if self.once_in(6) {
            self.bracketed();
        } else {
            self.expr();
        }
        self.block();
        if self.once_in(2) {
            self.else_part();
        }
    }

    fn case(&mut self) {
        self.word("case");
        self.expr();
        self.block();
    }

    fn else_part(&mut self) {
        self.word("else");
        if self.once_in(2) {
            self.word("if");
            self.if_cont();
        } else {
            self.block();
            if self.once_in(40) {
                self.word("else");
                self.sign(":=");
                self.expr();
            }
        }
    }

    fn loop_stmt(&mut self) {
        self.word("loop");
        self.conditions("invariant");
        self.block();
    }

    /// Conditions led by `keyword`.
    pub fn conditions(&mut self, keyword: &str) {
        while self.once_in(3) {
            self.word(keyword);
            if self.once_in(4) {
                self.block();
            } else {
                self.expr();
            }
        }
    }

    fn labeled(&mut self) {
        self.leading_name();
        self.sign(":");
        if self.once_in(2) {
            self.block();
        } else {
            self.loop_stmt();
        }
    }

    fn call_stmt(&mut self) {
        self.leading_name();
        self.sign("(");
        let count = self.random.below(4);
        self.list(count, Self::call_argument);
        self.sign(")");
    }

    fn call_argument(&mut self) {
        match self.random.below(6) {
            0 => self.mode_and_name("out"),
            1 => self.mode_and_name("inout"),
            _ => self.expr(),
        }
    }

    fn mode_and_name(&mut self, mode: &str) {
        self.word(mode);
        self.name();
    }
}
