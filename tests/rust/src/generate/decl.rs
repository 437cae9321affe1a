//! Programs and their declarations.

use super::source::Source;

impl Source<'_> {
    pub fn program(&mut self) {
        while self.fuel > 0 && !self.once_in(12) {
            self.declaration();
        }
        self.finish();
    }

    fn declaration(&mut self) {
        self.spend();
        match self.random.below(12) {
            0 => self.type_decl(),
            1 => self.tagger(),
            2..=4 => self.function(),
            5..=7 => self.axiom(),
            _ => self.procedure(),
        }
    }

    fn type_decl(&mut self) {
        self.word("type");
        self.name();
    }

    fn tagger(&mut self) {
        self.word("tagger");
        self.name();
        self.word("for");
        self.type_name();
    }

    fn function(&mut self) {
        self.word("function");
        self.name();
        self.sign("(");
        let count = self.random.below(3);
        self.list(count, Self::function_formal);
        self.sign(")");
        self.sign(":");
        self.type_name();
        if self.once_in(4) {
            self.word("tag");
            self.name();
        }
        if self.once_in(2) {
            self.function_definition();
        }
    }

    fn function_formal(&mut self) {
        if self.once_in(4) {
            self.word("injective");
        }
        self.binding();
    }

    fn function_definition(&mut self) {
        while self.once_in(3) {
            self.word("when");
            self.expr();
        }
        self.sign("{");
        self.expr();
        self.sign("}");
    }

    fn axiom(&mut self) {
        self.word("axiom");
        if self.once_in(3) {
            self.word("explains");
            let count = self.random.between(1, 3);
            self.list(count, Self::name);
        }
        if self.once_in(8) {
            self.bracketed();
        } else {
            self.expr();
        }
    }

    fn procedure(&mut self) {
        self.word("procedure");
        self.name();
        self.sign("(");
        let count = self.random.below(3);
        self.list(count, Self::procedure_formal);
        self.sign(")");
        self.conditions("requires");
        self.conditions("ensures");
        if !self.once_in(6) {
            self.block();
        }
    }

    fn procedure_formal(&mut self) {
        match self.random.below(4) {
            0 => self.word("inout"),
            1 => self.word("out"),
            _ => {}
        }
        self.binding();
        if self.once_in(5) {
            self.word("autoinv");
            self.expr();
        }
    }
}
