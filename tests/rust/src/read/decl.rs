//! Programs and their declarations.

use super::Reader;
use crate::refusal::Result;
use crate::tree::{Axiom, FParameter, Function, FunctionDefinition, PParameter, Procedure, Program, Tagger};

impl<'a> Reader<'a> {
    pub(super) fn program(&mut self) -> Result<Program<'a>> {
        let mut program = Program::default();
        while !self.cursor.at_end() {
            self.declaration(&mut program)?;
            self.words += 1;
        }
        Ok(self.node(5, program))
    }

    fn declaration(&mut self, program: &mut Program<'a>) -> Result<()> {
        let word = self.cursor.identifier();
        if !matches!(word, b"type" | b"tagger" | b"function" | b"axiom" | b"procedure") {
            return Err(self.cursor.unusable());
        }
        self.cursor.take(word.len())?;
        match word {
            b"type" => program.types.push(self.name()?),
            b"tagger" => program.taggers.push(self.tagger()?),
            b"function" => program.functions.push(self.function()?),
            b"axiom" => program.axioms.push(self.axiom()?),
            _ => program.procedures.push(self.procedure()?),
        }
        Ok(())
    }

    fn tagger(&mut self) -> Result<Tagger<'a>> {
        let name = self.name()?;
        self.cursor.expect_keyword(b"for")?;
        let typ = self.name()?;
        Ok(Tagger { name, typ })
    }

    fn function(&mut self) -> Result<Function<'a>> {
        let name = self.name()?;
        let parameters = self.bracketed_list(Self::function_formal)?;
        self.cursor.expect_sign(b":")?;
        let result_type = self.name()?;
        let tag = if self.cursor.take_keyword(b"tag")? { Some(self.name()?) } else { None };
        let definition = self.function_definition()?;
        Ok(self.node(2, Function { name, parameters, result_type, tag, definition }))
    }

    fn function_formal(&mut self) -> Result<FParameter<'a>> {
        let injective = self.cursor.take_keyword(b"injective")?;
        let binding = self.binding()?;
        Ok(self.node(1, FParameter { name: binding.name, injective, typ: binding.typ }))
    }

    fn function_definition(&mut self) -> Result<Option<FunctionDefinition<'a>>> {
        let mut when = Vec::new();
        while self.cursor.take_keyword(b"when")? {
            when.push(self.expr()?);
        }
        if when.is_empty() && self.cursor.peek() != b'{' {
            return Ok(None);
        }
        let when = self.sequence(when);
        self.cursor.expect_sign(b"{")?;
        let body = self.expr()?;
        self.cursor.expect_sign(b"}")?;
        Ok(Some(FunctionDefinition { when, body }))
    }

    fn axiom(&mut self) -> Result<Axiom<'a>> {
        let explains = if self.cursor.take_keyword(b"explains")? {
            self.list(Self::name)?
        } else {
            self.sequence(Vec::new())
        };
        let expr = self.expr()?;
        Ok(Axiom { explains, expr })
    }

    fn procedure(&mut self) -> Result<Procedure<'a>> {
        let name = self.name()?;
        let parameters = self.bracketed_list(Self::procedure_formal)?;
        let pre = self.aexprs(b"requires")?;
        let post = self.aexprs(b"ensures")?;
        let body = if self.cursor.peek() == b'{' { Some(self.block()?) } else { None };
        Ok(self.node(1, Procedure { name, parameters, pre, post, body }))
    }

    fn procedure_formal(&mut self) -> Result<PParameter<'a>> {
        let mode = self.parameter_mode()?;
        let binding = self.binding()?;
        let auto_inv = self.optional_auto_invariant()?;
        Ok(PParameter { name: binding.name, mode, typ: binding.typ, auto_inv })
    }
}
