//! Programs and their declarations.

use super::Printer;
use crate::refusal::Result;
use crate::tree::{Axiom, Expr, Function, FunctionDefinition, Procedure, Program, Tagger};

impl Printer {
    pub(super) fn program(&mut self, program: &Program) -> Result<()> {
        self.put(b"// B3 program\n")?;
        for typ in &program.types {
            self.put_all([b"\ntype ", typ, b"\n"])?;
        }
        for tagger in &program.taggers {
            self.tagger(tagger)?;
        }
        for function in &program.functions {
            self.function(function)?;
        }
        for axiom in &program.axioms {
            self.axiom(axiom)?;
        }
        for procedure in &program.procedures {
            self.procedure(procedure)?;
        }
        Ok(())
    }

    fn tagger(&mut self, tagger: &Tagger) -> Result<()> {
        self.put_all([b"\ntagger ", tagger.name, b" for ", tagger.typ, b"\n"])
    }

    fn function(&mut self, function: &Function) -> Result<()> {
        self.put_all([b"\nfunction ", function.name, b"("])?;
        self.separated(&function.parameters, |printer, param| {
            let injective: &[u8] = if param.injective { b"injective " } else { b"" };
            printer.put_all([injective, param.name, b": ", param.typ])
        })?;
        self.put_all([b"): ", function.result_type])?;
        if let Some(tag) = function.tag {
            self.put_all([b" tag ", tag])?;
        }
        self.put(b"\n")?;
        match &function.definition {
            Some(definition) => self.function_definition(definition),
            None => Ok(()),
        }
    }

    fn function_definition(&mut self, definition: &FunctionDefinition) -> Result<()> {
        for when in &definition.when {
            self.indent(self.deeper(0))?;
            self.put(b"when ")?;
            self.line_expression(when)?;
            self.put(b"\n")?;
        }
        self.put(b"{\n")?;
        self.indented_expression(&definition.body)?;
        self.put(b"\n}\n")
    }

    fn indented_expression(&mut self, expr: &Expr) -> Result<()> {
        let indent = self.deeper(0);
        self.indent(indent)?;
        self.free_expression(expr, self.settings.format(indent))
    }

    fn axiom(&mut self, axiom: &Axiom) -> Result<()> {
        self.put(b"\naxiom")?;
        if !axiom.explains.is_empty() {
            self.put(b" explains ")?;
            self.separated(&axiom.explains, |printer, name| printer.put(name))?;
        }
        self.put(b"\n")?;
        self.indented_expression(&axiom.expr)?;
        self.put(b"\n")
    }

    fn procedure(&mut self, procedure: &Procedure) -> Result<()> {
        self.put_all([b"\nprocedure ", procedure.name, b"("])?;
        self.separated(&procedure.parameters, |printer, param| {
            printer.mode(param.mode)?;
            printer.put_all([param.name, b": ", param.typ])?;
            printer.optional_auto_invariant(&param.auto_inv)
        })?;
        self.put(b")\n")?;
        self.aexprs(self.deeper(0), b"requires ", &procedure.pre)?;
        self.aexprs(self.deeper(0), b"ensures ", &procedure.post)?;
        match &procedure.body {
            Some(body) => self.stmt_as_block(body, 0, b"\n"),
            None => Ok(()),
        }
    }
}
