//! Statements. A variable declaration reaches to the end of its block, so it needs braces of its own where no
//! closing brace follows.

use super::Printer;
use crate::refusal::Result;
use crate::tree::{AExpr, CallArgument, Case, Expr, If, ParameterMode, Stmt, VarDecl};

impl Printer {
    /// The statement's lines, without the first one's indent.
    fn statement(&mut self, stmt: &Stmt, indent: usize, followed_by_end_curly: bool) -> Result<()> {
        match stmt {
            Stmt::VarDecl(decl) if followed_by_end_curly => self.variable_declaration(decl, indent),
            Stmt::VarDecl(decl) => {
                self.put(b"{\n")?;
                self.indent(self.deeper(indent))?;
                self.variable_declaration(decl, self.deeper(indent))?;
                self.indent(indent)?;
                self.put(b"}\n")
            }
            Stmt::Assign { lhs, rhs } => {
                self.put_all([lhs, b" := "])?;
                self.line_expression(rhs)?;
                self.put(b"\n")
            }
            Stmt::Reinit(vars) => {
                self.put(b"reinit ")?;
                self.separated(vars, |printer, name| printer.put(name))?;
                self.put(b"\n")
            }
            Stmt::Block(_) => self.stmt_as_block(stmt, indent, b"\n"),
            Stmt::Call { name, args } => self.call(name, args),
            Stmt::Check(e) => self.expression_stmt(b"check ", e),
            Stmt::Assume(e) => self.expression_stmt(b"assume ", e),
            Stmt::Reach(e) => self.expression_stmt(b"reach ", e),
            Stmt::Assert(e) => self.expression_stmt(b"assert ", e),
            Stmt::Probe(e) => self.expression_stmt(b"probe ", e),
            Stmt::AForall { name, typ, body } => {
                self.put_all([b"forall ", name, b": ", typ, b" "])?;
                self.stmt_as_block(body, indent, b"\n")
            }
            Stmt::Choose(branches) => self.choose(branches, indent),
            Stmt::If(stmt) => self.if_stmt(stmt, indent),
            Stmt::IfCase(cases) => self.if_case(cases, indent),
            Stmt::Loop { invariants, body } => self.loop_stmt(invariants, body, indent),
            Stmt::Labeled { lbl, body } => {
                self.put_all([lbl, b": "])?;
                match &**body {
                    Stmt::Loop { .. } => self.statement(body, indent, false),
                    _ => self.stmt_as_block(body, indent, b"\n"),
                }
            }
            Stmt::Exit(None) => self.put(b"exit\n"),
            Stmt::Exit(Some(label)) => self.put_all([b"exit ", label, b"\n"]),
            Stmt::Return => self.put(b"return\n"),
        }
    }

    fn indented_statement(&mut self, stmt: &Stmt, indent: usize, followed_by_end_curly: bool) -> Result<()> {
        self.indent(indent)?;
        self.statement(stmt, indent, followed_by_end_curly)
    }

    /// A list that a closing brace follows.
    fn statement_list(&mut self, stmts: &[Stmt], indent: usize) -> Result<()> {
        let Some((last, others)) = stmts.split_last() else { return Ok(()) };
        for stmt in others {
            self.indented_statement(stmt, indent, false)?;
        }
        self.indented_statement(last, indent, true)
    }

    /// Braces round a statement; a block has its own. The first line's indent is the caller's.
    pub(super) fn stmt_as_block(&mut self, stmt: &Stmt, indent: usize, suffix: &[u8]) -> Result<()> {
        self.put(b"{\n")?;
        match stmt {
            Stmt::Block(stmts) => self.statement_list(stmts, self.deeper(indent))?,
            _ => self.indented_statement(stmt, self.deeper(indent), false)?,
        }
        self.indent(indent)?;
        self.put_all([b"}", suffix])
    }

    /// A declaration and its body, which a closing brace follows.
    fn variable_declaration(&mut self, decl: &VarDecl, indent: usize) -> Result<()> {
        let variable = &decl.variable;
        self.put(if variable.is_mutable { b"var " } else { b"val " })?;
        self.name_and_optional_type(variable.name, variable.optional_type)?;
        self.optional_auto_invariant(&variable.auto_inv)?;
        if let Some(init) = &decl.init {
            self.put(b" := ")?;
            self.line_expression(init)?;
        }
        self.put(b"\n")?;
        match &decl.body {
            Stmt::Block(stmts) => self.statement_list(stmts, indent),
            body => self.indented_statement(body, indent, true),
        }
    }

    pub(super) fn optional_auto_invariant(&mut self, auto_inv: &Option<Expr>) -> Result<()> {
        match auto_inv {
            Some(expr) => {
                self.put(b" autoinv ")?;
                self.line_expression(expr)
            }
            None => Ok(()),
        }
    }

    fn expression_stmt(&mut self, prefix: &[u8], expr: &Expr) -> Result<()> {
        self.put(prefix)?;
        self.line_expression(expr)?;
        self.put(b"\n")
    }

    fn call(&mut self, name: &[u8], args: &[CallArgument]) -> Result<()> {
        self.put_all([name, b"("])?;
        self.separated(args, |printer, argument| {
            printer.mode(argument.mode)?;
            printer.line_expression(&argument.arg)
        })?;
        self.put(b")\n")
    }

    pub(super) fn mode(&mut self, mode: ParameterMode) -> Result<()> {
        match mode {
            ParameterMode::In => Ok(()),
            ParameterMode::InOut => self.put(b"inout "),
            ParameterMode::Out => self.put(b"out "),
        }
    }

    fn choose(&mut self, branches: &[Stmt], indent: usize) -> Result<()> {
        self.put(b"choose ")?;
        let Some((last, others)) = branches.split_last() else { return self.put(b"{ }\n") };
        for branch in others {
            self.stmt_as_block(branch, indent, b" or ")?;
        }
        self.stmt_as_block(last, indent, b"\n")
    }

    fn if_stmt(&mut self, stmt: &If, indent: usize) -> Result<()> {
        self.put(b"if ")?;
        self.line_expression(&stmt.cond)?;
        self.put(b" ")?;
        if stmt.els.is_empty_block() {
            return self.stmt_as_block(&stmt.thn, indent, b"\n");
        }
        self.stmt_as_block(&stmt.thn, indent, b" else ")?;
        match &stmt.els {
            Stmt::If(_) | Stmt::IfCase(_) => self.statement(&stmt.els, indent, false),
            els => self.stmt_as_block(els, indent, b"\n"),
        }
    }

    /// Without cases the indent stands inside the line, as upstream has it.
    fn if_case(&mut self, cases: &[Case], indent: usize) -> Result<()> {
        self.put(b"if ")?;
        let Some((last, others)) = cases.split_last() else {
            self.indent(indent)?;
            self.put(b"case false {\n")?;
            self.indent(indent)?;
            return self.put(b"}\n");
        };
        for case in others {
            self.case(case, indent, b" ")?;
        }
        self.case(last, indent, b"\n")
    }

    fn case(&mut self, case: &Case, indent: usize, suffix: &[u8]) -> Result<()> {
        self.put(b"case ")?;
        self.line_expression(&case.cond)?;
        self.put(b" ")?;
        self.stmt_as_block(&case.body, indent, suffix)
    }

    fn loop_stmt(&mut self, invariants: &[AExpr], body: &Stmt, indent: usize) -> Result<()> {
        self.put(b"loop")?;
        if invariants.is_empty() {
            self.put(b" ")?;
        } else {
            self.put(b"\n")?;
            self.aexprs(self.deeper(indent), b"invariant ", invariants)?;
            self.indent(indent)?;
        }
        self.stmt_as_block(body, indent, b"\n")
    }

    pub(super) fn aexprs(&mut self, indent: usize, prefix: &[u8], aexprs: &[AExpr]) -> Result<()> {
        for aexpr in aexprs {
            self.indent(indent)?;
            match aexpr {
                AExpr::Expr(expr) => self.expression_stmt(prefix, expr)?,
                AExpr::Assertion(stmt) => {
                    self.put(prefix)?;
                    self.statement(stmt, indent, false)?;
                }
            }
        }
        Ok(())
    }
}
