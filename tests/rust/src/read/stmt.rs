//! Statements, blocks, loops and else-if parts.

use super::Reader;
use crate::refusal::Result;
use crate::tree::{AExpr, CallArgument, Case, Expr, If, Name, ParameterMode, Stmt, VarDecl, Variable};

#[derive(Clone, Copy)]
enum Keyword {
    Var,
    Val,
    Reinit,
    Exit,
    Return,
    Check,
    Assume,
    Reach,
    Assert,
    Probe,
    Forall,
    Choose,
    If,
}

/// What begins a statement, before it is taken: a word of so many bytes, a block's or a loop's first token, or a
/// name and the place of the mark after it.
enum Head<'a> {
    Keyword(Keyword, usize),
    Block,
    Loop,
    Name(Name<'a>, Mark, usize),
}

#[derive(Clone, Copy)]
enum Mark {
    Assign,
    Label,
    Call,
}

fn keyword(word: &[u8]) -> Option<Keyword> {
    Some(match word {
        b"var" => Keyword::Var,
        b"val" => Keyword::Val,
        b"reinit" => Keyword::Reinit,
        b"exit" => Keyword::Exit,
        b"return" => Keyword::Return,
        b"check" => Keyword::Check,
        b"assume" => Keyword::Assume,
        b"reach" => Keyword::Reach,
        b"assert" => Keyword::Assert,
        b"probe" => Keyword::Probe,
        b"forall" => Keyword::Forall,
        b"choose" => Keyword::Choose,
        b"if" => Keyword::If,
        _ => return None,
    })
}

impl<'a> Reader<'a> {
    pub(super) fn block(&mut self) -> Result<Stmt<'a>> {
        let place = self.cursor.at;
        if self.cursor.peek() != b'{' {
            return Err(self.cursor.unusable());
        }
        self.open(place)?;
        self.cursor.take(1)?;
        let mut stmts = Vec::new();
        while let Some(head) = self.head()? {
            stmts.push(self.stmt(head)?);
        }
        self.cursor.expect_sign(b"}")?;
        self.close();
        Ok(self.block_of(stmts))
    }

    fn boxed_block(&mut self) -> Result<Box<Stmt<'a>>> {
        Ok(Box::new(self.block()?))
    }

    fn block_of(&mut self, stmts: Vec<Stmt<'a>>) -> Stmt<'a> {
        let stmts = self.sequence(stmts);
        self.node(1, Stmt::Block(stmts))
    }

    /// What begins a statement here, if anything does. Between a name and its mark blanks are passed.
    fn head(&self) -> Result<Option<Head<'a>>> {
        if self.cursor.peek() == b'{' {
            return Ok(Some(Head::Block));
        }
        let word = self.cursor.identifier();
        if word.is_empty() {
            return Ok(None);
        }
        if word == b"loop" {
            return Ok(Some(Head::Loop));
        }
        match keyword(word) {
            Some(keyword) => Ok(Some(Head::Keyword(keyword, word.len()))),
            None => self.marked(word),
        }
    }

    /// A name with `:=`, `:` or `(` after it.
    fn marked(&self, name: Name<'a>) -> Result<Option<Head<'a>>> {
        let mut after = self.cursor;
        after.take(name.len())?;
        let mark = match after.rest() {
            [b':', b'=', ..] => Mark::Assign,
            [b':', ..] => Mark::Label,
            [b'(', ..] => Mark::Call,
            _ => return Ok(None),
        };
        Ok(Some(Head::Name(name, mark, after.at)))
    }

    fn stmt(&mut self, head: Head<'a>) -> Result<Stmt<'a>> {
        match head {
            Head::Keyword(keyword, len) => {
                self.cursor.take(len)?;
                self.keyword_stmt(keyword)
            }
            Head::Block => self.block(),
            Head::Loop => self.loop_stmt(),
            Head::Name(name, mark, at) => {
                self.cursor.at = at;
                self.marked_stmt(name, mark)
            }
        }
    }

    /// A statement whose mark stands here, after its name.
    fn marked_stmt(&mut self, name: Name<'a>, mark: Mark) -> Result<Stmt<'a>> {
        let len = if let Mark::Assign = mark { 2 } else { 1 };
        self.cursor.take(len)?;
        let name = self.node(2, name);
        match mark {
            Mark::Assign => {
                let rhs = self.expr()?;
                Ok(self.node(1, Stmt::Assign { lhs: name, rhs }))
            }
            Mark::Label => self.labeled(name),
            Mark::Call => self.call(name),
        }
    }

    fn keyword_stmt(&mut self, keyword: Keyword) -> Result<Stmt<'a>> {
        match keyword {
            Keyword::Var => self.variable_declaration(true),
            Keyword::Val => self.variable_declaration(false),
            Keyword::Reinit => {
                let vars = self.list(Self::name)?;
                Ok(self.node(1, Stmt::Reinit(vars)))
            }
            Keyword::Exit => {
                let label = self.exit_label()?;
                Ok(self.node(1, Stmt::Exit(label)))
            }
            Keyword::Return => Ok(self.node(1, Stmt::Return)),
            Keyword::Check => self.expression_stmt(Stmt::Check),
            Keyword::Assume => self.expression_stmt(Stmt::Assume),
            Keyword::Reach => self.expression_stmt(Stmt::Reach),
            Keyword::Assert => self.expression_stmt(Stmt::Assert),
            Keyword::Probe => self.expression_stmt(Stmt::Probe),
            Keyword::Forall => self.forall(),
            Keyword::Choose => self.choose(),
            Keyword::If => self.if_cont(),
        }
    }

    fn expression_stmt(&mut self, stmt: fn(Expr<'a>) -> Stmt<'a>) -> Result<Stmt<'a>> {
        let expr = self.expr()?;
        Ok(self.node(1, stmt(expr)))
    }

    /// The statements after a declaration are its body; each opens the rule `stmt`.
    fn variable_declaration(&mut self, is_mutable: bool) -> Result<Stmt<'a>> {
        let (name, optional_type) = self.name_and_optional_type()?;
        let auto_inv = self.optional_auto_invariant()?;
        let init = if self.cursor.take_sign(b":=")? { Some(self.expr()?) } else { None };
        let mut stmts = Vec::new();
        while let Some(head) = self.head()? {
            self.open(self.cursor.at)?;
            stmts.push(self.stmt(head)?);
            self.close();
        }
        let body = self.block_of(stmts);
        let variable = Variable { name, is_mutable, optional_type, auto_inv };
        Ok(self.node(3, Stmt::VarDecl(Box::new(VarDecl { variable, init, body }))))
    }

    /// No label where the name leads the next statement. The name and its mark are looked at with the blanks after them.
    fn exit_label(&mut self) -> Result<Option<Name<'a>>> {
        let name = self.cursor.identifier();
        let mut after = self.cursor;
        after.take(name.len())?;
        let mark = match after.rest() {
            _ if name.is_empty() => 0,
            [b':', b'=', ..] => 2,
            [b':' | b'(', ..] => 1,
            _ => 0,
        };
        let label = if mark != 0 {
            after.take(mark)?;
            None
        } else if name.is_empty() {
            None
        } else {
            self.cursor = after;
            Some(self.node(2, name))
        };
        Ok(self.node(1, label))
    }

    fn forall(&mut self) -> Result<Stmt<'a>> {
        let binding = self.binding()?;
        let body = self.boxed_block()?;
        Ok(self.node(1, Stmt::AForall { name: binding.name, typ: binding.typ, body }))
    }

    fn choose(&mut self) -> Result<Stmt<'a>> {
        let mut branches = vec![self.block()?];
        while self.cursor.take_keyword(b"or")? {
            branches.push(self.block()?);
        }
        let branches = self.sequence(branches);
        Ok(self.node(1, Stmt::Choose(branches)))
    }

    fn if_cont(&mut self) -> Result<Stmt<'a>> {
        let mut cases = Vec::new();
        while self.cursor.take_keyword(b"case")? {
            let cond = self.expr()?;
            let body = self.block()?;
            cases.push(Case { cond, body });
        }
        if cases.is_empty() {
            return self.if_else();
        }
        let cases = self.sequence(cases);
        Ok(self.node(1, Stmt::IfCase(cases)))
    }

    fn if_else(&mut self) -> Result<Stmt<'a>> {
        let cond = self.expr()?;
        let thn = self.block()?;
        let els =
            if self.cursor.take_keyword(b"else")? { self.else_part()? } else { self.block_of(Vec::new()) };
        Ok(self.node(1, Stmt::If(Box::new(If { cond, thn, els }))))
    }

    /// The part after `else if` opens the rule `if-cont` with `case` or with its condition.
    fn else_part(&mut self) -> Result<Stmt<'a>> {
        if !self.cursor.take_keyword(b"if")? {
            return self.block();
        }
        if !self.at_expr() {
            return Err(self.cursor.unusable());
        }
        self.open(self.cursor.at)?;
        let stmt = self.if_cont()?;
        self.close();
        Ok(stmt)
    }

    fn loop_stmt(&mut self) -> Result<Stmt<'a>> {
        self.open(self.cursor.at)?;
        self.cursor.take(b"loop".len())?;
        let invariants = self.aexprs(b"invariant")?;
        let body = self.boxed_block()?;
        self.close();
        Ok(self.node(1, Stmt::Loop { invariants, body }))
    }

    /// Conditions led by `keyword`: an expression, or a block of assertions.
    pub(super) fn aexprs(&mut self, keyword: &[u8]) -> Result<Vec<AExpr<'a>>> {
        let mut aexprs = Vec::new();
        while self.cursor.take_keyword(keyword)? {
            let aexpr = if self.cursor.peek() == b'{' {
                AExpr::Assertion(self.block()?)
            } else {
                AExpr::Expr(self.expr()?)
            };
            aexprs.push(self.node(1, aexpr));
        }
        Ok(self.sequence(aexprs))
    }

    fn labeled(&mut self, lbl: Name<'a>) -> Result<Stmt<'a>> {
        let body = if self.cursor.identifier() == b"loop" { self.loop_stmt()? } else { self.block()? };
        Ok(self.node(1, Stmt::Labeled { lbl, body: Box::new(body) }))
    }

    /// A call whose `(` is kept.
    fn call(&mut self, name: Name<'a>) -> Result<Stmt<'a>> {
        let args = self.list_or_none(Self::call_argument)?;
        self.cursor.expect_sign(b")")?;
        Ok(self.node(1, Stmt::Call { name, args }))
    }

    fn call_argument(&mut self) -> Result<CallArgument<'a>> {
        let mode = self.parameter_mode()?;
        let arg = if mode == ParameterMode::In {
            self.expr()?
        } else {
            let name = self.name()?;
            self.node(2, Expr::IdExpr { name, is_old: false })
        };
        Ok(CallArgument { mode, arg })
    }

    pub(super) fn parameter_mode(&mut self) -> Result<ParameterMode> {
        let mode = if self.cursor.take_keyword(b"inout")? {
            ParameterMode::InOut
        } else if self.cursor.take_keyword(b"out")? {
            ParameterMode::Out
        } else {
            ParameterMode::In
        };
        Ok(self.node(1, mode))
    }
}
