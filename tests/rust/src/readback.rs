//! Prints read again. Upstream's print isn't always read back as its tree; here is why not, case by case.

use crate::refusal::{LONG_TEXT, OUTPUT_LIMIT, TABLE_LIMIT, TOO_DEEP};
use crate::tree::*;
use crate::{print_expression, read_program, Format};

/// What in a tree keeps its print from being read back.
#[derive(Clone, Copy, Debug, PartialEq, Eq, PartialOrd, Ord)]
pub enum Cause {
    /// The print is longer than a text may be.
    LongPrint,
    /// The print's brackets are deeper than a text's may be.
    DeepPrint,
    /// `lift` with a trigger: the print has `::`.
    Trigger,
    /// `exit` without a label, then a word that is read as one.
    ExitLabel,
    /// `autoinv` ends with a name, and `:=` follows: read as a label's `:`.
    AutoInvariantLabel,
    /// An expression begins with a name that its place takes for a keyword (`explains`, `out`, `case` ...).
    LeadingKeyword,
    /// An expression after another one begins with a sign that the first one takes.
    Juxtaposition,
    /// An empty else part isn't printed, and a statement led by the name `else` follows.
    ElseName,
    /// A right operand whose brackets upstream's printer leaves out.
    RightOperand,
    Unexplained,
}

/// What reading a print gives that isn't its tree, and the first cause of it in the tree.
#[derive(Clone, Copy, Debug, PartialEq, Eq, PartialOrd, Ord)]
pub struct Exception {
    pub cause: Cause,
    /// The refusal's number; none where the print is read as another tree.
    pub refused: Option<u32>,
}

impl std::fmt::Display for Exception {
    fn fmt(&self, f: &mut std::fmt::Formatter<'_>) -> std::fmt::Result {
        match self.refused {
            Some(number) => write!(f, "{:?}, refused {number}", self.cause),
            None => write!(f, "{:?}, another tree", self.cause),
        }
    }
}

/// Reads `print`, the print of `program`; none where the tree is the same.
pub fn exception(program: &Program, print: &[u8]) -> Option<Exception> {
    let refused = match read_program(print, TABLE_LIMIT) {
        Ok(again) if again == *program => return None,
        Ok(_) => None,
        Err(refusal) => Some(refusal.number),
    };
    let cause = match refused {
        Some(LONG_TEXT) => Cause::LongPrint,
        Some(TOO_DEEP) => Cause::DeepPrint,
        _ => cause(program),
    };
    Some(Exception { cause, refused })
}

fn cause(program: &Program) -> Cause {
    let mut search = Search { causes: Vec::new() };
    search.program(program);
    search.causes.iter().min().copied().unwrap_or(Cause::Unexplained)
}

struct Search {
    causes: Vec<Cause>,
}

impl Search {
    fn note(&mut self, found: bool, cause: Cause) {
        if found {
            self.causes.push(cause);
        }
    }

    fn program(&mut self, program: &Program) {
        for definition in program.functions.iter().filter_map(|function| function.definition.as_ref()) {
            self.exprs(&definition.when);
            self.expr(&definition.body);
        }
        for axiom in &program.axioms {
            if axiom.explains.is_empty() {
                self.not_led_by(&axiom.expr, &["explains"]);
            }
            self.expr(&axiom.expr);
        }
        for procedure in &program.procedures {
            for auto_inv in procedure.parameters.iter().filter_map(|param| param.auto_inv.as_ref()) {
                self.expr(auto_inv);
            }
            self.aexprs(&procedure.pre);
            self.aexprs(&procedure.post);
            if let Some(body) = &procedure.body {
                self.stmt(body);
            }
        }
    }

    fn aexprs(&mut self, aexprs: &[AExpr]) {
        for aexpr in aexprs {
            match aexpr {
                AExpr::Expr(expr) => self.expr(expr),
                AExpr::Assertion(stmt) => self.stmt(stmt),
            }
        }
    }

    fn stmts(&mut self, stmts: &[Stmt]) {
        for pair in stmts.windows(2) {
            self.note(matches!(pair[0], Stmt::Exit(None)) && !is_marked(&pair[1]), Cause::ExitLabel);
            self.note(ends_without_else(&pair[0]) && led_by_else(&pair[1]), Cause::ElseName);
        }
        for stmt in stmts {
            self.stmt(stmt);
        }
    }

    fn stmt(&mut self, stmt: &Stmt) {
        match stmt {
            Stmt::VarDecl(decl) => self.var_decl(decl),
            Stmt::Block(stmts) => self.stmts(stmts),
            Stmt::Choose(branches) => branches.iter().for_each(|branch| self.stmt(branch)),
            Stmt::Call { args, .. } => args.iter().for_each(|argument| {
                if argument.mode == ParameterMode::In {
                    self.not_led_by(&argument.arg, &["out", "inout"]);
                }
                self.expr(&argument.arg);
            }),
            Stmt::Assign { rhs: e, .. } => self.expr(e),
            Stmt::Check(e) | Stmt::Assume(e) | Stmt::Reach(e) | Stmt::Assert(e) | Stmt::Probe(e) => {
                self.expr(e)
            }
            Stmt::AForall { body, .. } | Stmt::Labeled { body, .. } => self.stmt(body),
            Stmt::If(stmt) => {
                self.not_led_by(&stmt.cond, &["case"]);
                self.expr(&stmt.cond);
                self.stmt(&stmt.thn);
                self.stmt(&stmt.els);
            }
            Stmt::IfCase(cases) => cases.iter().for_each(|case| {
                self.expr(&case.cond);
                self.stmt(&case.body);
            }),
            Stmt::Loop { invariants, body } => {
                self.aexprs(invariants);
                self.stmt(body);
            }
            Stmt::Reinit(_) | Stmt::Exit(_) | Stmt::Return => {}
        }
    }

    fn var_decl(&mut self, decl: &VarDecl) {
        if let Some(auto_inv) = &decl.variable.auto_inv {
            self.note(decl.init.is_some() && ends_with_name(auto_inv), Cause::AutoInvariantLabel);
            self.expr(auto_inv);
        }
        if let Some(init) = &decl.init {
            self.expr(init);
        }
        self.stmt(&decl.body);
    }

    fn exprs(&mut self, exprs: &[Expr]) {
        exprs.iter().for_each(|expr| self.expr(expr));
    }

    fn expr(&mut self, expr: &Expr) {
        match expr {
            Expr::OperatorExpr { op, args } => {
                if let (Operator::IfThenElse, [guard, thn, _]) = (op, &args.0[..]) {
                    self.apart(guard, thn);
                }
                self.note(drops_brackets(*op, &args.0), Cause::RightOperand);
                self.exprs(&args.0);
            }
            Expr::FunctionCallExpr { args, .. } => self.exprs(args),
            Expr::LabeledExpr { body, .. } => self.expr(body),
            Expr::LetExpr(node) => {
                self.apart(&node.rhs, &node.body);
                self.expr(&node.rhs);
                self.expr(&node.body);
            }
            Expr::QuantifierExpr(node) => self.quantifier(node),
            Expr::ClosureExpr(node) => self.closure(node),
            Expr::BLiteral(_) | Expr::ILiteral(_) | Expr::CustomLiteral { .. } | Expr::IdExpr { .. } => {}
        }
    }

    fn quantifier(&mut self, node: &Quantifier) {
        self.not_led_by(&node.body, &["pattern"]);
        if let Some(last) = node.patterns.last().and_then(|pattern| pattern.exprs.last()) {
            self.apart(last, &node.body);
        }
        node.patterns.iter().for_each(|pattern| self.exprs(&pattern.exprs));
        self.expr(&node.body);
    }

    fn closure(&mut self, node: &Closure) {
        node.bindings.iter().for_each(|binding| self.expr(&binding.rhs));
        for property in &node.properties {
            self.note(!property.triggers.is_empty(), Cause::Trigger);
            self.not_led_by(&property.body, &["trigger"]);
            property.triggers.iter().for_each(|trigger| self.exprs(&trigger.exprs));
            self.expr(&property.body);
        }
    }

    fn not_led_by(&mut self, expr: &Expr, words: &[&str]) {
        let print = print(expr);
        let led = words.iter().any(|word| led_by(&print, word.as_bytes()));
        self.note(led, Cause::LeadingKeyword);
    }

    /// `second` is printed after `first` with nothing between.
    fn apart(&mut self, first: &Expr, second: &Expr) {
        let second = print(second);
        let call = second.starts_with(b"(") && ends_with_name(first);
        let goes_on = second.starts_with(b"-") || led_by(&second, b"div") || led_by(&second, b"mod");
        self.note(call || goes_on, Cause::Juxtaposition);
    }
}

fn print(expr: &Expr) -> Vec<u8> {
    print_expression(expr, Format::SingleLine, OUTPUT_LIMIT).unwrap_or_default()
}

fn is_identifier_byte(byte: u8) -> bool {
    byte.is_ascii_alphanumeric() || b"%_$.".contains(&byte)
}

fn led_by(print: &[u8], word: &[u8]) -> bool {
    match print.strip_prefix(word) {
        Some([next, ..]) => !is_identifier_byte(*next),
        Some([]) => true,
        None => false,
    }
}

/// Whether the last token is a name after which `:` or `(` would go on.
fn ends_with_name(expr: &Expr) -> bool {
    match expr {
        Expr::IdExpr { is_old, .. } => !is_old,
        Expr::OperatorExpr { args, .. } => {
            args.0.last().is_some_and(ends_with_name) && print(expr).last().is_some_and(|&byte| byte != b')')
        }
        Expr::LabeledExpr { body, .. } => ends_with_name(body),
        Expr::LetExpr(node) => ends_with_name(&node.body),
        Expr::QuantifierExpr(node) => ends_with_name(&node.body),
        _ => false,
    }
}

/// Whether a statement is led by a name and its mark, or by no word at all.
fn is_marked(stmt: &Stmt) -> bool {
    match stmt {
        Stmt::Assign { .. } | Stmt::Call { .. } | Stmt::Labeled { .. } | Stmt::Block(_) => true,
        Stmt::Check(e) | Stmt::Assume(e) | Stmt::Reach(e) | Stmt::Assert(e) | Stmt::Probe(e) => {
            print(e).starts_with(b"(")
        }
        Stmt::If(stmt) => print(&stmt.cond).starts_with(b"("),
        _ => false,
    }
}

fn ends_without_else(stmt: &Stmt) -> bool {
    match stmt {
        Stmt::If(stmt) => stmt.els.is_empty_block() || ends_without_else(&stmt.els),
        _ => false,
    }
}

fn led_by_else(stmt: &Stmt) -> bool {
    match stmt {
        Stmt::Assign { lhs: name, .. } | Stmt::Call { name, .. } | Stmt::Labeled { lbl: name, .. } => {
            *name == b"else"
        }
        _ => false,
    }
}

/// The right operands that a faithful tree doesn't have.
fn drops_brackets(op: Operator, args: &[Expr]) -> bool {
    let [_, Expr::OperatorExpr { op: right, .. }] = args else { return false };
    match op {
        Operator::Equiv | Operator::LogicalAnd | Operator::LogicalOr => *right == op,
        Operator::Plus => matches!(right, Operator::Plus | Operator::Minus),
        Operator::Times => matches!(right, Operator::Times | Operator::Div | Operator::Mod),
        _ => false,
    }
}
