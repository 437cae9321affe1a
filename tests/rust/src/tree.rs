//! The raw trees of RawAst.dfy. A name is the part of the text that it occupies, so that trees are equal when
//! their names are equal as bytes.

pub type Name<'a> = &'a [u8];

#[derive(Debug, Default, PartialEq)]
pub struct Program<'a> {
    pub types: Vec<Name<'a>>,
    pub taggers: Vec<Tagger<'a>>,
    pub functions: Vec<Function<'a>>,
    pub axioms: Vec<Axiom<'a>>,
    pub procedures: Vec<Procedure<'a>>,
}

#[derive(Debug, PartialEq)]
pub struct Tagger<'a> {
    pub name: Name<'a>,
    pub typ: Name<'a>,
}

#[derive(Debug, PartialEq)]
pub struct Function<'a> {
    pub name: Name<'a>,
    pub parameters: Vec<FParameter<'a>>,
    pub result_type: Name<'a>,
    pub tag: Option<Name<'a>>,
    pub definition: Option<FunctionDefinition<'a>>,
}

#[derive(Debug, PartialEq)]
pub struct FParameter<'a> {
    pub name: Name<'a>,
    pub injective: bool,
    pub typ: Name<'a>,
}

#[derive(Debug, PartialEq)]
pub struct FunctionDefinition<'a> {
    pub when: Vec<Expr<'a>>,
    pub body: Expr<'a>,
}

#[derive(Debug, PartialEq)]
pub struct Axiom<'a> {
    pub explains: Vec<Name<'a>>,
    pub expr: Expr<'a>,
}

#[derive(Debug, PartialEq)]
pub struct Procedure<'a> {
    pub name: Name<'a>,
    pub parameters: Vec<PParameter<'a>>,
    pub pre: Vec<AExpr<'a>>,
    pub post: Vec<AExpr<'a>>,
    pub body: Option<Stmt<'a>>,
}

#[derive(Debug, PartialEq)]
pub struct PParameter<'a> {
    pub name: Name<'a>,
    pub mode: ParameterMode,
    pub typ: Name<'a>,
    pub auto_inv: Option<Expr<'a>>,
}

#[derive(Clone, Copy, Debug, PartialEq, Eq)]
pub enum ParameterMode {
    In = 1,
    InOut = 2,
    Out = 3,
}

#[derive(Debug, PartialEq)]
pub struct Variable<'a> {
    pub name: Name<'a>,
    pub is_mutable: bool,
    pub optional_type: Option<Name<'a>>,
    pub auto_inv: Option<Expr<'a>>,
}

#[derive(Debug, PartialEq)]
pub enum Stmt<'a> {
    VarDecl(Box<VarDecl<'a>>),
    Assign { lhs: Name<'a>, rhs: Expr<'a> },
    Reinit(Vec<Name<'a>>),
    Block(Vec<Stmt<'a>>),
    Call { name: Name<'a>, args: Vec<CallArgument<'a>> },
    Check(Expr<'a>),
    Assume(Expr<'a>),
    Reach(Expr<'a>),
    Assert(Expr<'a>),
    AForall { name: Name<'a>, typ: Name<'a>, body: Box<Stmt<'a>> },
    Choose(Vec<Stmt<'a>>),
    If(Box<If<'a>>),
    IfCase(Vec<Case<'a>>),
    Loop { invariants: Vec<AExpr<'a>>, body: Box<Stmt<'a>> },
    Labeled { lbl: Name<'a>, body: Box<Stmt<'a>> },
    Exit(Option<Name<'a>>),
    Return,
    Probe(Expr<'a>),
}

#[derive(Debug, PartialEq)]
pub struct VarDecl<'a> {
    pub variable: Variable<'a>,
    pub init: Option<Expr<'a>>,
    pub body: Stmt<'a>,
}

#[derive(Debug, PartialEq)]
pub struct If<'a> {
    pub cond: Expr<'a>,
    pub thn: Stmt<'a>,
    pub els: Stmt<'a>,
}

#[derive(Debug, PartialEq)]
pub struct Case<'a> {
    pub cond: Expr<'a>,
    pub body: Stmt<'a>,
}

#[derive(Debug, PartialEq)]
pub struct CallArgument<'a> {
    pub mode: ParameterMode,
    pub arg: Expr<'a>,
}

#[derive(Debug, PartialEq)]
pub enum AExpr<'a> {
    Expr(Expr<'a>),
    Assertion(Stmt<'a>),
}

impl Stmt<'_> {
    pub fn is_empty_block(&self) -> bool {
        matches!(self, Stmt::Block(stmts) if stmts.is_empty())
    }
}

#[derive(Clone, Copy, Debug, PartialEq, Eq)]
pub enum Operator {
    IfThenElse = 1,
    Equiv,
    LogicalImp,
    LogicalAnd,
    LogicalOr,
    Eq,
    Neq,
    Less,
    AtMost,
    Plus,
    Minus,
    Times,
    Div,
    Mod,
    LogicalNot,
    UnaryMinus,
}

impl Operator {
    /// In datatype order, so that operator word `n` is the one at `n - 1`.
    pub const ALL: [Operator; 16] = [
        Operator::IfThenElse,
        Operator::Equiv,
        Operator::LogicalImp,
        Operator::LogicalAnd,
        Operator::LogicalOr,
        Operator::Eq,
        Operator::Neq,
        Operator::Less,
        Operator::AtMost,
        Operator::Plus,
        Operator::Minus,
        Operator::Times,
        Operator::Div,
        Operator::Mod,
        Operator::LogicalNot,
        Operator::UnaryMinus,
    ];

    pub fn argument_count(self) -> usize {
        match self {
            Operator::IfThenElse => 3,
            Operator::LogicalNot | Operator::UnaryMinus => 1,
            _ => 2,
        }
    }

    pub fn sign(self) -> &'static [u8] {
        match self {
            Operator::IfThenElse => b"if-then-else",
            Operator::Equiv => b"<==>",
            Operator::LogicalImp => b"==>",
            Operator::LogicalAnd => b"&&",
            Operator::LogicalOr => b"||",
            Operator::Eq => b"==",
            Operator::Neq => b"!=",
            Operator::Less => b"<",
            Operator::AtMost => b"<=",
            Operator::Plus => b"+",
            Operator::Minus | Operator::UnaryMinus => b"-",
            Operator::Times => b"*",
            Operator::Div => b"div",
            Operator::Mod => b"mod",
            Operator::LogicalNot => b"!",
        }
    }
}

#[derive(Debug, PartialEq)]
pub enum Expr<'a> {
    BLiteral(bool),
    ILiteral(u64),
    CustomLiteral { text: Name<'a>, typ: Name<'a> },
    IdExpr { name: Name<'a>, is_old: bool },
    OperatorExpr { op: Operator, args: Operands<'a> },
    FunctionCallExpr { name: Name<'a>, args: Vec<Expr<'a>> },
    LabeledExpr { name: Name<'a>, body: Box<Expr<'a>> },
    LetExpr(Box<Let<'a>>),
    QuantifierExpr(Box<Quantifier<'a>>),
    ClosureExpr(Box<Closure<'a>>),
}

#[derive(Debug, PartialEq)]
pub struct Operands<'a>(pub Vec<Expr<'a>>);

impl Drop for Operands<'_> {
    /// Takes a chain of operators apart in a loop, since it can be as deep as the text is long.
    fn drop(&mut self) {
        let mut pending = std::mem::take(&mut self.0);
        while let Some(mut expr) = pending.pop() {
            if let Expr::OperatorExpr { args, .. } = &mut expr {
                pending.append(&mut args.0);
            }
        }
    }
}

#[derive(Debug, PartialEq)]
pub struct Let<'a> {
    pub name: Name<'a>,
    pub optional_type: Option<Name<'a>>,
    pub rhs: Expr<'a>,
    pub body: Expr<'a>,
}

#[derive(Debug, PartialEq)]
pub struct Quantifier<'a> {
    pub univ: bool,
    pub bindings: Vec<Binding<'a>>,
    pub patterns: Vec<Pattern<'a>>,
    pub body: Expr<'a>,
}

#[derive(Debug, PartialEq)]
pub struct Closure<'a> {
    pub bindings: Vec<ClosureBinding<'a>>,
    pub result_var: Name<'a>,
    pub result_type: Name<'a>,
    pub properties: Vec<ClosureProperty<'a>>,
}

#[derive(Debug, PartialEq)]
pub struct Binding<'a> {
    pub name: Name<'a>,
    pub typ: Name<'a>,
}

#[derive(Debug, PartialEq)]
pub struct Pattern<'a> {
    pub exprs: Vec<Expr<'a>>,
}

#[derive(Debug, PartialEq)]
pub struct ClosureBinding<'a> {
    pub name: Name<'a>,
    pub params: Vec<Binding<'a>>,
    pub rhs: Expr<'a>,
}

#[derive(Debug, PartialEq)]
pub struct ClosureProperty<'a> {
    pub triggers: Vec<Pattern<'a>>,
    pub body: Expr<'a>,
}
