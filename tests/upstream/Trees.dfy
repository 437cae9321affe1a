// The words of a tree, by REFERENCE, "The tree words", over a text made of the tree's names: upstream's trees hold
// names, not their places.
module Trees {
  import opened Wrappers
  import opened RawAst
  import opened Tables

  class Words {
    var names: string

    constructor () {
      this.names := "";
    }

    method Word(word: int) {
      print " ", word;
    }

    method Bool(value: bool) {
      Word(if value then 1 else 0);
    }

    method Name(name: string) {
      Word(|names|);
      Word(|name|);
      names := names + name;
    }

    method Names(list: seq<string>) {
      var i := 0;
      while i < |list| {
        Word(1);
        Name(list[i]);
        i := i + 1;
      }
      Word(0);
    }

    method OptionalName(name: Option<string>) {
      Bool(name.Some?);
      if name.Some? {
        Name(name.value);
      }
    }

    method OptionalExpr(expr: Option<Expr>) {
      Bool(expr.Some?);
      if expr.Some? {
        Expression(expr.value);
      }
    }

    method Mode(mode: ParameterMode) {
      Word(match mode case In => 1 case InOut => 2 case Out => 3);
    }

    method Program(b3: Program) {
      Names(b3.types);
      var i := 0;
      while i < |b3.taggers| {
        Word(1);
        Name(b3.taggers[i].name);
        Name(b3.taggers[i].typ);
        i := i + 1;
      }
      Word(0);
      i := 0;
      while i < |b3.functions| {
        Word(1);
        FunctionDecl(b3.functions[i]);
        i := i + 1;
      }
      Word(0);
      i := 0;
      while i < |b3.axioms| {
        Word(1);
        Names(b3.axioms[i].explains);
        Expression(b3.axioms[i].expr);
        i := i + 1;
      }
      Word(0);
      i := 0;
      while i < |b3.procedures| {
        Word(1);
        ProcedureDecl(b3.procedures[i]);
        i := i + 1;
      }
      Word(0);
    }

    method FunctionDecl(func: Function) {
      Name(func.name);
      var i := 0;
      while i < |func.parameters| {
        Word(1);
        Name(func.parameters[i].name);
        Bool(func.parameters[i].injective);
        Name(func.parameters[i].typ);
        i := i + 1;
      }
      Word(0);
      Name(func.resultType);
      OptionalName(func.tag);
      Bool(func.definition.Some?);
      if func.definition.Some? {
        Expressions(func.definition.value.when);
        Expression(func.definition.value.body);
      }
    }

    method ProcedureDecl(proc: Procedure) {
      Name(proc.name);
      var i := 0;
      while i < |proc.parameters| {
        Word(1);
        Name(proc.parameters[i].name);
        Mode(proc.parameters[i].mode);
        Name(proc.parameters[i].typ);
        OptionalExpr(proc.parameters[i].optionalAutoInv);
        i := i + 1;
      }
      Word(0);
      AExprs(proc.pre);
      AExprs(proc.post);
      Bool(proc.body.Some?);
      if proc.body.Some? {
        Statement(proc.body.value);
      }
    }

    method AExprs(aexprs: seq<AExpr>) {
      var i := 0;
      while i < |aexprs| {
        Word(1);
        match aexprs[i] {
          case AExpr(e) =>
            Word(1);
            Expression(e);
          case AAssertion(s) =>
            Word(2);
            Statement(s);
        }
        i := i + 1;
      }
      Word(0);
    }

    method Statements(stmts: seq<Stmt>) {
      var i := 0;
      while i < |stmts| {
        Word(1);
        Statement(stmts[i]);
        i := i + 1;
      }
      Word(0);
    }

    method Statement(stmt: Stmt) {
      match stmt
      case VarDecl(v, init, body) =>
        Word(21);
        Name(v.name);
        Bool(v.isMutable);
        OptionalName(v.optionalType);
        OptionalExpr(v.optionalAutoInv);
        OptionalExpr(init);
        Statement(body);
      case Assign(lhs, rhs) =>
        Word(22);
        Name(lhs);
        Expression(rhs);
      case Reinit(vars) =>
        Word(23);
        Names(vars);
      case Block(stmts) =>
        Word(24);
        Statements(stmts);
      case Call(name, args) =>
        Word(25);
        Name(name);
        var i := 0;
        while i < |args| {
          Word(1);
          Mode(args[i].mode);
          Expression(args[i].arg);
          i := i + 1;
        }
        Word(0);
      case Check(e) =>
        Word(26);
        Expression(e);
      case Assume(e) =>
        Word(27);
        Expression(e);
      case Reach(e) =>
        Word(28);
        Expression(e);
      case Assert(e) =>
        Word(29);
        Expression(e);
      case AForall(name, typ, body) =>
        Word(30);
        Name(name);
        Name(typ);
        Statement(body);
      case Choose(branches) =>
        Word(31);
        Statements(branches);
      case If(cond, thn, els) =>
        Word(32);
        Expression(cond);
        Statement(thn);
        Statement(els);
      case IfCase(cases) =>
        Word(33);
        var i := 0;
        while i < |cases| {
          Word(1);
          Expression(cases[i].cond);
          Statement(cases[i].body);
          i := i + 1;
        }
        Word(0);
      case Loop(invariants, body) =>
        Word(34);
        AExprs(invariants);
        Statement(body);
      case LabeledStmt(lbl, body) =>
        Word(35);
        Name(lbl);
        Statement(body);
      case Exit(lbl) =>
        Word(36);
        OptionalName(lbl);
      case Return =>
        Word(37);
      case Probe(e) =>
        Word(38);
        Expression(e);
    }

    method Expressions(exprs: seq<Expr>) {
      var i := 0;
      while i < |exprs| {
        Word(1);
        Expression(exprs[i]);
        i := i + 1;
      }
      Word(0);
    }

    method Bindings(bindings: seq<Binding>) {
      var i := 0;
      while i < |bindings| {
        Word(1);
        Name(bindings[i].name);
        Name(bindings[i].typ);
        i := i + 1;
      }
      Word(0);
    }

    method Patterns(patterns: seq<Pattern>) {
      var i := 0;
      while i < |patterns| {
        Word(1);
        Expressions(patterns[i].exprs);
        i := i + 1;
      }
      Word(0);
    }

    method Expression(expr: Expr) {
      match expr
      case BLiteral(value) =>
        Word(1);
        Bool(value);
      case ILiteral(value) =>
        Word(2);
        Word(value / 0x1_0000_0000);
        Word(value % 0x1_0000_0000);
      case CustomLiteral(s, typ) =>
        Word(3);
        Name(s);
        Name(typ);
      case IdExpr(name, isOld) =>
        Word(4);
        Name(name);
        Bool(isOld);
      case OperatorExpr(op, args) =>
        Word(5);
        var i := 0;
        while Operators()[i] != op {
          i := i + 1;
        }
        Word(i + 1);
        Expressions(args);
      case FunctionCallExpr(name, args) =>
        Word(6);
        Name(name);
        Expressions(args);
      case LabeledExpr(name, body) =>
        Word(7);
        Name(name);
        Expression(body);
      case LetExpr(name, optionalType, rhs, body) =>
        Word(8);
        Name(name);
        OptionalName(optionalType);
        Expression(rhs);
        Expression(body);
      case QuantifierExpr(univ, bindings, patterns, body) =>
        Word(9);
        Bool(univ);
        Bindings(bindings);
        Patterns(patterns);
        Expression(body);
      case ClosureExpr(closureBindings, resultVar, resultType, properties) =>
        Word(10);
        var i := 0;
        while i < |closureBindings| {
          Word(1);
          Name(closureBindings[i].name);
          Bindings(closureBindings[i].params);
          Expression(closureBindings[i].rhs);
          i := i + 1;
        }
        Word(0);
        Name(resultVar);
        Name(resultType);
        i := 0;
        while i < |properties| {
          Word(1);
          Patterns(properties[i].triggers);
          Expression(properties[i].body);
          i := i + 1;
        }
        Word(0);
    }
  }
}

// Readings by upstream's own parsers. A tree is written as its words; the answer is the text of its names, or nothing and
// the place of the failure.
module {:extern "Readings"} Readings {
  import opened Wrappers
  import opened RawAst
  import opened Slices
  import opened Trees
  import P = Parsers
  import opened StringBuilders
  import Parser

  method ReadProgram(text: string) returns (names: string, failedAt: int) {
    var p := Parser.TopLevel.apply(Input(text, 0));
    match p
    case ParseSuccess(program, _) =>
      var words := new Words();
      words.Program(program);
      return words.names, -1;
    case ParseFailure(_, data) =>
      return "", data.remaining.at;
  }

  // REFERENCE, "The entries": leading blanks are passed as `TopLevel` does, and the text ends after the expression.
  method ReadExpression(text: string) returns (names: string, failedAt: int) {
    var p := Parser.W.e_I(Parser.parseExpr).I_e(EOS).apply(Input(text, 0));
    match p
    case ParseSuccess(expr, _) =>
      var words := new Words();
      words.Expression(expr);
      return words.names, -1;
    case ParseFailure(_, data) =>
      return "", data.remaining.at;
  }
}
