// Trees from the words of a table, by REFERENCE, "The tree words". The table is one tree over the text; that isn't
// checked here.
module Tables {
  import opened Wrappers
  import opened RawAst

  class Table {
    var words: seq<int>
    var text: string
    var at: int

    constructor (words: seq<int>, text: string) {
      this.words := words;
      this.text := text;
      this.at := 0;
    }

    method Word() returns (word: int) {
      word := words[at];
      at := at + 1;
    }

    method Bool() returns (value: bool) {
      var word := Word();
      value := word == 1;
    }

    // Whether an option has content, or a sequence one more item.
    method More() returns (more: bool) {
      more := Bool();
    }

    method Name() returns (name: string) {
      var start := Word();
      var length := Word();
      name := text[start..start + length];
    }

    method Names() returns (names: seq<string>) {
      names := [];
      var more := More();
      while more {
        var name := Name();
        names := names + [name];
        more := More();
      }
    }

    method OptionalName() returns (name: Option<string>) {
      name := None;
      var more := More();
      if more {
        var content := Name();
        name := Some(content);
      }
    }

    method OptionalExpr() returns (expr: Option<Expr>) {
      expr := None;
      var more := More();
      if more {
        var content := Expression();
        expr := Some(content);
      }
    }

    method Mode() returns (mode: ParameterMode) {
      var word := Word();
      mode := [In, InOut, Out][word - 1];
    }

    method Program() returns (program: Program) {
      var types := Names();
      var taggers, functions, axioms, procedures := [], [], [], [];
      var more := More();
      while more {
        var name := Name();
        var typ := Name();
        taggers := taggers + [Tagger(name, typ)];
        more := More();
      }
      more := More();
      while more {
        var function_ := FunctionDecl();
        functions := functions + [function_];
        more := More();
      }
      more := More();
      while more {
        var explains := Names();
        var expr := Expression();
        axioms := axioms + [Axiom(explains, expr)];
        more := More();
      }
      more := More();
      while more {
        var procedure := ProcedureDecl();
        procedures := procedures + [procedure];
        more := More();
      }
      program := RawAst.Program(types, taggers, functions, axioms, procedures);
    }

    method FunctionDecl() returns (function_: Function) {
      var name := Name();
      var parameters := [];
      var more := More();
      while more {
        var parameter := Name();
        var injective := Bool();
        var typ := Name();
        parameters := parameters + [FParameter(parameter, injective, typ)];
        more := More();
      }
      var resultType := Name();
      var tag := OptionalName();
      var definition: Option<FunctionDefinition> := None;
      more := More();
      if more {
        var when := Expressions();
        var body := Expression();
        definition := Some(FunctionDefinition(when, body));
      }
      function_ := Function(name, parameters, resultType, tag, definition);
    }

    method ProcedureDecl() returns (procedure: Procedure) {
      var name := Name();
      var parameters := [];
      var more := More();
      while more {
        var parameter := Name();
        var mode := Mode();
        var typ := Name();
        var autoInv := OptionalExpr();
        parameters := parameters + [PParameter(parameter, mode, typ, autoInv)];
        more := More();
      }
      var pre := AExprs();
      var post := AExprs();
      var body: Option<Stmt> := None;
      more := More();
      if more {
        var stmt := Statement();
        body := Some(stmt);
      }
      procedure := Procedure(name, parameters, pre, post, body);
    }

    method AExprs() returns (aexprs: seq<AExpr>) {
      aexprs := [];
      var more := More();
      while more {
        var kind := Word();
        if kind == 1 {
          var e := Expression();
          aexprs := aexprs + [AExpr(e)];
        } else {
          var s := Statement();
          aexprs := aexprs + [AAssertion(s)];
        }
        more := More();
      }
    }

    method Statements() returns (stmts: seq<Stmt>) {
      stmts := [];
      var more := More();
      while more {
        var stmt := Statement();
        stmts := stmts + [stmt];
        more := More();
      }
    }

    method Statement() returns (stmt: Stmt) {
      var kind := Word();
      if kind == 21 {
        var name := Name();
        var isMutable := Bool();
        var optionalType := OptionalName();
        var optionalAutoInv := OptionalExpr();
        var init := OptionalExpr();
        var body := Statement();
        stmt := VarDecl(Variable(name, isMutable, optionalType, optionalAutoInv), init, body);
      } else if kind == 22 {
        var lhs := Name();
        var rhs := Expression();
        stmt := Assign(lhs, rhs);
      } else if kind == 23 {
        var vars := Names();
        stmt := Reinit(vars);
      } else if kind == 24 {
        var stmts := Statements();
        stmt := Block(stmts);
      } else if kind == 25 {
        var name := Name();
        var args := [];
        var more := More();
        while more {
          var mode := Mode();
          var arg := Expression();
          args := args + [CallArgument(mode, arg)];
          more := More();
        }
        stmt := Call(name, args);
      } else if 26 <= kind <= 29 || kind == 38 {
        var e := Expression();
        stmt := if kind == 26 then Check(e) else if kind == 27 then Assume(e) else if kind == 28 then Reach(e) else if kind == 29 then Assert(e) else Probe(e);
      } else if kind == 30 {
        var name := Name();
        var typ := Name();
        var body := Statement();
        stmt := AForall(name, typ, body);
      } else if kind == 31 {
        var branches := Statements();
        stmt := Choose(branches);
      } else if kind == 32 {
        var cond := Expression();
        var thn := Statement();
        var els := Statement();
        stmt := If(cond, thn, els);
      } else if kind == 33 {
        var cases := [];
        var more := More();
        while more {
          var cond := Expression();
          var body := Statement();
          cases := cases + [Case(cond, body)];
          more := More();
        }
        stmt := IfCase(cases);
      } else if kind == 34 {
        var invariants := AExprs();
        var body := Statement();
        stmt := Loop(invariants, body);
      } else if kind == 35 {
        var lbl := Name();
        var body := Statement();
        stmt := LabeledStmt(lbl, body);
      } else if kind == 36 {
        var maybeLabel := OptionalName();
        stmt := Exit(maybeLabel);
      } else {
        stmt := Return;
      }
    }

    method Expressions() returns (exprs: seq<Expr>) {
      exprs := [];
      var more := More();
      while more {
        var expr := Expression();
        exprs := exprs + [expr];
        more := More();
      }
    }

    method Bindings() returns (bindings: seq<Binding>) {
      bindings := [];
      var more := More();
      while more {
        var name := Name();
        var typ := Name();
        bindings := bindings + [Binding(name, typ)];
        more := More();
      }
    }

    method Patterns() returns (patterns: seq<Pattern>) {
      patterns := [];
      var more := More();
      while more {
        var exprs := Expressions();
        patterns := patterns + [Pattern(exprs)];
        more := More();
      }
    }

    method Expression() returns (expr: Expr) {
      var kind := Word();
      if kind == 1 {
        var value := Bool();
        expr := BLiteral(value);
      } else if kind == 2 {
        var high := Word();
        var low := Word();
        expr := ILiteral(high * 0x1_0000_0000 + low);
      } else if kind == 3 {
        var s := Name();
        var typ := Name();
        expr := CustomLiteral(s, typ);
      } else if kind == 4 {
        var name := Name();
        var isOld := Bool();
        expr := IdExpr(name, isOld);
      } else if kind == 5 {
        var operator := Word();
        var args := Expressions();
        expr := OperatorExpr(Operators()[operator - 1], args);
      } else if kind == 6 {
        var name := Name();
        var args := Expressions();
        expr := FunctionCallExpr(name, args);
      } else if kind == 7 {
        var name := Name();
        var body := Expression();
        expr := LabeledExpr(name, body);
      } else if kind == 8 {
        var name := Name();
        var optionalType := OptionalName();
        var rhs := Expression();
        var body := Expression();
        expr := LetExpr(name, optionalType, rhs, body);
      } else if kind == 9 {
        var univ := Bool();
        var bindings := Bindings();
        var patterns := Patterns();
        var body := Expression();
        expr := QuantifierExpr(univ, bindings, patterns, body);
      } else {
        var bindings := [];
        var more := More();
        while more {
          var name := Name();
          var params := Bindings();
          var rhs := Expression();
          bindings := bindings + [ClosureBinding(name, params, rhs)];
          more := More();
        }
        var resultVar := Name();
        var resultType := Name();
        var properties := [];
        more := More();
        while more {
          var triggers := Patterns();
          var body := Expression();
          properties := properties + [ClosureProperty(triggers, body)];
          more := More();
        }
        expr := ClosureExpr(bindings, resultVar, resultType, properties);
      }
    }
  }

  // In the datatype's order.
  function method Operators(): seq<Operator> {
    [IfThenElse, Equiv, LogicalImp, LogicalAnd, LogicalOr, Eq, Neq, Less, AtMost, Plus, Minus, Times, Div, Mod, LogicalNot,
      UnaryMinus]
  }
}

// The prints of tables, by upstream's own methods.
module {:extern "Prints"} Prints {
  import opened Wrappers
  import opened RawAst
  import opened Tables
  import PrintUtil
  import Printer

  method PrintProgram(words: seq<int>, text: string) {
    var table := new Table(words, text);
    var program := table.Program();
    Printer.Program(program);
  }

  method PrintExpression(words: seq<int>, text: string) {
    var table := new Table(words, text);
    var expr := table.Expression();
    Printer.Expression(expr, PrintUtil.Init, PrintUtil.SingleLine);
  }

  method PrintExpressionLines(words: seq<int>, text: string, indent: nat) {
    var table := new Table(words, text);
    var expr := table.Expression();
    Printer.Expression(expr, PrintUtil.Init, PrintUtil.MultipleLines(indent));
  }
}
