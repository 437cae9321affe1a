// The parser library that Parser.dfy is written over, as far as it is used, rebuilt from REFERENCE ("Choice and
// repetition", "Blanks and tokens") and from how it is used: its source isn't at hand.
module {:extern "Slices"} Slices {
  // The rest of a text.
  datatype Input = Input(text: string, at: nat)

  function method Length(input: Input): nat { |input.text| - input.at }

  function method CharAt(input: Input, i: nat): char { input.text[input.at + i] }

  function method Drop(input: Input, n: nat): Input { Input(input.text, input.at + n) }

  function method Take(input: Input, n: nat): string { input.text[input.at..input.at + n] }
}

module {:extern "Parsers"} Parsers {
  import opened Wrappers
  import opened Slices
  import A = Slices

  datatype Level = Fatal | Recoverable

  datatype FailureData = FailureData(message: string, remaining: Input, next: Option<FailureData>)

  datatype ParseResult<R> = ParseFailure(level: Level, data: FailureData) | ParseSuccess(result: R, remaining: Input)

  function method IsFailure<R>(p: ParseResult<R>): bool { p.ParseFailure? }

  function method IsFatal<R>(p: ParseResult<R>): bool { p.ParseFailure? && p.level.Fatal? }

  function method IsFatalFailure<R>(p: ParseResult<R>): bool { IsFatal(p) }

  function method Failure<R>(message: string, input: Input): ParseResult<R> {
    ParseFailure(Recoverable, FailureData(message, input, None))
  }

  // A failure that kept nothing: another branch may be tried.
  function method KeptNothing<R>(p: ParseResult<R>, input: Input): bool {
    p.ParseFailure? && p.level.Recoverable? && p.data.remaining.at == input.at
  }

  function method Not<R>(p: Input -> ParseResult<R>): Input -> ParseResult<()> {
    (input: Input) =>
      if IsFailure(p(input)) then ParseSuccess((), input) else Failure("not expected", input)
  }

  function method Lookahead<R>(p: Input -> ParseResult<R>): Input -> ParseResult<R> {
    (input: Input) =>
      var r := p(input);
      if r.ParseFailure? then Failure(r.data.message, input) else ParseSuccess(r.result, input)
  }
}

module {:extern "StringBuilders"} StringBuilders {
  import opened Wrappers
  import opened Slices
  import opened Parsers

  // A parser. Its constructor is `MakeB`, in Library.cs, since a function can't make an object.
  class {:extern "B"} B<R> {
    function method {:extern "apply"} apply(input: Input): ParseResult<R>

    function method e_I<U>(other: B<U>): B<U> {
      Then(_ => other)
    }

    function method I_e<U>(other: B<U>): B<R> {
      Then(r => other.M(_ => r))
    }

    function method I_I<U>(other: B<U>): B<(R, U)> {
      Then(r => other.M(u => (r, u)))
    }

    function method M<U>(f: R -> U): B<U> {
      MakeB((input: Input) =>
        var p := apply(input);
        if p.ParseFailure? then ParseFailure(p.level, p.data) else ParseSuccess(f(p.result), p.remaining))
    }

    function method M2<V, W, U>(unfold: R -> (V, W), f: (V, W) -> U): B<U> {
      M(r => var t := unfold(r); f(t.0, t.1))
    }

    function method M3<V, W, X, U>(unfold: R -> (V, W, X), f: (V, W, X) -> U): B<U> {
      M(r => var t := unfold(r); f(t.0, t.1, t.2))
    }

    function method Then<U>(next: R -> B<U>): B<U> {
      MakeB((input: Input) =>
        var p := apply(input);
        if p.ParseFailure? then ParseFailure(p.level, p.data) else next(p.result).apply(p.remaining))
    }

    function method Option(): B<Option<R>> {
      MakeB((input: Input) =>
        var p := apply(input);
        if KeptNothing(p, input) then ParseSuccess(None, input)
        else if p.ParseFailure? then ParseFailure(p.level, p.data)
        else ParseSuccess(Some(p.result), p.remaining))
    }

    function method Rep(): B<seq<R>> {
      MakeB((input: Input) => RepFrom([], input))
    }

    function method RepFrom(before: seq<R>, input: Input): ParseResult<seq<R>> {
      var p := apply(input);
      if KeptNothing(p, input) then ParseSuccess(before, input)
      else if p.ParseFailure? then ParseFailure(p.level, p.data)
      else RepFrom(before + [p.result], p.remaining)
    }

    function method RepSep<U>(separator: B<U>): B<seq<R>> {
      Option().Then((first: Option<R>) =>
        if first.None? then Succeed([])
        else separator.e_I(this).Rep().M((rest: seq<R>) => [first.value] + rest))
    }

    // REFERENCE, "Choice and repetition": after `==>`, `<==`, `&&` and `||` an operand must follow.
    function method RepSepNonempty<U>(separator: B<U>): B<seq<R>> {
      Then((first: R) => separator.e_I(this).Rep().M((rest: seq<R>) => [first] + rest))
    }
  }

  function method {:extern "MakeB"} MakeB<R>(f: Input -> ParseResult<R>): B<R>

  function method MId<X>(x: X): X { x }

  function method Succeed<R>(r: R): B<R> {
    MakeB((input: Input) => ParseSuccess(r, input))
  }

  const Nothing: B<()> := Succeed(())

  const EOS: B<()> :=
    MakeB((input: Input) => if Length(input) == 0 then ParseSuccess((), input) else Failure("expected the end", input))

  function method S(s: string): B<string> {
    MakeB((input: Input) =>
      if |s| <= Length(input) && Take(input, |s|) == s then ParseSuccess(s, Drop(input, |s|)) else Failure("expected " + s, input))
  }

  function method CharTest(test: char -> bool, name: string): B<char> {
    MakeB((input: Input) =>
      if Length(input) > 0 && test(CharAt(input, 0)) then ParseSuccess(CharAt(input, 0), Drop(input, 1))
      else Failure("expected " + name, input))
  }

  // Space, tab, CR, LF.
  const WS: B<string> := CharTest(c => c in " \t\r\n", "blank").Rep()

  const Nat: B<nat> :=
    CharTest(c => '0' <= c <= '9', "digit").Then((first: char) =>
      CharTest(c => '0' <= c <= '9', "digit").Rep().M((rest: string) => Value([first] + rest)))

  function method Value(digits: string): nat {
    if digits == "" then 0 else Value(digits[..|digits| - 1]) * 10 + (digits[|digits| - 1] as int - '0' as int)
  }

  function method Or<R>(branches: seq<B<R>>): B<R> {
    MakeB((input: Input) => OrFrom(branches, input))
  }

  function method O<R>(branches: seq<B<R>>): B<R> {
    Or(branches)
  }

  function method OrFrom<R>(branches: seq<B<R>>, input: Input): ParseResult<R> {
    var p := branches[0].apply(input);
    if |branches| > 1 && KeptNothing(p, input) then OrFrom(branches[1..], input) else p
  }

  type RecMapSel<!R> = string -> B<R>

  datatype RecMapDef<!R> = RecMapDef(order: nat, definition: RecMapSel<R> -> B<R>)

  // The rule named `rule`, whose parts are the rules of the same map.
  function method RecMap<R>(rules: map<string, RecMapDef<R>>, rule: string): B<R> {
    MakeB((input: Input) => rules[rule].definition((part: string) => RecMap(rules, part)).apply(input))
  }
}

module Seq {
  function method Map<X, Y>(f: X -> Y, s: seq<X>): seq<Y> {
    if s == [] then [] else [f(s[0])] + Map(f, s[1..])
  }

  function method Join(s: seq<string>, separator: string): string {
    if s == [] then "" else if |s| == 1 then s[0] else s[0] + separator + Join(s[1..], separator)
  }
}
