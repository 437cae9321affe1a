// What Library.dfy can't write: a parser is an object that holds a function, and a function can't make objects.
using System;

namespace StringBuilders {
  public partial class B<R> {
    public Func<Slices.Input, Parsers.ParseResult<R>> parse;

    public Parsers.ParseResult<R> apply(Slices.Input input) {
      return parse(input);
    }
  }

  public partial class __default {
    public static B<R> MakeB<R>(Func<Slices.Input, Parsers.ParseResult<R>> parse) {
      return new B<R> { parse = parse };
    }
  }
}
