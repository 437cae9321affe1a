// Answers cases by upstream's own methods, in the line format of crates/trials: each line of standard input is printed
// with its answer after it. Its first byte chooses the entry:
//   p BYTES TABLE/TEXT           an expression's print on one line
//   m INDENT BYTES TABLE/TEXT    its print on several lines, from a start indent on
//   P BYTES TABLE/TEXT           a program's print
//   r WORDS TEXT                 an expression's reading
//   R WORDS TEXT                 a program's reading
// A TABLE is `1 ` and its words, a TEXT `1 ` and its bytes; `\n \t \r \\ \xHH` stand for their byte. BYTES and WORDS are
// passed over, since upstream has no such limits. A reading's answer is the tree's words over the text of its names, a
// slash and this text, or `failed at` and a place.
using System;
using System.Collections.Generic;
using System.Globalization;
using System.IO;
using System.Numerics;
using System.Text;
using System.Threading;

static class Lines {
  static readonly Encoding Bytes = Encoding.GetEncoding(28591);
  // Trees are as deep as their tables are long.
  const int Stack = 1 << 30;

  static void Main() {
    var thread = new Thread(Answers, Stack);
    thread.Start();
    thread.Join();
  }

  static void Answers() {
    var input = new StreamReader(Console.OpenStandardInput(), Bytes);
    using (var output = new StreamWriter(Console.OpenStandardOutput(), Bytes)) {
      for (var line = input.ReadLine(); line != null; line = input.ReadLine()) {
        output.Write(line + " => " + Answer(line) + "\n");
      }
    }
  }

  static string Answer(string line) {
    var written = new StringWriter();
    Console.SetOut(written);
    switch (line[0]) {
      case 'p':
        Print(line.Substring(2), (words, text) => Prints.__default.PrintExpression(words, text));
        break;
      case 'm':
        var space = line.IndexOf(' ', 2);
        var indent = BigInteger.Parse(line.Substring(2, space - 2));
        Print(line.Substring(space + 1), (words, text) => Prints.__default.PrintExpressionLines(words, text, indent));
        break;
      case 'P':
        Print(line.Substring(2), (words, text) => Prints.__default.PrintProgram(words, text));
        break;
      case 'r':
        return Reading(line, written, (string text, out Dafny.Sequence<char> names, out BigInteger failedAt) =>
          Readings.__default.ReadExpression(Sequence(text), out names, out failedAt));
      case 'R':
        return Reading(line, written, (string text, out Dafny.Sequence<char> names, out BigInteger failedAt) =>
          Readings.__default.ReadProgram(Sequence(text), out names, out failedAt));
      default:
        return "no such entry";
    }
    return "\"" + Escaped(written.ToString()) + "\"";
  }

  static void Print(string rest, Action<Dafny.Sequence<BigInteger>, Dafny.Sequence<char>> print) {
    var parts = rest.Substring(rest.IndexOf(' ') + 1);
    var slash = parts.IndexOf('/');
    print(Words(Piece(parts.Substring(0, slash))), Sequence(Piece(parts.Substring(slash + 1))));
  }

  delegate void Reader(string text, out Dafny.Sequence<char> names, out BigInteger failedAt);

  static string Reading(string line, StringWriter written, Reader read) {
    Dafny.Sequence<char> names;
    BigInteger failedAt;
    read(Piece(line.Substring(line.IndexOf(' ', 2) + 1)), out names, out failedAt);
    return failedAt < 0 ? written.ToString().TrimStart() + "/" + Escaped(names.ToString()) : "failed at " + failedAt;
  }

  // The bytes of a piece that stands once.
  static string Piece(string piece) {
    if (piece != "" && !piece.StartsWith("1 ")) {
      throw new FormatException("a piece that doesn't stand once: " + piece);
    }
    return piece == "" ? "" : Unescaped(piece.Substring(2));
  }

  static Dafny.Sequence<BigInteger> Words(string digits) {
    var words = new List<BigInteger>();
    foreach (var word in digits.Split(new[] { ' ' }, StringSplitOptions.RemoveEmptyEntries)) {
      words.Add(BigInteger.Parse(word));
    }
    return new Dafny.Sequence<BigInteger>(words.ToArray());
  }

  static Dafny.Sequence<char> Sequence(string text) {
    return Dafny.Sequence<char>.FromString(text);
  }

  static string Unescaped(string line) {
    var text = new StringBuilder();
    for (var at = 0; at < line.Length; at++) {
      if (line[at] != '\\') {
        text.Append(line[at]);
        continue;
      }
      at++;
      switch (line[at]) {
        case 'n': text.Append('\n'); break;
        case 't': text.Append('\t'); break;
        case 'r': text.Append('\r'); break;
        case 'x':
          text.Append((char)int.Parse(line.Substring(at + 1, 2), NumberStyles.HexNumber));
          at += 2;
          break;
        default: text.Append(line[at]); break;
      }
    }
    return text.ToString();
  }

  static string Escaped(string text) {
    var line = new StringBuilder();
    foreach (var c in text) {
      switch (c) {
        case '\n': line.Append("\\n"); break;
        case '\t': line.Append("\\t"); break;
        case '\r': line.Append("\\r"); break;
        case '\\': line.Append("\\\\"); break;
        default:
          line.Append(' ' <= c && c <= '~' ? c.ToString() : "\\x" + ((int)c).ToString("x2"));
          break;
      }
    }
    return line.ToString();
  }
}
