// Compiles a Dafny file to C# with the parser, resolver and compiler of Dafny 2.3.0. Its own program runs the verifier's
// translation first, also where nothing is to be verified, and fails there on constants that hold lambdas.
//
// Compile FILE.dfy OUT.cs
using System;
using System.Collections.Generic;
using System.IO;
using System.Text.RegularExpressions;
using Microsoft.Dafny;

class Compile {
  static int Main(string[] args) {
    var reporter = new ConsoleErrorReporter();
    var options = new DafnyOptions(reporter);
    DafnyOptions.Install(options);
    Microsoft.Boogie.CommandLineOptions.Install(options);
    options.Parse(new[] { args[0], "/noVerify", "/compileTarget:cs", "/nologo" });
    Program program;
    var error = Microsoft.Dafny.Main.ParseCheck(new List<DafnyFile> { new DafnyFile(args[0]) }, "upstream", reporter, out program);
    if (error != null) {
      Console.Error.WriteLine(error);
      return 1;
    }
    var compiler = new CsharpCompiler(reporter);
    using (var writer = new StreamWriter(args[1]))
    using (var text = new TargetWriter()) {
      compiler.Compile(program, text);
      writer.Write(ComputedOnce(text.ToString()));
    }
    return reporter.Count(ErrorLevel.Error) == 0 ? 0 : 1;
  }

  // A constant becomes a property that computes it at each use; this computes it at its first.
  static string ComputedOnce(string text) {
    return Regex.Replace(
      text,
      @"^    public static (\S+) (\w+) \{ get \{$(.*?)^    \} \}$",
      "    static readonly Lazy<$1> lazy_$2 = new Lazy<$1>(() => {$3    });\n    public static $1 $2 { get { return lazy_$2.Value; } }",
      RegexOptions.Multiline | RegexOptions.Singleline);
  }
}
