//! Document 01's trials (REFERENCE, "Trials"), and its limits by each rule.

use b3_compare::refusal::{OUTPUT_LIMIT, TABLE_LIMIT};
use b3_compare::tree::{Expr, Operands, Operator};
use b3_compare::words::encode_expression;
use b3_compare::{on_deep_stack, print_expression, read_expression, read_program, tidy, Format, Refusal};

fn id(name: &str) -> Expr<'_> {
    Expr::IdExpr { name: name.as_bytes(), is_old: false }
}

fn op<'a, const N: usize>(op: Operator, args: [Expr<'a>; N]) -> Expr<'a> {
    Expr::OperatorExpr { op, args: Operands(args.into()) }
}

fn read(text: &str) -> Result<Expr<'_>, Refusal> {
    read_expression(text.as_bytes(), TABLE_LIMIT)
}

fn refused(number: u32, place: usize) -> Result<(), Refusal> {
    Err(Refusal::new(number, place))
}

fn read_refused(text: &str, number: u32, place: usize) {
    assert_eq!(read(text).map(drop), refused(number, place), "{text}");
}

fn program_refused(text: &str, number: u32, place: usize) {
    assert_eq!(read_program(text.as_bytes(), TABLE_LIMIT).map(drop), refused(number, place), "{text}");
}

fn line(expr: Expr) -> String {
    let print = print_expression(&expr, Format::SingleLine, OUTPUT_LIMIT).expect("it fits");
    String::from_utf8(print).expect("names are ASCII")
}

fn tidied(text: &str) -> Result<String, u64> {
    let mut out = vec![0; OUTPUT_LIMIT];
    let answer = tidy(text.as_bytes(), &mut out);
    match usize::try_from(answer) {
        Ok(len) if len <= out.len() => Ok(String::from_utf8(out[..len].to_vec()).expect("prints are ASCII")),
        _ => Err(answer),
    }
}

#[test]
fn operators_lean_and_swap() {
    use Operator::*;
    assert_eq!(read("a ==> b ==> c"), Ok(op(LogicalImp, [id("a"), op(LogicalImp, [id("b"), id("c")])])));
    assert_eq!(read("a <== b <== c"), Ok(op(LogicalImp, [id("c"), op(LogicalImp, [id("b"), id("a")])])));
    assert_eq!(read("a >= b"), Ok(op(AtMost, [id("b"), id("a")])));
    assert_eq!(read("--5"), Ok(op(UnaryMinus, [op(UnaryMinus, [Expr::ILiteral(5)])])));
    read_refused("a < b < c", 2, 6);
    read_refused("a && b || c", 2, 7);
    read_refused("a divx", 2, 2);
}

#[test]
fn a_part_that_reaches_far_gives_back_what_it_cannot_take() {
    use Operator::*;
    assert_eq!(read("x: a < b < c"), read("(x: a < b) < c"));
    assert_eq!(read("if a b else c && d || e"), read("(if a b else (c && d)) || e"));
    assert_eq!(
        read("a ==> x: b <== c"),
        Ok(op(LogicalImp, [id("a"), read("x: b <== c").expect("it reads")]))
    );
}

#[test]
fn brackets_are_printed_where_needed() {
    use Operator::*;
    assert_eq!(line(op(Minus, [id("a"), op(Minus, [id("b"), id("c")])])), "a - (b - c)");
    assert_eq!(line(op(Times, [id("a"), op(Div, [id("b"), id("c")])])), "a * b div c");
    assert_eq!(line(op(LogicalAnd, [op(LogicalOr, [id("a"), id("b")]), id("c")])), "(a || b) && c");
}

#[test]
fn words_are_the_papers() {
    let text = b"a + 1";
    let expr = read_expression(text, 12).expect("12 words are enough");
    assert_eq!(encode_expression(text, &expr), [5, 10, 1, 4, 0, 1, 0, 1, 2, 0, 1, 0]);
    assert_eq!(read_expression(text, 11).map(drop), refused(5, 0));
}

#[test]
fn texts_have_limits() {
    read_refused("", 13, 0);
    read_refused("18446744073709551616", 4, 0);
    assert_eq!(read("18446744073709551615"), Ok(Expr::ILiteral(u64::MAX)));
    assert!(read_program(&[b' '; 32_768], TABLE_LIMIT).is_ok());
    assert_eq!(read_program(&[b' '; 32_769], TABLE_LIMIT).map(drop), refused(1, 32_768));
}

#[test]
fn tidy_answers_one_number() {
    let mut out = [b'?'; 14];
    assert_eq!(tidy(b"", &mut out), 14);
    assert_eq!(&out, b"// B3 program\n");
    let mut short = [b'?'; 13];
    assert_eq!(tidy(b"", &mut short), 8 << 32);
    assert_eq!(short, [b'?'; 13]);
    assert_eq!(tidied("type Lamp // head"), Ok("// B3 program\n\ntype Lamp\n".to_string()));
    assert_eq!(tidied("type 5"), Err(2 << 32 | 5));
    assert_eq!(
        tidied("procedure p() { exit return }"),
        Ok("// B3 program\n\nprocedure p()\n{\n  exit return\n}\n".to_string())
    );
}

#[test]
fn places_of_unusable_tokens() {
    read_refused("|| a", 2, 1);
    read_refused("x := 1", 2, 3);
    read_refused("!=a", 2, 0);
    read_refused("|c :int|", 2, 2);
    program_refused("procedure p() { x", 2, 16);
    program_refused("procedure p() { var v autoinv w := 1 }", 2, 33);
    program_refused("function f() := int", 2, 14);
}

#[test]
fn texts_that_end_too_soon() {
    read_refused("  ", 13, 2);
    read_refused("a + // x", 13, 8);
    read_refused("a + /* x */\n", 13, 12);
    read_refused("|//x:int|", 13, 9);
    read_refused("(18446744073709551615", 13, 21);
    program_refused("type", 13, 4);
    program_refused("procedure p() { x :", 13, 19);
    program_refused("procedure p() { exit x", 13, 22);
    program_refused("type a type", 13, 11);
    assert!(read_program(b"", TABLE_LIMIT).is_ok());
    assert_eq!(read_expression(b"a +", 0).map(drop), refused(13, 3));
    assert_eq!(tidied("procedure p() {\n"), Err(13 << 32 | 16));
    let long = [b"type".as_slice(), &[b' '; 32_764]].concat();
    assert_eq!(read_program(&long, TABLE_LIMIT).map(drop), refused(13, 32_768));
    assert_eq!(read_program(&[&long[..], b" "].concat(), TABLE_LIMIT).map(drop), refused(1, 32_768));
}

/// Tokens that can't stand there, names without their mark, and refusals that are met before the end.
#[test]
fn other_refusals_near_the_end() {
    read_refused("a + )", 2, 4);
    read_refused("a !", 2, 2);
    read_refused("|a ", 2, 2);
    program_refused("typ", 2, 0);
    program_refused("procedure p() { xyz", 2, 16);
    program_refused("procedure p() { x \n", 2, 16);
    program_refused("procedure p() { x // c", 2, 16);
    read_refused("a + /* x", 12, 4);
    read_refused("(18446744073709551616", 4, 1);
}

#[test]
fn comments_that_never_close() {
    program_refused("/* q", 12, 0);
    read_refused("a /* b", 12, 2);
    read_refused("a + /* x", 12, 4);
    read_refused("a /* b /* c */", 12, 2);
    read_refused("a /* b */ /* c", 12, 10);
    read_refused("a /*/", 12, 2);
    read_refused("|/*a:int|", 12, 1);
    program_refused("procedure p() { x /* q", 12, 18);
    program_refused("procedure p() { exit x /* q", 12, 23);
    program_refused("procedure p() { exit x : /*", 12, 25);
    assert_eq!(read("a /**/"), read("a"));
    assert_eq!(read("a /* b /* c */ */"), read("a"));
    assert_eq!(read("a // /* b"), read("a"));
    assert_eq!(tidied("type A /* q"), Err(12 << 32 | 7));
}

#[test]
fn what_is_met_before_such_a_comment() {
    read_refused("a b /* x", 2, 2);
    read_refused("a < b < /* x", 2, 6);
    read_refused("!= /* x", 2, 0);
    read_refused("|a /* x", 2, 2);
    read_refused("|a/* x", 2, 4);
    read_refused("18446744073709551616/*", 4, 0);
    read_refused("18446744073709551615/*", 12, 20);
    program_refused("x /*", 2, 0);
    assert_eq!(read_expression(b"a /* q", 0).map(drop), refused(12, 2));
    let long = [b"/*".as_slice(), &[b'q'; 32_766]].concat();
    assert_eq!(read_program(&long, TABLE_LIMIT).map(drop), refused(12, 0));
    assert_eq!(read_program(&[&long[..], b"q"].concat(), TABLE_LIMIT).map(drop), refused(1, 32_768));
}

/// The most times that `open` and `close` may stand round `inner`, and the refusal of one more.
fn most(before: &str, open: &str, inner: &str, close: &str, after: &str) -> (usize, Refusal) {
    (1..=201)
        .find_map(|count| {
            let text = [before, &open.repeat(count), inner, &close.repeat(count), after].concat();
            read_program(text.as_bytes(), TABLE_LIMIT).err().map(|refusal| (count - 1, refusal))
        })
        .expect("some depth is refused")
}

/// `most` is `count`, and one more is refused 3 at `place`.
fn deepest(parts: [&str; 5], count: usize, place: usize) {
    let [before, open, inner, close, after] = parts;
    assert_eq!(most(before, open, inner, close, after), (count, Refusal::new(3, place)), "{open}");
}

#[test]
fn depth_counts_each_rule() {
    on_deep_stack(|| {
        let body = "procedure p() { ";
        let at = body.len();
        deepest(["axiom ", "(", "a", ")", ""], 199, 206);
        deepest(["axiom ", "x: ", "a", "", ""], 199, 606);
        deepest(["axiom ", "f(", "a", ")", ""], 199, 406);
        deepest(["axiom ", "if a b else ", "a", "", ""], 199, 6 + 199 * 12 + 3);
        deepest([body, "{ ", "", "} ", "}"], 199, at + 2 * 199);
        deepest([body, "var a ", "", "", "}"], 200, at + 6 * 200);
        deepest([body, "loop { ", "", "} ", "}"], 99, at + 7 * 99 + 5);
        deepest([body, "x: { ", "", "} ", "}"], 199, at + 5 * 199 + 3);
        deepest(["procedure p() { if a { } ", "else if a { } ", "", "", "}"], 198, at + 9 + 14 * 198 + 8);
        deepest(["procedure p() { check ", "(", "a", ")", "}"], 198, at + 6 + 199);
    });
}

#[test]
fn depth_201_needs_its_first_token() {
    let brackets = "(".repeat(200);
    for end in [")", "!=", "{"] {
        read_refused(&format!("{brackets}{end}"), 2, 200);
    }
    for end in ["", "/* c */"] {
        read_refused(&format!("{brackets}{end}"), 13, 200 + end.len());
    }
    for end in ["(", "|", "old", "18446744073709551616", "!a"] {
        read_refused(&format!("{brackets}{end}"), 3, 200);
    }
    assert!(read(&format!("{}f(){}", "(".repeat(199), ")".repeat(199))).is_ok());
}

/// Depth 201 is refused at what begins a rule, before the blanks after that; a name begins a statement with its mark
/// alone.
#[test]
fn depth_201_comes_before_the_blanks_after_it() {
    let brackets = "(".repeat(200);
    for end in ["(/*", "a /* x", "-/*", "! /* x", "|/*", "5/*", "18446744073709551616/*", "if /*", "old/*"] {
        read_refused(&format!("{brackets}{end}"), 3, 200);
    }
    read_refused(&format!("{brackets}/* x"), 12, 200);
    read_refused(&format!("{}a /* x", "(".repeat(199)), 12, 201);
    let variables = format!("procedure p() {{ {}", "var a ".repeat(200));
    let at = variables.len();
    for end in ["var /*", "if/*", "loop /*", "{ /*", "x := /* q", "x : /*", "x( /*", "x /* q */ : /* q"] {
        program_refused(&format!("{variables}{end}"), 3, at);
    }
    program_refused(&format!("{variables}x /* q"), 12, at + 2);
    program_refused(&format!("{variables}x /* q :="), 12, at + 2);
}
