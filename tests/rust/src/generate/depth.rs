//! Texts at the depth limit, by each rule.

use super::starts::{expression_start, statement_start};
use crate::random::Random;
use crate::refusal::DEPTH_LIMIT;

/// What opens a statement in a statement, what closes it, and by how much the depth grows.
const STATEMENTS: [(&str, &str, usize); 16] = [
    ("{ ", "} ", 1),
    ("var a ", "", 1),
    ("val a := 1 ", "", 1),
    ("var a: T autoinv 5 ", "", 1),
    ("loop { ", "} ", 2),
    ("x: loop invariant a { ", "} ", 2),
    ("loop invariant { ", "} { } ", 2),
    ("x: { ", "} ", 1),
    ("if a { ", "} ", 1),
    ("if a { ", "} else { } ", 1),
    ("if a { } else { ", "} ", 1),
    ("if a { } else if b { ", "} ", 2),
    ("if a { } else if case b { ", "} ", 2),
    ("if case a { ", "} ", 1),
    ("choose { } or { ", "} ", 1),
    ("forall x: T { ", "} ", 1),
];

const CONDITIONS: [&str; 8] =
    ["check ", "x := ", "f(", "var v autoinv ", "val v := ", "if ", "loop invariant ", "if a { } else if "];

/// What opens an expression in an expression, one deeper, and what closes it.
const EXPRESSIONS: [(&str, &str); 18] = [
    ("(", ")"),
    ("f(", ")"),
    ("f(a, ", ", b)"),
    ("x: ", ""),
    ("-(", ")"),
    ("!x: ", ""),
    ("a + (", ") * b"),
    ("if ", " b else c"),
    ("if a ", " else c"),
    ("if a b else ", ""),
    ("val x := ", " b"),
    ("val x: T := a ", ""),
    ("forall x: T ", ""),
    ("exists x: T pattern ", " b"),
    ("lift f := ", " into r: T by { }"),
    ("lift f(x: T) := a, g := ", " into r: T by { }"),
    ("lift f := a into r: T by { ", " }"),
    ("lift f := a into r: T by { trigger ", " b }"),
];

const INNER_STATEMENTS: [&str; 41] = [
    "", "x := 1", "x", "x :", "x :=", "{ }", "{", "loop { }", "loop", "var a", "var a var b", "var a x",
    "return", "exit", "exit x", "check a", "check", "if a { }", "if", "if a { } else if b { }",
    "if case a { }", "f()", "f(a)", "x: { }", "x: loop { }", "choose { }", "forall x: T { }", "reinit a",
    "}", ")", "case", "else := 1", "18446744073709551616", "exit check (a)", "/* q", "x /* q", "x := /*",
    "x: /* q", "{ /*", "loop /* q", "exit x /* q",
];

const INNER_EXPRESSIONS: [&str; 43] = [
    "a", "5", "f()", "f(a)", "f(", "(a)", "(", "", ")", "!a", "!=a", "-", "--a", "|x:int|", "|", "old a",
    "old", "18446744073709551616", "18446744073709551615", "if a b else c", "if", "forall x: T a", "exists",
    "lift f := a into r: T by { }", "x: a", "val x := a b", "{", "}", "true", "a + (b)", "f((a))", "\u{ff}",
    "/* c */a", "a == b", "forall x: T a < b < c", "x: a && b || c", "-(old x: a) + 1", "/* q", "a /* q",
    "-/*", "f( /* q", "|/* q", "18446744073709551616 /*",
];

/// A text with rules opened, what closes them, and how deep the next one stands.
struct Nest {
    text: Vec<u8>,
    closers: Vec<&'static str>,
    depth: usize,
}

/// Rules in rules to depth 200, of one kind or of any, and what may begin one of depth 201.
pub fn at_last_depth(random: &mut Random) -> Vec<u8> {
    let mixed = random.once_in(2);
    if random.once_in(3) {
        let (start, close, depth) = *random.pick(&[
            &("axiom ", "", 0),
            &("function f(): T { ", " }", 0),
            &("procedure p() ensures ", "", 0),
            &("procedure p() { probe ", " }", 1),
        ]);
        let mut nest = Nest::new(start, close, depth);
        nest.open_expressions(random, DEPTH_LIMIT, mixed);
        nest.text.extend(expression_start(random));
        return nest.closed(random);
    }
    let mut nest = Nest::new("procedure p() { ", "}", 1);
    nest.open_statements(random, DEPTH_LIMIT, mixed);
    nest.push(random.pick(&["", "var a ", "var a ", "val b: T "]));
    nest.text.extend(statement_start(random));
    nest.closed(random)
}

/// Rules in rules to a depth next to the limit, of one kind or of any, and what stands innermost.
pub fn at_depth(random: &mut Random) -> Vec<u8> {
    let target = DEPTH_LIMIT - 4 + random.below(7);
    let (start, close, depth) = *random.pick(&[
        &("axiom ", "", 0),
        &("function f(): T { ", " }", 0),
        &("procedure p() requires { ", " }", 1),
        &("procedure p() { ", " }", 1),
        &("procedure p() { ", " }", 1),
    ]);
    let mut nest = Nest::new(start, close, depth);
    let mixed = random.once_in(2);
    let in_statements = depth == 1;
    if in_statements {
        let share = if random.once_in(2) { target } else { random.between(1, target) };
        nest.open_statements(random, share, mixed);
    }
    if in_statements && nest.depth + 1 >= target && random.once_in(2) {
        nest.push(random.pick(&INNER_STATEMENTS));
        return nest.closed(random);
    }
    if in_statements {
        nest.push(random.pick(&CONDITIONS));
    }
    nest.open_expressions(random, target, mixed);
    nest.push(random.pick(&INNER_EXPRESSIONS));
    nest.closed(random)
}

impl Nest {
    fn new(start: &str, close: &'static str, depth: usize) -> Self {
        Nest { text: start.into(), closers: vec![close], depth }
    }

    fn push(&mut self, part: &str) {
        self.text.extend_from_slice(part.as_bytes());
    }

    fn open(&mut self, open: &str, close: &'static str, deeper: usize) {
        self.push(open);
        self.closers.push(close);
        self.depth += deeper;
    }

    /// The last one is a block where another would pass the target.
    fn open_statements(&mut self, random: &mut Random, target: usize, mixed: bool) {
        let mut kind = random.below(STATEMENTS.len());
        while self.depth < target {
            let passes = self.depth + STATEMENTS[kind].2 > target;
            let (open, close, deeper) = STATEMENTS[if passes { 0 } else { kind }];
            self.open(open, close, deeper);
            if mixed {
                kind = random.below(STATEMENTS.len());
            }
        }
    }

    fn open_expressions(&mut self, random: &mut Random, target: usize, mixed: bool) {
        let mut kind = random.below(EXPRESSIONS.len());
        while self.depth < target {
            let (open, close) = EXPRESSIONS[kind];
            self.open(open, close, 1);
            if mixed {
                kind = random.below(EXPRESSIONS.len());
            }
        }
    }

    /// Mostly all that was opened is closed.
    fn closed(mut self, random: &mut Random) -> Vec<u8> {
        if random.once_in(8) {
            self.closers.drain(..random.below(self.closers.len() + 1));
        }
        for closer in std::mem::take(&mut self.closers).iter().rev() {
            self.push(closer);
        }
        self.text
    }
}

/// Else-if parts, each one deeper than the last.
pub fn else_ifs(random: &mut Random) -> Vec<u8> {
    let mut text = "procedure p() { if a { }".to_string();
    for _ in 0..DEPTH_LIMIT - 5 + random.below(7) {
        text.push_str(" else if a { }");
    }
    text.push_str(
        random
            .pick(&["", " else { }", " else if case a { }", " else if", " else if { }", " else if (a) { }"]),
    );
    text.push_str(random.pick(&[" }", "", " else := 1 }"]));
    text.into_bytes()
}

#[cfg(test)]
mod tests {
    use super::super::names::STATEMENT_WORDS;
    use super::*;
    use crate::refusal::{Refusal, TABLE_LIMIT};
    use crate::{on_deep_stack, read_program};
    use std::collections::BTreeSet;

    /// What stands where texts of `at_last_depth` are refused 3, from there to their end.
    fn refused_at() -> BTreeSet<Vec<u8>> {
        let texts = (0..8000).map(|index| at_last_depth(&mut Random::new(1, index)));
        texts
            .filter_map(|text| match read_program(&text, TABLE_LIMIT) {
                Err(Refusal { number: 3, place }) => Some(text[place as usize..].to_vec()),
                _ => None,
            })
            .collect()
    }

    /// Depth 201 begins with each word of a statement, a block, a name with each mark, and each byte of an
    /// expression, also where a comment after them never closes.
    #[test]
    fn every_first_token() {
        on_deep_stack(|| {
            let refused = refused_at();
            let met = |start: &str| refused.iter().any(|rest| rest.starts_with(start.as_bytes()));
            let words = STATEMENT_WORDS.map(|word| format!("{word} "));
            let marked = ["x:=", "x:", "x("].map(String::from);
            let bytes = (b'!'..=b'~').filter(|byte| byte.is_ascii_alphanumeric() || b"%(|-!{".contains(byte));
            let bytes = bytes.map(|byte| char::from(byte).to_string());
            let opened = STATEMENT_WORDS.map(|word| format!("{word}/*"));
            let unclosed = ["{ /*", "x:= /*", "x :/*", "x(/*", "(/*", "-/*"].map(String::from);
            for start in words.into_iter().chain(marked).chain(bytes).chain(opened).chain(unclosed) {
                assert!(met(&start), "{start}");
            }
        });
    }
}
