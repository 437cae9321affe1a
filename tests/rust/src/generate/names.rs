//! Words, names and signs to make texts of.

use crate::random::Random;

/// The 46 words that Parser.dfy gives to `T` or `parseAExprSeq`.
pub const KEYWORDS: [&str; 46] = [
    "type", "tagger", "for", "function", "tag", "injective", "when", "axiom", "explains", "procedure",
    "inout", "out", "bool", "int", "var", "val", "reinit", "exit", "return", "check", "assume", "reach",
    "assert", "probe", "forall", "choose", "or", "if", "loop", "autoinv", "else", "case", "div", "mod",
    "exists", "lift", "into", "by", "trigger", "pattern", "false", "true", "old", "requires", "ensures",
    "invariant",
];

/// The words that are no operand's name.
pub const NO_OPERAND: [&str; 8] = ["if", "val", "forall", "exists", "lift", "false", "true", "old"];

/// The words that a statement led by a name can't begin with.
pub const STATEMENT_WORDS: [&str; 14] = [
    "var", "val", "reinit", "exit", "return", "check", "assume", "reach", "assert", "probe", "forall",
    "choose", "if", "loop",
];

pub const SIGNS: [&str; 30] = [
    "(", ")", "{", "}", ",", ":", ":=", "|", "||", "!", "!=", "=", "==", "==>", "<", "<=", "<==", "<==>",
    ">", ">=", "+", "-", "*", "&&", "&", "/", "::", "|x:int|", "|a/**/ :T|", ";",
];

const PLAIN: [&str; 14] =
    ["a", "b", "c", "x", "y", "f", "g", "p", "aim_ok", "shelf$far", "%t", "x.1", "Lamp", "result"];
const STARTS: &[u8] = b"abcdefghijklmnopqrstuvwxyzABCDEFGHIJKLMNOPQRSTUVWXYZ%";
const OTHERS: &[u8] = b"abcdefghijklmnopqrstuvwxyzABCDEFGHIJKLMNOPQRSTUVWXYZ%0123456789_$.";

/// A name, of plain letters, of any identifier's bytes, or a keyword.
pub fn name(random: &mut Random) -> Vec<u8> {
    match random.below(24) {
        0..=18 => random.pick(&PLAIN).as_bytes().to_vec(),
        19..=21 => identifier(random),
        22 => joined_keyword(random),
        _ => random.pick(&KEYWORDS).as_bytes().to_vec(),
    }
}

/// A name that is none of `words`.
pub fn name_outside(random: &mut Random, words: &[&str]) -> Vec<u8> {
    loop {
        let name = name(random);
        if !words.iter().any(|word| word.as_bytes() == name) {
            return name;
        }
    }
}

fn identifier(random: &mut Random) -> Vec<u8> {
    let mut name = vec![STARTS[random.below(STARTS.len())]];
    for _ in 0..random.below(9) {
        name.push(OTHERS[random.below(OTHERS.len())]);
    }
    name
}

/// A keyword with one byte more, or the byte only before it.
fn joined_keyword(random: &mut Random) -> Vec<u8> {
    let word = random.pick(&KEYWORDS).as_bytes();
    let byte = OTHERS[random.below(OTHERS.len())];
    if random.once_in(2) {
        [word, &[byte]].concat()
    } else {
        [&[STARTS[random.below(STARTS.len())]], word].concat()
    }
}

pub fn type_name(random: &mut Random) -> Vec<u8> {
    match random.below(5) {
        0 => b"int".to_vec(),
        1 => b"bool".to_vec(),
        2 => b"tag".to_vec(),
        _ => name(random),
    }
}

/// A natural that is read.
pub fn natural(random: &mut Random) -> Vec<u8> {
    let value = match random.below(8) {
        0 => u64::MAX - random.below(3) as u64,
        1 => random.next(),
        2 => 10u64.pow(random.below(20) as u32),
        _ => random.below(12) as u64,
    };
    let zeros = if random.once_in(12) { random.below(30) } else { 0 };
    format!("{}{value}", "0".repeat(zeros)).into_bytes()
}

/// A custom literal's text, which opens no comment.
pub fn literal(random: &mut Random) -> Vec<u8> {
    const LITERAL: &[u8] = b"abcXYZ%0123456789_$.+-*/@#!^";
    let mut text = vec![LITERAL[random.below(LITERAL.len())]];
    for _ in 0..random.below(6) {
        text.push(LITERAL[random.below(LITERAL.len())]);
    }
    if text.starts_with(b"//") || text.starts_with(b"/*") {
        text[0] = b'^';
    }
    text
}
