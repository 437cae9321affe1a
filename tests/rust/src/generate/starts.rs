//! What may begin a statement or an expression, and what may not.

use super::names::{self, KEYWORDS, NO_OPERAND, SIGNS, STATEMENT_WORDS};
use crate::random::Random;

/// Mostly a statement's word, or a name with its mark.
pub fn statement_start(random: &mut Random) -> Vec<u8> {
    let first = match random.below(10) {
        0..=3 => random.pick(&STATEMENT_WORDS).as_bytes().to_vec(),
        4 => random.pick(&KEYWORDS).as_bytes().to_vec(),
        5 => names::name(random),
        6 => return marked(random),
        7 => b"{".to_vec(),
        8 => random.pick(&SIGNS).as_bytes().to_vec(),
        _ => vec![random.next() as u8],
    };
    followed(random, first)
}

fn marked(random: &mut Random) -> Vec<u8> {
    let name = names::name_outside(random, &STATEMENT_WORDS);
    let mark =
        random.pick(&[":=", ":", "(", " := ", "/* c */:", " //c\n(", ":= /* q", " :/*", "(/*", " /* q"]);
    [&name, mark.as_bytes()].concat()
}

/// Mostly one byte, or a word.
pub fn expression_start(random: &mut Random) -> Vec<u8> {
    let first = match random.below(10) {
        0 => return vec![random.next() as u8],
        1..=3 => return vec![random.between(b'!'.into(), b'~'.into()) as u8],
        4 => random.pick(&NO_OPERAND).as_bytes().to_vec(),
        5 => random.pick(&KEYWORDS).as_bytes().to_vec(),
        6 => names::name(random),
        7 => random.pick(&["18446744073709551615", "18446744073709551616"]).into(),
        _ => random.pick(&SIGNS).as_bytes().to_vec(),
    };
    followed(random, first)
}

fn followed(random: &mut Random, mut first: Vec<u8>) -> Vec<u8> {
    let after = random
        .pick(&["", " ", " a ", " a := 1 ", " { } ", ": loop { } ", "(", "x", "=", "/* c */", "/*", " /* q"]);
    first.extend_from_slice(after.as_bytes());
    first
}
