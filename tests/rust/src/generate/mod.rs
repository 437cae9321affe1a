//! Seeded cases: whole programs, damaged ones, runs of tokens, texts at each limit, trees that no reading gives,
//! bench programs, and print settings.

mod blanks;
mod damage;
mod decl;
mod depth;
mod expr;
mod flows;
mod limits;
mod names;
mod settings;
mod source;
mod starts;
mod stmt;
mod trees;

use crate::random::Random;
use crate::refusal::{OUTPUT_LIMIT, TABLE_LIMIT};
use crate::{print_program, read_program};
pub use flows::random_flow;
pub use settings::{random_record, random_settings, random_writing};
pub use source::Source;
pub use trees::{random_expression, random_program, NAMES};

/// A text to tidy and the length of its output.
#[derive(Clone, Debug, PartialEq, Eq)]
pub struct Case {
    pub text: Vec<u8>,
    pub out_len: usize,
}

/// The output length of most cases: more than a print may have.
pub const ROOMY: usize = OUTPUT_LIMIT + 7;

/// Case `index` under `seed`.
pub fn case(seed: u64, index: u64) -> Case {
    let random = &mut Random::new(seed, index);
    let text = text(random);
    let out_len = out_len(random, &text);
    Case { text, out_len }
}

fn text(random: &mut Random) -> Vec<u8> {
    match random.below(40) {
        0..=20 => program(random).text,
        21..=31 => damage::damaged(random, program),
        32..=36 => damage::token_run(random),
        _ => limits::text(random),
    }
}

/// The text of an expression, whole or damaged, or a run of tokens.
pub fn expression_text(random: &mut Random) -> Vec<u8> {
    match random.below(8) {
        0..=3 => expression(random).text,
        4..=6 => damage::damaged(random, expression),
        _ => {
            let mut text = Vec::new();
            damage::tokens(random, &mut text);
            text
        }
    }
}

/// A whole expression.
pub fn expression(random: &mut Random) -> Source<'_> {
    let fuel = random.between(1, 60);
    let mut source = Source::new(random, fuel);
    source.expr();
    source.finish();
    source
}

/// A whole program, of a few tokens or of some thousand.
pub fn program(random: &mut Random) -> Source<'_> {
    let fuel = match random.below(20) {
        0..=12 => random.between(1, 40),
        13..=18 => random.between(1, 200),
        _ => random.between(200, 1200),
    };
    let mut source = Source::new(random, fuel);
    source.program();
    source
}

/// Once in eight an output length near the print's, where there is a print.
fn out_len(random: &mut Random, text: &[u8]) -> usize {
    if !random.once_in(8) {
        return ROOMY;
    }
    let print = read_program(text, TABLE_LIMIT).and_then(|program| print_program(&program, OUTPUT_LIMIT));
    let Ok(print) = print else { return random.below(20) };
    match random.below(6) {
        0 => print.len(),
        1 => print.len() - 1,
        2 => print.len() + 1,
        3 => OUTPUT_LIMIT,
        4 => random.below(20),
        _ => random.below(print.len()),
    }
}
