//! Texts that aren't whole programs: damaged ones, and runs of tokens.

use super::names::{self, KEYWORDS, SIGNS};
use super::{blanks, Source};
use crate::random::Random;
use std::ops::Range;

/// A whole text cut, exchanged, inserted into or overwritten, up to three times.
pub fn damaged(random: &mut Random, whole: fn(&mut Random) -> Source<'_>) -> Vec<u8> {
    let source = whole(random);
    let (mut text, mut starts) = (source.text, source.starts);
    for _ in 0..random.between(1, 3) {
        starts.retain(|&start| start <= text.len());
        starts.push(text.len());
        damage(random, &mut text, &starts);
    }
    text
}

fn damage(random: &mut Random, text: &mut Vec<u8>, starts: &[usize]) {
    match random.below(9) {
        0 => text.truncate(random.below(text.len() + 1)),
        1 => {
            let range = range(random, text, 8);
            text.drain(range);
        }
        2 => {
            let token = token_range(random, starts);
            text.drain(token);
        }
        3 | 4 => {
            let at = place(random, text, starts);
            let token = token(random);
            text.splice(at..at, token);
        }
        5 => exchange_tokens(random, text, starts),
        6 => overwrite(random, text),
        7 => {
            text.truncate(place(random, text, starts));
            blanks::unclosed(random, text);
        }
        _ => {
            let copy = text[range(random, text, 40)].to_vec();
            let at = place(random, text, starts);
            text.splice(at..at, copy);
        }
    }
}

/// A part of at most `most` bytes.
fn range(random: &mut Random, text: &[u8], most: usize) -> Range<usize> {
    let start = random.below(text.len() + 1);
    let len = random.below(most.min(text.len() - start) + 1);
    start..start + len
}

/// A token with the blanks after it.
fn token_range(random: &mut Random, starts: &[usize]) -> Range<usize> {
    if starts.len() < 2 {
        return 0..0;
    }
    let index = random.below(starts.len() - 1);
    starts[index]..starts[index + 1]
}

fn place(random: &mut Random, text: &[u8], starts: &[usize]) -> usize {
    if random.once_in(3) {
        random.below(text.len() + 1)
    } else {
        starts[random.below(starts.len())]
    }
}

fn exchange_tokens(random: &mut Random, text: &mut Vec<u8>, starts: &[usize]) {
    let (first, second) = (token_range(random, starts), token_range(random, starts));
    let (first, second) = if first.start <= second.start { (first, second) } else { (second, first) };
    if first.end > second.start {
        return;
    }
    let exchanged = [&text[second.clone()], &text[first.end..second.start], &text[first.clone()]].concat();
    text.splice(first.start..second.end, exchanged);
}

fn overwrite(random: &mut Random, text: &mut [u8]) {
    const LIKELY: &[u8] = b"(){},:=|!<>&+-*/%_$.@#^;\\ \t\r\n09azAZ\0\x7f\x80\xff";
    for _ in 0..random.between(1, 4) {
        if text.is_empty() {
            return;
        }
        let at = random.below(text.len());
        text[at] = if random.once_in(4) { random.next() as u8 } else { LIKELY[random.below(LIKELY.len())] };
    }
}

fn token(random: &mut Random) -> Vec<u8> {
    match random.below(10) {
        0..=2 => random.pick(&KEYWORDS).as_bytes().to_vec(),
        3..=6 => random.pick(&SIGNS).as_bytes().to_vec(),
        7 => names::natural(random),
        8 => random.pick(&["18446744073709551616", "00018446744073709551615", "/*", "//", "*/", "\\"]).into(),
        _ => names::name(random),
    }
}

/// A few tokens in any order after the beginning of a rule.
pub fn token_run(random: &mut Random) -> Vec<u8> {
    const BEGINNINGS: [&str; 24] = [
        "",
        "type",
        "tagger t for",
        "function f(",
        "function f():",
        "function f(): T tag",
        "function f(): T when a {",
        "axiom",
        "axiom explains",
        "axiom a",
        "axiom f(",
        "axiom lift f(",
        "axiom lift f := a into r: T by {",
        "axiom forall x: T",
        "axiom if a",
        "axiom val x",
        "procedure p(",
        "procedure p(x: T",
        "procedure p() requires",
        "procedure p() {",
        "procedure p() { var v",
        "procedure p() { exit",
        "procedure p() { if",
        "procedure p() { loop",
    ];
    let mut text = random.pick(&BEGINNINGS).as_bytes().to_vec();
    tokens(random, &mut text);
    text
}

/// A few tokens in any order.
pub fn tokens(random: &mut Random, text: &mut Vec<u8>) {
    for _ in 0..random.between(1, 10) {
        if !random.once_in(5) {
            blanks::blank(random, blanks::Style::Spaced, text);
        }
        let token = token(random);
        text.extend_from_slice(&token);
    }
}
