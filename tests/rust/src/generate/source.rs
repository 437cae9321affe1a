//! A text written token by token.

use super::blanks::{self, Style};
use super::names;
use crate::random::Random;

#[derive(Clone, Copy, Debug, PartialEq, Eq)]
enum Last {
    Word,
    Natural,
    Sign,
}

pub struct Source<'r> {
    pub random: &'r mut Random,
    pub text: Vec<u8>,
    /// Where each token starts.
    pub starts: Vec<usize>,
    /// How many more parts the text may have.
    pub fuel: usize,
    /// The next expression follows another one directly, so it mustn't begin with a sign that goes on.
    pub(super) after_expr: bool,
    last: Last,
    style: Style,
}

impl<'r> Source<'r> {
    pub fn new(random: &'r mut Random, fuel: usize) -> Self {
        let style = Style::random(random);
        Source {
            random,
            text: Vec::new(),
            starts: Vec::new(),
            fuel,
            after_expr: false,
            last: Last::Sign,
            style,
        }
    }

    fn token(&mut self, bytes: &[u8], kind: Last) {
        let needed = match kind {
            Last::Word => self.last == Last::Word,
            Last::Natural => self.last != Last::Sign,
            Last::Sign => false,
        };
        self.blanks(needed);
        self.starts.push(self.text.len());
        self.text.extend_from_slice(bytes);
        self.last = kind;
        self.after_expr = false;
    }

    fn blanks(&mut self, needed: bool) {
        for _ in 0..self.style.count(self.random, needed) {
            blanks::blank(self.random, self.style, &mut self.text);
        }
    }

    pub fn word(&mut self, word: &str) {
        self.token(word.as_bytes(), Last::Word);
    }

    pub fn sign(&mut self, sign: &str) {
        self.token(sign.as_bytes(), Last::Sign);
    }

    /// An operator, which may be a word.
    pub fn operator(&mut self, sign: &str) {
        if sign.as_bytes()[0].is_ascii_alphabetic() {
            self.word(sign);
        } else {
            self.sign(sign);
        }
    }

    pub fn name(&mut self) {
        let name = names::name(self.random);
        self.token(&name, Last::Word);
    }

    pub fn name_outside(&mut self, words: &[&str]) {
        let name = names::name_outside(self.random, words);
        self.token(&name, Last::Word);
    }

    pub fn type_name(&mut self) {
        let name = names::type_name(self.random);
        self.token(&name, Last::Word);
    }

    pub fn natural(&mut self) {
        let natural = names::natural(self.random);
        self.token(&natural, Last::Natural);
    }

    pub fn custom_literal(&mut self) {
        self.sign("|");
        let mut text = names::literal(self.random);
        text.push(b':');
        self.token(&text, Last::Sign);
        self.type_name();
        self.sign("|");
    }

    pub fn finish(&mut self) {
        blanks::ending(self.random, &mut self.text);
    }

    /// Takes some fuel; false where there is none.
    pub fn spend(&mut self) -> bool {
        let left = self.fuel > 0;
        self.fuel = self.fuel.saturating_sub(1);
        left
    }

    pub fn once_in(&mut self, times: usize) -> bool {
        self.random.once_in(times)
    }

    /// `item` as often as `count` says, with commas between.
    pub fn list(&mut self, count: usize, item: fn(&mut Self)) {
        for index in 0..count {
            if index > 0 {
                self.sign(",");
            }
            item(self);
        }
    }
}
