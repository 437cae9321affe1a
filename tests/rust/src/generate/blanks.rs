//! Blanks and comments between tokens.

use crate::random::Random;

/// How many blanks a text has.
#[derive(Clone, Copy, Debug, PartialEq, Eq)]
pub enum Style {
    Tight,
    Spaced,
    Wild,
}

impl Style {
    pub fn random(random: &mut Random) -> Self {
        match random.below(8) {
            0 => Style::Tight,
            1 => Style::Wild,
            _ => Style::Spaced,
        }
    }

    /// How many blanks stand between two tokens that need one, or don't.
    pub fn count(self, random: &mut Random, needed: bool) -> usize {
        let least = usize::from(needed);
        match self {
            Style::Tight => least,
            Style::Spaced => least.max(usize::from(!random.once_in(4))),
            Style::Wild => least + random.below(3),
        }
    }
}

/// One blank, mostly a space.
pub fn blank(random: &mut Random, style: Style, text: &mut Vec<u8>) {
    let common = if style == Style::Wild { 4 } else { 60 };
    match random.below(common + 8) {
        0 => text.push(b'\t'),
        1 => text.push(b'\r'),
        2..=4 => text.push(b'\n'),
        5 => line_comment(random, text, b"\n"),
        6 | 7 => long_comment(random, text),
        _ => text.push(b' '),
    }
}

/// What stands after the last token: nothing, a blank, or a comment, seldom one that never closes.
pub fn ending(random: &mut Random, text: &mut Vec<u8>) {
    match random.below(12) {
        0 => line_comment(random, text, b""),
        1 => text.extend_from_slice(b"//"),
        2 => text.extend_from_slice(b"/*/ /**/*/"),
        3..=5 => blank(random, Style::Wild, text),
        6 if random.once_in(4) => unclosed(random, text),
        _ => {}
    }
}

/// A long comment that never closes where nothing follows.
pub fn unclosed(random: &mut Random, text: &mut Vec<u8>) {
    text.extend_from_slice(random.pick::<[u8]>(&[
        b"/* q", b" /* q", b"/*", b"/*/", b"/**", b"/* /* */ *", b"/* /* */", b"/* */ /* q", b"/*//*/ */",
        b"// /*\n/*", b"/* // \n",
    ]));
}

fn line_comment(random: &mut Random, text: &mut Vec<u8>, end: &[u8]) {
    text.extend_from_slice(b"//");
    for _ in 0..random.below(6) {
        text.extend_from_slice(
            random.pick::<[u8]>(&[b"c", b" ", b"/*", b"*/", b"//", b"\r", b"\xc3\xa9", b"\0", b"}"]),
        );
    }
    text.extend_from_slice(end);
}

fn long_comment(random: &mut Random, text: &mut Vec<u8>) {
    text.extend_from_slice(b"/*");
    for _ in 0..random.below(5) {
        match random.below(10) {
            0 => text.extend_from_slice(b"/**/"),
            1 => text.extend_from_slice(b"/* /* */ x */"),
            2 => text.extend_from_slice(b"//"),
            3 => text.extend_from_slice(b"* "),
            4 => text.extend_from_slice(b"\n"),
            5 => text.extend_from_slice(b"\xff\x80"),
            6 => text.extend_from_slice(b"type"),
            _ => text.extend_from_slice(b" c"),
        }
    }
    text.extend_from_slice(b" */");
}
