//! A text shortened as long as something holds of it.

use std::time::{Duration, Instant};

const PATIENCE: Duration = Duration::from_secs(3);
/// Of a text of at most this length every part is tried.
const SHORT: usize = 300;

/// A shorter text of which `holds` is still true: comments, pairs of brackets and ever smaller parts are left
/// out, parts replaced by a name.
pub fn shorten(text: &[u8], holds: impl FnMut(&[u8]) -> bool) -> Vec<u8> {
    let mut shortener = Shortener { text: text.to_vec(), holds, end: Instant::now() + PATIENCE };
    shortener.keep(without_comments(text));
    loop {
        let before = shortener.text.len();
        shortener.leave_out_parts();
        shortener.leave_out_brackets();
        shortener.leave_out_any_part();
        if shortener.text.len() == before || shortener.out_of_time() {
            return shortener.text;
        }
    }
}

struct Shortener<F> {
    text: Vec<u8>,
    holds: F,
    end: Instant,
}

impl<F: FnMut(&[u8]) -> bool> Shortener<F> {
    fn out_of_time(&self) -> bool {
        Instant::now() >= self.end
    }

    /// Takes `shorter` for the text if it is shorter and the same holds of it.
    fn keep(&mut self, shorter: Vec<u8>) -> bool {
        let kept = shorter.len() < self.text.len() && (self.holds)(&shorter);
        if kept {
            self.text = shorter;
        }
        kept
    }

    /// Leaves out a part, or puts a name in its place.
    fn leave_out(&mut self, start: usize, end: usize) -> bool {
        let (before, after) = (&self.text[..start], &self.text[end..]);
        let (without, renamed) = ([before, after].concat(), [before, b"a", after].concat());
        self.keep(without) || self.keep(renamed)
    }

    fn leave_out_parts(&mut self) {
        let mut size = self.text.len().div_ceil(2);
        while size > 0 {
            let mut start = 0;
            while start < self.text.len() && !self.out_of_time() {
                let end = self.text.len().min(start + size);
                if !self.leave_out(start, end) {
                    start = end;
                }
            }
            size /= 2;
        }
    }

    fn leave_out_any_part(&mut self) {
        if self.text.len() > SHORT {
            return;
        }
        for size in (1..=self.text.len()).rev() {
            let mut start = 0;
            while start + size <= self.text.len() && !self.out_of_time() {
                if !self.leave_out(start, start + size) {
                    start += 1;
                }
            }
        }
    }

    fn leave_out_brackets(&mut self) {
        let mut start = 0;
        while start < self.text.len() && !self.out_of_time() {
            let kept = matching(&self.text, start).is_some_and(|end| {
                let (before, inside, after) =
                    (&self.text[..start], &self.text[start + 1..end], &self.text[end + 1..]);
                let (bare, renamed) = ([before, inside, after].concat(), [before, b"a", after].concat());
                let spaced = [before, b" ", inside, after].concat();
                self.keep(renamed) || self.keep(bare) || self.keep(spaced)
            });
            if !kept {
                start += 1;
            }
        }
    }
}

/// Where the bracket opened at `start` is closed.
fn matching(text: &[u8], start: usize) -> Option<usize> {
    if !b"({".contains(&text[start]) {
        return None;
    }
    let mut open = 0usize;
    for (offset, byte) in text[start..].iter().enumerate() {
        match byte {
            b'(' | b'{' => open += 1,
            b')' | b'}' => open -= 1,
            _ => continue,
        }
        if open == 0 {
            return Some(start + offset);
        }
    }
    None
}

/// A space for each comment.
fn without_comments(text: &[u8]) -> Vec<u8> {
    let mut rest = text;
    let mut plain = Vec::new();
    let mut open = 0usize;
    loop {
        rest = match rest {
            [] => return plain,
            [b'/', b'/', ..] if open == 0 => {
                plain.push(b' ');
                let len = rest.iter().position(|&byte| byte == b'\n').unwrap_or(rest.len());
                &rest[len..]
            }
            [b'/', b'*', after @ ..] => {
                open += 1;
                after
            }
            [b'*', b'/', after @ ..] if open > 0 => {
                open -= 1;
                plain.push(b' ');
                after
            }
            [byte, after @ ..] => {
                if open == 0 {
                    plain.push(*byte);
                }
                after
            }
        };
    }
}
