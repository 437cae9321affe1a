//! What a call of tidy leaves: its answer and the whole output.

use crate::escape::escape;
use crate::refusal::Refusal;

/// What stands in the output before a call.
const UNWRITTEN: u8 = 0xa5;
/// Bytes after the output that no call may touch.
const MARGIN: usize = 64;

#[derive(Debug, PartialEq, Eq)]
pub struct Outcome {
    pub answer: u64,
    out: Vec<u8>,
}

impl Outcome {
    /// Calls `tidy` on `text` with an output of `out_len` bytes.
    pub fn of(tidy: impl FnOnce(&[u8], &mut [u8]) -> u64, text: &[u8], out_len: usize) -> Self {
        let mut out = vec![UNWRITTEN; out_len + MARGIN];
        let answer = tidy(text, &mut out[..out_len]);
        Outcome { answer, out }
    }

    pub fn print(&self) -> Option<&[u8]> {
        self.out.get(..usize::try_from(self.answer).ok()?)
    }

    pub fn refusal(&self) -> Option<Refusal> {
        match (self.answer >> 32) as u32 {
            0 => None,
            number => Some(Refusal { number, place: self.answer as u32 }),
        }
    }

    /// Whether the bytes after the print, or all of them, are as they were before the call.
    pub fn leaves_the_rest(&self) -> bool {
        let written = self.print().map_or(0, <[u8]>::len);
        self.out[written..].iter().all(|&byte| byte == UNWRITTEN)
    }
}

/// As a stored case's last field.
impl std::fmt::Display for Outcome {
    fn fmt(&self, f: &mut std::fmt::Formatter<'_>) -> std::fmt::Result {
        match (self.refusal(), self.print()) {
            (Some(refusal), _) => refusal.fmt(f),
            (None, Some(print)) => write!(f, "\"{}\"", escape(print)),
            (None, None) => write!(f, "{} bytes, more than the output has", self.answer),
        }
    }
}
