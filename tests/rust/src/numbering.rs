//! Numbers for names: of spans over a text, each span's number, counted from 0 in the order of first occurrence of
//! its bytes.

use std::collections::HashMap;

/// Only the first spans and the first bytes of a text count.
pub const SPAN_LIMIT: usize = 32_768;
pub const BYTE_LIMIT: usize = 65_535;

/// The names of spans, which are pairs of a start and a length: what of each is in the text.
fn spelt<'a>(text: &'a [u8], spans: &[u32]) -> Vec<&'a [u8]> {
    let text = &text[..text.len().min(BYTE_LIMIT)];
    spans
        .chunks_exact(2)
        .take(SPAN_LIMIT)
        .map(|span| part(text, span[0] as usize, span[1] as usize))
        .collect()
}

fn part(text: &[u8], start: usize, len: usize) -> &[u8] {
    let rest = text.get(start..).unwrap_or(&[]);
    &rest[..len.min(rest.len())]
}

/// The number of each span, and how many names there are.
pub fn number_spans(text: &[u8], spans: &[u32]) -> (Vec<u16>, usize) {
    let mut seen: HashMap<&[u8], u16> = HashMap::new();
    let mut numbers = Vec::new();
    for name in spelt(text, spans) {
        let next = seen.len() as u16;
        numbers.push(*seen.entry(name).or_insert(next));
    }
    (numbers, seen.len())
}
