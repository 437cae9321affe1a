//! The parts of lines and answers. A text or a table is given by pieces (crates/trials/src/pieces.rt).

use crate::escape::{escape, unescape};

/// A longer print is shown by its checksum, and so are more numbers.
const MOST_SHOWN: usize = 4_096;
const MOST_NUMBERS: usize = 256;

/// The number at the start of a line, and what stands after the byte after it.
pub fn number(line: &str) -> (usize, &str) {
    let digits = line.bytes().take_while(u8::is_ascii_digit).count();
    let value = line[..digits].parse::<u64>().map_or(0, |value| value.min(u32::MAX.into()));
    (value as usize, line.get(digits + 1..).unwrap_or(""))
}

/// A line's parts before and after a byte, or the whole.
pub fn split(line: &str, byte: char) -> (&str, &str) {
    line.split_once(byte).unwrap_or((line, ""))
}

pub fn text(pieces: &str, most: usize) -> Vec<u8> {
    let mut text = Vec::new();
    for piece in pieces.split_terminator(';') {
        let (count, bytes) = number(piece);
        let bytes = unescape(bytes).expect("a piece's escapes are whole");
        (0..count).for_each(|_| text.extend_from_slice(&bytes));
    }
    text.truncate(most);
    text
}

pub fn table(pieces: &str, most: usize) -> Vec<u32> {
    let digits: String =
        pieces.split_terminator(';').map(number).map(|(count, digits)| digits.repeat(count)).collect();
    let mut words = Vec::new();
    let mut rest = digits.as_str();
    while !rest.is_empty() && words.len() < most {
        let (word, after) = number(rest);
        words.push(word as u32);
        rest = after;
    }
    words
}

/// The bytes that two digits each stand for; `-` is none.
pub fn bytes(hex: &str) -> Vec<u8> {
    let digit = |digit: u8| char::from(digit).to_digit(16).expect("a byte has two digits") as u8;
    hex.trim_end_matches('-').as_bytes().chunks(2).map(|pair| digit(pair[0]) << 4 | digit(pair[1])).collect()
}

/// Two digits a byte, or `-` where there is none.
pub fn hex(bytes: &[u8]) -> String {
    if bytes.is_empty() {
        return "-".to_string();
    }
    bytes.iter().map(|byte| format!("{byte:02x}")).collect()
}

/// A table and its text, each as one piece that stands once.
pub fn source(words: &[u32], text: &[u8]) -> String {
    format!("1 {}/{}", joined(words), piece(text))
}

/// A text as one piece that stands once.
pub fn piece(text: &[u8]) -> String {
    format!("1 {}", escape(text).replace(';', "\\x3b"))
}

pub fn joined(words: &[u32]) -> String {
    words.iter().map(u32::to_string).collect::<Vec<_>>().join(" ")
}

/// A print in quotes, or how many bytes it has and their checksum.
pub fn printed(print: &[u8]) -> String {
    if print.len() <= MOST_SHOWN {
        return format!("\"{}\"", escape(print));
    }
    format!("{} bytes, CRC-32 {}", print.len(), crc32(print))
}

/// Each number after a space, or how many there are and the checksum of two bytes each, the high one first.
pub fn numbers(numbers: &[u16], unit: &str) -> String {
    if numbers.len() > MOST_NUMBERS {
        let pairs: Vec<u8> = numbers.iter().flat_map(|number| number.to_be_bytes()).collect();
        return format!(" {} {unit}, CRC-32 {}", numbers.len(), crc32(&pairs));
    }
    numbers.iter().map(|number| format!(" {number}")).collect()
}

/// The checksum with the reflected polynomial 0xEDB88320, complemented before and after.
fn crc32(bytes: &[u8]) -> u32 {
    !bytes.iter().fold(!0, |sum, &byte| {
        (0..8).fold(
            sum ^ u32::from(byte),
            |sum, _| if sum & 1 == 1 { sum >> 1 ^ 0xedb8_8320 } else { sum >> 1 },
        )
    })
}
