//! Texts on one line, as the stored cases have them: `\n \t \r \\ \xHH` stand for their byte.

/// The text with escapes for what isn't printable ASCII.
pub fn escape(text: &[u8]) -> String {
    let mut line = String::with_capacity(text.len());
    for &byte in text {
        match byte {
            b'\n' => line.push_str("\\n"),
            b'\t' => line.push_str("\\t"),
            b'\r' => line.push_str("\\r"),
            b'\\' => line.push_str("\\\\"),
            b' '..=b'~' => line.push(char::from(byte)),
            _ => line.push_str(&format!("\\x{byte:02x}")),
        }
    }
    line
}

/// The text that `line` stands for; none where an escape is malformed.
pub fn unescape(line: &str) -> Option<Vec<u8>> {
    let mut text = Vec::with_capacity(line.len());
    let mut bytes = line.bytes();
    while let Some(byte) = bytes.next() {
        if byte != b'\\' {
            text.push(byte);
            continue;
        }
        text.push(match bytes.next()? {
            b'n' => b'\n',
            b't' => b'\t',
            b'r' => b'\r',
            b'\\' => b'\\',
            b'x' => hex(bytes.next()?)? << 4 | hex(bytes.next()?)?,
            _ => return None,
        });
    }
    Some(text)
}

fn hex(digit: u8) -> Option<u8> {
    char::from(digit).to_digit(16).map(|value| value as u8)
}
