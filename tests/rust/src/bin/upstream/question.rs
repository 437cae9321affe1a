//! A question as a line of crates/trials, and its answers.

use b3_compare::escape::{escape, unescape};
use b3_compare::refusal::{
    ENDED_TOO_SOON, LARGE_NATURAL, OUTPUT_LIMIT, SHORT_TABLE, TABLE_LIMIT, TOO_DEEP, UNCLOSED_COMMENT,
    UNUSABLE,
};
use b3_compare::trials::{joined, piece, printed, source};
use b3_compare::words::{decode_expression, decode_program, encode_expression, encode_program};
use b3_compare::{print_expression, print_program, read_expression, read_program, Format, Refusal};

/// The words of a program of one type.
const ONE_TYPE: usize = 8;

/// What upstream and the others are asked.
pub enum Question {
    PrintExpression { text: Vec<u8>, words: Vec<u32>, format: Format },
    PrintProgram { text: Vec<u8>, words: Vec<u32> },
    ReadExpression(Vec<u8>),
    ReadProgram(Vec<u8>),
}

use Question::{PrintExpression, PrintProgram, ReadExpression, ReadProgram};

impl Question {
    /// As a line of crates/trials, with `P` for a program's print and `R` for its reading.
    pub fn line(&self) -> String {
        match self {
            PrintExpression { text, words, format: Format::SingleLine } => {
                format!("p {OUTPUT_LIMIT} {}", source(words, text))
            }
            PrintExpression { text, words, format: Format::MultipleLines(indent) } => {
                format!("m {indent} {OUTPUT_LIMIT} {}", source(words, text))
            }
            PrintProgram { text, words } => format!("P {OUTPUT_LIMIT} {}", source(words, text)),
            ReadExpression(text) => format!("r {TABLE_LIMIT} {}", piece(text)),
            ReadProgram(text) => format!("R {TABLE_LIMIT} {}", piece(text)),
        }
    }

    pub fn kind(&self) -> &'static str {
        match self {
            PrintExpression { format: Format::SingleLine, .. } => "prints of expressions",
            PrintExpression { .. } => "prints of expressions on lines",
            PrintProgram { .. } => "prints of programs",
            ReadExpression(_) => "readings of expressions",
            ReadProgram(_) => "readings of programs",
        }
    }

    /// The Rust implementation's print.
    pub fn print(&self) -> Result<Vec<u8>, Refusal> {
        match self {
            PrintExpression { text, words, format } => {
                print_expression(&decode_expression(text, words)?, *format, OUTPUT_LIMIT)
            }
            PrintProgram { text, words } => print_program(&decode_program(text, words)?, OUTPUT_LIMIT),
            ReadExpression(_) | ReadProgram(_) => unreachable!("a reading is no print"),
        }
    }

    /// The words of the Rust implementation's reading.
    fn words(&self) -> Result<Vec<u32>, Refusal> {
        match self {
            ReadExpression(text) => Ok(encode_expression(text, &read_expression(text, TABLE_LIMIT)?)),
            ReadProgram(text) => Ok(encode_program(text, &read_program(text, TABLE_LIMIT)?)),
            PrintExpression { .. } | PrintProgram { .. } => unreachable!("a print is no reading"),
        }
    }

    /// What a program of crates/trials' form answers, by the Rust implementation.
    pub fn answer(&self) -> String {
        let answer = match self {
            ReadExpression(_) | ReadProgram(_) => self.words().map(|words| joined(&words)),
            PrintExpression { .. } | PrintProgram { .. } => self.print().map(|print| printed(&print)),
        };
        answer.unwrap_or_else(|refusal| refusal.to_string())
    }

    pub fn agrees(&self, upstream: &str) -> Agreement {
        match self {
            PrintExpression { .. } | PrintProgram { .. } => match self.print() {
                Ok(print) => Agreement::when(format!("\"{}\"", escape(&print)) == upstream),
                Err(_) => Agreement::Limit,
            },
            ReadExpression(text) => {
                let rust = read_expression(text, TABLE_LIMIT);
                reading_agrees(text, rust, upstream, |names, words, expr| {
                    decode_expression(names, words).is_ok_and(|found| found == *expr)
                })
            }
            ReadProgram(text) => {
                let rust = read_program(text, TABLE_LIMIT);
                reading_agrees(text, rust, upstream, |names, words, program| {
                    decode_program(names, words).is_ok_and(|found| found == *program)
                })
            }
        }
    }
}

#[derive(Clone, Copy, PartialEq, Eq, PartialOrd, Ord)]
pub enum Agreement {
    /// The same print or tree.
    Same,
    /// Both refuse, at the same place.
    Refused,
    /// Refused at a limit that upstream doesn't have, or at a comment that never closes; upstream went on past the
    /// place.
    Limit,
    Different,
}

impl Agreement {
    fn when(same: bool) -> Self {
        if same {
            Agreement::Same
        } else {
            Agreement::Different
        }
    }
}

/// A reading of the Rust implementation against upstream's answer: words over its names, or
/// the place where it failed.
fn reading_agrees<T>(
    text: &[u8],
    rust: Result<T, Refusal>,
    upstream: &str,
    equal: impl FnOnce(&[u8], &[u32], &T) -> bool,
) -> Agreement {
    let failed = upstream.strip_prefix("failed at ").map(|place| place.parse::<u32>().expect("a place"));
    match (rust, failed) {
        (Ok(tree), None) => {
            let (words, names) = upstream.split_once('/').expect("words, a slash and names");
            let words: Option<Vec<u32>> = words.split_whitespace().map(|word| word.parse().ok()).collect();
            let names = unescape(names).expect("a text's escapes are whole");
            Agreement::when(words.is_some_and(|words| equal(&names, &words, &tree)))
        }
        (Err(refusal), Some(failed)) if refusal == refused_at(text, failed) => Agreement::Refused,
        (Err(Refusal { number: SHORT_TABLE, .. }), None) => Agreement::Limit,
        (Err(Refusal { number: TOO_DEEP | LARGE_NATURAL, place }), failed)
            if failed.is_none_or(|failed| failed >= place) =>
        {
            Agreement::Limit
        }
        // Upstream takes the comment for one that the text's end closes.
        (Err(Refusal { number: UNCLOSED_COMMENT, place }), failed)
            if failed.is_none_or(|failed| failed >= place || lacks_its_mark(text, failed, place)) =>
        {
            Agreement::Limit
        }
        _ => Agreement::Different,
    }
}

/// How a text is refused where upstream fails in it at a place.
fn refused_at(text: &[u8], place: u32) -> Refusal {
    let number = if place as usize == text.len() { ENDED_TOO_SOON } else { UNUSABLE };
    Refusal { number, place }
}

/// Whether only a name and blanks stand between two places: where the mark of a statement led by a name is missing,
/// upstream fails at the name, having passed the comment after it.
fn lacks_its_mark(text: &[u8], name: u32, comment: u32) -> bool {
    let declared = [b"type ", &text[name as usize..comment as usize]].concat();
    let read = read_program(&declared, ONE_TYPE);
    read.is_ok()
}
