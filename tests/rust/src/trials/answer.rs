//! What this implementation answers to a line about outlines, numbers of names, judgements, readings, prints or
//! settings.

use super::parts::{bytes, hex, joined, number, numbers, printed, split, table, text};
use crate::numbering::number_spans;
use crate::print::check_print_input;
use crate::refusal::{Result, OUTPUT_LIMIT, TABLE_LIMIT};
use crate::words::{decode_expression, decode_program, encode_expression, encode_program, outline_program};
use crate::{judge_program, print_expression, print_expression_by, print_program_by};
use crate::{read_expression, read_program};
use crate::{write_settings, Format, Settings};

/// What the program has room for: a text's bytes, a table's words, and of names the text's bytes, the words of spans
/// and the numbers.
const TEXT: usize = 32_772;
const WORDS: usize = 16_400;
const LONG_TEXT: usize = 65_540;
const SPANS: usize = 65_540;
const NUMBERS: usize = 32_772;

/// The answer to a line; none where it is no case of these.
pub fn answer(line: &str) -> Option<String> {
    let entry = line.chars().next().filter(|entry| "oajrRpmPqQde".contains(*entry))?;
    let digits = line[1..].bytes().take_while(u8::is_ascii_digit).count();
    let (counted, rest) = (digits > 0, &line[digits + 2..]);
    Some(match entry {
        'o' => outline(rest, counted),
        'a' => names(rest, counted),
        'j' => judged(rest),
        'r' | 'R' => {
            let (size, rest) = number(rest);
            shown(read(entry, &text(rest, TEXT), size), counted, "words", joined)
        }
        'q' => settings(rest),
        'Q' => shown(written(rest), counted, "bytes", hex),
        _ => shown(print(entry, rest), counted, "bytes", printed),
    })
}

fn outline(rest: &str, counted: bool) -> String {
    let (kinds, rest) = number(rest);
    let (ends, rest) = number(rest);
    let (text_len, rest) = number(rest);
    let words = table(rest, WORDS);
    if counted {
        return format!("{} words", words.len());
    }
    let mut kinds = vec![u16::from(u8::MAX); kinds.min(WORDS)];
    let mut ends = vec![u16::MAX; ends.min(WORDS)];
    let check = if words.len() > TABLE_LIMIT {
        "too long".to_string()
    } else {
        match outline_program(text_len, &words) {
            Ok(outline) => {
                fill(&mut kinds, &outline.kinds);
                fill(&mut ends, &outline.ends);
                "tree".to_string()
            }
            Err(refusal) => format!("misfit {}", refusal.place),
        }
    };
    format!("{check} /{} /{}", numbers(&kinds, "kinds"), numbers(&ends, "ends"))
}

fn names(rest: &str, counted: bool) -> String {
    let (size, rest) = number(rest);
    let (spans, pieces) = split(rest, '/');
    let (found, count) = number_spans(&text(pieces, LONG_TEXT), &table(spans, SPANS));
    if counted {
        return format!("{count} names");
    }
    let mut given = vec![u16::MAX; size.min(NUMBERS)];
    fill(&mut given, &found);
    format!("{count} /{}", numbers(&given, "numbers"))
}

fn judged(rest: &str) -> String {
    let (words, pieces) = split(rest, '/');
    match judge_program(&text(pieces, TEXT), &table(words, WORDS)) {
        Ok(verdict) => verdict.to_string(),
        Err(refusal) => refusal.to_string(),
    }
}

/// Puts numbers at the start of a slice, as far as it goes.
fn fill<T: Copy>(slice: &mut [T], numbers: &[T]) {
    slice.iter_mut().zip(numbers).for_each(|(place, number)| *place = *number);
}

fn read(entry: char, text: &[u8], size: usize) -> Result<Vec<u32>> {
    let size = size.min(TABLE_LIMIT);
    match entry {
        'r' => read_expression(text, size).map(|expr| encode_expression(text, &expr)),
        _ => read_program(text, size).map(|program| encode_program(text, &program)),
    }
}

/// The step and the form that are read; after a refusal the default ones.
fn settings(rest: &str) -> String {
    let (refusal, settings) = match Settings::read(&bytes(rest)) {
        Ok(settings) => (String::new(), settings),
        Err(refusal) => (format!("{refusal} "), Settings::DEFAULT),
    };
    format!("{refusal}{} {}", settings.step, settings.form as u8)
}

fn written(rest: &str) -> Result<Vec<u8>> {
    let (step, rest) = number(rest);
    let (form, rest) = number(rest);
    write_settings(step as u64, form as u64, number(rest).0)
}

/// A print, of `d` and `e` by settings, of `m` and `e` of an expression from a start indent on.
fn print(entry: char, rest: &str) -> Result<Vec<u8>> {
    let by = "de".contains(entry);
    let (record, rest) = if by { split(rest, ' ') } else { ("-", rest) };
    let (indent, rest) = if "me".contains(entry) { number(rest) } else { (0, rest) };
    let (size, rest) = number(rest);
    let (words, pieces) = split(rest, '/');
    let (text, words, size) = (text(pieces, TEXT), table(words, WORDS), size.min(OUTPUT_LIMIT));
    let settings = if by { Settings::read(&bytes(record))? } else { Settings::DEFAULT };
    check_print_input(&text, &words, indent)?;
    if "Pd".contains(entry) {
        return print_program_by(&decode_program(&text, &words)?, settings, size);
    }
    let expr = decode_expression(&text, &words)?;
    match entry {
        'p' => print_expression(&expr, Format::SingleLine, size),
        _ => print_expression_by(&expr, settings, indent, size),
    }
}

fn shown<T>(answer: Result<Vec<T>>, counted: bool, unit: &str, show: fn(&[T]) -> String) -> String {
    match answer {
        Ok(items) if counted => format!("{} {unit}", items.len()),
        Ok(items) => show(&items),
        Err(refusal) => refusal.to_string(),
    }
}
