//! The stored cases, in the folder that B3_VECTORS names or in tests/vectors.

use b3_compare::escape::{escape, unescape};
use b3_compare::print::check_print_input;
use b3_compare::refusal::{OUTPUT_LIMIT, TABLE_LIMIT};
use b3_compare::trials::{bytes, hex};
use b3_compare::words::{decode_expression, decode_program, encode_expression, encode_program};
use b3_compare::{judge_program, read_expression, read_program, tidy, write_settings};
use b3_compare::{on_deep_stack, print_expression, print_expression_by, print_program, print_program_by};
use b3_compare::{Format, Refusal, Settings};
use std::{env, fs, path::PathBuf};

fn folder() -> PathBuf {
    match env::var_os("B3_VECTORS") {
        Some(folder) => PathBuf::from(folder),
        None => PathBuf::from(env!("CARGO_MANIFEST_DIR")).join("../vectors"),
    }
}

/// Sees that `answer`, from a case's other fields, is each case's last field.
fn check(file: &str, answer: impl Fn(&[&str]) -> String + Send) {
    let path = folder().join(file);
    let cases = fs::read_to_string(&path).unwrap_or_else(|error| panic!("{}: {error}", path.display()));
    on_deep_stack(move || {
        let mut wrong = 0;
        for (index, line) in cases.lines().enumerate() {
            let fields: Vec<&str> = line.split('\t').collect();
            let (expected, given) = fields.split_last().expect("a line has fields");
            let found = answer(given);
            if found != *expected {
                wrong += 1;
                eprintln!("{file}:{}: {line}\n    found {found}", index + 1);
            }
        }
        assert_eq!(wrong, 0, "{wrong} cases of {file} differ");
        assert!(cases.lines().count() > 30, "{file} has few cases");
    });
}

fn text(field: &str) -> Vec<u8> {
    unescape(field).expect("a text's escapes are whole")
}

fn natural(field: &str) -> usize {
    field.parse().expect("it is a natural")
}

/// A table's words; `-` is none.
fn words(field: &str) -> Vec<u32> {
    field
        .trim_end_matches('-')
        .split_whitespace()
        .map(|word| word.parse().expect("a word is a natural"))
        .collect()
}

fn shown_words(answer: Result<Vec<u32>, Refusal>) -> String {
    match answer {
        Ok(words) => words.iter().map(u32::to_string).collect::<Vec<_>>().join(" "),
        Err(refusal) => refusal.to_string(),
    }
}

fn shown_print(answer: Result<Vec<u8>, Refusal>) -> String {
    match answer {
        Ok(print) => format!("\"{}\"", escape(&print)),
        Err(refusal) => refusal.to_string(),
    }
}

#[test]
fn read_expressions() {
    check("read-expression.txt", |given| {
        let text = text(given[0]);
        shown_words(read_expression(&text, TABLE_LIMIT).map(|expr| encode_expression(&text, &expr)))
    });
}

#[test]
fn read_programs() {
    check("read-program.txt", |given| {
        let text = text(given[0]);
        shown_words(read_program(&text, TABLE_LIMIT).map(|program| encode_program(&text, &program)))
    });
}

#[test]
fn print_expressions() {
    check("print-expression.txt", |given| {
        let (text, words) = (text(given[0]), words(given[1]));
        let (format, indent) = match given[2] {
            "-" => (Format::SingleLine, 0),
            indent => (Format::MultipleLines(natural(indent)), natural(indent)),
        };
        shown_print(
            check_print_input(&text, &words, indent)
                .and_then(|()| decode_expression(&text, &words))
                .and_then(|expr| print_expression(&expr, format, OUTPUT_LIMIT)),
        )
    });
}

#[test]
fn print_programs() {
    check("print-program.txt", |given| {
        let (text, words) = (text(given[0]), words(given[1]));
        shown_print(
            check_print_input(&text, &words, 0)
                .and_then(|()| decode_program(&text, &words))
                .and_then(|program| print_program(&program, OUTPUT_LIMIT)),
        )
    });
}

#[test]
fn judged_programs() {
    check("profile.txt", |given| match judge_program(&text(given[0]), &words(given[1])) {
        Ok(verdict) => verdict.to_string(),
        Err(refusal) => refusal.to_string(),
    });
}

#[test]
fn read_settings() {
    check("read-settings.txt", |given| match Settings::read(&bytes(given[0])) {
        Ok(settings) => format!("{} {}", settings.step, settings.form as u8),
        Err(refusal) => refusal.to_string(),
    });
}

#[test]
fn written_settings() {
    check("write-settings.txt", |given| {
        let [step, form, room] = [0, 1, 2].map(|index: usize| natural(given[index]));
        match write_settings(step as u64, form as u64, room) {
            Ok(bytes) => hex(&bytes),
            Err(refusal) => refusal.to_string(),
        }
    });
}

#[test]
fn print_expressions_by_settings() {
    check("print-expression-by.txt", |given| {
        let (text, words, indent) = (text(given[1]), words(given[2]), natural(given[3]));
        shown_print(Settings::read(&bytes(given[0])).and_then(|settings| {
            check_print_input(&text, &words, indent)?;
            print_expression_by(&decode_expression(&text, &words)?, settings, indent, OUTPUT_LIMIT)
        }))
    });
}

#[test]
fn print_programs_by_settings() {
    check("print-program-by.txt", |given| {
        let (text, words) = (text(given[1]), words(given[2]));
        shown_print(Settings::read(&bytes(given[0])).and_then(|settings| {
            check_print_input(&text, &words, 0)?;
            print_program_by(&decode_program(&text, &words)?, settings, OUTPUT_LIMIT)
        }))
    });
}

#[test]
fn tidied_programs() {
    check("tidy.txt", |given| {
        let mut out = vec![b'?'; OUTPUT_LIMIT + 1];
        let answer = tidy(&text(given[0]), &mut out);
        let (number, low) = ((answer >> 32) as u32, answer as usize & 0xffff_ffff);
        let written = if number == 0 { low } else { 0 };
        assert!(out[written..].iter().all(|&byte| byte == b'?'), "later bytes stay");
        match number {
            0 => shown_print(Ok(out[..written].to_vec())),
            _ => shown_print(Err(Refusal::new(number, low))),
        }
    });
}

/// Prints that are refused or read as another tree, whose print is the last field.
#[test]
fn prints_not_read_back() {
    check("read-back.txt", |given| {
        let text = text(given[0]);
        let program = read_program(&text, TABLE_LIMIT).expect("the text is read");
        let print = print_program(&program, OUTPUT_LIMIT).expect("it is printed");
        assert_eq!(shown_print(Ok(print.clone())), given[1]);
        let again = read_program(&print, TABLE_LIMIT);
        assert_ne!(again.as_ref(), Ok(&program));
        shown_print(again.and_then(|again| print_program(&again, OUTPUT_LIMIT)))
    });
}
