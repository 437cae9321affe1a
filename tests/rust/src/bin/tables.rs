//! Writes random tables, also such as no reading gives, and their prints as stored cases, to compare other
//! printers with.
//!
//! tables expressions|programs [cases [seed]]

use b3_compare::escape::escape;
use b3_compare::generate::{random_expression, random_program, NAMES};
use b3_compare::random::Random;
use b3_compare::refusal::{Refusal, INDENT_LIMIT, OUTPUT_LIMIT};
use b3_compare::words::{encode_expression, encode_program};
use b3_compare::{on_deep_stack, print_expression, print_program, Format};

fn main() {
    let arguments: Vec<String> = std::env::args().skip(1).collect();
    let number = |index: usize, default| match arguments.get(index) {
        Some(number) => number.parse::<u64>().expect("cases and seed are naturals"),
        None => default,
    };
    let line: fn(&mut Random) -> String = match arguments.first().map(String::as_str) {
        Some("expressions") => expression_line,
        Some("programs") => program_line,
        _ => panic!("tables expressions|programs [cases [seed]]"),
    };
    on_deep_stack(|| {
        for index in 0..number(1, 100) {
            println!("{}", line(&mut Random::new(number(2, 1), index)));
        }
    });
}

fn expression_line(random: &mut Random) -> String {
    let fuel = random.below(40);
    let expr = random_expression(random, fuel);
    let (format, shown) = if random.once_in(2) {
        (Format::SingleLine, "-".to_string())
    } else {
        let indent = random.below(INDENT_LIMIT + 1);
        (Format::MultipleLines(indent), indent.to_string())
    };
    let print = print_expression(&expr, format, OUTPUT_LIMIT);
    format!("{}\t{}\t{shown}\t{}", escape(NAMES), words(encode_expression(NAMES, &expr)), answer(print))
}

fn program_line(random: &mut Random) -> String {
    let fuel = random.below(60);
    let program = random_program(random, fuel);
    let print = print_program(&program, OUTPUT_LIMIT);
    format!("{}\t{}\t{}", escape(NAMES), words(encode_program(NAMES, &program)), answer(print))
}

fn words(words: Vec<u32>) -> String {
    words.iter().map(u32::to_string).collect::<Vec<_>>().join(" ")
}

fn answer(print: Result<Vec<u8>, Refusal>) -> String {
    match print {
        Ok(print) => format!("\"{}\"", escape(&print)),
        Err(refusal) => refusal.to_string(),
    }
}
