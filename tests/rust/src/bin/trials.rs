//! Compares a program that takes crates/trials' lines with the Rust implementation, on seeded lines about print
//! settings: records with bytes changed, settings written, and prints by records; and about the bench profile. Their
//! tables are those of random trees, also such as no reading gives, and of texts' trees, some of them damaged.
//!
//! trials PROGRAM [COUNT [SEED]]

use b3_compare::generate::{case, random_expression, random_flow, random_program, NAMES};
use b3_compare::generate::{expression_text, random_record, random_writing};
use b3_compare::random::Random;
use b3_compare::refusal::{INDENT_LIMIT, OUTPUT_LIMIT, TABLE_LIMIT};
use b3_compare::trials::{answer, answers, hex, source};
use b3_compare::words::{encode_expression, encode_program};
use b3_compare::{on_deep_stack, read_expression, read_program};
use std::env;
use std::process::Command;

/// Lines that one run of the program takes.
const BATCH: u64 = 1000;
/// Differences that are shown.
const SHOWN: usize = 20;
/// A longer text is passed over.
const MOST_READ: usize = 4096;

fn main() {
    let arguments: Vec<String> = env::args().skip(1).collect();
    let program = arguments.first().expect("trials PROGRAM [COUNT [SEED]]");
    let number = |index: usize, default| match arguments.get(index) {
        Some(number) => number.parse::<u64>().expect("count and seed are naturals"),
        None => default,
    };
    let (count, seed) = (number(1, 1000), number(2, 1));
    let differences = on_deep_stack(|| compare(program, count, seed));
    println!("{differences} differences");
    if differences > 0 {
        std::process::exit(1);
    }
}

fn compare(program: &str, count: u64, seed: u64) -> usize {
    let (mut refused, mut differences) = (0, 0);
    for start in (0..count).step_by(BATCH as usize) {
        let batch = start..count.min(start + BATCH);
        let lines: String = batch.map(|index| line(seed, index) + "\n").collect();
        let found = answers(&mut Command::new(program), &lines);
        assert_eq!(found.len(), lines.lines().count(), "the program answers every line");
        for (line, found) in lines.lines().zip(found) {
            let expected = answer(line).expect("the Rust implementation answers every line");
            refused += usize::from(expected.starts_with("refused"));
            if found != expected {
                differences += 1;
                if differences <= SHOWN {
                    println!("{line}\n    program: {found}\n    Rust: {expected}");
                }
            }
        }
    }
    println!("{count} lines from seed {seed}, {refused} refused");
    differences
}

fn line(seed: u64, index: u64) -> String {
    let random = &mut Random::new(seed, index);
    match random.below(12) {
        0 => format!("q {}", hex(&random_record(random, 2))),
        1 => {
            let [step, form, room] = random_writing(random);
            format!("Q {step} {form} {room}")
        }
        2..=4 => {
            let table = program_table(random, seed, index);
            format!("d {} {} {table}", hex(&random_record(random, 8)), room(random))
        }
        5 => format!("j {}", program_table(random, seed, index)),
        6..=8 => format!("j {}", flow_table(random)),
        _ => {
            let table = expression_table(random);
            let indent = random.below(INDENT_LIMIT + 9);
            format!("e {} {indent} {} {table}", hex(&random_record(random, 8)), room(random))
        }
    }
}

/// Mostly more bytes than a print has.
fn room(random: &mut Random) -> usize {
    match random.below(8) {
        0 => random.below(200),
        1 => random.below(2000),
        _ => OUTPUT_LIMIT,
    }
}

/// Once in two a random text's table, where it is read.
fn program_table(random: &mut Random, seed: u64, index: u64) -> String {
    let text = case(!seed, index).text;
    if random.once_in(2) && text.len() <= MOST_READ {
        if let Ok(program) = read_program(&text, TABLE_LIMIT) {
            return source(&damaged(random, encode_program(&text, &program)), &text);
        }
    }
    let fuel = random.below(60);
    let words = encode_program(NAMES, &random_program(random, fuel));
    source(&damaged(random, words), NAMES)
}

/// The same of an expression.
fn expression_table(random: &mut Random) -> String {
    let text = expression_text(random);
    if random.once_in(2) && text.len() <= MOST_READ {
        if let Ok(expr) = read_expression(&text, TABLE_LIMIT) {
            return source(&damaged(random, encode_expression(&text, &expr)), &text);
        }
    }
    let fuel = random.below(40);
    let words = encode_expression(NAMES, &random_expression(random, fuel));
    source(&damaged(random, words), NAMES)
}

/// The table of a program for a bench.
fn flow_table(random: &mut Random) -> String {
    let fuel = random.below(60);
    let words = encode_program(NAMES, &random_flow(random, fuel));
    source(&damaged(random, words), NAMES)
}

/// A table, once in eight cut, or with a word changed, left out or put in.
fn damaged(random: &mut Random, mut words: Vec<u32>) -> Vec<u32> {
    if random.once_in(8) {
        let place = random.below(words.len());
        let word = random.below(40) as u32;
        match random.below(6) {
            0 | 1 => words.truncate(place),
            2 | 3 => words[place] = word,
            4 => drop(words.remove(place)),
            _ => words.insert(place, word),
        }
    }
    words
}
