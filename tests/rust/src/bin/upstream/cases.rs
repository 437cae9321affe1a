//! What is asked: the stored cases, forms nested in one another, random tables and texts.

use crate::question::Question::{self, PrintExpression, PrintProgram, ReadExpression, ReadProgram};
use b3_compare::escape::unescape;
use b3_compare::generate::{case, expression_text, random_expression, random_program, NAMES};
use b3_compare::random::Random;
use b3_compare::refusal::{INDENT_LIMIT, TABLE_LIMIT, TEXT_LIMIT};
use b3_compare::words::{encode_expression, encode_program};
use b3_compare::{read_expression, read_program, Format};
use std::fs;
use std::path::{Path, PathBuf};

/// A longer text is asked once in `SELDOM`: upstream takes seconds for the longest.
const MOST_READ: usize = 4096;
const SELDOM: u64 = 64;

/// The stored cases: every tree that is printed, every text that is read, and the trees' prints, printed and read.
pub fn stored() -> impl Iterator<Item = Question> {
    let prints = fields("print-expression.txt").into_iter().filter_map(|fields| {
        let format = match fields[2].as_str() {
            "-" => Format::SingleLine,
            indent => Format::MultipleLines(indent.parse().expect("an indent is a natural")),
        };
        printed(&fields).then(|| PrintExpression { text: text(&fields[0]), words: words(&fields[1]), format })
    });
    let programs = fields("print-program.txt").into_iter().filter_map(|fields| {
        printed(&fields).then(|| PrintProgram { text: text(&fields[0]), words: words(&fields[1]) })
    });
    let expressions =
        fields("read-expression.txt").into_iter().map(|fields| ReadExpression(text(&fields[0])));
    let texts = ["read-program.txt", "tidy.txt", "read-back.txt"].into_iter().flat_map(fields);
    let texts: Vec<Vec<u8>> = texts.map(|fields| text(&fields[0])).collect();
    let trees: Vec<Question> = texts.iter().filter_map(|text| table_of(text)).collect();
    let again: Vec<Question> = trees.iter().filter_map(again).collect();
    prints
        .chain(programs)
        .chain(expressions)
        .chain(texts.into_iter().map(ReadProgram))
        .chain(trees)
        .chain(again)
}

fn printed(fields: &[String]) -> bool {
    fields.last().is_some_and(|answer| answer.starts_with('"'))
}

fn fields(file: &str) -> Vec<Vec<String>> {
    let path: PathBuf = Path::new(env!("CARGO_MANIFEST_DIR")).join("../vectors").join(file);
    let cases = fs::read_to_string(&path).unwrap_or_else(|error| panic!("{}: {error}", path.display()));
    cases.lines().map(|line| line.split('\t').map(str::to_string).collect()).collect()
}

fn text(field: &str) -> Vec<u8> {
    unescape(field).expect("a text's escapes are whole")
}

fn words(field: &str) -> Vec<u32> {
    field.split_whitespace().map(|word| word.parse().expect("a word is a natural")).collect()
}

/// Every form with operands in every place of every one in every place of every one, on one line and on several.
pub fn nested() -> impl Iterator<Item = Question> {
    let places = places();
    let count = places.len();
    (0..count.pow(3)).flat_map(move |index| {
        let chosen = [index / count / count, index / count % count, index % count];
        let before = chosen.iter().flat_map(|&place| places[place].0.clone());
        let after = chosen.iter().rev().flat_map(|&place| places[place].1.clone());
        let words: Vec<u32> = before.chain(NAME).chain(after).collect();
        let print = |format| PrintExpression { text: b"a".to_vec(), words: words.clone(), format };
        [print(Format::SingleLine), print(Format::MultipleLines(index % 4))]
    })
}

/// The words of a name over the text `a`.
const NAME: [u32; 4] = [4, 0, 1, 0];

/// The words before and after each place of an expression in another one, names in the other places.
fn places() -> Vec<(Vec<u32>, Vec<u32>)> {
    let operands = |operator| match operator {
        1 => 3,
        15 | 16 => 1,
        _ => 2,
    };
    let item = [&[1], &NAME[..]].concat();
    let mut places = Vec::new();
    for operator in 1..=16 {
        for place in 0..operands(operator) {
            let before = [&[5, operator], item.repeat(place).as_slice(), &[1]].concat();
            let after = [item.repeat(operands(operator) - place - 1).as_slice(), &[0]].concat();
            places.push((before, after));
        }
    }
    places.push((vec![6, 0, 1, 1], vec![0]));
    places.push((vec![7, 0, 1], vec![]));
    places.push((vec![8, 0, 1, 0], NAME.to_vec()));
    places.push(([&[8, 0, 1, 0], &NAME[..]].concat(), vec![]));
    places.push((vec![9, 1, 1, 0, 1, 0, 1, 0, 1, 1], [&[0, 0], &NAME[..]].concat()));
    places.push((vec![9, 1, 1, 0, 1, 0, 1, 0, 0], vec![]));
    places
}

/// A table of any tree, over a text of names.
pub fn random_table(seed: u64, index: u64) -> Question {
    let random = &mut Random::new(seed, index);
    let text = NAMES.to_vec();
    if random.once_in(2) {
        let fuel = random.below(60);
        let words = encode_program(NAMES, &random_program(random, fuel));
        return PrintProgram { text, words };
    }
    let fuel = random.below(40);
    let words = encode_expression(NAMES, &random_expression(random, fuel));
    let format = match random.once_in(2) {
        true => Format::SingleLine,
        false => Format::MultipleLines(random.below(INDENT_LIMIT + 1)),
    };
    PrintExpression { text, words, format }
}

/// The table of a random text, where it is read.
pub fn read_table(seed: u64, index: u64) -> Option<Question> {
    let random = &mut Random::new(!seed, index);
    if random.once_in(2) {
        return table_of(&program_text(!seed, index)?);
    }
    let text = expression_text(random);
    let words = encode_expression(&text, &read_expression(&text, TABLE_LIMIT).ok()?);
    let format = match random.once_in(2) {
        true => Format::SingleLine,
        false => Format::MultipleLines(random.below(INDENT_LIMIT + 1)),
    };
    Some(PrintExpression { text, words, format })
}

/// The reading of the print.
fn again(table: &Question) -> Option<Question> {
    let print = table.print().ok().filter(|print| print.len() <= MOST_READ)?;
    match table {
        PrintExpression { .. } => Some(ReadExpression(print)),
        PrintProgram { .. } => Some(ReadProgram(print)),
        ReadExpression(_) | ReadProgram(_) => None,
    }
}

/// The readings of the prints of two tables.
pub fn prints(seed: u64, index: u64) -> impl Iterator<Item = Question> {
    let tables = [Some(random_table(seed, index)), read_table(seed, index)];
    tables.into_iter().flatten().filter_map(|table| again(&table))
}

fn table_of(text: &[u8]) -> Option<Question> {
    let words = encode_program(text, &read_program(text, TABLE_LIMIT).ok()?);
    Some(PrintProgram { text: text.to_vec(), words })
}

pub fn random_text(seed: u64, index: u64) -> Option<Question> {
    let random = &mut Random::new(seed, index);
    if random.once_in(3) {
        return Some(ReadExpression(expression_text(random)));
    }
    program_text(seed, index).map(ReadProgram)
}

fn program_text(seed: u64, index: u64) -> Option<Vec<u8>> {
    let text = case(seed, index).text;
    let asked = text.len() <= MOST_READ || text.len() <= TEXT_LIMIT && index.is_multiple_of(SELDOM);
    asked.then_some(text)
}
