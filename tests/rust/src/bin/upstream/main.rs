//! Compares upstream's own printer and parser, compiled by tests/upstream, with the Rust implementation: on the
//! stored cases, on all forms nested in one another, on random tables, also such as no reading gives, and on random
//! texts. A third program that takes crates/trials' lines is compared with both.
//!
//! upstream UPSTREAM [COUNT [SEED [PROGRAM]]]

mod cases;
mod question;

use b3_compare::{on_deep_stack, trials};
use cases::{nested, prints, random_table, random_text, read_table, stored};
use question::{Agreement, Question};
use std::collections::BTreeMap;
use std::env;
use std::process::Command;

/// Bytes of lines that one run of a program takes.
const BATCH: usize = 1_000_000;
/// Differences that are shown.
const SHOWN: usize = 20;

fn main() {
    let arguments: Vec<String> = env::args().skip(1).collect();
    let upstream = arguments.first().expect("upstream UPSTREAM [COUNT [SEED [PROGRAM]]]");
    let number = |index: usize, default| match arguments.get(index) {
        Some(number) => number.parse::<u64>().expect("count and seed are naturals"),
        None => default,
    };
    let (count, seed) = (number(1, 1000), number(2, 1));
    let differences = on_deep_stack(|| {
        let mut comparison = Comparison::new(upstream, arguments.get(3).map(String::as_str));
        comparison.ask("stored cases", stored());
        comparison.ask("nested forms", nested());
        for start in (0..count).step_by(1000) {
            let range = start..count.min(start + 1000);
            comparison.ask("random tables", range.clone().map(|index| random_table(seed, index)));
            comparison.ask("texts' tables", range.clone().filter_map(|index| read_table(seed, index)));
            comparison.ask("prints", range.clone().flat_map(|index| prints(seed, index)));
            comparison.ask("random texts", range.filter_map(|index| random_text(seed, index)));
        }
        comparison.show(count, seed)
    });
    if differences > 0 {
        std::process::exit(1);
    }
}

struct Comparison {
    upstream: Command,
    program: Option<Command>,
    counts: BTreeMap<(&'static str, &'static str), BTreeMap<Agreement, usize>>,
    differences: usize,
    program_answers: usize,
    program_differences: usize,
}

impl Comparison {
    fn new(upstream: &str, program: Option<&str>) -> Self {
        let mut mono = Command::new("mono");
        mono.arg(upstream);
        Comparison {
            upstream: mono,
            program: program.map(Command::new),
            counts: BTreeMap::new(),
            differences: 0,
            program_answers: 0,
            program_differences: 0,
        }
    }

    fn ask(&mut self, source: &'static str, questions: impl Iterator<Item = Question>) {
        let mut batch = Vec::new();
        let mut lines = String::new();
        for question in questions {
            let line = question.line();
            if lines.len() + line.len() >= BATCH {
                self.ask_batch(source, &batch, &lines);
                batch.clear();
                lines.clear();
            }
            lines.push_str(&line);
            lines.push('\n');
            batch.push(question);
        }
        self.ask_batch(source, &batch, &lines);
    }

    fn ask_batch(&mut self, source: &'static str, questions: &[Question], lines: &str) {
        let answers = trials::answers(&mut self.upstream, lines);
        assert_eq!(answers.len(), questions.len(), "upstream answers every line");
        for ((question, line), answer) in questions.iter().zip(lines.lines()).zip(&answers) {
            let agreement = question.agrees(answer);
            *self.counts.entry((source, question.kind())).or_default().entry(agreement).or_default() += 1;
            if agreement == Agreement::Different {
                self.differences += 1;
                if self.differences <= SHOWN {
                    println!("{line}\n    upstream: {answer}\n    Rust: {}", question.answer());
                }
            }
        }
        if let Some(program) = &mut self.program {
            let answers = trials::answers(program, lines);
            assert_eq!(answers.len(), questions.len(), "the program answers every line");
            for ((question, line), answer) in questions.iter().zip(lines.lines()).zip(&answers) {
                // An entry that the program hasn't is answered by nothing.
                self.program_answers += usize::from(!answer.is_empty());
                if !answer.is_empty() && *answer != question.answer() {
                    self.program_differences += 1;
                    if self.program_differences <= SHOWN {
                        println!("{line}\n    program: {answer}\n    Rust: {}", question.answer());
                    }
                }
            }
        }
    }

    fn show(&self, count: u64, seed: u64) -> usize {
        println!("upstream and the Rust implementation, {count} of each from seed {seed}");
        println!("{:15} {:32} {:>9} {:>9} {:>9} {:>9}", "", "", "same", "refused", "limit", "different");
        for ((source, kind), counts) in &self.counts {
            let count = |agreement| counts.get(&agreement).copied().unwrap_or(0);
            println!(
                "{source:15} {kind:32} {:>9} {:>9} {:>9} {:>9}",
                count(Agreement::Same),
                count(Agreement::Refused),
                count(Agreement::Limit),
                count(Agreement::Different)
            );
        }
        println!("{} differences", self.differences);
        if self.program.is_some() {
            println!(
                "the program: {} answers, {} differences",
                self.program_answers, self.program_differences
            );
        }
        self.differences + self.program_differences
    }
}
