//! Compares `tidy` of the static library with the Rust implementation on seeded cases, and reads every print
//! again. Without the feature `linked` the Rust implementation is checked alone.
//!
//! compare [cases [seed]]

use b3_compare::escape::escape;
use b3_compare::generate::{case, Case, ROOMY};
use b3_compare::outcome::Outcome;
use b3_compare::readback::{exception, Exception};
use b3_compare::refusal::TABLE_LIMIT;
use b3_compare::shorten::shorten;
use b3_compare::words::{decode_program, encode_program};
use b3_compare::{on_deep_stack, read_program, tidy};
use std::collections::BTreeMap;
use std::hint::black_box;
use std::time::{Duration, Instant};

/// A call that takes longer is timed again, since the machine may have been at something else.
const SLOW: Duration = Duration::from_millis(2);

fn main() {
    let mut arguments = std::env::args().skip(1).map(|argument| argument.parse::<u64>());
    let mut next = |default| match arguments.next() {
        Some(number) => number.expect("compare [cases [seed]], both naturals"),
        None => default,
    };
    let (cases, seed) = (next(20_000), next(1));
    let report = on_deep_stack(|| run(cases, seed));
    if report.differences > 0 {
        std::process::exit(1);
    }
}

fn run(cases: u64, seed: u64) -> Report {
    let start = Instant::now();
    let mut report = Report::default();
    for index in 0..cases {
        let case = case(seed, index);
        report.compare(&case);
        report.time(index, &case);
    }
    let side = if cfg!(feature = "linked") { "compared with the library" } else { "the Rust side alone" };
    println!("{cases} cases from seed {seed}, {side}, in {:.1} s", start.elapsed().as_secs_f64());
    report.show();
    report
}

#[derive(Default)]
struct Report {
    accepted: usize,
    /// By refusal number.
    refused: BTreeMap<u32, usize>,
    differences: usize,
    #[cfg(feature = "linked")]
    shown: std::collections::BTreeSet<Vec<u8>>,
    read_back: usize,
    /// How often each kind was met, and the shortest text of it.
    exceptions: BTreeMap<Exception, (usize, Vec<u8>)>,
    slow: usize,
    slowest: Option<(Duration, u64)>,
}

impl Report {
    fn compare(&mut self, case: &Case) {
        let expected = Outcome::of(tidy, &case.text, case.out_len);
        match expected.refusal() {
            None => self.accepted += 1,
            Some(refusal) => *self.refused.entry(refusal.number).or_default() += 1,
        }
        self.check_library(case, &expected);
        if !expected.leaves_the_rest() || !counts_words(&case.text) {
            self.differences += 1;
            println!("the Rust implementation fails on\n{}", escape(&case.text));
        }
        if let Some(print) = expected.print() {
            self.read_again(&case.text, print);
        }
    }

    /// The library's answer and output are the expected ones.
    #[cfg(feature = "linked")]
    fn check_library(&mut self, case: &Case, expected: &Outcome) {
        const SHORTENED: usize = 20;
        let library = |text: &[u8]| Outcome::of(b3_compare::linked::tidy, text, case.out_len);
        let rust = |text: &[u8]| Outcome::of(tidy, text, case.out_len);
        if library(&case.text) == *expected {
            return;
        }
        self.differences += 1;
        if self.differences > SHORTENED {
            return;
        }
        let text = shorten(&case.text, |text| library(text) != rust(text));
        if self.shown.insert(text.clone()) {
            println!("{}\t{}", escape(&text), rust(&text));
            println!("    expected, into {} bytes; the library: {}", case.out_len, library(&text));
        }
    }

    #[cfg(not(feature = "linked"))]
    fn check_library(&mut self, _case: &Case, _expected: &Outcome) {}

    fn read_again(&mut self, text: &[u8], print: &[u8]) {
        let again = Case { text: print.to_vec(), out_len: ROOMY };
        self.check_library(&again, &Outcome::of(tidy, print, ROOMY));
        let Some(kind) = exception_of(text) else {
            self.read_back += 1;
            return;
        };
        let (count, shortest) = self.exceptions.entry(kind).or_insert_with(|| (0, text.to_vec()));
        *count += 1;
        if text.len() < shortest.len() {
            *shortest = text.to_vec();
        }
    }

    fn time(&mut self, index: u64, case: &Case) {
        let mut elapsed = time(case);
        for _ in 0..20 {
            if elapsed > SLOW {
                elapsed = elapsed.min(time(case));
            }
        }
        self.slow += usize::from(elapsed > SLOW);
        self.slowest = self.slowest.max(Some((elapsed, index)));
    }

    fn show(&self) {
        let refused: Vec<String> =
            self.refused.iter().map(|(number, count)| format!("{number}: {count}")).collect();
        println!("accepted {}, refused {}", self.accepted, refused.join(", "));
        println!("prints read back as their tree {}; the others:", self.read_back);
        for (&kind, (count, text)) in &self.exceptions {
            let example = shorten(text, |text| exception_of(text) == Some(kind));
            println!("{count:8}  {kind}: {}", beginning(&example));
        }
        if let Some((slowest, index)) = self.slowest {
            println!(
                "slowest is case {index}: {:.2} ms; {} above {SLOW:?}",
                slowest.as_secs_f64() * 1e3,
                self.slow
            );
        }
        println!("{} differences", self.differences);
    }
}

/// Why the print of the program `text` isn't read back; none where it is, or where there is no print.
fn exception_of(text: &[u8]) -> Option<Exception> {
    let outcome = Outcome::of(tidy, text, ROOMY);
    let print = outcome.print()?;
    let program = read_program(text, TABLE_LIMIT).ok()?;
    exception(&program, print)
}

/// The reader's word count is the tree's, and the words are those of the same tree.
fn counts_words(text: &[u8]) -> bool {
    let Ok(program) = read_program(text, TABLE_LIMIT) else { return true };
    let words = encode_program(text, &program);
    read_program(text, words.len()).is_ok()
        && read_program(text, words.len() - 1).is_err()
        && decode_program(text, &words).as_ref() == Ok(&program)
}

/// How long the Rust implementation takes.
fn time(case: &Case) -> Duration {
    let mut out = vec![0; case.out_len];
    let start = Instant::now();
    black_box(tidy(black_box(&case.text), &mut out));
    start.elapsed()
}

fn beginning(text: &[u8]) -> String {
    const MOST: usize = 200;
    let line = escape(&text[..text.len().min(MOST)]);
    if text.len() <= MOST {
        line
    } else {
        format!("{line} ... ({} bytes)", text.len())
    }
}
