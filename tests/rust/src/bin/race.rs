//! Times reading, printing and tidy: the Rust implementation's, with the feature `linked` the library's, and with
//! `before` a second library's. `bench/tidy` builds and runs it.
//!
//! Reading is timed, on all sides alike, as tidy of the text with one unusable byte after it: the text is read
//! whole and nothing is printed. Printing is what tidy of the text takes more. A time is the median of a hundred
//! samples, each of as many calls as take some microseconds, after one call that isn't timed; the sides take
//! turns. No buffer is cleared before a call.
//!
//! race [part of a text's name]
//! race --once NAME      calls the library, once, on the text of that name

#[cfg(feature = "linked")]
use b3_compare::linked;
use b3_compare::refusal::OUTPUT_LIMIT;
use b3_compare::tidy;
use std::hint::black_box;
use std::time::{Duration, Instant};

const SAMPLES: usize = 100;
const SAMPLE: Duration = Duration::from_micros(50);
const STATION: &str = include_str!("../../flows/station.b3");
/// The operators that make chains.
const CHAINS: [&str; 10] = ["<==>", "==>", "<==", "&&", "||", "+", "-", "*", "div", "mod"];
/// The bytes that a call of the library clears, by its text, where the output has 65,536 (docs/BENCHMARKS.md).
const CLEARED: [(&str, usize); 5] = [
    ("type A", 109_316),
    ("to 512 bytes", 270_604),
    ("to 4,096 bytes", 524_516),
    ("to 12,288 bytes", 852_196),
    ("to 32,768 bytes", 1_671_396),
];

type Tidy = fn(&[u8], &mut [u8]) -> u64;

fn main() {
    let arguments: Vec<String> = std::env::args().skip(1).collect();
    match arguments.as_slice() {
        [] => race_all(""),
        [once, name] if once == "--once" => call_once(name),
        [part] => race_all(part),
        _ => panic!("race [part of a text's name] | race --once NAME"),
    }
}

/// The Rust implementation, the library, the library before a change.
fn sides() -> Vec<Tidy> {
    vec![
        tidy,
        #[cfg(feature = "linked")]
        linked::tidy,
        #[cfg(feature = "before")]
        linked::tidy_before,
    ]
}

fn race_all(part: &str) {
    heading(sides().len());
    for (name, text) in texts().iter().filter(|(name, _)| name.contains(part)) {
        race(name, text.as_bytes());
    }
    if cfg!(feature = "linked") {
        println!("\n{:24} {:>9} {:>9}", "clearing alone, µs", "bytes", "time");
        for (kind, bytes) in CLEARED {
            println!("{kind:24} {bytes:>9} {:>9.2}", micros(clearing(bytes)));
        }
    }
}

fn call_once(wanted: &str) {
    let (_, text) = texts().into_iter().find(|(name, _)| name == wanted).expect("a text has that name");
    let side = sides().pop().expect("there is a side");
    black_box(side(text.as_bytes(), &mut vec![0; OUTPUT_LIMIT]));
}

fn texts() -> Vec<(String, String)> {
    let mut texts = vec![
        ("flow of 30 KB".to_string(), flow(30 << 10)),
        ("flow of 1 KB".to_string(), flow(1 << 10)),
        ("type A".to_string(), "type A".to_string()),
    ];
    for operator in CHAINS {
        for count in [400, 1600] {
            texts.push((format!("{count} names by {operator}"), sum(operator, count)));
        }
    }
    for count in [400, 1600] {
        texts.push((format!("{count} statements"), block(count)));
    }
    texts
}

/// Stations one after the other, at least one, to at most `length` bytes.
fn flow(length: usize) -> String {
    let mut text = station(0);
    for number in 1.. {
        let next = station(number);
        if text.len() + next.len() > length {
            break;
        }
        text.push_str(&next);
    }
    text
}

fn station(number: usize) -> String {
    STATION.replace('#', &number.to_string())
}

fn sum(operator: &str, count: usize) -> String {
    format!("axiom {}", vec!["a"; count].join(&format!(" {operator} ")))
}

fn block(count: usize) -> String {
    format!("procedure p() {{ {}}}", "x := 1 ".repeat(count))
}

fn heading(sides: usize) {
    print!("{:20}{:>6}", "microseconds", "");
    ["Rust", "library", "before"][..sides].iter().for_each(|name| print!(" |{name:>24}"));
    ["library / Rust", "before / library"][..sides - 1].iter().for_each(|name| print!(" |{name:>18}"));
    print!("\n{:20}{:>6}", "", "bytes");
    (0..sides).for_each(|_| print!(" |{:>8}{:>8}{:>8}", "read", "print", "tidy"));
    (1..sides).for_each(|_| print!(" |{:>6}{:>6}{:>6}", "read", "print", "tidy"));
    println!();
}

fn race(name: &str, text: &[u8]) {
    let unusable = [text, b"?"].concat();
    let mut out = vec![0; OUTPUT_LIMIT];
    let answer = tidy(text, &mut out);
    assert!(answer >> 32 == 0, "{name} is tidied");
    let mut runs: Vec<(Tidy, &[u8])> = Vec::new();
    for side in sides() {
        assert!(side(&unusable, &mut out) >> 32 == 2, "{name} with a ? is refused");
        assert!(side(text, &mut out) == answer, "{name} is tidied by all alike");
        runs.extend([(side, unusable.as_slice()), (side, text)]);
    }
    let times: Vec<[f64; 3]> = medians(&runs, &mut out)
        .chunks(2)
        .map(|pair| [micros(pair[0]), micros(pair[1].saturating_sub(pair[0])), micros(pair[1])])
        .collect();
    print!("{name:20}{:>6}", text.len());
    for [read, print, whole] in &times {
        print!(" |{read:>8.2}{print:>8.2}{whole:>8.2}");
    }
    for pair in times.windows(2) {
        print!(" |");
        pair[1].iter().zip(pair[0]).for_each(|(slow, fast)| print!("{:>6.2}", slow / fast));
    }
    println!();
}

/// The median time of a call of each run.
fn medians(runs: &[(Tidy, &[u8])], out: &mut [u8]) -> Vec<Duration> {
    let calls: Vec<u32> = runs.iter().map(|run| calls_per_sample(*run, out)).collect();
    let mut times = vec![Vec::new(); runs.len()];
    for _ in 0..SAMPLES {
        for (index, run) in runs.iter().enumerate() {
            time(*run, 1, out);
            times[index].push(time(*run, calls[index], out));
        }
    }
    times.into_iter().zip(calls).map(|(times, calls)| median(times) / calls).collect()
}

fn calls_per_sample(run: (Tidy, &[u8]), out: &mut [u8]) -> u32 {
    let mut calls = 1;
    while time(run, calls, out) < SAMPLE {
        calls *= 2;
    }
    calls
}

fn time((side, text): (Tidy, &[u8]), calls: u32, out: &mut [u8]) -> Duration {
    let start = Instant::now();
    for _ in 0..calls {
        black_box(side(black_box(text), out));
    }
    start.elapsed()
}

/// The median time of clearing so many bytes that were written before.
fn clearing(bytes: usize) -> Duration {
    const CALLS: u32 = 20;
    let mut memory = vec![1u8; bytes];
    let mut sample = || {
        let start = Instant::now();
        (0..CALLS).for_each(|_| black_box(&mut memory).fill(0));
        start.elapsed()
    };
    median((0..SAMPLES).map(|_| sample()).collect()) / CALLS
}

fn median(mut times: Vec<Duration>) -> Duration {
    times.sort();
    times[times.len() / 2]
}

fn micros(time: Duration) -> f64 {
    time.as_secs_f64() * 1e6
}
