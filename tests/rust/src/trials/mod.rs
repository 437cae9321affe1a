//! Lines of the program `trials`, which crates/trials/src/main.rt describes: what a line has, what this
//! implementation answers to it, and what a program does.

mod answer;
mod parts;

pub use answer::answer;
pub use parts::{bytes, hex, joined, piece, printed, source};

use std::io::{Read, Write};
use std::process::{Command, Stdio};

/// What a program answers to each line: what stands after the line and ` => `, or nothing.
pub fn answers(program: &mut Command, lines: &str) -> Vec<String> {
    let mut child = program.stdin(Stdio::piped()).stdout(Stdio::piped()).spawn().expect("the program starts");
    let mut stdin = child.stdin.take().expect("it has an input");
    let mut output = String::new();
    std::thread::scope(|scope| {
        scope.spawn(move || stdin.write_all(lines.as_bytes()).expect("it takes its input"));
        let stdout = child.stdout.as_mut().expect("it has an output");
        stdout.read_to_string(&mut output).expect("its output is ASCII");
    });
    assert!(child.wait().expect("it ends").success(), "the program ends well");
    let answer = |(line, question): (&str, &str)| {
        let rest = line.strip_prefix(question).expect("a line is printed as it stands");
        rest.strip_prefix(" => ").unwrap_or("").to_string()
    };
    output.lines().zip(lines.lines()).map(answer).collect()
}
