//! Answers lines of crates/trials as that program does: standard input's lines, each with this implementation's answer
//! after it, where it has one.

use b3_compare::on_deep_stack;
use b3_compare::trials::answer;
use std::io::{self, Read, Write};

fn main() -> io::Result<()> {
    let mut input = String::new();
    io::stdin().read_to_string(&mut input)?;
    let output: String = on_deep_stack(|| {
        input
            .lines()
            .map(|line| match answer(line) {
                Some(answer) => format!("{line} => {answer}\n"),
                None => format!("{line}\n"),
            })
            .collect()
    });
    io::stdout().write_all(output.as_bytes())
}
