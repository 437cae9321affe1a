//! Tidy: a program read and printed.

use crate::refusal::{Result, TABLE_LIMIT};
use crate::{print_program, read_program};

/// Reads the program `text` and prints it to `out`. Answers the bytes written, later bytes staying as they
/// were, or refusal number times 2^32 plus place with `out` untouched.
pub fn tidy(text: &[u8], out: &mut [u8]) -> u64 {
    match printed(text, out.len()) {
        Ok(print) => {
            out[..print.len()].copy_from_slice(&print);
            print.len() as u64
        }
        Err(refusal) => refusal.answer(),
    }
}

fn printed(text: &[u8], limit: usize) -> Result<Vec<u8>> {
    let program = read_program(text, TABLE_LIMIT)?;
    print_program(&program, limit)
}
