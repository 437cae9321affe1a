//! B3 text read and printed in ordinary Rust, written from the papers (REFERENCE, "Terms") alone. The
//! proved library is compared with it (`compare`) and raced against it (`race`).

#![deny(unsafe_code)]

pub mod escape;
pub mod generate;
pub mod judge;
#[cfg(feature = "linked")]
pub mod linked;
pub mod numbering;
pub mod outcome;
pub mod print;
pub mod random;
pub mod read;
pub mod readback;
pub mod refusal;
pub mod settings;
pub mod shorten;
mod tidy;
pub mod tree;
pub mod trials;
pub mod words;

pub use judge::judge_program;
pub use print::{print_expression, print_expression_by, print_program, print_program_by, Format};
pub use read::{read_expression, read_program};
pub use refusal::Refusal;
pub use settings::{write_settings, Form, Settings};
pub use tidy::tidy;

/// Runs `work` on a thread whose stack holds every tree of 16,384 words: printing, comparing and encoding
/// recurse with the tree.
pub fn on_deep_stack<T: Send>(work: impl FnOnce() -> T + Send) -> T {
    const STACK: usize = 256 << 20;
    std::thread::scope(|scope| {
        let thread = std::thread::Builder::new().stack_size(STACK);
        let handle = thread.spawn_scoped(scope, work).expect("a thread starts");
        handle.join().unwrap_or_else(|panic| std::panic::resume_unwind(panic))
    })
}
