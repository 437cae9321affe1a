//! The refusals and limits (REFERENCE, "The refusals" and "Limits").

pub const TEXT_LIMIT: usize = 32_768;
pub const TABLE_LIMIT: usize = 16_384;
pub const OUTPUT_LIMIT: usize = 65_536;
pub const DEPTH_LIMIT: usize = 200;
pub const INDENT_LIMIT: usize = 255;

pub const LONG_TEXT: u32 = 1;
pub const UNUSABLE: u32 = 2;
pub const TOO_DEEP: u32 = 3;
pub const LARGE_NATURAL: u32 = 4;
pub const SHORT_TABLE: u32 = 5;
pub const LONG_PRINT_INPUT: u32 = 6;
pub const MISFIT: u32 = 7;
pub const SHORT_OUTPUT: u32 = 8;
pub const LAYOUT: u32 = 9;
pub const VERSION: u32 = 10;
pub const RANGE: u32 = 11;
pub const UNCLOSED_COMMENT: u32 = 12;
pub const ENDED_TOO_SOON: u32 = 13;

/// A refusal's number, 1 to 13, and its place.
#[derive(Clone, Copy, Debug, PartialEq, Eq)]
pub struct Refusal {
    pub number: u32,
    pub place: u32,
}

pub type Result<T> = std::result::Result<T, Refusal>;

impl Refusal {
    pub fn new(number: u32, place: usize) -> Self {
        Refusal { number, place: place as u32 }
    }

    /// The one number that tidy answers: refusal number times 2^32 plus place.
    pub fn answer(self) -> u64 {
        u64::from(self.number) << 32 | u64::from(self.place)
    }
}

impl std::fmt::Display for Refusal {
    fn fmt(&self, f: &mut std::fmt::Formatter<'_>) -> std::fmt::Result {
        write!(f, "refused {} at {}", self.number, self.place)
    }
}
