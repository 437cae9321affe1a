//! The words of a tree (REFERENCE, "The tree words"), for the stored cases.

mod decode;
mod encode;
mod outline;

pub use decode::{decode_expression, decode_program};
pub use encode::{encode_expression, encode_program, places, Places};
pub use outline::{outline_program, Kind, Outline};
