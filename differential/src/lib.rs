//! What the comparisons share: their command line, their inputs, their domain of equality, what the
//! Rust does with runs of stars outside it, their counts, their samples, and what they say of a case
//! that differs.

pub mod command;
pub mod domain;
pub mod inputs;
pub mod report;
pub mod runs;
pub mod sampling;
pub mod tally;

use std::fmt::Write;

/// Lowercase digits; `-` for no bytes.
pub fn hex(bytes: &[u8]) -> String {
    if bytes.is_empty() {
        return "-".to_string();
    }
    bytes.iter().fold(String::new(), |mut text, byte| {
        write!(text, "{byte:02x}").expect("a string takes all");
        text
    })
}
