//! The published Rust: glob_match.rs, unchanged, over the crates glob and memchr.

mod glob_match {
    include!(env!("GLOB_MATCH_RS"));
}

use crate::{class, refusal};
pub use glob::Pattern;
use glob_match::{analyze_glob_pattern, compile_glob_pattern, GlobPatternType};

/// The inside of a quoted token. Copied from `parse_matcher` of version_script.rs.
fn unquoted(token: &[u8]) -> Option<&[u8]> {
    token
        .strip_prefix(b"\"")
        .and_then(|t| t.strip_suffix(b"\""))
}

/// The class of a trimmed token. The tests and their order are copied from `parse_matcher` of
/// version_script.rs.
pub fn class(token: &[u8]) -> u64 {
    if unquoted(token).is_some() {
        class::EXACT
    } else if token == b"*" {
        class::ALL
    } else {
        match analyze_glob_pattern(token) {
            GlobPatternType::Exact => class::EXACT,
            GlobPatternType::EscapedExact => class::ESCAPED,
            GlobPatternType::NonStar => class::NON_STAR,
            GlobPatternType::Star => class::STAR,
        }
    }
}

pub fn unescape(pattern: &[u8]) -> Vec<u8> {
    glob_match::unescape_pattern(pattern)
}

/// The bytes that a matcher made of this token holds, or the number of the refusal.
pub fn store(token: &[u8]) -> Result<Vec<u8>, u64> {
    match class(token) {
        class::EXACT => Ok(unquoted(token).unwrap_or(token).to_vec()),
        class::ESCAPED => Ok(unescape(token)),
        class::ALL => Ok(Vec::new()),
        _ => match compile_glob_pattern(token) {
            Ok(pattern) => Ok(pattern.as_str().as_bytes().to_vec()),
            Err("Invalid UTF-8 string") => Err(refusal::GLOB_NOT_UTF8),
            Err(_) => Err(refusal::BAD_GLOB),
        },
    }
}

/// A stored pattern, read as it stands.
pub fn pattern(stored: &[u8]) -> Result<Pattern, u64> {
    let text = std::str::from_utf8(stored).map_err(|_| refusal::GLOB_NOT_UTF8)?;
    Pattern::new(text).map_err(|_| refusal::BAD_GLOB)
}
