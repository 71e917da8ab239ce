//! Document 01's 'Classes and patterns' with document 02's request 01, and nothing of the proved
//! library's own definitions: what a token is stored as. Slow and plain, one sentence of the papers
//! after the other.

use crate::limit;
use differential::domain;
use host::{class, refusal};

/// "A token loses trailing space, tab, LF, FF, CR."
pub fn trimmed(mut token: &[u8]) -> &[u8] {
    while let [front @ .., b' ' | b'\t' | b'\n' | b'\x0c' | b'\r'] = token {
        token = front;
    }
    token
}

/// The class and the bytes of a trimmed token, or its refusal: 1, 5 or 6, in this order.
pub fn stored(token: &[u8]) -> Result<(u64, Vec<u8>), u64> {
    if token.len() > limit::TOKEN {
        return Err(refusal::OVER_THE_LIMIT);
    }
    // "Starts and ends with `"` (two bytes at least): Exact, inside kept. `*`: All."
    if let [b'"', inside @ .., b'"'] = token {
        return Ok((class::EXACT, inside.to_vec()));
    }
    if token == b"*" {
        return Ok((class::ALL, Vec::new()));
    }
    match scanned(token) {
        class::EXACT => Ok((class::EXACT, token.to_vec())),
        class::ESCAPED => Ok((class::ESCAPED, unescaped(token))),
        glob => {
            // "A glob must be UTF-8; each `[^` is stored as `[!`."
            if std::str::from_utf8(token).is_err() {
                return Err(refusal::GLOB_NOT_UTF8);
            }
            // "A run outside a bracket is kept as one star"; "6 now means an unclosed bracket only".
            let shape = domain::shape(&domain::negated(token));
            match shape.open {
                true => Err(refusal::BAD_GLOB),
                false => Ok((glob, shape.kept.into_bytes())),
            }
        }
    }
}

/// "`\` makes an Exact into Escaped and skips a byte; `*` gives Star at once; `[`, `]`, `?` give
/// NonStar."
fn scanned(token: &[u8]) -> u64 {
    let mut class = class::EXACT;
    let mut bytes = token.iter();
    while let Some(byte) = bytes.next() {
        match byte {
            b'\\' => {
                if class == class::EXACT {
                    class = class::ESCAPED;
                }
                bytes.next();
            }
            b'*' => return class::STAR,
            b'[' | b']' | b'?' => class = class::NON_STAR,
            _ => {}
        }
    }
    class
}

/// Whether a trimmed token is a glob with a run of stars outside a bracket.
pub fn has_run(token: &[u8]) -> bool {
    let quoted = matches!(token, [b'"', .., b'"']);
    !quoted && class::is_glob(scanned(token)) && domain::has_run(&domain::negated(token))
}

/// "Escaped is stored unescaped; a final `\` stays."
fn unescaped(token: &[u8]) -> Vec<u8> {
    let mut kept = Vec::new();
    let mut bytes = token.iter().copied();
    while let Some(byte) = bytes.next() {
        kept.push(match byte {
            b'\\' => bytes.next().unwrap_or(byte),
            _ => byte,
        });
    }
    kept
}
