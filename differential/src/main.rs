//! Compares the proved library with the published Rust that it was ported from.
//!
//!     differential [--seed N] [--rounds N]   compare; exit status 1 when anything differs
//!     differential sample FILE [--seed N]    write a sample of the Rust's answers to FILE
//!
//! Compared are a token's class, its unescaped bytes, whether it is accepted, the bytes stored for
//! it, and whether a stored pattern matches a name. Equality is asked of tokens, patterns and names
//! within the limit, patterns without a run of stars outside a bracket, and names in UTF-8; what lies
//! outside is counted by its reason. There the library must refuse as the interface says, and of a
//! run keep what document 02, request 01, says (domain.rs); what the Rust does with runs is printed.

mod compare;
mod sample;

use compare::{Comparison, Stored};
use differential::command::Program;
use differential::domain::negated;
use differential::inputs::{every, long, Random, EDGES, EDGE_BYTES, SPECIAL};
use host::LIMIT;
use std::process::ExitCode;

fn main() -> ExitCode {
    Program {
        name: "differential",
        rounds: 10_000,
        compared,
        sample: Some(sample::write),
        replay: None,
    }
    .run()
}

/// The whole comparison; true when nothing differed.
fn compared(mut random: Random, rounds: u64) -> bool {
    let mut comparison = Comparison::new();
    comparison.phase("tokens", tokens);
    comparison.phase("patterns and names", patterns_and_names);
    comparison.phase("runs of stars", runs);
    comparison.phase("characters", characters);
    comparison.phase("damaged UTF-8", damaged);
    comparison.phase("random lengths", |comparison| {
        lengths(comparison, &mut random, rounds)
    });
    comparison.phase("around the limit", limit);
    comparison.finish()
}

/// Every token of at most five special bytes, and each as a stored pattern.
fn tokens(comparison: &mut Comparison) {
    every(&SPECIAL, 5, &mut |token| {
        comparison.token(token);
        let stored = Stored::new(token);
        for name in [&b""[..], b"a", b"b\xc3\xa9", b"\xc3"] {
            comparison.matches(&stored, name);
        }
    });
}

/// Every pattern of at most five pieces and every name of at most four, over fewer pieces.
fn patterns_and_names(comparison: &mut Comparison) {
    let of_patterns: [&[u8]; 8] = [b"*", b"?", b"[", b"]", b"!", b"-", b"a", b"\xc3\xa9"];
    let of_names: [&[u8]; 4] = [b"]", b"-", b"a", b"\xc3\xa9"];
    let mut names = Vec::new();
    every(&of_names, 4, &mut |name| names.push(name.to_vec()));
    every(&of_patterns, 5, &mut |pattern| {
        let stored = Stored::new(pattern);
        for name in &names {
            comparison.matches(&stored, name);
        }
    });
}

/// Every pattern of at most five pieces, among them folders and stars in brackets, and every name of
/// at most four.
fn runs(comparison: &mut Comparison) {
    let of_patterns: [&[u8]; 7] = [b"*", b"**", b"/", b"a", b"?", b"[^**]", b"\\"];
    let of_names: [&[u8]; 4] = [b"/", b"a", b"b", b"*"];
    let mut names = Vec::new();
    every(&of_names, 4, &mut |name| names.push(name.to_vec()));
    every(&of_patterns, 5, &mut |pattern| {
        comparison.token(pattern);
        let stored = Stored::new(negated(pattern).as_bytes());
        for name in &names {
            comparison.matches(&stored, name);
        }
    });
}

/// Every character as a name; then patterns of any two characters at the edges of UTF-8, on names
/// of a third.
fn characters(comparison: &mut Comparison) {
    let single = [
        Stored::new(b"?"),
        Stored::new("[\u{800}-\u{ffff}]".as_bytes()),
    ];
    for c in '\0'..=char::MAX {
        for stored in &single {
            comparison.matches(stored, c.encode_utf8(&mut [0; 4]).as_bytes());
        }
    }
    let edges = || EDGES.into_iter().chain(['a', '-', ']', '\0']);
    for x in edges() {
        for y in edges() {
            for token in [
                format!("[{x}-{y}]"),
                format!("[!{x}-{y}]"),
                format!("[^{x}-{y}]"),
                format!("[{x}{y}]"),
                format!("[{x}-{y}-{x}]"),
                format!("?{x}"),
                format!("{x}?*{y}"),
                format!("*{x}*{y}"),
                format!("\\{x}{y}"),
            ] {
                comparison.token(token.as_bytes());
                let stored = Stored::new(negated(token.as_bytes()).as_bytes());
                for z in edges() {
                    for name in [format!("{z}"), format!("{z}{y}"), format!("{x}{z}{y}")] {
                        comparison.matches(&stored, name.as_bytes());
                    }
                }
            }
        }
    }
}

/// Every text of at most four edge bytes: as a token, in a glob, and as a name.
fn damaged(comparison: &mut Comparison) {
    let patterns = [Stored::new(b"?"), Stored::new(b"*"), Stored::new(b"[!a]*")];
    every(&EDGE_BYTES, 4, &mut |text| {
        comparison.token(text);
        comparison.token(&[b"?", text].concat());
        comparison.matches(&Stored::new(&[text, b"*"].concat()), text);
        for stored in &patterns {
            comparison.matches(stored, text);
        }
    });
}

/// Random tokens, patterns and names of each length up to forty bytes.
fn lengths(comparison: &mut Comparison, random: &mut Random, rounds: u64) {
    for _ in 0..rounds {
        for length in 0..=40 {
            let text = random.text(length);
            comparison.token(&text);
            let (pattern, name) = random.pair(length);
            comparison.token(&pattern);

            let stored = Stored::new(negated(&pattern).as_bytes());
            let as_it_stands = Stored::new(&pattern);
            comparison.matches(&stored, &name);
            comparison.matches(&as_it_stands, &name);
            comparison.matches(&as_it_stands, &text);
            comparison.matches(&Stored::new(&text), &name);
        }
    }
}

/// Tokens, patterns and names of the longest length that is taken, and of up to two bytes less and
/// more. What stands behind a star fits at few places of a name here: pattern times name would be
/// four thousand million steps.
fn limit(comparison: &mut Comparison) {
    let names: [[&[u8]; 3]; 6] = [
        [b"", b"a", b""],
        [b"", b"a", b"b"],
        [b"b", b"a", b""],
        [b"", "\u{e9}".as_bytes(), b""],
        [b"", "\u{10ffff}".as_bytes(), b"b"],
        [b"", b"a", b"\xc3"],
    ];
    let patterns: [[&[u8]; 3]; 22] = [
        [b"", b"a", b""],
        [b"\"", b"*", b"\""],
        [b"", b"\\*", b""],
        [b"\\", b"a", b"\\"],
        [b"*b", b"a", b""],
        [b"*b", b"a", b"b"],
        [b"", b"?", b""],
        [b"", b"*a", b""],
        [b"", b"*?", b""],
        [b"", b"[^a]", b""],
        [b"[", b"a", b"]*"],
        [b"[^", b"*", b"]*"],
        [b"[", b"[^", b"]"],
        [b"?", "\u{e9}".as_bytes(), b""],
        [b"?", "\u{ffff}".as_bytes(), b"*"],
        [b"*b", "\u{10ffff}".as_bytes(), b"?"],
        [b"?", b"a", b"\xc3"],
        [b"?", b"a", b"["],
        [b"?", b"a", b"**"],
        [b"", b"*", b""],
        [b"a", b"*", b"b"],
        [b"[^", b"*", b"]**"],
    ];
    let lengths = LIMIT - 2..=LIMIT + 2;
    for shape in patterns {
        for length in lengths.clone() {
            let token = long(shape, length);
            comparison.token(&token);
            let stored = Stored::new(&token);
            for name in [&b""[..], b"a", b"\xc3"] {
                comparison.matches(&stored, name);
            }
            for name in names {
                for length in lengths.clone() {
                    comparison.matches(&stored, &long(name, length));
                }
            }
        }
    }
    let short: [&[u8]; 8] = [
        b"",
        b"*",
        b"a*",
        b"*a?b",
        b"[!b]*[!b]",
        b"[",
        b"**",
        b"\xff",
    ];
    for stored in short.map(Stored::new) {
        for name in names {
            for length in lengths.clone() {
                comparison.matches(&stored, &long(name, length));
            }
        }
    }
}
