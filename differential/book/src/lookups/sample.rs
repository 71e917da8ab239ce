//! A sample of the published Rust's answers, one case a line, for a program that cannot link the
//! Rust. Fields are split by one blank; bytes are in hex, and `-` is no bytes. A text is followed by
//! the questions that are asked of it:
//!
//!     S 0 text versions parents        a version script, and its counts
//!     S 1 text                         an export list
//!     V raw demangled index            a version; 0 for none
//!     W raw demangled wanted index     with a wanted version; `!` where it is unknown
//!     L raw demangled locality         0 for nothing, 1 global, 2 local; not of the Rust kind
//!     C raw demangled 0|1              whether it is in the list
//!
//! Counts, indices and localities are digits. All lie within the domain of equality, and are the same
//! for the same seed.

use crate::compare::{opened, Opened};
use crate::questions;
use book::questions::{Question, What};
use book::{kind, texts};
use differential::hex;
use differential::inputs::Random;
use differential::sampling;
use reading::scripts::Kind;
use reading_host::Source;
use std::collections::HashSet;

/// How many texts of each kind.
const TEXTS: [(Kind, usize); 4] = [
    (Kind::Nodes, 75),
    (Kind::OneBody, 25),
    (Kind::RustKind, 10),
    (Kind::ExportList, 40),
];

/// How many questions of each text.
const QUESTIONS: usize = 10;

const LONGEST: usize = 200;

pub fn write(file: &str, mut random: Random) -> std::io::Result<()> {
    let draw = |kind: Kind, _| {
        let text = texts::text(&mut random, kind);
        let lines = lines(&mut random, kind.source(), &text)?;
        Some((text, lines))
    };
    let said = |_, count| format!("{} texts, {} questions", count, count * QUESTIONS);
    sampling::write(file, &TEXTS, draw, said)
}

/// A text and its questions, no two alike.
fn lines(random: &mut Random, source: Source, text: &[u8]) -> Option<String> {
    let opened = opened(source, text)?;
    if text.len() > LONGEST || opened.model.lines.is_empty() || opened.runs {
        return None;
    }
    let counts = opened.published_counts();
    let counts = counts.map(|[versions, parents]| format!(" {versions} {parents}"));
    let mut all = format!(
        "S {} {}{}\n",
        source as u32,
        hex(text),
        counts.unwrap_or_default()
    );
    let mut lines = HashSet::new();
    for _ in 0..100 {
        for question in questions(random, source, &opened.model) {
            let Some(line) = line(&opened, &question) else {
                continue;
            };
            if lines.insert(line.clone()) {
                all += &line;
            }
            if lines.len() == QUESTIONS {
                return Some(all);
            }
        }
    }
    None
}

/// A question with its answer; nothing where it is not the Rust's, or not within the domain.
fn line(opened: &Opened, question: &Question) -> Option<String> {
    let name = question.name();
    if !question.is_within() || name.raw.len() > LONGEST || name.demangled.len() > LONGEST {
        return None;
    }
    let letter = match (question.what, &question.wanted) {
        (What::Locality, _) if opened.model.kind == kind::RUST => return None,
        (What::Locality, _) => "L",
        (What::Membership, _) => "C",
        (What::Version, None) => "V",
        (What::Version, Some(_)) => "W",
    };
    let wanted = question
        .wanted
        .as_ref()
        .map(|wanted| format!(" {}", hex(wanted)));
    let answer = match opened.published(question)? {
        Ok(value) => value.to_string(),
        Err(_) => "!".to_string(),
    };
    Some(format!(
        "{letter} {} {}{} {answer}\n",
        hex(name.raw),
        hex(name.demangled),
        wanted.unwrap_or_default()
    ))
}
