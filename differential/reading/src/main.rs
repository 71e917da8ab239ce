//! Compares the proved reader with the published Rust that it was ported from.
//!
//!     reading [--seed N] [--rounds N]   compare; exit status 1 when anything differs
//!     reading sample FILE [--seed N]    write a sample of the Rust's answers to FILE
//!
//! Each text is read as a version script, as an export list, and as a text of `add_symbol` with and
//! without semicolon. Compared are accepted or refused, the nodes with their names and parents, and
//! the matchers: in order of reading, each with its section, its language, its class and its bytes,
//! and then as the Rust holds them. Our side of it is the reader's events, the proved library's
//! storing of each token, and here, by document 01's rules, a parent's number and the Rust kind.
//!
//! Outside the domain of equality lie texts and tokens over the limit and extern blocks at which the
//! Rust never ends, which we must refuse whatever the Rust does, and globs with a run of stars outside
//! a bracket, of which we must keep what document 02, request 01, says. What the Rust's answer is
//! worth there is still looked at: a script with such a run that it accepts must have been read alike,
//! and kept with the run as it stands. How many of them it refuses is printed.

mod compare;
mod events;
mod sample;

use compare::Comparison;
use differential::command::Program;
use differential::inputs::Random;
use reading::scripts::{self, Kind, BYTES, DOUBTFUL, FRAMES, WORDS};
use std::process::ExitCode;

fn main() -> ExitCode {
    Program {
        name: "reading",
        rounds: 100_000,
        compared,
        sample: Some(sample::write),
        replay: None,
    }
    .run()
}

/// The whole comparison; true when nothing differed.
fn compared(mut random: Random, rounds: u64) -> bool {
    let mut comparison = Comparison::new();
    comparison.phase("doubtful texts", |comparison| {
        for text in DOUBTFUL {
            comparison.text(text);
        }
    });
    comparison.phase("words", |comparison| {
        scripts::framed(&FRAMES, &WORDS, 5, &mut |text| comparison.text(text));
    });
    comparison.phase("bytes", |comparison| {
        scripts::framed(&FRAMES, &BYTES, 4, &mut |text| comparison.text(text));
    });
    comparison.phase("scripts, whole and damaged", |comparison| {
        scripts::whole_and_damaged(&mut random, &Kind::ALL, rounds, &mut |_, text| {
            comparison.text(text)
        });
    });
    comparison.phase("extern blocks within one another", |comparison| {
        scripts::nested(&mut |text| comparison.text(text));
    });
    comparison.phase("around the limits", |comparison| {
        scripts::limits(&mut |text| comparison.text(text));
    });
    comparison.finish()
}
