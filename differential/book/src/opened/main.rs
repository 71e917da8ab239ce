//! Compares what the proved library opens into lent buffers with what the published Rust keeps.
//!
//!     book [--seed N] [--rounds N]   compare; exit status 1 when anything differs
//!
//! Each text is opened as a version script and as an export list. Compared are accepted or refused,
//! the kind, the nodes with their names and parents, the counts of versions and parents, and the
//! lines: as the Rust holds them (exact and escaped as sets, globs in order, All as a mark; for the
//! Rust kind the listed globals), and before that in order of reading, by node and section, each
//! with its language, its class and its bytes, and where it came from if it is exact or escaped: the
//! Rust has no offsets, but holds the tokens of these as parts of the text.
//!
//! The Rust's side is that of the comparison of reading (../reading/host), with what is stood in for
//! there: version_script.rs and export_list.rs, unchanged, each with a child module that sees its
//! private parts (probes/). The order of reading is told by the Rust's own `parse_version_section`
//! and `parse_matcher` in a second run over the text, because its sets have forgotten it.
//!
//! Outside the domain of equality lie texts, tokens and rows over the limit and extern blocks at which
//! the Rust never ends, which we must refuse whatever the Rust does, and globs with a run of stars
//! outside a bracket, of which we must keep what document 02, request 01, says. Where the Rust takes
//! such a text, all else must be what it keeps; how many it refuses is printed.
//!
//! Besides, of our side alone: what was opened is a book, by the library's own check and by the
//! plain reading of row 14 in this crate; a refused opening leaves all lent memory zero; nothing
//! beside the lent memory is written; in small rooms the answer is 8 exactly where what the text needs
//! does not fit; the number and the place of every refusal, and the book, with the offset of every line,
//! are those of the slow model of document 01 in this crate (../trial.rs); and why, of the names that the
//! first and the last line have as their bytes, is told as document 01's ranking tells it (../ranking.rs).
//! The Rust is asked for names in `differential/run lookups`.

mod compare;

use compare::{Case, Comparison};
use differential::command::Program;
use differential::inputs::{Random, SPECIAL};
use reading::scripts::{self, Kind, BYTES, DOUBTFUL, FRAMES, WORDS};
use std::process::ExitCode;

/// Where a token stands.
const TOKEN_FRAMES: [[&[u8]; 2]; 4] = [
    [b"{", b";};"],
    [b"A{local:", b";};"],
    [b"{extern \"C++\"{", b"};};"],
    [b"{a;", b";local:*;};"],
];

/// What decides over a name or a parent.
const NAME_PIECES: [&[u8]; 12] = [
    b"A", b"B", b";", b"#", b"/", b"*", b"\r", b"\n", b" ", b"(", b"\xff", b"{}",
];

/// Where a name or a parent stands.
const NAME_FRAMES: [[&[u8]; 2]; 4] = [
    [b"", b"{};B{}A;"],
    [b"A{};", b"{}A;"],
    [b"A{};B{}", b";"],
    [b"A{};B{};A{}B;", b"{}A;"],
];

/// The kinds of random texts that can be books.
const KINDS: [Kind; 6] = [
    Kind::Nodes,
    Kind::Nodes,
    Kind::OneBody,
    Kind::RustKind,
    Kind::ExportList,
    Kind::Words,
];

fn main() -> ExitCode {
    Program {
        name: "book",
        rounds: 40_000,
        compared,
        sample: None,
        replay: None,
    }
    .run()
}

/// The whole comparison; true when nothing differed.
fn compared(mut random: Random, rounds: u64) -> bool {
    let mut comparison = Comparison::new();
    comparison.phase("doubtful texts", |comparison| {
        for text in DOUBTFUL {
            for _ in 0..100 {
                comparison.text(text, Case::small(&mut random));
            }
            comparison.text(text, Case::FULL);
        }
    });
    // The last two frames of FRAMES are for texts of `add_symbol`.
    comparison.phase("words", |comparison| {
        scripts::framed(&FRAMES[..7], &WORDS, 4, &mut |text| {
            comparison.text(text, Case::any(&mut random));
        });
    });
    comparison.phase("bytes", |comparison| {
        scripts::framed(&FRAMES[..7], &BYTES, 3, &mut |text| {
            comparison.text(text, Case::any(&mut random));
        });
    });
    comparison.phase("tokens", |comparison| {
        scripts::framed(&TOKEN_FRAMES, &SPECIAL, 4, &mut |text| {
            comparison.text(text, Case::any(&mut random));
        });
    });
    comparison.phase("names and parents", |comparison| {
        scripts::framed(&NAME_FRAMES, &NAME_PIECES, 4, &mut |text| {
            comparison.text(text, Case::any(&mut random));
        });
    });
    comparison.phase("scripts, whole and damaged", |comparison| {
        scripts::whole_and_damaged(&mut random, &KINDS, rounds, &mut |random, text| {
            comparison.text(text, Case::any(random));
        });
    });
    comparison.phase("extern blocks within one another", |comparison| {
        scripts::nested(&mut |text| comparison.text(text, Case::AMPLE));
    });
    comparison.phase("around the limits of bytes", |comparison| {
        scripts::limits(&mut |text| comparison.text(text, Case::FULL));
    });
    comparison.phase("around the limits of rows", rows);
    comparison.phase("another number of counts", |comparison| {
        for text in DOUBTFUL {
            for counts in [0, 1, 5, 7, 100] {
                comparison.not_six(text, counts);
            }
        }
    });
    comparison.finish()
}

/// As many nodes and lines as are taken, and up to two less and more.
fn rows(comparison: &mut Comparison) {
    for count in book::limit::NODES - 3..=book::limit::NODES + 1 {
        let named = |number: usize| match number {
            0 => "N0 {};\n".to_string(),
            _ => format!("N{number} {{}} N{};\n", number - 1),
        };
        let text: String = (0..count).map(named).collect();
        comparison.text(text.as_bytes(), Case::FULL);
        comparison.text(text.as_bytes(), Case::AMPLE);
        let text = "A{a;};".repeat(count);
        comparison.text(text.as_bytes(), Case::FULL);
    }
    for count in book::limit::LINES - 2..=book::limit::LINES + 2 {
        for [front, line, back] in [
            ["{", "a;", "};"],
            ["{", "*;", "};"],
            ["{", "**;", "};"],
            ["A{local:", "[^a]*;\n", "};"],
            ["{extern \"C++\"{", "\\*;", "};};"],
            ["{local:*;", "\"\";", "};"],
        ] {
            let lines = line.repeat(count - line_of(front));
            let text = [front, &lines, back].concat();
            comparison.text(text.as_bytes(), Case::FULL);
            comparison.text(text.as_bytes(), Case::AMPLE);
        }
    }
}

/// How many lines stand there already.
fn line_of(front: &str) -> usize {
    front.matches(';').count()
}
