//! Compares what the proved library answers of names with what the published Rust answers: version,
//! locality and membership, over opened version scripts and export lists; and which line it names as the
//! one that decides.
//!
//!     lookups [--seed N] [--rounds N]   compare; exit status 1 when anything differs
//!     lookups sample FILE [--seed N]    write a sample of the Rust's answers to FILE
//!
//! The Rust's side is that of the comparison of reading (../reading/host): `version_for_symbol`,
//! `find_match` (which `is_local` asks, and which tells global and nothing apart) and `contains`,
//! unchanged. Stood in for are the demangler, which answers what the host tells it to, and the
//! version's index, a number. The Rust has no locality for the Rust kind: there the answer is document
//! 01's, of the globals that the Rust lists. Every answer is also held against document 01's ranking
//! (../ranking.rs), which says which line decided; how often each kind of line did is printed at the
//! end. Of each text the counts of versions and parents are compared too, and, of our side alone, that
//! a question of the other kind is refused 13, and that the book whose lines have other offsets answers
//! each name alike.
//!
//! Of each name, with and without a wanted version, the library is asked why (named.rs): number, class,
//! node, section, language and offset of the line, or no line, the wanted version, or a refusal, must be
//! those of the ranking. The Rust has no such question. Held against it is that its own answer is what the
//! named line gives (its node the index, its section the locality, and both are what `find_match` finds);
//! that at the first place of the ranking at which one of its sets, patterns and marks has the name, the
//! named line is the lowest there; and the text in which the line's token, found by its offset, is
//! replaced by one that matches neither name: the Rust's answers over that text must be the library's over
//! the book with that line struck, and what the line named next gives, so that they change where no line
//! of that version and locality is next. Of the Rust kind a strike is refused 13; there the library opens
//! that text too. What the Rust does not tell: where escaped lines, globs and `*` stand in the text, which
//! of several lines of one rank it meant (its sets and patterns say which match, and the numbers are those
//! of the opened book, whose order `differential/run book` compares), and of the Rust kind which local `*`.
//!
//! Outside the domain of equality lie names over the limit and names that are not UTF-8, where we must
//! refuse, and texts with a run of stars outside a bracket, where the ranking over the lines that we
//! keep tells the answer and the line; how often the Rust, where it takes such a text, answers otherwise
//! is printed. Of the texts with comments and odd tokens, those that are not opened by both are left out,
//! as are those with runs that we refuse: `differential/run book` compares them.

mod compare;
mod coverage;
mod named;
mod sample;

use book::model::Model;
use book::questions::{Question, What};
use book::{limit, texts};
use compare::Comparison;
use differential::command::Program;
use differential::inputs::{long, Random};
use reading::scripts::{self, Kind};
use reading_host::Source;
use std::process::ExitCode;

/// The kinds of texts of one round.
const KINDS: [Kind; 7] = [
    Kind::Nodes,
    Kind::Nodes,
    Kind::Nodes,
    Kind::Nodes,
    Kind::OneBody,
    Kind::RustKind,
    Kind::ExportList,
];

/// How many names a text is asked about.
const NAMES: usize = 12;

fn main() -> ExitCode {
    Program {
        name: "lookups",
        rounds: 40_000,
        compared,
        sample: Some(sample::write),
        replay: None,
    }
    .run()
}

/// The whole comparison; true when nothing differed.
fn compared(mut random: Random, rounds: u64) -> bool {
    let mut comparison = Comparison::new();
    comparison.phase("scripts and lists over few stems", |comparison| {
        for _ in 0..rounds {
            for kind in KINDS {
                let text = texts::text(&mut random, kind);
                let source = kind.source();
                comparison.surely(source, &text, |book| many(&mut random, source, book));
            }
        }
    });
    comparison.phase(
        "scripts and lists with comments and odd tokens",
        |comparison| {
            for _ in 0..rounds / 4 {
                for kind in KINDS {
                    let text = scripts::random(&mut random, kind);
                    let source = kind.source();
                    comparison.text(source, &text, |book| many(&mut random, source, book));
                }
            }
        },
    );
    comparison.phase("scripts and lists with runs of stars", |comparison| {
        for _ in 0..rounds / 4 {
            for kind in KINDS {
                let text = texts::with_runs(&mut random, kind);
                let source = kind.source();
                comparison.text(source, &text, |book| many(&mut random, source, book));
            }
        }
    });
    comparison.phase("around the limits of names", limits);
    comparison.finish()
}

/// The questions of some names; of a list the last one also where a version is wanted, which is nothing
/// to ask of a list but why.
fn many(random: &mut Random, source: Source, book: &Model) -> Vec<Question> {
    let mut all: Vec<Question> = (0..NAMES)
        .flat_map(|_| questions(random, source, book))
        .collect();
    if let (Source::ExportList, Some(last)) = (source, all.last().cloned()) {
        let wanted = ["", "A"].map(|wanted| Some(wanted.as_bytes().to_vec()));
        all.extend(wanted.map(|wanted| Question {
            wanted,
            ..last.clone()
        }));
    }
    all
}

/// The questions of one name: of a list whether it has it, of a script its version, with and
/// without a wanted one, and its locality.
fn questions(random: &mut Random, source: Source, book: &Model) -> Vec<Question> {
    let raw = texts::name(random, book);
    let demangled = (!random.one_in(3)).then(|| texts::name(random, book));
    let question = |what, wanted| Question {
        what,
        raw: raw.clone(),
        demangled: demangled.clone(),
        wanted,
    };
    match source {
        Source::ExportList => vec![question(What::Membership, None)],
        _ => {
            let mut questions = vec![
                question(What::Version, None),
                question(What::Locality, None),
            ];
            if let Some(wanted) = texts::wanted(random, book) {
                questions.push(question(What::Version, Some(wanted)));
            }
            questions
        }
    }
}

/// Names of the longest lengths that are taken, and of up to two bytes less and more.
fn limits(comparison: &mut Comparison) {
    let lengths = |limit: usize| limit - 2..=limit + 2;
    let mut scripts = Vec::new();
    for length in lengths(limit::RAW) {
        let name = |letter| String::from_utf8(long([b"", letter, b""], length)).expect("letters");
        scripts.push(format!(
            "{} {{ {}; local: a*; }}; B {{ extern \"C++\" {{ *a; a?*; }}; {}*; }};",
            name(b"N"),
            name(b"a"),
            name(b"b")
        ));
    }
    scripts.push("{ global: a; local: *; };".to_string());
    scripts.push("{ extern \"C++\" { b*; }; a*; };".to_string());
    for text in &scripts {
        for source in [Source::Script, Source::ExportList] {
            comparison.text(source, text.as_bytes(), |_| around_limits(source));
        }
    }
}

fn around_limits(source: Source) -> Vec<Question> {
    let around = |limit: usize, letter: &[u8]| -> Vec<Vec<u8>> {
        let lengths = limit - 2..=limit + 2;
        lengths
            .map(|length| long([b"", letter, b""], length))
            .collect()
    };
    let raws = [around(limit::RAW, b"a"), around(limit::RAW, b"b")].concat();
    let demangleds = [
        around(limit::DEMANGLED, b"a"),
        around(limit::DEMANGLED, b"b"),
    ]
    .concat();
    let wanteds = around(limit::WANTED, b"N");
    let short = b"a".to_vec();
    let mut questions = Vec::new();
    let mut ask = |raw: &Vec<u8>, demangled: Option<&Vec<u8>>, wanted: Option<&Vec<u8>>| {
        let whats = match wanted {
            Some(_) => &[What::Version],
            None => What::of(source),
        };
        questions.extend(whats.iter().map(|&what| Question {
            what,
            raw: raw.clone(),
            demangled: demangled.cloned(),
            wanted: wanted.cloned(),
        }));
    };
    for raw in &raws {
        ask(raw, None, None);
        ask(raw, Some(&short), None);
        for demangled in &demangleds {
            ask(raw, Some(demangled), None);
        }
    }
    for demangled in &demangleds {
        ask(&short, Some(demangled), None);
    }
    if source == Source::Script {
        for wanted in &wanteds {
            ask(&short, None, Some(wanted));
            ask(&b"\xff".to_vec(), None, Some(wanted));
        }
    }
    questions
}
