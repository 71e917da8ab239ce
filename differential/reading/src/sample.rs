//! A sample of the published Rust's answers, one text a line, for a program that cannot link the
//! Rust. Fields are split by one blank; a text is in hex, and `-` is no bytes. A source is a number:
//! 0 version script, 1 export list, 2 `add_symbol`, 3 `add_symbol` without semicolon.
//!
//!     R source text 0          refused
//!     R source text 1 words    accepted
//!
//! The words are the nodes twice, first with their globals and then with their locals, as they are
//! read, before any becomes one of a set. Sections (1 for locals), languages (1 for C++) and classes
//! are digits, and no blank is between digits:
//!
//!     N name                              a node; node 0, which an export list and a text of
//!                                         `add_symbol` have alone, has neither this nor a parent
//!     E section language                  an extern block
//!     L section language class, bytes     a line, the bytes as they are stored
//!     C                                   the end of the extern block
//!     P parent                            the end of the node, and its parent's text
//!
//! All lie within the domain of equality, and are the same for the same seed. A text that the Rust
//! refuses for a glob or for an unknown parent is left out: the reader, which knows syntax only,
//! may accept it.

use differential::domain::has_run;
use differential::hex;
use differential::inputs::Random;
use differential::sampling;
use host::class;
use reading::scripts::{self, Kind};
use reading_host::kept::{Line, Matcher, Node};
use reading_host::published::{self, Answer};
use reading_host::Source;

/// How many texts for each source. Every second one is accepted.
const TEXTS: [(Source, usize); 4] = [
    (Source::Script, 800),
    (Source::ExportList, 400),
    (Source::AddSymbol, 320),
    (Source::AddSymbolWithoutSemicolon, 320),
];

const LONGEST: usize = 200;

pub fn write(file: &str, mut random: Random) -> std::io::Result<()> {
    let draw = |source, number: usize| {
        let text = text(&mut random, source, number % 2 == 0);
        text.map(|text| (text.clone(), format!("R {text}\n")))
    };
    let said = |source, count| format!("{source:?} {count}");
    sampling::write(file, &TEXTS, draw, said)
}

fn text(random: &mut Random, source: Source, wanted: bool) -> Option<String> {
    let kind = random.pick(kinds(source));
    let mut text = scripts::random(random, kind);
    if random.one_in(2) {
        text = scripts::damaged(random, &text);
    }
    if text.len() > LONGEST {
        return None;
    }
    let answer = match published::read(source, &text) {
        Answer::Accepted(rust) if wanted && !with_a_run(&rust.nodes) => {
            // Those that have no line are all alike: most are left out.
            if lines(&rust.nodes).next().is_none() && !random.one_in(8) {
                return None;
            }
            let [globals, locals] = [0, 1].map(|section| words(&rust.nodes, section));
            format!("1{globals}{locals}")
        }
        Answer::Refused if !wanted && !published::refused_for_meaning(source, &text) => {
            "0".to_string()
        }
        _ => return None,
    };
    Some(format!("{} {} {answer}", source as u32, hex(&text)))
}

/// The texts that a source is asked about: mostly those that are meant for it.
fn kinds(source: Source) -> &'static [Kind] {
    match source {
        Source::Script => &[
            Kind::Nodes,
            Kind::Nodes,
            Kind::Nodes,
            Kind::Nodes,
            Kind::Nodes,
            Kind::OneBody,
            Kind::RustKind,
            Kind::Words,
        ],
        Source::ExportList => &[
            Kind::ExportList,
            Kind::ExportList,
            Kind::ExportList,
            Kind::OneBody,
            Kind::Words,
        ],
        Source::AddSymbol => &[Kind::Matcher, Kind::Matcher, Kind::Bare, Kind::Words],
        Source::AddSymbolWithoutSemicolon => &[Kind::Bare, Kind::Bare, Kind::Matcher, Kind::Words],
    }
}

/// The nodes with the matchers of one section.
fn words(nodes: &[Node], section: usize) -> String {
    let node = |(number, node): (usize, &Node)| {
        let matchers = node.matchers[section].iter();
        let matchers: String = matchers.map(|matcher| block(matcher, section)).collect();
        match number {
            0 => matchers,
            _ => format!(" N {}{matchers} P {}", hex(&node.name), hex(&node.parent)),
        }
    };
    nodes.iter().enumerate().map(node).collect()
}

fn block(matcher: &Matcher, section: usize) -> String {
    let language = matcher.language();
    let lines = matcher.lines().iter();
    let lines: String = lines
        .map(|Line { class, bytes, .. }| format!(" L{section}{language}{class} {}", hex(bytes)))
        .collect();
    match matcher {
        Matcher::Bare(_) => lines,
        Matcher::Extern { .. } => format!(" E{section}{language}{lines} C"),
    }
}

fn lines(nodes: &[Node]) -> impl Iterator<Item = &Line> {
    let matchers = nodes.iter().flat_map(|node| node.matchers.iter().flatten());
    matchers.flat_map(Matcher::lines)
}

fn with_a_run(nodes: &[Node]) -> bool {
    let mut globs = lines(nodes).filter(|line| class::is_glob(line.class));
    globs.any(|line| std::str::from_utf8(&line.bytes).is_ok_and(has_run))
}
