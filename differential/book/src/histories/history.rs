//! A history: what is lent, and the calls that are made, one after the other. It can be written, a step
//! a line, and read again. Fields are split by one blank; bytes are in hex, and `-` is no bytes; numbers
//! of a buffer are split by commas.
//!
//!     lend counts nodes names lines pool journal    buffers of these lengths, full of noise
//!     book counts nodes names lines pool journal    buffers with this in them
//!     script text                                   opens a version script
//!     list text                                     opens an export list
//!     add node section language token
//!     strike line
//!     undo
//!     settle
//!     symbol flag text                              `add_symbol`; the flag is `without_semicolon`
//!     ask (what raw demangled wanted)..             the counts, and some names; V, L or C, `none` where
//!                                                   nothing is given

use book::buffers::{Buffers, Lent, Noise, Rooms};
use book::questions::{Question, What};
use differential::hex;
use reading_host::Source;
use std::fmt::{self, Display, Formatter};

#[derive(Clone)]
pub enum Step {
    Lend(usize, Rooms),
    Book(Box<Buffers>),
    Open(Source, Vec<u8>),
    /// Node, section and language.
    Add([u32; 3], Vec<u8>),
    Strike(u32),
    Undo,
    Settle,
    AddSymbol(u32, Vec<u8>),
    Ask(Vec<Question>),
}

impl Step {
    /// The bytes that it gives, if any.
    pub fn bytes(&mut self) -> Option<&mut Vec<u8>> {
        match self {
            Step::Open(_, bytes) | Step::Add(_, bytes) | Step::AddSymbol(_, bytes) => Some(bytes),
            _ => None,
        }
    }

    pub fn parse(line: &str) -> Option<Step> {
        let words: Vec<&str> = line.split(' ').collect();
        Some(match words[..] {
            ["lend", ref lengths @ ..] => {
                let lengths: Option<Vec<usize>> =
                    lengths.iter().map(|word| word.parse().ok()).collect();
                let [counts, nodes, names, lines, pool, journal] = lengths?[..] else {
                    return None;
                };
                let rooms = Rooms {
                    nodes,
                    names,
                    lines,
                    pool,
                    journal,
                };
                Step::Lend(counts, rooms)
            }
            ["book", counts, nodes, names, lines, pool, journal] => Step::Book(Box::new(Buffers {
                counts: holding(numbers(counts)?),
                nodes: holding(numbers(nodes)?),
                names: holding(bytes(names)?),
                lines: holding(numbers(lines)?),
                pool: holding(bytes(pool)?),
                journal: holding(numbers(journal)?),
            })),
            ["script", text] => Step::Open(Source::Script, bytes(text)?),
            ["list", text] => Step::Open(Source::ExportList, bytes(text)?),
            ["add", node, section, language, token] => {
                let place = [number(node)?, number(section)?, number(language)?];
                Step::Add(place, bytes(token)?)
            }
            ["strike", line] => Step::Strike(number(line)?),
            ["undo"] => Step::Undo,
            ["settle"] => Step::Settle,
            ["symbol", flag, text] => Step::AddSymbol(number(flag)?, bytes(text)?),
            ["ask", ref questions @ ..] if questions.len() % 4 == 0 => {
                let questions: Option<Vec<Question>> = questions.chunks(4).map(question).collect();
                Step::Ask(questions?)
            }
            _ => return None,
        })
    }
}

impl Display for Step {
    fn fmt(&self, to: &mut Formatter) -> fmt::Result {
        match self {
            Step::Lend(counts, rooms) => write!(
                to,
                "lend {counts} {} {} {} {} {}",
                rooms.nodes, rooms.names, rooms.lines, rooms.pool, rooms.journal
            ),
            Step::Book(book) => write!(
                to,
                "book {} {} {} {} {} {}",
                listed(&book.counts),
                listed(&book.nodes),
                hex(&book.names),
                listed(&book.lines),
                hex(&book.pool),
                listed(&book.journal)
            ),
            Step::Open(Source::ExportList, text) => write!(to, "list {}", hex(text)),
            Step::Open(_, text) => write!(to, "script {}", hex(text)),
            Step::Add([node, section, language], token) => {
                write!(to, "add {node} {section} {language} {}", hex(token))
            }
            Step::Strike(line) => write!(to, "strike {line}"),
            Step::Undo => write!(to, "undo"),
            Step::Settle => write!(to, "settle"),
            Step::AddSymbol(flag, text) => write!(to, "symbol {flag} {}", hex(text)),
            Step::Ask(questions) => {
                write!(to, "ask")?;
                for question in questions {
                    let given =
                        |name: &Option<Vec<u8>>| name.as_deref().map_or("none".to_string(), hex);
                    write!(
                        to,
                        " {} {} {} {}",
                        WHATS[question.what as usize].0,
                        hex(&question.raw),
                        given(&question.demangled),
                        given(&question.wanted)
                    )?;
                }
                Ok(())
            }
        }
    }
}

/// By their numbers.
const WHATS: [(&str, What); 3] = [
    ("V", What::Version),
    ("L", What::Locality),
    ("C", What::Membership),
];

fn question(words: &[&str]) -> Option<Question> {
    let [what, raw, demangled, wanted] = words else {
        return None;
    };
    let given = |word: &str| match word {
        "none" => Some(None),
        _ => bytes(word).map(Some),
    };
    let (_, what) = WHATS.into_iter().find(|(letter, _)| letter == what)?;
    Some(Question {
        what,
        raw: bytes(raw)?,
        demangled: given(demangled)?,
        wanted: given(wanted)?,
    })
}

fn holding<T: Noise>(values: Vec<T>) -> Lent<T> {
    Lent::holding(&values, values.len())
}

fn number(word: &str) -> Option<u32> {
    word.parse().ok()
}

fn listed(numbers: &[u32]) -> String {
    if numbers.is_empty() {
        return "-".to_string();
    }
    let numbers: Vec<String> = numbers.iter().map(u32::to_string).collect();
    numbers.join(",")
}

fn numbers(word: &str) -> Option<Vec<u32>> {
    match word {
        "-" => Some(Vec::new()),
        _ => word.split(',').map(number).collect(),
    }
}

fn bytes(word: &str) -> Option<Vec<u8>> {
    if word == "-" {
        return Some(Vec::new());
    }
    let pairs = word.as_bytes().chunks(2);
    pairs
        .map(|pair| u8::from_str_radix(std::str::from_utf8(pair).ok()?, 16).ok())
        .collect()
}
