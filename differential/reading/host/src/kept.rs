//! What is read of a text, and what is kept of it, in one form for both sides.

use host::class;
use std::collections::BTreeSet;

/// A line: the class of its token, the bytes that are kept, and where the token starts in the text,
/// where the Rust tells it.
#[derive(Clone, Debug, PartialEq, Eq)]
pub struct Line {
    pub class: u64,
    pub bytes: Vec<u8>,
    pub place: Option<usize>,
}

/// Whether the Rust tells where a token of this class starts: it holds those of exact and escaped lines
/// as parts of the text.
pub fn is_placed(class: u64) -> bool {
    matches!(class, class::EXACT | class::ESCAPED)
}

/// A matcher as it is read. The language is 1 for C++.
#[derive(Debug, PartialEq, Eq)]
pub enum Matcher {
    Bare(Line),
    Extern { language: usize, lines: Vec<Line> },
}

impl Matcher {
    pub fn lines(&self) -> &[Line] {
        match self {
            Matcher::Bare(line) => std::slice::from_ref(line),
            Matcher::Extern { lines, .. } => lines,
        }
    }

    pub fn language(&self) -> usize {
        match self {
            Matcher::Bare(_) => 0,
            Matcher::Extern { language, .. } => *language,
        }
    }
}

/// A node as it is read: its matchers, the globals and the locals, and its parent text. Node 0 has
/// no name; an export list, and what `add_symbol` is given, is one node.
#[derive(Debug, Default, PartialEq, Eq)]
pub struct Node {
    pub name: Vec<u8>,
    pub matchers: [Vec<Matcher>; 2],
    pub parent: Vec<u8>,
}

/// What is kept, as the Rust holds it.
#[derive(Debug, PartialEq, Eq)]
pub enum Kept {
    Nodes(Vec<KeptNode>),
    /// The Rust kind: the listed globals.
    Listed(Vec<Vec<u8>>),
}

/// A node's lines by section and language, and its parent's number.
#[derive(Debug, PartialEq, Eq)]
pub struct KeptNode {
    pub name: Vec<u8>,
    pub parent: Option<usize>,
    pub lines: [[Lines; 2]; 2],
}

/// Exact and escaped lines as sets, globs in order, All as a mark.
#[derive(Debug, Default, PartialEq, Eq)]
pub struct Lines {
    pub exact: BTreeSet<Vec<u8>>,
    pub escaped: BTreeSet<Vec<u8>>,
    pub non_star: Vec<Vec<u8>>,
    pub star: Vec<Vec<u8>>,
    pub all: bool,
}

impl Lines {
    pub fn push(&mut self, class: u64, bytes: Vec<u8>) {
        match class {
            class::EXACT => {
                self.exact.insert(bytes);
            }
            class::ESCAPED => {
                self.escaped.insert(bytes);
            }
            class::NON_STAR => self.non_star.push(bytes),
            class::STAR => self.star.push(bytes),
            class::ALL => self.all = true,
            _ => panic!("there is no class {class}"),
        }
    }
}
