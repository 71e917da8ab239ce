//! Document 01's ranking, with document 02's request 03, and nothing of the proved library's own
//! definitions: which line decides over a name, what is answered, and why. Slow and plain, one sentence
//! of the papers after the other. Globs are matched by the Rust's own `Pattern`.

use crate::kind;
use crate::model::{Line, Model};
use crate::ours::Name;
use crate::questions::{Question, What};
use crate::why::{Reason, Why};
use host::published::{self, Pattern};
use host::{class, refusal};

/// A book, and the globs of its lines.
pub struct Ranking {
    book: Model,
    globs: Vec<Option<Pattern>>,
}

/// What is answered, and by what.
pub struct Ranked {
    pub answer: Result<u32, u64>,
    pub by: By,
}

pub enum By {
    /// The question is refused before any line or node is looked at.
    Refusal,
    /// How many nodes have the wanted name.
    Wanted(usize),
    /// The numbers of every line that matches, and of the one that decides.
    Lines {
        matching: Vec<usize>,
        deciding: Option<usize>,
    },
}

/// A place of the ranking: lines of one node and section, of these languages and classes, are of equal
/// rank.
pub struct Rank {
    pub node: usize,
    pub section: usize,
    pub languages: &'static [usize],
    pub classes: &'static [u64],
}

impl Rank {
    pub fn has(&self, line: &Line) -> bool {
        line.node == self.node
            && line.section == self.section
            && self.languages.contains(&line.language)
            && self.classes.contains(&line.class)
    }
}

/// The whole ranking over so many nodes, from the first place on.
pub fn ranks(nodes: usize) -> impl Iterator<Item = Rank> {
    // "Nodes upward, exact or escaped: general global, general local, C++ global, C++ local."
    const BYTES: [(usize, &[usize]); 4] = [(0, &[0]), (1, &[0]), (0, &[1]), (1, &[1])];
    let bytes = (0..nodes).flat_map(|node| {
        BYTES.map(|(section, languages)| Rank {
            node,
            section,
            languages,
            classes: &[class::EXACT, class::ESCAPED],
        })
    });
    // "Nodes downward, NonStar: global (general or C++), then local. The same with Star. The same with
    // All."
    const GLOBS: [&[u64]; 3] = [&[class::NON_STAR], &[class::STAR], &[class::ALL]];
    let globs = GLOBS.into_iter().flat_map(move |classes| {
        (0..nodes).rev().flat_map(move |node| {
            [0, 1].map(|section| Rank {
                node,
                section,
                languages: &[0, 1],
                classes,
            })
        })
    });
    bytes.chain(globs)
}

impl Ranking {
    pub fn new(book: &Model) -> Self {
        let glob = |line: &Line| {
            let glob = class::is_glob(line.class).then(|| published::pattern(&line.bytes));
            glob.map(|glob| glob.expect("a book's globs are patterns"))
        };
        Self {
            book: book.clone(),
            globs: book.lines.iter().map(glob).collect(),
        }
    }

    /// The answer to any question. "Order: 14, 13, 11, 12, 1, 9, 10."
    pub fn ranked(&self, question: &Question) -> Ranked {
        let list = self.book.kind == kind::EXPORT_LIST;
        let number = match question.outside() {
            _ if list != (question.what == What::Membership) => Some(refusal::WRONG_KIND),
            outside => outside.map(|outside| outside.refusal()),
        };
        match (number, &question.wanted) {
            (Some(number), _) => Ranked {
                answer: Err(number),
                by: By::Refusal,
            },
            (None, Some(wanted)) if question.what == What::Version => self.wanted(wanted),
            _ => self.by_lines(question),
        }
    }

    /// "A wanted version that is empty gives 1, a known one its index, an unknown one refusal 10",
    /// "the last node of that name"; and for the Rust kind "always none, a wanted one too".
    fn wanted(&self, wanted: &[u8]) -> Ranked {
        let nodes = self.book.nodes.iter().enumerate();
        let named: Vec<usize> = nodes
            .filter(|(number, node)| *number > 0 && node.name == wanted)
            .map(|(number, _)| number)
            .collect();
        let answer = match named.last() {
            _ if self.book.kind == kind::RUST => Ok(0),
            _ if wanted.is_empty() => Ok(1),
            Some(&node) => Ok(1 + node as u32),
            None => Err(refusal::UNKNOWN_VERSION),
        };
        Ranked {
            answer,
            by: By::Wanted(named.len()),
        }
    }

    /// "Index is 1 plus number"; "node 0 answers none". "Locality is the deciding section". The Rust
    /// kind's version "is always none", and its locality "is global for listed names, else local". "A
    /// name is in an export list exactly when some line matches."
    fn by_lines(&self, question: &Question) -> Ranked {
        let matching = self.matching(question.name());
        let deciding = self.deciding(question.name(), &matching);
        let line = deciding.map(|number| &self.book.lines[number]);
        let answer = match (question.what, self.book.kind) {
            (What::Version, kind::RUST) => 0,
            (What::Version, _) => match line {
                Some(line) if line.node > 0 => 1 + line.node as u32,
                _ => 0,
            },
            (What::Locality, kind::RUST) => {
                let listed = |&number: &usize| self.book.lines[number].section == 0;
                2 - u32::from(matching.iter().any(listed))
            }
            (What::Locality, _) => line.map_or(0, |line| 1 + line.section as u32),
            (What::Membership, _) => u32::from(line.is_some()),
        };
        Ranked {
            answer: Ok(answer),
            by: By::Lines { matching, deciding },
        }
    }

    /// Why the name of a question is answered as it is, whatever is asked of it. "It says \"wanted
    /// version\" when the `@` part decided", which it never does for the Rust kind; "refusals: those of
    /// the lookup", and 13 for a version wanted of an export list.
    pub fn why(&self, question: &Question) -> Result<Why, u64> {
        if self.book.kind == kind::EXPORT_LIST && question.wanted.is_some() {
            return Err(refusal::WRONG_KIND);
        }
        if let Some(outside) = question.outside() {
            return Err(outside.refusal());
        }
        match &question.wanted {
            Some(wanted) if self.book.kind == kind::REGULAR => {
                self.wanted(wanted).answer.map(|_| Why::Wanted)
            }
            _ => {
                let name = question.name();
                let deciding = self.deciding(name, &self.matching(name));
                Ok(deciding.map_or(Why::NoLine, |number| {
                    Why::Line(Reason::of(number, &self.book.lines[number]))
                }))
            }
        }
    }

    /// The numbers of all lines that match, of which one decides. "C++ lines see the demangled name,
    /// others the raw one." The names are UTF-8.
    fn matching(&self, name: Name) -> Vec<usize> {
        let text = |name| std::str::from_utf8(name).expect("names are UTF-8 here");
        let matches = |line: &Line, glob: &Option<Pattern>| {
            let name = [name.raw, name.demangled][line.language];
            match glob {
                _ if line.struck => false,
                Some(glob) => glob.matches(text(name)),
                None => line.class == class::ALL || line.bytes == name,
            }
        };
        let lines = self.book.lines.iter().zip(&self.globs).enumerate();
        let matching = lines.filter(|(_, (line, glob))| matches(line, glob));
        matching.map(|(number, _)| number).collect()
    }

    /// "The line must match the name and none ahead of it in 01's ranking may; at equal rank the lowest
    /// number is named. … For the Rust kind it names the first listed line equal to the name, else the
    /// first general local All line."
    fn deciding(&self, name: Name, matching: &[usize]) -> Option<usize> {
        let lines = &self.book.lines;
        if self.book.kind == kind::RUST {
            let listed = |line: &Line| line.section == 0 && line.bytes == name.raw;
            let star =
                |line: &Line| line.section == 1 && line.language == 0 && line.class == class::ALL;
            let first = lines.iter().position(listed);
            return first.or_else(|| lines.iter().position(star));
        }
        ranks(self.book.nodes.len()).find_map(|rank| {
            let mut matching = matching.iter().copied();
            matching.find(|&number| rank.has(&lines[number]))
        })
    }
}
