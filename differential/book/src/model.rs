//! A book apart from buffers: read out of them, edited by document 01's rules, and laid out again.

use crate::buffers::{Buffers, Lent, Rooms};
use crate::{kind, limit, width};
use host::{class, refusal};

#[derive(Clone, Debug, PartialEq, Eq)]
pub struct Model {
    pub kind: u32,
    pub nodes: Vec<Node>,
    pub lines: Vec<Line>,
    pub edits: Vec<Edit>,
}

#[derive(Clone, Debug, Default, PartialEq, Eq)]
pub struct Node {
    pub name: Vec<u8>,
    /// Its number, or 0.
    pub parent: usize,
}

/// Section 1 is local, language 1 C++.
#[derive(Clone, Debug, PartialEq, Eq)]
pub struct Line {
    pub node: usize,
    pub class: u64,
    pub section: usize,
    pub language: usize,
    pub struck: bool,
    pub bytes: Vec<u8>,
    /// The place of its token in the opened text, plus one; 0 where it was added.
    pub offset: usize,
}

#[derive(Clone, Copy, Debug, PartialEq, Eq)]
pub enum Edit {
    Add(usize),
    Strike(usize),
}

impl Model {
    /// One with node 0 alone, and no lines.
    pub fn new(kind: u32) -> Self {
        Self {
            kind,
            nodes: vec![Node::default()],
            lines: Vec::new(),
            edits: Vec::new(),
        }
    }

    /// A regular one with so many lines of two bytes, as `{ab;ab;` has them.
    pub fn with_lines(count: usize) -> Self {
        let line = |number| Line {
            offset: 2 + 3 * number,
            ..Line::exact(b"ab")
        };
        Self {
            lines: (0..count).map(line).collect(),
            ..Self::new(kind::REGULAR)
        }
    }

    /// A regular one with so many bytes: lines as long as can be, and the rest in two.
    pub fn with_pool(bytes: usize) -> Self {
        let half = limit::TOKEN / 2;
        let long = Line::exact(&b"a".repeat(limit::TOKEN));
        let mut model = Self::new(kind::REGULAR);
        model.lines = vec![long; bytes / limit::TOKEN];
        let left = bytes % limit::TOKEN;
        for part in [left.min(half), left.saturating_sub(half)] {
            model.lines.push(Line::exact(&b"b".repeat(part)));
        }
        model
    }

    /// A regular one with so many edits: lines are added and struck in turn.
    pub fn with_edits(count: usize) -> Self {
        let mut model = Self::new(kind::REGULAR);
        for number in 0..count {
            match number % 2 {
                0 => model.add(Line::exact(b"c")),
                _ => model.strike(number / 2),
            }
        }
        model
    }

    /// A regular one with that many nodes, each with the one before it as its parent, lines of 128 bytes
    /// of each class in turn, and edits: the last lines are added, and then struck. A node's name has so
    /// many bytes.
    pub fn mixed(lines: usize, nodes: usize, edits: usize, name: usize) -> Self {
        let mut model = Self::new(kind::REGULAR);
        for number in 1..nodes {
            model.nodes.push(Node {
                name: format!("{number:n>name$}").into_bytes(),
                parent: number - 1,
            });
        }
        let line = |number: usize| {
            let (class, end) = [
                (class::EXACT, "___"),
                (class::ESCAPED, "__*"),
                (class::NON_STAR, "[a]"),
                (class::STAR, "a?*"),
            ][number % 4];
            let text = format!("{:_<width$}{end}", format!("haze_{number}"), width = 125);
            Line {
                node: number % nodes,
                class,
                section: number / 4 % 2,
                language: number / 8 % 2,
                ..Line::exact(text.as_bytes())
            }
        };
        let added = edits / 2;
        model.lines = (0..lines - added).map(line).collect();
        for number in lines - added..lines {
            model.add(line(number));
        }
        for number in lines - added..lines {
            model.strike(number);
        }
        model
    }

    /// Reads buffers that are a book.
    pub fn of(book: &Buffers) -> Self {
        let counts = book.counted();
        let part = |bytes: &[u8], start: u32, length: u32| {
            bytes[start as usize..][..length as usize].to_vec()
        };
        let nodes = book.nodes.chunks_exact(width::NODE).take(counts.nodes);
        let lines = book.lines.chunks_exact(width::LINE).take(counts.lines);
        let edits = book.journal.chunks_exact(width::EDIT).take(counts.edits);
        Self {
            kind: counts.kind,
            nodes: nodes
                .map(|row| Node {
                    name: part(&book.names, row[0], row[1]),
                    parent: row[2] as usize,
                })
                .collect(),
            lines: lines
                .map(|row| Line {
                    node: row[0] as usize,
                    class: u64::from(row[1] % 32 / 4),
                    section: (row[1] / 2 % 2) as usize,
                    language: (row[1] % 2) as usize,
                    struck: row[1] >= 32,
                    bytes: part(&book.pool, row[2], row[3]),
                    offset: row[4] as usize,
                })
                .collect(),
            edits: edits
                .map(|row| match row[0] {
                    1 => Edit::Add(row[1] as usize),
                    _ => Edit::Strike(row[1] as usize),
                })
                .collect(),
        }
    }

    pub fn add(&mut self, line: Line) {
        self.edits.push(Edit::Add(self.lines.len()));
        self.lines.push(line);
    }

    pub fn strike(&mut self, line: usize) {
        self.edits.push(Edit::Strike(line));
        self.lines[line].struck = true;
    }

    /// Takes the latest edit back, if there is one.
    pub fn undo(&mut self) {
        match self.edits.pop() {
            Some(Edit::Add(_)) => {
                self.lines.pop();
            }
            Some(Edit::Strike(line)) => self.lines[line].struck = false,
            None => {}
        }
    }

    /// "The count of versions is 0 when only node 0 stands, else all nodes"; and how many nodes have
    /// a parent. An export list has neither.
    pub fn counts(&self) -> Option<[u32; 2]> {
        if self.kind == kind::EXPORT_LIST {
            return None;
        }
        let versions = match self.nodes.len() {
            1 => 0,
            count => count,
        };
        let parents = self.nodes.iter().filter(|node| node.parent != 0).count();
        Some([versions as u32, parents as u32])
    }

    /// What the two counts answer of it.
    pub fn asked_counts(&self) -> [Result<u32, u64>; 2] {
        match self.counts() {
            Some(counts) => counts.map(Ok),
            None => [Err(refusal::WRONG_KIND); 2],
        }
    }

    /// The rooms that it needs, to the last number and byte.
    pub fn needs(&self) -> Rooms {
        Rooms {
            nodes: width::NODE * self.nodes.len(),
            names: self.nodes.iter().map(|node| node.name.len()).sum(),
            lines: width::LINE * self.lines.len(),
            pool: self.lines.iter().map(|line| line.bytes.len()).sum(),
            journal: width::EDIT * self.edits.len(),
        }
    }

    /// In buffers of these rooms, or of what it needs where that is more.
    pub fn laid(&self, rooms: Rooms) -> Buffers {
        let (mut nodes, mut names) = (Vec::new(), Vec::new());
        for Node { name, parent } in &self.nodes {
            nodes.extend([names.len(), name.len(), *parent].map(|number| number as u32));
            names.extend_from_slice(name);
        }
        let (mut lines, mut pool) = (Vec::new(), Vec::new());
        for line in &self.lines {
            let code = line.class as usize * 4 + line.section * 2 + line.language;
            let code = if line.struck { code + 32 } else { code };
            let row = [line.node, code, pool.len(), line.bytes.len(), line.offset];
            lines.extend(row.map(|number| number as u32));
            pool.extend_from_slice(&line.bytes);
        }
        let edits = self.edits.iter().flat_map(|edit| match *edit {
            Edit::Add(line) => [1, line as u32],
            Edit::Strike(line) => [2, line as u32],
        });
        let edits: Vec<u32> = edits.collect();
        let counts = [
            self.nodes.len(),
            names.len(),
            self.lines.len(),
            pool.len(),
            self.edits.len(),
        ];
        let counts: Vec<u32> = [self.kind]
            .into_iter()
            .chain(counts.map(|count| count as u32))
            .collect();
        Buffers {
            counts: Lent::holding(&counts, 6),
            nodes: Lent::holding(&nodes, rooms.nodes),
            names: Lent::holding(&names, rooms.names),
            lines: Lent::holding(&lines, rooms.lines),
            pool: Lent::holding(&pool, rooms.pool),
            journal: Lent::holding(&edits, rooms.journal),
        }
    }
}

impl Line {
    /// A general global line of node 0 that stands, and is of no opened text.
    pub fn exact(bytes: &[u8]) -> Self {
        Self {
            node: 0,
            class: class::EXACT,
            section: 0,
            language: 0,
            struck: false,
            bytes: bytes.to_vec(),
            offset: 0,
        }
    }
}
