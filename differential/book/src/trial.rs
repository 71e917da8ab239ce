//! Document 01's openings and edits, with document 02's request 02, and nothing of the proved library's
//! own definitions: what each call answers, and which book it leaves. Slow and plain. An undo goes back
//! to the book that stood before the edit, which was kept whole.

use crate::buffers::{Buffers, Rooms};
use crate::model::{Edit, Line, Model, Node};
use crate::reader::{read, Full, Read, Refused, Taker, Token};
use crate::storing::{stored, trimmed};
use crate::{kind, limit, width};
use host::{class, refusal};
use reading_host::Source;

/// How many of the books before are kept; no history goes back further.
pub const KEPT: usize = 256;

/// The buffers that can be full, by their numbers.
pub const BUFFERS: [&str; 5] = ["nodes", "names", "lines", "pool", "journal"];
const NODES: usize = 0;
const NAMES: usize = 1;
const LINES: usize = 2;
const POOL: usize = 3;
const JOURNAL: usize = 4;

#[derive(Clone)]
pub struct Trial {
    pub book: Model,
    pub rooms: Rooms,
    /// The books before the latest edits.
    earlier: Vec<Model>,
}

impl Trial {
    /// "Opening starts with 1 and row 0's room." Counts that are not six are no room either.
    pub fn open(source: Source, text: &[u8], counts: usize, rooms: Rooms) -> Read<Self> {
        if text.len() > limit::SCRIPT {
            return Err(Refused::new(refusal::OVER_THE_LIMIT));
        }
        if counts != 6 {
            return Err(Refused::new(refusal::NO_ROOM));
        }
        fits(NODES, 1, rooms.nodes / width::NODE, limit::NODES)?;
        let kind = match source {
            Source::ExportList => kind::EXPORT_LIST,
            _ => kind::REGULAR,
        };
        let mut opening = Opening {
            book: Model::new(kind),
            rooms,
            star: false,
            listed: true,
        };
        read(source, text, &mut opening)?;
        // "Rust kind: a one-body script with a bare `*;` among its locals (outside extern) and only
        // Exact lines, outside extern, as globals; an extern block among the globals, even an empty
        // one, makes it Regular."
        let Opening {
            mut book,
            star,
            listed,
            ..
        } = opening;
        if source == Source::Script && book.nodes.len() == 1 && star && listed {
            book.kind = kind::RUST;
        }
        Ok(Self {
            book,
            rooms,
            earlier: Vec::new(),
        })
    }

    /// Lent buffers that are a book. The books before its edits are made again from the first one on:
    /// the lines that were added are the last ones, and none was struck before.
    pub fn of(book: &Buffers) -> Self {
        let last = Model::of(book);
        let added = |edit: &&Edit| matches!(edit, Edit::Add(_));
        let first = last.lines.len() - last.edits.iter().filter(added).count();
        let standing = |line: &Line| Line {
            struck: false,
            ..line.clone()
        };
        let mut trial = Self {
            book: Model {
                lines: last.lines[..first].iter().map(standing).collect(),
                edits: Vec::new(),
                ..last.clone()
            },
            rooms: book.rooms(),
            earlier: Vec::new(),
        };
        for (number, edit) in last.edits.iter().enumerate() {
            if last.edits.len() - number <= KEPT {
                trial.earlier.push(trial.book.clone());
            }
            match *edit {
                Edit::Add(line) => trial.book.add(standing(&last.lines[line])),
                Edit::Strike(line) => trial.book.strike(line),
            }
        }
        trial
    }

    /// As it is lent.
    pub fn laid(&self) -> Buffers {
        self.book.laid(self.rooms)
    }

    /// Whether the book before each of the edits is kept.
    pub fn goes_back(&self) -> bool {
        self.earlier.len() == self.book.edits.len()
    }

    /// "Add (node, section, language, token) trims and classes the token as in a script, any bytes or
    /// none, and appends"; its offset is "0 for an added line". In order: 13, 11, 1, 5, 6, 8.
    pub fn add(&mut self, [node, section, language]: [u32; 3], token: &[u8]) -> Read<()> {
        if self.book.kind == kind::RUST {
            return Err(Refused::new(refusal::WRONG_KIND));
        }
        let list = self.book.kind == kind::EXPORT_LIST;
        if node as usize >= self.book.nodes.len()
            || section > 1
            || language > 1
            || list && (section == 1 || node != 0)
        {
            return Err(Refused::new(refusal::NO_SUCH));
        }
        let (class, bytes) = stored(trimmed(token)).map_err(Refused::new)?;
        line_fits(&self.book, self.rooms, bytes.len())?;
        self.edit_fits(&self.book)?;
        let [node, section, language] = [node, section, language].map(|number| number as usize);
        self.keep();
        self.book.add(Line {
            node,
            class,
            section,
            language,
            struck: false,
            bytes,
            offset: 0,
        });
        Ok(())
    }

    /// "Strike marks." In order: 13, 11, 8.
    pub fn strike(&mut self, line: u32) -> Read<()> {
        if self.book.kind == kind::RUST {
            return Err(Refused::new(refusal::WRONG_KIND));
        }
        let line = line as usize;
        if self.book.lines.get(line).is_none_or(|line| line.struck) {
            return Err(Refused::new(refusal::NO_SUCH));
        }
        self.edit_fits(&self.book)?;
        self.keep();
        self.book.strike(line);
        Ok(())
    }

    /// "Undo takes back the latest edit not yet undone."
    pub fn undo(&mut self) -> Read<()> {
        if self.book.edits.is_empty() {
            return Err(Refused::new(refusal::NO_EDIT));
        }
        self.book = self.earlier.pop().expect("no history goes back so far");
        Ok(())
    }

    /// "Settle drops struck lines, packs and renumbers the rest in order, empties the journal; with
    /// none struck it changes nothing." The rest keep their offsets.
    pub fn settle(&mut self) {
        if self.book.lines.iter().any(|line| line.struck) {
            self.book.lines.retain(|line| !line.struck);
            self.book.edits.clear();
            self.earlier.clear();
        }
    }

    /// "`add_symbol` on an export list is one add per line, all or none." In order: 13, 1, then as it
    /// is read.
    pub fn add_symbol(&mut self, text: &[u8], without_semicolon: bool) -> Read<()> {
        if self.book.kind != kind::EXPORT_LIST {
            return Err(Refused::new(refusal::WRONG_KIND));
        }
        if text.len() > limit::TOKEN {
            return Err(Refused::new(refusal::OVER_THE_LIMIT));
        }
        let source = match without_semicolon {
            true => Source::AddSymbolWithoutSemicolon,
            false => Source::AddSymbol,
        };
        let mut after = self.clone();
        read(source, text, &mut after)?;
        *self = after;
        Ok(())
    }

    fn edit_fits(&self, book: &Model) -> Read<()> {
        let edits = book.edits.len() + 1;
        fits(
            JOURNAL,
            edits,
            self.rooms.journal / width::EDIT,
            limit::EDITS,
        )
    }

    /// The book as it is, for an undo of the edit that follows.
    fn keep(&mut self) {
        self.earlier.push(self.book.clone());
        if self.earlier.len() > KEPT {
            self.earlier.remove(0);
        }
    }
}

/// "A row, byte or journal limit or room would be passed."
fn fits(buffer: usize, count: usize, room: usize, limit: usize) -> Read<()> {
    let full = |limit| Refused {
        full: Some(Full { buffer, limit }),
        ..Refused::new(refusal::NO_ROOM)
    };
    if count > limit {
        Err(full(true))
    } else if count > room {
        Err(full(false))
    } else {
        Ok(())
    }
}

/// Whether a line of so many bytes can follow.
fn line_fits(book: &Model, rooms: Rooms, bytes: usize) -> Read<()> {
    let (lines, room) = (book.lines.len() + 1, rooms.lines / width::LINE);
    fits(LINES, lines, room, limit::LINES)?;
    fits(POOL, book.needs().pool + bytes, rooms.pool, limit::POOL)
}

/// The lines of `add_symbol`: one add after the other.
impl Taker for Trial {
    fn node(&mut self, _: &[u8]) -> Read<()> {
        unreachable!("a matcher has no node")
    }

    fn parent(&mut self, _: &[u8]) -> Read<()> {
        unreachable!("a matcher has no parent")
    }

    fn block(&mut self, _: usize) {}

    fn line(&mut self, token: Token) -> Read<()> {
        self.add([0, 0, token.language as u32], token.bytes)
    }
}

/// A book that is being opened.
struct Opening {
    book: Model,
    rooms: Rooms,
    /// Whether a bare `*` is among the locals.
    star: bool,
    /// Whether the globals are only Exact lines outside extern.
    listed: bool,
}

impl Taker for Opening {
    /// "A node's room is asked after its name", row and bytes.
    fn node(&mut self, name: &[u8]) -> Read<()> {
        let (nodes, room) = (self.book.nodes.len() + 1, self.rooms.nodes / width::NODE);
        fits(NODES, nodes, room, limit::NODES)?;
        let bytes = self.book.needs().names + name.len();
        fits(NAMES, bytes, self.rooms.names, usize::MAX)?;
        self.book.nodes.push(Node {
            name: name.to_vec(),
            parent: 0,
        });
        Ok(())
    }

    /// "It equals an earlier node's name, the first such."
    fn parent(&mut self, name: &[u8]) -> Read<()> {
        let (node, earlier) = self.book.nodes.split_last_mut().expect("it has a node");
        let first = earlier.iter().position(|node| node.name == name);
        node.parent = first.ok_or(Refused::new(refusal::UNKNOWN_PARENT))?;
        Ok(())
    }

    fn block(&mut self, section: usize) {
        self.listed &= section == 1;
    }

    fn line(&mut self, token: Token) -> Read<()> {
        let (class, bytes) = stored(trimmed(token.bytes)).map_err(Refused::new)?;
        line_fits(&self.book, self.rooms, bytes.len())?;
        match token.section {
            0 => self.listed &= class == class::EXACT && !token.in_block,
            _ => self.star |= class == class::ALL && !token.in_block,
        }
        self.book.lines.push(Line {
            node: self.book.nodes.len() - 1,
            class,
            section: token.section,
            language: token.language,
            struck: false,
            bytes,
            // "The byte offset of its token in the opened text plus one."
            offset: token.start + 1,
        });
        Ok(())
    }
}
