//! The book.

use crate::calls::Buffers;
use crate::parts::{Kind, Language, Line, Node, NodeNumber, Section, VersionIndex, Why};
use crate::place::Place;
use crate::refusal::Refusal;
use crate::rooms::{Needs, Rooms, LINE_WIDTH, NODE_WIDTH};
use std::fmt;
use std::ops::Range;

/// A version script or an export list, opened: it can be asked about symbols and edited on trial.
///
/// It owns the buffers that the library is lent, and enlarges them where a call needs more room, so
/// that [`Refusal::NoRoom`] is only met at the library's limits: 1,024 nodes, 16,384 lines,
/// 2,097,152 stored bytes, 4,096 edits.
///
/// The library checks the whole book at every question and every edit, so each takes time in
/// proportion to the book, however short the answer. [`Book::nodes`], [`Book::lines`],
/// [`Book::kind`] and [`Book::edit_count`] read the buffers and call nothing.
///
/// Two books are equal where their kinds, nodes and lines are, and the edits that can be undone.
/// Offsets are a part of lines: of two scripts that differ in a blank the books may differ too.
#[derive(Clone)]
pub struct Book {
    buffers: Buffers,
}

/// What is not refused.
type Answer<T> = Result<T, Refusal>;

const NO_ROOM: u32 = 8;

fn refused(number: u32) -> Refusal {
    Refusal::new(number, None)
}

/// Opens a text into rooms that its length suggests, and into larger ones where they are too small
/// for it.
fn open(text: &[u8], call: fn(&mut Buffers, &[u8]) -> u64) -> Answer<Book> {
    let most = Rooms::most(text.len());
    let mut rooms = Rooms::first(text.len());
    loop {
        let mut buffers = Buffers::with(rooms);
        let answer = call(&mut buffers, text);
        match (answer % 256) as u32 {
            0 => {
                buffers.cut(buffers.used());
                buffers.shrink();
                return Ok(Book { buffers });
            }
            NO_ROOM if rooms != most => rooms = rooms.larger(most),
            number => {
                let place = Place::of(text, (answer / 256) as usize);
                return Err(Refusal::new(number, Some(place)));
            }
        }
    }
}

impl Book {
    /// Reads a version script.
    ///
    /// # Errors
    ///
    /// Refusals 1 to 8, each with its [`Place`].
    ///
    /// ```
    /// use tunoyaket::{Book, Kind};
    ///
    /// let book = Book::version_script(b"V1 { global: f; }; V2 { g*; } V1;")?;
    /// assert_eq!(book.kind(), Kind::Regular);
    ///
    /// let refusal = Book::version_script(b"V1 {};\nV2 {} V3;").unwrap_err();
    /// assert_eq!(refusal.to_string(), "line 2, column 7: a parent that no earlier node is");
    /// # Ok::<(), tunoyaket::Refusal>(())
    /// ```
    pub fn version_script(text: &[u8]) -> Result<Book, Refusal> {
        open(text, Buffers::open_version_script)
    }

    /// Reads an export list.
    ///
    /// # Errors
    ///
    /// Refusals 1 to 6 and 8, each with its [`Place`].
    ///
    /// ```
    /// use tunoyaket::Book;
    ///
    /// let book = Book::export_list(b"{ f; haze_*; };")?;
    /// assert!(book.contains(b"haze_day", b"haze_day")?);
    /// assert!(!book.contains(b"main", b"main")?);
    /// # Ok::<(), tunoyaket::Refusal>(())
    /// ```
    pub fn export_list(text: &[u8]) -> Result<Book, Refusal> {
        open(text, Buffers::open_export_list)
    }

    /// What was opened.
    pub fn kind(&self) -> Kind {
        match self.buffers.counts[0] {
            0 => Kind::Regular,
            1 => Kind::Rust,
            2 => Kind::ExportList,
            kind => unreachable!("no book has the kind {kind}"),
        }
    }

    /// How many versions a script defines: none where it has no named node, else the number of its
    /// nodes, node 0 included.
    ///
    /// # Errors
    ///
    /// [`Refusal::WrongKind`] on an export list.
    pub fn version_count(&self) -> Result<u32, Refusal> {
        self.buffers.version_count().map_err(refused)
    }

    /// How many of a script's nodes have a parent.
    ///
    /// # Errors
    ///
    /// [`Refusal::WrongKind`] on an export list.
    pub fn parent_count(&self) -> Result<u32, Refusal> {
        self.buffers.parent_count().map_err(refused)
    }

    /// The version of a symbol, by its raw name, its demangled one (the raw one again, where there
    /// is none) and the version that it wants.
    ///
    /// Without a wanted version it is that of the line that decides: `None` where no line matches,
    /// and where the line stands in node 0. With one it is that of the last node of this name,
    /// [`GLOBAL`](VersionIndex::GLOBAL) where it is empty, whichever line decides. Of the Rust kind
    /// it is always `None`: a wanted version is not looked up.
    ///
    /// # Errors
    ///
    /// [`Refusal::WrongKind`] on an export list; [`Refusal::TooLong`] of a raw name or a wanted
    /// version over 4,096 bytes or a demangled name over 65,536; [`Refusal::NameNotUtf8`];
    /// [`Refusal::UnknownVersion`], not of the Rust kind.
    ///
    /// ```
    /// use tunoyaket::{Book, NodeNumber, Refusal, VersionIndex};
    ///
    /// let book = Book::version_script(b"V1 { f; extern \"C++\" { \"g()\"; }; }; V2 { f; };")?;
    /// let v1 = Some(VersionIndex::from_node(NodeNumber(1)));
    /// let v2 = Some(VersionIndex::from_node(NodeNumber(2)));
    /// assert_eq!(book.version(b"f", b"f", None)?, v1);
    /// assert_eq!(book.version(b"_Z1gv", b"g()", None)?, v1);
    /// assert_eq!(book.version(b"h", b"h", None)?, None);
    /// assert_eq!(book.version(b"f", b"f", Some(b"V2"))?, v2);
    /// assert_eq!(book.version(b"f", b"f", Some(b""))?, Some(VersionIndex::GLOBAL));
    /// assert_eq!(book.version(b"f", b"f", Some(b"V3")), Err(Refusal::UnknownVersion));
    ///
    /// let book = Book::version_script(b"{ f*; };")?;
    /// assert_eq!(book.version(b"f", b"f", None)?, None);
    /// let book = Book::version_script(b"{ f; local: *; };")?;
    /// assert_eq!(book.version(b"f", b"f", Some(b"V3"))?, None);
    /// # Ok::<(), Refusal>(())
    /// ```
    pub fn version(
        &self,
        raw: &[u8],
        demangled: &[u8],
        wanted: Option<&[u8]>,
    ) -> Result<Option<VersionIndex>, Refusal> {
        self.buffers
            .version_for_symbol(raw, demangled, wanted)
            .map(VersionIndex::told)
            .map_err(refused)
    }

    /// The section of the line that decides on a symbol, or `None` where no line matches. Of the
    /// Rust kind the names that it lists are global, all others local.
    ///
    /// # Errors
    ///
    /// [`Refusal::WrongKind`] on an export list; [`Refusal::TooLong`] and [`Refusal::NameNotUtf8`],
    /// as for [`version`](Book::version).
    ///
    /// ```
    /// use tunoyaket::{Book, Section};
    ///
    /// let book = Book::version_script(b"V1 { f*; local: f_?; };")?;
    /// assert_eq!(book.locality(b"f_12", b"f_12")?, Some(Section::Global));
    /// assert_eq!(book.locality(b"f_1", b"f_1")?, Some(Section::Local));
    /// assert_eq!(book.locality(b"g", b"g")?, None);
    /// # Ok::<(), tunoyaket::Refusal>(())
    /// ```
    pub fn locality(&self, raw: &[u8], demangled: &[u8]) -> Result<Option<Section>, Refusal> {
        match self.buffers.locality(raw, demangled).map_err(refused)? {
            0 => Ok(None),
            1 => Ok(Some(Section::Global)),
            2 => Ok(Some(Section::Local)),
            locality => unreachable!("{locality} is no locality"),
        }
    }

    /// Whether a symbol is in an export list.
    ///
    /// # Errors
    ///
    /// [`Refusal::WrongKind`] on a version script; [`Refusal::TooLong`] and
    /// [`Refusal::NameNotUtf8`], as for [`version`](Book::version).
    pub fn contains(&self, raw: &[u8], demangled: &[u8]) -> Result<bool, Refusal> {
        let within = self.buffers.contains(raw, demangled).map_err(refused)?;
        Ok(within != 0)
    }

    /// Why a symbol has its version, is global or local, or is in an export list: the line that
    /// decides, by the names of the symbol and the version that it wants, as for
    /// [`version`](Book::version).
    ///
    /// Of the lines that match it is the first in the ranking, at equal rank the one with the lowest
    /// number. Where a version is wanted, an empty one too, that decides, and no line is named; the
    /// locality still goes by the line that is named without it. Of the Rust kind a wanted version
    /// is not looked up, and a line always decides: the first global one that is the raw name, else
    /// the first local `*` that is not C++.
    ///
    /// # Errors
    ///
    /// [`Refusal::WrongKind`] on an export list, where a version is wanted; [`Refusal::TooLong`],
    /// [`Refusal::NameNotUtf8`] and [`Refusal::UnknownVersion`], as for [`version`](Book::version).
    ///
    /// ```
    /// use tunoyaket::{Book, Class, Language, NodeNumber, Reason, Refusal, Section, Why};
    ///
    /// let mut book = Book::version_script(b"V1 { f; f*; }; V2 { f*; };")?;
    /// let first = Reason {
    ///     line: 0,
    ///     class: Class::Exact,
    ///     node: NodeNumber(1),
    ///     section: Section::Global,
    ///     language: Language::General,
    ///     offset: Some(5),
    /// };
    /// assert_eq!(book.why(b"f", b"f", None)?, Why::Line(first));
    /// assert_eq!(book.why(b"g", b"g", None)?, Why::NoLine);
    /// assert_eq!(book.why(b"f", b"f", Some(b"V2"))?, Why::Wanted);
    /// assert_eq!(book.why(b"f", b"f", Some(b"V3")), Err(Refusal::UnknownVersion));
    ///
    /// book.strike(0)?;
    /// let last = Reason {
    ///     line: 2,
    ///     class: Class::Star,
    ///     node: NodeNumber(2),
    ///     offset: Some(20),
    ///     ..first
    /// };
    /// assert_eq!(book.why(b"f", b"f", None)?, Why::Line(last));
    /// # Ok::<(), Refusal>(())
    /// ```
    pub fn why(&self, raw: &[u8], demangled: &[u8], wanted: Option<&[u8]>) -> Result<Why, Refusal> {
        self.buffers
            .why(raw, demangled, wanted)
            .map(Why::told)
            .map_err(refused)
    }

    /// Adds a line and tells its number. The token is trimmed at its end and classed as in a
    /// script; it may be any bytes or none. The line has no [`offset`](Line::offset).
    ///
    /// # Errors
    ///
    /// [`Refusal::WrongKind`] on a script of the Rust kind; [`Refusal::NoSuch`] for a node that is
    /// not there, and on an export list for any but node 0 and for [`Section::Local`];
    /// [`Refusal::TooLong`], [`Refusal::GlobNotUtf8`] and [`Refusal::BadPattern`] of the token;
    /// [`Refusal::NoRoom`] at the limits.
    ///
    /// ```
    /// use tunoyaket::{Book, Language, NodeNumber, Section};
    ///
    /// let mut book = Book::version_script(b"V1 { f; }; V2 {};")?;
    /// let line = book.add(NodeNumber(2), Section::Global, Language::General, b"g*")?;
    /// assert_eq!(line, 1);
    /// assert_eq!(book.version(b"gg", b"gg", None)?.unwrap().number(), 3);
    /// # Ok::<(), tunoyaket::Refusal>(())
    /// ```
    pub fn add(
        &mut self,
        node: NodeNumber,
        section: Section,
        language: Language,
        token: &[u8],
    ) -> Result<u32, Refusal> {
        let line = self.line_count();
        let needs = Needs {
            lines: 1,
            bytes: token.len(),
            edits: 1,
        };
        let section = match section {
            Section::Global => 0,
            Section::Local => 1,
        };
        let language = match language {
            Language::General => 0,
            Language::Cxx => 1,
        };
        self.edit(needs, |b| b.add(node.0, section, language, token))?;
        Ok(line)
    }

    /// Strikes a line that stands: no lookup sees it then.
    ///
    /// # Errors
    ///
    /// [`Refusal::WrongKind`] on a script of the Rust kind; [`Refusal::NoSuch`] for a line that is
    /// not there or is struck; [`Refusal::NoRoom`] at the limit of edits.
    pub fn strike(&mut self, line: u32) -> Result<(), Refusal> {
        let needs = Needs {
            lines: 0,
            bytes: 0,
            edits: 1,
        };
        self.edit(needs, |b| b.strike(line))
    }

    /// Takes back the latest edit that has not been undone. Undoing every edit since the opening,
    /// or since the last settle that dropped a line, brings back the book of that moment.
    ///
    /// # Errors
    ///
    /// [`Refusal::NothingToUndo`].
    ///
    /// ```
    /// use tunoyaket::{Book, Refusal};
    ///
    /// let opened = Book::version_script(b"V1 { f; };")?;
    /// let mut book = opened.clone();
    /// book.strike(0)?;
    /// assert!(book != opened);
    /// book.undo()?;
    /// assert!(book == opened);
    /// assert_eq!(book.undo(), Err(Refusal::NothingToUndo));
    /// # Ok::<(), Refusal>(())
    /// ```
    pub fn undo(&mut self) -> Result<(), Refusal> {
        done(self.buffers.undo())
    }

    /// Drops the struck lines, renumbers the rest in order, and forgets the edits; with none struck
    /// nothing changes, and undo still works. Each line that is left keeps its
    /// [`offset`](Line::offset).
    ///
    /// # Errors
    ///
    /// None, of a `Book`.
    ///
    /// ```
    /// use tunoyaket::{Book, Refusal};
    ///
    /// let mut book = Book::export_list(b"{ f; g; };")?;
    /// book.strike(0)?;
    /// book.settle()?;
    /// let lines: Vec<_> = book.lines().map(|line| (line.number, line.bytes)).collect();
    /// assert_eq!(lines, [(0, &b"g"[..])]);
    /// assert_eq!(book.undo(), Err(Refusal::NothingToUndo));
    /// # Ok::<(), Refusal>(())
    /// ```
    pub fn settle(&mut self) -> Result<(), Refusal> {
        done(self.buffers.settle())
    }

    /// Reads one matcher at the start of a text, a token or an extern block, and adds its lines to
    /// an export list, all or none. Tells their numbers. What is left of the text is ignored, but
    /// for the blanks and comments behind an extern block's `};`, which belong to it: a comment
    /// there that is not closed is refused. A blank at the text's start belongs to the token. The
    /// lines have no [`offset`](Line::offset).
    ///
    /// `without_semicolon` says that a token outside extern goes to the first `}`, a `;` included,
    /// and one in an extern block to its `;` where no `};` is left. Where there is no `}` the token
    /// is all the text, which may then not begin with a comment that is not closed (`#x`).
    ///
    /// # Errors
    ///
    /// [`Refusal::WrongKind`] on a version script; [`Refusal::TooLong`] of a text over 65,536
    /// bytes; refusals 2 to 6 of what is read; [`Refusal::NoRoom`] at the limits. None of them has
    /// a [`Place`] here.
    ///
    /// ```
    /// use tunoyaket::Book;
    ///
    /// let mut book = Book::export_list(b"{ f; };")?;
    /// assert_eq!(book.add_symbol(b"extern \"C++\" { haze::*; \"g()\"; };", false)?, 1..3);
    /// assert_eq!(book.add_symbol(b"main", true)?, 3..4);
    /// assert!(book.contains(b"_ZN4haze3dayEv", b"haze::day()")?);
    /// # Ok::<(), tunoyaket::Refusal>(())
    /// ```
    pub fn add_symbol(
        &mut self,
        text: &[u8],
        without_semicolon: bool,
    ) -> Result<Range<u32>, Refusal> {
        let first = self.line_count();
        // a line ends at a `;`, at a `}` or with the text
        let ends = text.iter().filter(|&&byte| byte == b';' || byte == b'}');
        let lines = ends.count() + 1;
        let needs = Needs {
            lines,
            bytes: text.len(),
            edits: lines,
        };
        self.edit(needs, |b| b.add_symbol(text, without_semicolon))?;
        Ok(first..self.line_count())
    }

    /// How many edits can be undone.
    pub fn edit_count(&self) -> u32 {
        self.buffers.counts[5]
    }

    /// The nodes, in order, node 0 first.
    ///
    /// ```
    /// use tunoyaket::{Book, NodeNumber};
    ///
    /// let book = Book::version_script(b"V1 {}; V2 {} V1;")?;
    /// let last = book.nodes().last().unwrap();
    /// assert_eq!(last.name, b"V2");
    /// assert_eq!(last.parent, Some(NodeNumber(1)));
    /// # Ok::<(), tunoyaket::Refusal>(())
    /// ```
    pub fn nodes(&self) -> impl DoubleEndedIterator<Item = Node<'_>> + ExactSizeIterator {
        let Buffers { nodes, names, .. } = &self.buffers;
        nodes[..self.buffers.used().nodes]
            .chunks_exact(NODE_WIDTH)
            .enumerate()
            .map(move |(number, row)| Node::at(number, row, names))
    }

    /// The lines, in order, the struck ones too.
    ///
    /// ```
    /// use tunoyaket::{Book, Class, Section};
    ///
    /// let book = Book::version_script(b"V1 { f; local: [^a]*; };")?;
    /// let line = book.lines().nth(1).unwrap();
    /// assert_eq!((line.number, line.node.0), (1, 1));
    /// assert_eq!((line.class, line.section), (Class::Star, Section::Local));
    /// assert_eq!((line.bytes, line.struck), (&b"[!a]*"[..], false));
    /// assert_eq!(line.offset, Some(15));
    /// # Ok::<(), tunoyaket::Refusal>(())
    /// ```
    pub fn lines(&self) -> impl DoubleEndedIterator<Item = Line<'_>> + ExactSizeIterator {
        let Buffers { lines, pool, .. } = &self.buffers;
        lines[..self.buffers.used().lines]
            .chunks_exact(LINE_WIDTH)
            .enumerate()
            .map(move |(number, row)| Line::at(number, row, pool))
    }

    fn line_count(&self) -> u32 {
        self.buffers.counts[3]
    }

    /// An edit, tried again in larger rooms where they are too small for it. What it then does not
    /// use is cut off again, so that what is refused leaves the rooms as they were, too.
    fn edit(&mut self, needs: Needs, call: impl Fn(&mut Buffers) -> u32) -> Answer<()> {
        let rooms = self.buffers.rooms();
        let mut number = call(&mut self.buffers);
        if number == NO_ROOM && self.buffers.grow(needs) {
            number = call(&mut self.buffers);
            self.buffers.cut(rooms.enlarged(self.buffers.used()));
        }
        done(number)
    }
}

fn done(number: u32) -> Answer<()> {
    match number {
        0 => Ok(()),
        number => Err(refused(number)),
    }
}

impl PartialEq for Book {
    fn eq(&self, other: &Book) -> bool {
        let (these, those) = (&self.buffers, &other.buffers);
        let used = these.used();
        // with the same counts, the same parts are used
        these.counts == those.counts
            && these.nodes[..used.nodes] == those.nodes[..used.nodes]
            && these.names[..used.names] == those.names[..used.names]
            && these.lines[..used.lines] == those.lines[..used.lines]
            && these.pool[..used.pool] == those.pool[..used.pool]
            && these.journal[..used.journal] == those.journal[..used.journal]
    }
}

impl Eq for Book {}

impl fmt::Debug for Book {
    fn fmt(&self, f: &mut fmt::Formatter<'_>) -> fmt::Result {
        f.debug_struct("Book")
            .field("kind", &self.kind())
            .field("nodes", &self.nodes().collect::<Vec<_>>())
            .field("lines", &self.lines().collect::<Vec<_>>())
            .field("edit_count", &self.edit_count())
            .finish()
    }
}

#[cfg(test)]
mod tests {
    use super::*;

    /// Whether a buffer holds these contents, and zeros behind them.
    fn padded<T: Copy + Default + PartialEq>(buffer: &[T], contents: &[T]) -> bool {
        let (front, rest) = buffer.split_at(contents.len());
        front == contents && rest.iter().all(|&value| value == T::default())
    }

    fn add(book: &mut Book, token: &[u8]) -> Answer<u32> {
        book.add(NodeNumber::BASE, Section::Local, Language::Cxx, token)
    }

    #[test]
    fn an_opened_book_has_no_room_to_spare() {
        for text in ["", "{};", "A { f; local: *; }; B {} A;"] {
            let book = Book::version_script(text.as_bytes()).unwrap();
            assert_eq!(book.buffers.rooms(), book.buffers.used(), "{text}");
        }
    }

    #[test]
    fn undoing_brings_back_every_byte() {
        let opened = Book::version_script(b"A { f*; g; local: *; }; B {} A;").unwrap();
        let mut book = opened.clone();
        book.strike(1).unwrap();
        for _ in 0..50 {
            add(&mut book, b"\"a token of some length\"").unwrap();
        }
        book.strike(0).unwrap();
        book.strike(20).unwrap();
        assert!(add(&mut book, b"[").is_err());
        for _ in 0..book.edit_count() {
            book.undo().unwrap();
        }
        let (these, those) = (&book.buffers, &opened.buffers);
        assert_eq!(these.counts, those.counts);
        assert_eq!((&these.nodes, &these.names), (&those.nodes, &those.names));
        assert!(these.lines.len() > those.lines.len() && padded(&these.lines, &those.lines));
        assert!(these.pool.len() > those.pool.len() && padded(&these.pool, &those.pool));
        assert!(!these.journal.is_empty() && padded(&these.journal, &those.journal));
    }

    #[test]
    fn what_is_ignored_takes_no_room() {
        let mut book = Book::export_list(b"{ f; };").unwrap();
        let mut text = b"g;".to_vec();
        text.resize(65_536, b';');
        assert_eq!(book.add_symbol(&text, false), Ok(1..2));
        assert_eq!(book.buffers.rooms(), book.buffers.used());
        assert_eq!(book.add_symbol(&text, false), Ok(2..3));
        let rooms = book.buffers.rooms();
        assert_eq!((rooms.lines, rooms.pool, rooms.journal), (20, 4, 4));
    }

    #[test]
    fn what_is_refused_leaves_the_rooms() {
        let mut book = Book::export_list(b"{ f; };").unwrap();
        let rooms = book.buffers.rooms();
        assert!(add(&mut book, b"f").is_err());
        assert!(book
            .add_symbol(b"extern \"C\" { a; b; [; };", false)
            .is_err());
        assert_eq!(book.buffers.rooms(), rooms);

        let mut book = Book::version_script(b"{ f; };").unwrap();
        for _ in 0..4_096 {
            add(&mut book, b"*").unwrap();
        }
        let rooms = book.buffers.rooms();
        assert_eq!(add(&mut book, &[b'a'; 65_536]), Err(Refusal::NoRoom(None)));
        assert_eq!(book.buffers.rooms(), rooms);
    }
}
