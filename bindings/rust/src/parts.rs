//! What a book is made of.

use crate::place::Place;

/// What was opened.
#[derive(Clone, Copy, Debug, PartialEq, Eq, Hash)]
pub enum Kind {
    /// A version script.
    Regular,
    /// A version script as rustc writes it: one body without a name, with only exact names as
    /// globals, no extern block among them, and a bare `*` among its locals. No symbol has a
    /// version under it, and it can't be edited. The same body with a name is
    /// [`Regular`](Kind::Regular).
    Rust,
    /// An export list.
    ExportList,
}

/// How a line's bytes are held against a name.
#[derive(Clone, Copy, Debug, PartialEq, Eq, Hash)]
pub enum Class {
    /// The name itself.
    Exact,
    /// The name itself; it was written with `\`.
    Escaped,
    /// A pattern; it was written with `?`, `[` or `]`.
    NonStar,
    /// A pattern; it was written with `*`.
    Star,
    /// `*` alone: every name.
    All,
}

impl Class {
    /// A class that the library told.
    fn told(class: u32) -> Class {
        match class {
            0 => Class::Exact,
            1 => Class::Escaped,
            2 => Class::NonStar,
            3 => Class::Star,
            4 => Class::All,
            class => unreachable!("no line has the class {class}"),
        }
    }
}

/// Whether a line exports or hides.
#[derive(Clone, Copy, Debug, PartialEq, Eq, Hash)]
pub enum Section {
    /// `global:`.
    Global,
    /// `local:`.
    Local,
}

impl Section {
    /// A section that the library told.
    fn told(section: u32) -> Section {
        match section {
            0 => Section::Global,
            1 => Section::Local,
            section => unreachable!("no line has the section {section}"),
        }
    }
}

/// Which name of a symbol a line sees.
#[derive(Clone, Copy, Debug, PartialEq, Eq, Hash)]
pub enum Language {
    /// The raw name.
    General,
    /// The demangled name: `extern "C++"`.
    Cxx,
}

impl Language {
    /// A language that the library told.
    fn told(language: u32) -> Language {
        match language {
            0 => Language::General,
            1 => Language::Cxx,
            language => unreachable!("no line has the language {language}"),
        }
    }
}

/// A node by its number in the script. It is no version index: see [`VersionIndex`].
#[derive(Clone, Copy, Debug, PartialEq, Eq, PartialOrd, Ord, Hash)]
pub struct NodeNumber(pub u32);

impl NodeNumber {
    /// Node 0, the one without a name: a one-body script's, the empty base of a script with named
    /// nodes, and the only one of an export list.
    pub const BASE: NodeNumber = NodeNumber(0);
}

/// A version's index, one more than its node's number.
///
/// ```
/// use tunoyaket::{NodeNumber, VersionIndex};
///
/// assert_eq!(VersionIndex::from_node(NodeNumber(2)).number(), 3);
/// assert_eq!(VersionIndex::from_node(NodeNumber(2)).node(), Some(NodeNumber(2)));
/// assert_eq!(VersionIndex::GLOBAL.number(), 1);
/// assert_eq!(VersionIndex::GLOBAL.node(), None);
/// ```
#[derive(Clone, Copy, Debug, PartialEq, Eq, PartialOrd, Ord, Hash)]
pub struct VersionIndex(u32);

impl VersionIndex {
    /// The global version, which no named node has: what a symbol gets whose wanted version is
    /// empty.
    pub const GLOBAL: VersionIndex = VersionIndex(1);

    /// That of a named node. Of node 0 it is [`GLOBAL`](VersionIndex::GLOBAL), which is not what a
    /// book answers: a symbol on which a line of node 0 decides has no version.
    ///
    /// # Panics
    ///
    /// For the number `u32::MAX`, which no node has.
    pub fn from_node(node: NodeNumber) -> VersionIndex {
        // The one place where one is added; `node_of` alone takes it off.
        VersionIndex(node.0.checked_add(1).expect("the number of a node"))
    }

    /// The way back from [`from_node`](VersionIndex::from_node), by an index's number. No node
    /// has the index 0.
    fn node_of(index: u32) -> Option<NodeNumber> {
        index.checked_sub(1).map(NodeNumber)
    }

    /// An index that the library told: that of its node, and none for 0.
    pub(crate) fn told(index: u32) -> Option<VersionIndex> {
        VersionIndex::node_of(index).map(VersionIndex::from_node)
    }

    /// The index as a number, 1 or more.
    pub fn number(self) -> u32 {
        self.0
    }

    /// The named node that it is the version of: none of [`GLOBAL`](VersionIndex::GLOBAL).
    pub fn node(self) -> Option<NodeNumber> {
        VersionIndex::node_of(self.0).filter(|node| *node != NodeNumber::BASE)
    }
}

/// A node of a script.
#[derive(Clone, Copy, Debug, PartialEq, Eq, Hash)]
pub struct Node<'b> {
    /// Its number.
    pub number: NodeNumber,
    /// Its name, which need not be UTF-8.
    pub name: &'b [u8],
    /// The node that it names as its parent.
    pub parent: Option<NodeNumber>,
}

impl<'b> Node<'b> {
    /// A node by its row.
    pub(crate) fn at(number: usize, row: &[u32], names: &'b [u8]) -> Node<'b> {
        Node {
            number: NodeNumber(number as u32),
            name: &names[row[0] as usize..][..row[1] as usize],
            parent: (row[2] != 0).then_some(NodeNumber(row[2])),
        }
    }
}

/// A line of a script or of an export list.
#[derive(Clone, Copy, Debug, PartialEq, Eq, Hash)]
pub struct Line<'b> {
    /// Its number, from 0 on in the order of reading and adding. A settle that drops lines
    /// renumbers those behind them. It is not the number of a line of the text:
    /// [`place_in`](Line::place_in) tells that.
    pub number: u32,
    /// The node in which it stands.
    pub node: NodeNumber,
    /// How its bytes are held against a name.
    pub class: Class,
    /// Its section.
    pub section: Section,
    /// Its language.
    pub language: Language,
    /// Whether it is struck, so that no lookup sees it.
    pub struck: bool,
    /// What is kept of its token: without quotes, an escaped one without its `\`, a pattern with
    /// each `[^` as `[!` and then, outside brackets, a run of `*` as one; of `*` alone nothing.
    pub bytes: &'b [u8],
    /// Where its token starts in the text that was opened, in bytes from 0 on: `text[offset]` is
    /// the token's first byte, the opening quote where it has one. `None` for a line that was
    /// added. A line keeps it, whatever is struck, undone or settled, and no lookup goes by it.
    pub offset: Option<usize>,
}

impl<'b> Line<'b> {
    /// A line by its row.
    pub(crate) fn at(number: usize, row: &[u32], pool: &'b [u8]) -> Line<'b> {
        let code = row[1];
        Line {
            number: number as u32,
            node: NodeNumber(row[0]),
            class: Class::told(code % 32 / 4),
            section: Section::told(code % 4 / 2),
            language: Language::told(code % 2),
            struck: code / 32 != 0,
            bytes: &pool[row[2] as usize..][..row[3] as usize],
            offset: offset_told(row[4]),
        }
    }

    /// Where its token starts, by line and column. The text is the one that was opened, which the
    /// book does not keep.
    ///
    /// `None` for a line that was added, and where the text has no byte at the line's
    /// [`offset`](Line::offset), so that it is another text.
    ///
    /// ```
    /// use tunoyaket::{Book, Language, NodeNumber, Section};
    ///
    /// let text = b"V1 {\n    haze_*;\n    local: *;\n};\nV2 { \"haze_month\"; } V1;\n";
    /// let mut book = Book::version_script(text)?;
    /// let month = book.lines().last().unwrap();
    /// assert_eq!((month.number, month.offset), (2, Some(39)));
    /// let place = month.place_in(text).unwrap();
    /// assert_eq!((place.offset, place.line, place.column), (39, 5, 6));
    /// assert_eq!(place.to_string(), "line 5, column 6");
    ///
    /// // with line 0 dropped it has another number, and the same place
    /// book.strike(0)?;
    /// book.settle()?;
    /// let month = book.lines().last().unwrap();
    /// assert_eq!((month.number, month.place_in(text)), (1, Some(place)));
    ///
    /// book.add(NodeNumber(2), Section::Global, Language::General, b"haze_day")?;
    /// let added = book.lines().last().unwrap();
    /// assert_eq!((added.offset, added.place_in(text)), (None, None));
    /// # Ok::<(), tunoyaket::Refusal>(())
    /// ```
    pub fn place_in(&self, text: &[u8]) -> Option<Place> {
        Place::of_line(text, self.offset)
    }
}

/// A line's offset as the library has it: one more, and 0 for none.
fn offset_told(offset: u32) -> Option<usize> {
    (offset as usize).checked_sub(1)
}

/// Why a symbol has its version, is global or local, or is in an export list: what
/// [`Book::why`](crate::Book::why) tells.
#[derive(Clone, Copy, Debug, PartialEq, Eq, Hash)]
pub enum Why {
    /// No line matches.
    NoLine,
    /// This line decides.
    Line(Reason),
    /// The wanted version decides.
    Wanted,
}

impl Why {
    /// What the library told: which of the three it is, then the line's numbers.
    pub(crate) fn told([what, line, class, node, section, language, offset]: [u32; 7]) -> Why {
        match what {
            0 => Why::NoLine,
            1 => Why::Line(Reason {
                line,
                class: Class::told(class),
                node: NodeNumber(node),
                section: Section::told(section),
                language: Language::told(language),
                offset: offset_told(offset),
            }),
            2 => Why::Wanted,
            what => unreachable!("{what} is no reason"),
        }
    }
}

/// The line that decides on a symbol. Its bytes are those of the [`Line`] with its number.
#[derive(Clone, Copy, Debug, PartialEq, Eq, Hash)]
pub struct Reason {
    /// The line's [`number`](Line::number) in the book, which is not that of a line of the text:
    /// [`place_in`](Reason::place_in) tells that.
    pub line: u32,
    /// How its bytes are held against a name.
    pub class: Class,
    /// The node in which it stands. Its version is the symbol's, and node 0 gives none.
    pub node: NodeNumber,
    /// Its section, which is the symbol's locality.
    pub section: Section,
    /// Its language: which of the symbol's names it matches.
    pub language: Language,
    /// Where its token starts in the text that was opened, in bytes from 0 on; `None` for a line
    /// that was added. It is the line's [`offset`](Line::offset).
    pub offset: Option<usize>,
}

impl Reason {
    /// Where the line's token starts, by line and column, in the text that was opened: as
    /// [`Line::place_in`].
    ///
    /// ```
    /// use tunoyaket::{Book, Language, NodeNumber, Refusal, Section, Why};
    ///
    /// let text = b"V1 {\n    haze_*;\n    local: *;\n};\nV2 { \"haze_month\"; } V1;\n";
    /// let mut book = Book::version_script(text)?;
    /// let place = |book: &Book, name: &[u8]| -> Result<String, Refusal> {
    ///     Ok(match book.why(name, name, None)? {
    ///         Why::Line(reason) => match reason.place_in(text) {
    ///             Some(place) => place.to_string(),
    ///             None => format!("line {} of the book, an added one", reason.line),
    ///         },
    ///         Why::NoLine | Why::Wanted => "no line".to_string(),
    ///     })
    /// };
    /// assert_eq!(place(&book, b"haze_month")?, "line 5, column 6");
    /// assert_eq!(place(&book, b"haze_day")?, "line 2, column 5");
    ///
    /// book.add(NodeNumber(2), Section::Global, Language::General, b"haze_day")?;
    /// assert_eq!(place(&book, b"haze_day")?, "line 3 of the book, an added one");
    /// # Ok::<(), Refusal>(())
    /// ```
    pub fn place_in(&self, text: &[u8]) -> Option<Place> {
        Place::of_line(text, self.offset)
    }
}

#[cfg(test)]
mod tests {
    use super::*;

    /// What adds one and what takes it off are each other's way back, and the library's 0 is none.
    #[test]
    fn nodes_and_indices() {
        for number in [0, 1, 2, 1023, 65535, u32::MAX - 1] {
            let node = NodeNumber(number);
            let index = VersionIndex::from_node(node);
            assert_eq!(index.number(), number + 1);
            assert_eq!(VersionIndex::node_of(index.number()), Some(node));
            assert_eq!(VersionIndex::told(index.number()), Some(index));
            assert_eq!(index.node(), (node != NodeNumber::BASE).then_some(node));
        }
        assert_eq!(
            VersionIndex::from_node(NodeNumber::BASE),
            VersionIndex::GLOBAL
        );
        assert_eq!(VersionIndex::told(0), None);
    }

    /// The seven numbers each have a place of their own.
    #[test]
    fn reasons_by_their_numbers() {
        let reason = Reason {
            line: 9,
            class: Class::Star,
            node: NodeNumber(7),
            section: Section::Local,
            language: Language::General,
            offset: Some(41),
        };
        assert_eq!(Why::told([1, 9, 3, 7, 1, 0, 42]), Why::Line(reason));
        let reason = Reason {
            class: Class::Escaped,
            section: Section::Global,
            language: Language::Cxx,
            offset: None,
            ..reason
        };
        assert_eq!(Why::told([1, 9, 1, 7, 0, 1, 0]), Why::Line(reason));
        assert_eq!(Why::told([0; 7]), Why::NoLine);
        assert_eq!(Why::told([2, 0, 0, 0, 0, 0, 0]), Why::Wanted);
    }
}
