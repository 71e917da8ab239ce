//! The numbers that say no.

use crate::place::Place;
use std::error::Error;
use std::fmt;

/// Why a call was refused. A refused call has changed nothing.
///
/// Those that an opening can be refused with have a [`Place`] then; of other calls they have none.
/// As text, a refusal is its place, where it has one, and its meaning:
///
/// ```
/// use tunoyaket::{Book, Refusal};
///
/// let refusal = Book::version_script(b"HAZE_1 {\n    haze_[ad;\n};").unwrap_err();
/// assert!(matches!(refusal, Refusal::BadPattern(Some(_))));
/// assert_eq!(refusal.number(), 6);
/// assert_eq!(
///     refusal.to_string(),
///     "line 2, column 5: a bracket that is not closed"
/// );
/// ```
#[derive(Clone, Copy, Debug, PartialEq, Eq, Hash)]
#[non_exhaustive]
pub enum Refusal {
    /// 1: a script, text, trimmed token or name is over its limit.
    TooLong(Option<Place>),
    /// 2: no reading rule fits, or bytes remain.
    Unreadable(Option<Place>),
    /// 3: `#` without a line feed, `/*` without `*/`, or an extern token up to `}` with no `}`
    /// left.
    Unclosed(Option<Place>),
    /// 4: extern of another language than `"C"` or `"C++"`, or within extern.
    BadExtern(Option<Place>),
    /// 5: a glob that is not UTF-8.
    GlobNotUtf8(Option<Place>),
    /// 6: a bracket that is not closed.
    BadPattern(Option<Place>),
    /// 7: a parent that no earlier node is.
    UnknownParent(Option<Place>),
    /// 8: a limit on nodes, lines, stored bytes or edits would be passed.
    NoRoom(Option<Place>),
    /// 9: a raw or demangled name that is not UTF-8.
    NameNotUtf8,
    /// 10: a wanted version that no node has.
    UnknownVersion,
    /// 11: no such node or standing line; local, or a node other than 0, in an export list.
    NoSuch,
    /// 12: undo with no edit.
    NothingToUndo,
    /// 13: [`contains`](crate::Book::contains) or [`add_symbol`](crate::Book::add_symbol) on a
    /// version script; the counts, [`version`](crate::Book::version) or
    /// [`locality`](crate::Book::locality) on an export list, or [`why`](crate::Book::why) with a
    /// wanted version; [`add`](crate::Book::add) or [`strike`](crate::Book::strike) on a script of
    /// the Rust kind.
    WrongKind,
    /// 14: buffers that are no book. No call on a [`Book`](crate::Book) is refused with it, since
    /// only the library writes its buffers.
    NoBook,
}

impl Refusal {
    /// The refusal with a number.
    pub(crate) fn new(number: u32, place: Option<Place>) -> Refusal {
        match number {
            1 => Refusal::TooLong(place),
            2 => Refusal::Unreadable(place),
            3 => Refusal::Unclosed(place),
            4 => Refusal::BadExtern(place),
            5 => Refusal::GlobNotUtf8(place),
            6 => Refusal::BadPattern(place),
            7 => Refusal::UnknownParent(place),
            8 => Refusal::NoRoom(place),
            9 => Refusal::NameNotUtf8,
            10 => Refusal::UnknownVersion,
            11 => Refusal::NoSuch,
            12 => Refusal::NothingToUndo,
            13 => Refusal::WrongKind,
            14 => Refusal::NoBook,
            _ => unreachable!("no refusal has the number {number}"),
        }
    }

    /// Its number, 1 to 14.
    pub fn number(&self) -> u32 {
        match self {
            Refusal::TooLong(_) => 1,
            Refusal::Unreadable(_) => 2,
            Refusal::Unclosed(_) => 3,
            Refusal::BadExtern(_) => 4,
            Refusal::GlobNotUtf8(_) => 5,
            Refusal::BadPattern(_) => 6,
            Refusal::UnknownParent(_) => 7,
            Refusal::NoRoom(_) => 8,
            Refusal::NameNotUtf8 => 9,
            Refusal::UnknownVersion => 10,
            Refusal::NoSuch => 11,
            Refusal::NothingToUndo => 12,
            Refusal::WrongKind => 13,
            Refusal::NoBook => 14,
        }
    }

    /// Where in the text, of an opening.
    pub fn place(&self) -> Option<Place> {
        match *self {
            Refusal::TooLong(place)
            | Refusal::Unreadable(place)
            | Refusal::Unclosed(place)
            | Refusal::BadExtern(place)
            | Refusal::GlobNotUtf8(place)
            | Refusal::BadPattern(place)
            | Refusal::UnknownParent(place)
            | Refusal::NoRoom(place) => place,
            Refusal::NameNotUtf8
            | Refusal::UnknownVersion
            | Refusal::NoSuch
            | Refusal::NothingToUndo
            | Refusal::WrongKind
            | Refusal::NoBook => None,
        }
    }

    /// What it means, without its place.
    pub fn meaning(&self) -> &'static str {
        match self {
            Refusal::TooLong(_) => "a text, a token or a name is too long",
            Refusal::Unreadable(_) => "nothing that may stand here, or bytes behind the end",
            Refusal::Unclosed(_) => {
                "a comment that is not closed, or an extern block without its `}`"
            }
            Refusal::BadExtern(_) => {
                "extern of another language than C or C++, or within an extern block"
            }
            Refusal::GlobNotUtf8(_) => "a pattern that is not UTF-8",
            Refusal::BadPattern(_) => "a bracket that is not closed",
            Refusal::UnknownParent(_) => "a parent that no earlier node is",
            Refusal::NoRoom(_) => "no room is left",
            Refusal::NameNotUtf8 => "a name that is not UTF-8",
            Refusal::UnknownVersion => "a version that no node has",
            Refusal::NoSuch => "no such node, section, language or standing line",
            Refusal::NothingToUndo => "no edit is left to undo",
            Refusal::WrongKind => "a book of this kind does not answer that",
            Refusal::NoBook => "this is no book",
        }
    }
}

impl fmt::Display for Refusal {
    fn fmt(&self, f: &mut fmt::Formatter<'_>) -> fmt::Result {
        if let Some(place) = self.place() {
            write!(f, "{place}: ")?;
        }
        f.write_str(self.meaning())
    }
}

impl Error for Refusal {}

#[cfg(test)]
mod tests {
    use super::*;

    #[test]
    fn every_number_is_its_own() {
        for number in 1..=14 {
            assert_eq!(Refusal::new(number, None).number(), number);
        }
    }

    // The one refusal that no call on a `Book` gives.
    #[test]
    fn no_book_in_words() {
        let refusal = Refusal::new(14, None);
        assert_eq!(
            (refusal.place(), refusal.to_string().as_str()),
            (None, "this is no book")
        );
    }
}
