//! Linker version scripts and export lists: the version and locality of symbols, and a trial book
//! in which lines are added, struck, undone and settled.
//!
//! The work is done by the library Tunoyaket, which is proved to answer what its specification
//! says, on every input; this crate lends it memory. Every call ends with an answer or a numbered
//! [`Refusal`], whatever the bytes.
//!
//! What version has `haze_month`, what would the library export without the wildcard line, which
//! line exports `haze_day`, and where in the script does that line stand?
//!
//! ```
//! use tunoyaket::{Book, Section, Why};
//!
//! let script = b"HAZE_1 { global: haze_*; local: *; };
//!                HAZE_2 { global: haze_month; } HAZE_1;";
//! let mut book = Book::version_script(script)?;
//! assert_eq!((book.version_count()?, book.parent_count()?), (3, 1));
//!
//! let version = book.version(b"haze_month", b"haze_month", None)?;
//! assert_eq!(version.map(|index| index.number()), Some(3));
//! assert_eq!(book.locality(b"haze_day", b"haze_day")?, Some(Section::Global));
//!
//! book.strike(0)?;
//! assert_eq!(book.locality(b"haze_day", b"haze_day")?, Some(Section::Local));
//! book.undo()?;
//! assert_eq!(book.locality(b"haze_day", b"haze_day")?, Some(Section::Global));
//!
//! let Why::Line(reason) = book.why(b"haze_day", b"haze_day", None)? else {
//!     panic!("no line matches haze_day");
//! };
//! assert_eq!((reason.line, reason.node.0), (0, 1));
//! assert_eq!(reason.place_in(script).unwrap().to_string(), "line 1, column 18");
//! # Ok::<(), tunoyaket::Refusal>(())
//! ```
//!
//! # Building
//!
//! The crate links the library's archive, for x86-64. `./archive c_api` makes it in the
//! repository, where it is looked for; the environment variable `TUNOYAKET_C_ARCHIVE` names another
//! place, by its whole path: a relative one is taken from this crate's folder. `cargo doc` needs
//! the archive too. No other crate is needed.

#![deny(missing_docs)]
#![deny(unsafe_code)]
#![deny(clippy::undocumented_unsafe_blocks)]

mod book;
mod calls;
mod parts;
mod place;
mod refusal;
mod rooms;

pub use book::Book;
pub use parts::{
    Class, Kind, Language, Line, Node, NodeNumber, Reason, Section, VersionIndex, Why,
};
pub use place::Place;
pub use refusal::Refusal;
