//! A book in lent buffers: the proved library's functions over it (`ours`), document 01 read slowly,
//! its row 14 (`fault`), its ranking (`ranking`), with what request 03 tells of the line that decides
//! (`why`), its openings and edits (`trial`, over `reader` and `storing`), where the tokens of a text
//! stand and which are runs of stars (`tokens`, `runs`), and a book apart from buffers, which can be laid
//! out (`model`); and what random books, texts and names are made of (`changes`, `texts`).

pub mod buffers;
pub mod changes;
pub mod fault;
pub mod model;
pub mod ours;
pub mod questions;
pub mod ranking;
pub mod reader;
pub mod runs;
pub mod storing;
pub mod texts;
pub mod tokens;
pub mod trial;
pub mod why;

/// The kinds of a book.
pub mod kind {
    pub const REGULAR: u32 = 0;
    pub const RUST: u32 = 1;
    pub const EXPORT_LIST: u32 = 2;
}

/// Limits, last accepted.
pub mod limit {
    pub const SCRIPT: usize = 1_048_576;
    pub const TOKEN: usize = 65_536;
    pub const RAW: usize = 4_096;
    pub const DEMANGLED: usize = 65_536;
    pub const WANTED: usize = 4_096;
    pub const NODES: usize = 1_024;
    pub const LINES: usize = 16_384;
    pub const POOL: usize = 2_097_152;
    pub const EDITS: usize = 4_096;
}

/// The numbers of a row.
pub mod width {
    pub const NODE: usize = 3;
    pub const LINE: usize = 5;
    pub const EDIT: usize = 2;
}
