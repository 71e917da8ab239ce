//! The two sides of every comparison: `ours`, the proved library's exported functions, and
//! `published`, the Rust that was ported.

pub mod ours;
pub mod published;

/// The classes of a token, by their numbers.
pub mod class {
    pub const EXACT: u64 = 0;
    pub const ESCAPED: u64 = 1;
    pub const NON_STAR: u64 = 2;
    pub const STAR: u64 = 3;
    pub const ALL: u64 = 4;

    /// Whether a token of this class is a pattern.
    pub const fn is_glob(class: u64) -> bool {
        class == NON_STAR || class == STAR
    }
}

/// The refusals, by their numbers.
pub mod refusal {
    pub const OVER_THE_LIMIT: u64 = 1;
    pub const UNREADABLE: u64 = 2;
    pub const UNCLOSED: u64 = 3;
    pub const BAD_EXTERN: u64 = 4;
    pub const GLOB_NOT_UTF8: u64 = 5;
    pub const BAD_GLOB: u64 = 6;
    pub const UNKNOWN_PARENT: u64 = 7;
    pub const NO_ROOM: u64 = 8;
    pub const NAME_NOT_UTF8: u64 = 9;
    pub const UNKNOWN_VERSION: u64 = 10;
    pub const NO_SUCH: u64 = 11;
    pub const NO_EDIT: u64 = 12;
    pub const WRONG_KIND: u64 = 13;
    pub const NO_BOOK: u64 = 14;
}

/// The longest token, pattern and name that are taken.
pub const LIMIT: usize = 65_536;
