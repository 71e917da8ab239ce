//! The two sides of the reader's comparison: `ours`, the proved library's exported function, and
//! `published`, the Rust that was ported, with `asked`, what it answers of names: version_script.rs, export_list.rs, glob_match.rs,
//! symbol.rs and hash.rs, unchanged, and the skip function of linker_script.rs, over the crates
//! winnow, hashbrown, foldhash, glob and memchr.

pub mod asked;
pub mod kept;
mod linker_script;
pub mod ours;
pub mod published;
mod standins;

// The published files, each a module, and at the crate's root because they name one another there.
include!(concat!(env!("OUT_DIR"), "/modules.rs"));

use standins::macros::{bail, error, timing_phase};
use standins::{error, input_data, platform};

/// What a text is read as, by its number.
#[derive(Clone, Copy, Debug, PartialEq, Eq)]
pub enum Source {
    Script,
    ExportList,
    AddSymbol,
    AddSymbolWithoutSemicolon,
}

impl Source {
    pub const ALL: [Source; 4] = [
        Source::Script,
        Source::ExportList,
        Source::AddSymbol,
        Source::AddSymbolWithoutSemicolon,
    ];

    /// The longest text that is taken.
    pub const fn limit(self) -> usize {
        match self {
            Source::Script | Source::ExportList => 1_048_576,
            Source::AddSymbol | Source::AddSymbolWithoutSemicolon => host::LIMIT,
        }
    }
}
