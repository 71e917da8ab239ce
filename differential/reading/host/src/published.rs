//! The published Rust's answers.

use crate::kept::{Kept, Node};
use crate::linker_script::if_it_ends;
use crate::{export_list, version_script, Source};

/// An accepted text: its nodes in order of reading, before anything becomes a set, what the Rust
/// keeps, and the counts of versions and parents that it gives for a script.
pub struct Accepted {
    pub nodes: Vec<Node>,
    pub kept: Kept,
    pub counts: Option<[u16; 2]>,
}

pub enum Answer {
    Accepted(Accepted),
    Refused,
    /// No answer: the Rust would go round for ever.
    Endless,
}

pub fn read(source: Source, text: &[u8]) -> Answer {
    let reading = || match source {
        Source::Script => version_script::probe::script(text),
        Source::ExportList => export_list::probe::list(text),
        Source::AddSymbol => export_list::probe::symbol(text, false),
        Source::AddSymbolWithoutSemicolon => export_list::probe::symbol(text, true),
    };
    match if_it_ends(reading) {
        Some(Some(accepted)) => Answer::Accepted(accepted),
        Some(None) => Answer::Refused,
        None => Answer::Endless,
    }
}

/// Whether a text that is refused is refused for a glob or a parent, and not for its syntax.
pub fn refused_for_meaning(source: Source, text: &[u8]) -> bool {
    if_it_ends(|| match source {
        Source::Script => version_script::probe::refused_for_meaning(text),
        Source::ExportList => export_list::probe::list_refused_for_meaning(text),
        Source::AddSymbol => export_list::probe::symbol_refused_for_meaning(text, false),
        Source::AddSymbolWithoutSemicolon => {
            export_list::probe::symbol_refused_for_meaning(text, true)
        }
    })
    .unwrap_or(false)
}

/// Reads a script as the linker does, for the clock; true when it is accepted.
#[inline]
pub fn parse_script(text: &[u8]) -> bool {
    if_it_ends(|| version_script::probe::parse(text)).unwrap_or(false)
}
