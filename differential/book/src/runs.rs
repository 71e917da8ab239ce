//! Which texts have a glob with a run of stars outside a bracket.

use crate::storing::has_run;
use crate::tokens::tokens;
use reading_host::Source;

/// Whether one of the tokens is such a glob, up to the place where the text cannot be read further.
pub fn text_has_run(source: Source, text: &[u8]) -> bool {
    let mut tokens = tokens(source, text).into_iter();
    tokens.any(|token| has_run(&text[token]))
}
