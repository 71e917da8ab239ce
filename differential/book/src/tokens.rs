//! Where the tokens of a text stand.

use crate::reader::{read, Read, Taker, Token};
use crate::storing::trimmed;
use reading_host::Source;
use std::ops::Range;

/// Of each token its bytes' places, without the blanks behind it, in order of reading; up to the place
/// where the text cannot be read further.
pub fn tokens(source: Source, text: &[u8]) -> Vec<Range<usize>> {
    let mut found = Found(Vec::new());
    // What is refused behind them is not asked here.
    let _ = read(source, text, &mut found);
    found.0
}

struct Found(Vec<Range<usize>>);

impl Taker for Found {
    fn node(&mut self, _: &[u8]) -> Read<()> {
        Ok(())
    }

    fn parent(&mut self, _: &[u8]) -> Read<()> {
        Ok(())
    }

    fn block(&mut self, _: usize) {}

    fn line(&mut self, token: Token) -> Read<()> {
        let length = trimmed(token.bytes).len();
        self.0.push(token.start..token.start + length);
        Ok(())
    }
}
