//! The published skip function, behind a guard. In an extern block with no `}` left the published
//! reader takes no byte and goes round for ever; each round calls this function. The guard is an
//! addition and a comparison a call, in the times of `bench` too.

use std::cell::Cell;
use winnow::error::ContextError;
use winnow::BStr;

/// Cut out of the published linker_script.rs by the build script.
#[allow(dead_code, unused_imports)]
mod published {
    include!(concat!(env!("OUT_DIR"), "/skip_function.rs"));
}

thread_local! {
    /// How many bytes the latest call found left, and how many calls before it found as many.
    static STILL: Cell<(usize, u32)> = const { Cell::new((usize::MAX, 0)) };
}

/// A round has two calls. A reading that goes on has no more than two in a row that find the same
/// bytes left: behind a token or a block, and before what follows it.
const ENDLESS: u32 = 16;

pub(crate) fn skip_comments_and_whitespace(input: &mut &BStr) -> winnow::Result<()> {
    let (left, calls) = STILL.get();
    let calls = if left == input.len() { calls + 1 } else { 0 };
    STILL.set((input.len(), calls));
    if calls == ENDLESS {
        return Err(ContextError::new());
    }
    published::skip_comments_and_whitespace(input)
}

/// The answer of a reading, or nothing where it would never end.
pub(crate) fn if_it_ends<T>(reading: impl FnOnce() -> T) -> Option<T> {
    STILL.set((usize::MAX, 0));
    let answer = reading();
    (STILL.get().1 < ENDLESS).then_some(answer)
}
