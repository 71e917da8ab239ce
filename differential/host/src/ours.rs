//! The proved library's exported functions. Each answers a refusal's number, or 256 times its
//! value.

extern "C" {
    fn glob_match_class(token: *const u8, token_length: usize) -> u64;
    fn glob_match_unescape(
        pattern: *const u8,
        pattern_length: usize,
        out: *mut u8,
        room: usize,
    ) -> u64;
    fn glob_match_store(token: *const u8, token_length: usize, out: *mut u8, room: usize) -> u64;
    fn glob_match_matches(
        stored: *const u8,
        stored_length: usize,
        name: *const u8,
        name_length: usize,
    ) -> u64;
    fn glob_match_tried(
        stored: *const u8,
        stored_length: usize,
        name: *const u8,
        name_length: usize,
    ) -> u64;
}

/// The answer of a call that is done and gives `value`.
pub const fn done(value: u64) -> u64 {
    256 * value
}

/// The value of storing `length` bytes under `class`.
pub const fn stored(class: u64, length: usize) -> u64 {
    class + 8 * length as u64
}

// Each slice becomes its pointer and its length, which is all that the functions ask for. They are
// `inline` so that a program links only what it calls.

#[inline]
pub fn class(token: &[u8]) -> u64 {
    unsafe { glob_match_class(token.as_ptr(), token.len()) }
}

#[inline]
pub fn unescape(pattern: &[u8], out: &mut [u8]) -> u64 {
    unsafe { glob_match_unescape(pattern.as_ptr(), pattern.len(), out.as_mut_ptr(), out.len()) }
}

#[inline]
pub fn store(token: &[u8], out: &mut [u8]) -> u64 {
    unsafe { glob_match_store(token.as_ptr(), token.len(), out.as_mut_ptr(), out.len()) }
}

#[inline]
pub fn matches(stored: &[u8], name: &[u8]) -> u64 {
    unsafe { glob_match_matches(stored.as_ptr(), stored.len(), name.as_ptr(), name.len()) }
}

/// As `matches`, with no check but that of the lengths.
#[inline]
pub fn tried(stored: &[u8], name: &[u8]) -> u64 {
    unsafe { glob_match_tried(stored.as_ptr(), stored.len(), name.as_ptr(), name.len()) }
}
