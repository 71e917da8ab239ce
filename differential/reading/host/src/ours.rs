//! The proved library's exported function. It answers a refusal's number plus 256 times the place
//! of the refusal, or 256 times the number of events.

use crate::Source;

extern "C" {
    fn reading_events(
        source: u32,
        text: *const u8,
        text_length: usize,
        rows: *mut u64,
        rows_length: usize,
    ) -> u64;
}

/// The numbers of a row: the event's kind, and four more.
pub const WIDTH: usize = 5;

/// The kinds of events.
pub mod kind {
    pub const NODE: u64 = 1;
    pub const BODY: u64 = 2;
    pub const SECTION: u64 = 3;
    pub const EXTERN: u64 = 4;
    pub const CLOSED: u64 = 5;
    pub const LINE: u64 = 6;
    pub const PARENT: u64 = 7;
}

/// Room for the events of any text of this length: each but two takes a byte of it at least.
pub const fn room(length: usize) -> usize {
    WIDTH * (length + 2)
}

#[inline]
pub fn events(source: Source, text: &[u8], rows: &mut [u64]) -> u64 {
    unsafe {
        reading_events(
            source as u32,
            text.as_ptr(),
            text.len(),
            rows.as_mut_ptr(),
            rows.len(),
        )
    }
}
