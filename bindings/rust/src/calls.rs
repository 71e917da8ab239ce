//! The library's exported functions, and the only unsafe code of this crate.

#![allow(unsafe_code)]

/// A book as it is lent: its counts, then its five buffers.
#[derive(Clone, Debug, PartialEq, Eq)]
pub(crate) struct Buffers {
    pub(crate) counts: [u32; 6],
    pub(crate) nodes: Vec<u32>,
    pub(crate) names: Vec<u8>,
    pub(crate) lines: Vec<u32>,
    pub(crate) pool: Vec<u8>,
    pub(crate) journal: Vec<u32>,
}

// As in include/tunoyaket.h: a slice is a pointer, then a length.
#[rustfmt::skip]
extern "C" {
    fn tuno_open_version_script(
        text: *const u8, text_length: usize,
        counts: *mut u32, counts_length: usize,
        nodes: *mut u32, nodes_length: usize,
        names: *mut u8, names_length: usize,
        lines: *mut u32, lines_length: usize,
        pool: *mut u8, pool_length: usize,
        journal: *mut u32, journal_length: usize,
    ) -> u64;

    fn tuno_open_export_list(
        text: *const u8, text_length: usize,
        counts: *mut u32, counts_length: usize,
        nodes: *mut u32, nodes_length: usize,
        names: *mut u8, names_length: usize,
        lines: *mut u32, lines_length: usize,
        pool: *mut u8, pool_length: usize,
        journal: *mut u32, journal_length: usize,
    ) -> u64;

    fn tuno_version_count(
        counts: *const u32, counts_length: usize,
        nodes: *const u32, nodes_length: usize,
        names: *const u8, names_length: usize,
        lines: *const u32, lines_length: usize,
        pool: *const u8, pool_length: usize,
        journal: *const u32, journal_length: usize,
        out: *mut u32, out_length: usize,
    ) -> u32;

    fn tuno_parent_count(
        counts: *const u32, counts_length: usize,
        nodes: *const u32, nodes_length: usize,
        names: *const u8, names_length: usize,
        lines: *const u32, lines_length: usize,
        pool: *const u8, pool_length: usize,
        journal: *const u32, journal_length: usize,
        out: *mut u32, out_length: usize,
    ) -> u32;

    fn tuno_version_for_symbol(
        counts: *const u32, counts_length: usize,
        nodes: *const u32, nodes_length: usize,
        names: *const u8, names_length: usize,
        lines: *const u32, lines_length: usize,
        pool: *const u8, pool_length: usize,
        journal: *const u32, journal_length: usize,
        raw: *const u8, raw_length: usize,
        demangled: *const u8, demangled_length: usize,
        has_wanted: u32,
        wanted: *const u8, wanted_length: usize,
        out: *mut u32, out_length: usize,
    ) -> u32;

    fn tuno_locality(
        counts: *const u32, counts_length: usize,
        nodes: *const u32, nodes_length: usize,
        names: *const u8, names_length: usize,
        lines: *const u32, lines_length: usize,
        pool: *const u8, pool_length: usize,
        journal: *const u32, journal_length: usize,
        raw: *const u8, raw_length: usize,
        demangled: *const u8, demangled_length: usize,
        out: *mut u32, out_length: usize,
    ) -> u32;

    fn tuno_contains(
        counts: *const u32, counts_length: usize,
        nodes: *const u32, nodes_length: usize,
        names: *const u8, names_length: usize,
        lines: *const u32, lines_length: usize,
        pool: *const u8, pool_length: usize,
        journal: *const u32, journal_length: usize,
        raw: *const u8, raw_length: usize,
        demangled: *const u8, demangled_length: usize,
        out: *mut u32, out_length: usize,
    ) -> u32;

    fn tuno_why(
        counts: *const u32, counts_length: usize,
        nodes: *const u32, nodes_length: usize,
        names: *const u8, names_length: usize,
        lines: *const u32, lines_length: usize,
        pool: *const u8, pool_length: usize,
        journal: *const u32, journal_length: usize,
        raw: *const u8, raw_length: usize,
        demangled: *const u8, demangled_length: usize,
        has_wanted: u32,
        wanted: *const u8, wanted_length: usize,
        out: *mut u32, out_length: usize,
    ) -> u32;

    fn tuno_add(
        counts: *mut u32, counts_length: usize,
        nodes: *const u32, nodes_length: usize,
        names: *const u8, names_length: usize,
        lines: *mut u32, lines_length: usize,
        pool: *mut u8, pool_length: usize,
        journal: *mut u32, journal_length: usize,
        node: u32, section: u32, language: u32,
        token: *const u8, token_length: usize,
    ) -> u32;

    fn tuno_strike(
        counts: *mut u32, counts_length: usize,
        nodes: *const u32, nodes_length: usize,
        names: *const u8, names_length: usize,
        lines: *mut u32, lines_length: usize,
        pool: *const u8, pool_length: usize,
        journal: *mut u32, journal_length: usize,
        line: u32,
    ) -> u32;

    fn tuno_undo(
        counts: *mut u32, counts_length: usize,
        nodes: *const u32, nodes_length: usize,
        names: *const u8, names_length: usize,
        lines: *mut u32, lines_length: usize,
        pool: *mut u8, pool_length: usize,
        journal: *mut u32, journal_length: usize,
    ) -> u32;

    fn tuno_settle(
        counts: *mut u32, counts_length: usize,
        nodes: *const u32, nodes_length: usize,
        names: *const u8, names_length: usize,
        lines: *mut u32, lines_length: usize,
        pool: *mut u8, pool_length: usize,
        journal: *mut u32, journal_length: usize,
    ) -> u32;

    fn tuno_add_symbol(
        counts: *mut u32, counts_length: usize,
        nodes: *const u32, nodes_length: usize,
        names: *const u8, names_length: usize,
        lines: *mut u32, lines_length: usize,
        pool: *mut u8, pool_length: usize,
        journal: *mut u32, journal_length: usize,
        text: *const u8, text_length: usize,
        without_semicolon: u32,
    ) -> u32;
}

/// An opening of a text into buffers, which may hold anything before.
macro_rules! open {
    ($call:ident, $text:ident, $book:ident) => {
        // SAFETY: the pointers and lengths are those of slices, so none is null, each is aligned,
        // and all elements are there and hold values. The buffers are borrowed mutably, each in
        // memory of its own, and the text is borrowed beside them, so nothing overlaps them. The
        // library owes its caller the rest: it is proved to stay within the slices, and it keeps no
        // pointer.
        unsafe {
            $call(
                $text.as_ptr(),
                $text.len(),
                $book.counts.as_mut_ptr(),
                $book.counts.len(),
                $book.nodes.as_mut_ptr(),
                $book.nodes.len(),
                $book.names.as_mut_ptr(),
                $book.names.len(),
                $book.lines.as_mut_ptr(),
                $book.lines.len(),
                $book.pool.as_mut_ptr(),
                $book.pool.len(),
                $book.journal.as_mut_ptr(),
                $book.journal.len(),
            )
        }
    };
}

/// The values that a function answers of a book and of what is given besides, written over those
/// that are handed in, or the refusal's number.
macro_rules! ask_into {
    ($out:expr, $call:ident, $book:ident $(, $given:expr)*) => {{
        let mut out = $out;
        // SAFETY: the pointers and lengths are those of slices, as at an opening. Only `out` is
        // written, and it is this block's own; what is given besides is a number, or the pointer
        // and the length of a slice that the caller borrows.
        let number = unsafe {
            $call(
                $book.counts.as_ptr(),
                $book.counts.len(),
                $book.nodes.as_ptr(),
                $book.nodes.len(),
                $book.names.as_ptr(),
                $book.names.len(),
                $book.lines.as_ptr(),
                $book.lines.len(),
                $book.pool.as_ptr(),
                $book.pool.len(),
                $book.journal.as_ptr(),
                $book.journal.len(),
                $($given,)*
                out.as_mut_ptr(),
                out.len(),
            )
        };
        match number {
            0 => Ok(out),
            number => Err(number),
        }
    }};
}

/// The one value that a function answers, or the refusal's number.
macro_rules! ask {
    ($call:ident, $book:ident $(, $given:expr)*) => {
        ask_into!([0], $call, $book $(, $given)*).map(|[value]| value)
    };
}

/// An edit of a book by what is given besides: 0, or the refusal's number.
macro_rules! edit {
    ($call:ident, $book:ident $(, $given:expr)*) => {
        // SAFETY: the pointers and lengths are those of slices, and what is written is borrowed
        // mutably, as at an opening; what is given besides is a number, or the pointer and the
        // length of a slice that is borrowed beside the book.
        unsafe {
            $call(
                $book.counts.as_mut_ptr(),
                $book.counts.len(),
                $book.nodes.as_ptr(),
                $book.nodes.len(),
                $book.names.as_ptr(),
                $book.names.len(),
                $book.lines.as_mut_ptr(),
                $book.lines.len(),
                $book.pool.as_mut_ptr(),
                $book.pool.len(),
                $book.journal.as_mut_ptr(),
                $book.journal.len(),
                $($given,)*
            )
        }
    };
}

impl Buffers {
    pub(crate) fn open_version_script(&mut self, text: &[u8]) -> u64 {
        open!(tuno_open_version_script, text, self)
    }

    pub(crate) fn open_export_list(&mut self, text: &[u8]) -> u64 {
        open!(tuno_open_export_list, text, self)
    }

    pub(crate) fn version_count(&self) -> Result<u32, u32> {
        ask!(tuno_version_count, self)
    }

    pub(crate) fn parent_count(&self) -> Result<u32, u32> {
        ask!(tuno_parent_count, self)
    }

    pub(crate) fn version_for_symbol(
        &self,
        raw: &[u8],
        demangled: &[u8],
        wanted: Option<&[u8]>,
    ) -> Result<u32, u32> {
        let has_wanted = u32::from(wanted.is_some());
        let wanted = wanted.unwrap_or_default();
        ask!(
            tuno_version_for_symbol,
            self,
            raw.as_ptr(),
            raw.len(),
            demangled.as_ptr(),
            demangled.len(),
            has_wanted,
            wanted.as_ptr(),
            wanted.len()
        )
    }

    pub(crate) fn locality(&self, raw: &[u8], demangled: &[u8]) -> Result<u32, u32> {
        ask!(
            tuno_locality,
            self,
            raw.as_ptr(),
            raw.len(),
            demangled.as_ptr(),
            demangled.len()
        )
    }

    pub(crate) fn contains(&self, raw: &[u8], demangled: &[u8]) -> Result<u32, u32> {
        ask!(
            tuno_contains,
            self,
            raw.as_ptr(),
            raw.len(),
            demangled.as_ptr(),
            demangled.len()
        )
    }

    pub(crate) fn why(
        &self,
        raw: &[u8],
        demangled: &[u8],
        wanted: Option<&[u8]>,
    ) -> Result<[u32; 7], u32> {
        let has_wanted = u32::from(wanted.is_some());
        let wanted = wanted.unwrap_or_default();
        ask_into!(
            [0; 7],
            tuno_why,
            self,
            raw.as_ptr(),
            raw.len(),
            demangled.as_ptr(),
            demangled.len(),
            has_wanted,
            wanted.as_ptr(),
            wanted.len()
        )
    }

    pub(crate) fn add(&mut self, node: u32, section: u32, language: u32, token: &[u8]) -> u32 {
        edit!(
            tuno_add,
            self,
            node,
            section,
            language,
            token.as_ptr(),
            token.len()
        )
    }

    pub(crate) fn strike(&mut self, line: u32) -> u32 {
        edit!(tuno_strike, self, line)
    }

    pub(crate) fn undo(&mut self) -> u32 {
        edit!(tuno_undo, self)
    }

    pub(crate) fn settle(&mut self) -> u32 {
        edit!(tuno_settle, self)
    }

    pub(crate) fn add_symbol(&mut self, text: &[u8], without_semicolon: bool) -> u32 {
        edit!(
            tuno_add_symbol,
            self,
            text.as_ptr(),
            text.len(),
            u32::from(without_semicolon)
        )
    }
}

#[cfg(test)]
mod tests {
    use super::*;
    use crate::refusal::Refusal;
    use crate::rooms::Rooms;

    /// Every call on what is no book is refused with 14, and changes nothing.
    fn refuses_all(lent: &Buffers) {
        let (mut buffers, name) = (lent.clone(), b"haze_day");
        let numbers = [
            buffers.version_count().unwrap_err(),
            buffers.parent_count().unwrap_err(),
            buffers.version_for_symbol(name, name, None).unwrap_err(),
            buffers.locality(name, name).unwrap_err(),
            buffers.contains(name, name).unwrap_err(),
            buffers.why(name, name, None).unwrap_err(),
            buffers.why(name, name, Some(name)).unwrap_err(),
            buffers.add(0, 0, 0, name),
            buffers.strike(0),
            buffers.undo(),
            buffers.settle(),
            buffers.add_symbol(b"haze_day;", false),
        ];
        for number in numbers {
            assert_eq!(Refusal::new(number, None), Refusal::NoBook);
        }
        assert_eq!(&buffers, lent);
    }

    #[test]
    fn nothing_opened_is_no_book() {
        refuses_all(&Buffers::with(Rooms::most(64)));
    }

    #[test]
    fn a_book_that_something_else_wrote_is_none() {
        let mut buffers = Buffers::with(Rooms::most(64));
        assert_eq!(buffers.open_version_script(b"V1 { haze_*; };"), 0);
        assert_eq!(buffers.version_count(), Ok(2));
        assert_eq!(buffers.lines[..6], [1, 12, 0, 6, 6, 0]);
        let changed = |change: fn(&mut Buffers)| {
            let mut changed = buffers.clone();
            change(&mut changed);
            changed
        };
        refuses_all(&changed(|book| book.counts[0] = 3)); // a kind that there is not
        refuses_all(&changed(|book| book.counts[3] += 1)); // a line more than was read
        refuses_all(&changed(|book| book.lines[2] = 1)); // a gap before the line's bytes
        refuses_all(&changed(|book| book.lines[4] = 1_048_577)); // an offset behind every text
        refuses_all(&changed(|book| book.pool[6] = b'x')); // a rest that is not zero
        refuses_all(&changed(|book| book.names[0] = b'{')); // a name that no script gives
        let last = changed(|book| book.lines[4] = 1_048_576);
        assert_eq!(last.version_count(), Ok(2));
    }
}
