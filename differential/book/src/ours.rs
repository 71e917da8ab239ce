//! The proved library's exported functions over a book. A slice is a pointer, then a length.

use crate::buffers::{Buffers, Noise};
use crate::why::NUMBERS;
use reading_host::Source;

/// Declares functions over a lent book, with what each takes before the book, and behind it.
macro_rules! functions {
    ($lent:tt: $($name:ident($($before:ident: $of:ty),*; $($behind:ident: $is:ty),*) -> $answer:ty)*) => {
        extern "C" {
            $(fn $name(
                $($before: $of,)*
                counts: *$lent u32,
                counts_length: usize,
                nodes: *$lent u32,
                nodes_length: usize,
                names: *$lent u8,
                names_length: usize,
                lines: *$lent u32,
                lines_length: usize,
                pool: *$lent u8,
                pool_length: usize,
                journal: *$lent u32,
                journal_length: usize,
                $($behind: $is,)*
            ) -> $answer;)*
        }
    };
}

functions! { mut:
    tuno_open_version_script(text: *const u8, text_length: usize;) -> u64
    tuno_open_export_list(text: *const u8, text_length: usize;) -> u64
    tuno_add(; node: u32, section: u32, language: u32, token: *const u8, token_length: usize) -> u32
    tuno_strike(; line: u32) -> u32
    tuno_undo(;) -> u32
    tuno_settle(;) -> u32
    tuno_add_symbol(; text: *const u8, text_length: usize, without_semicolon: u32) -> u32
}

functions! { const:
    tuno_version_count(; out: *mut u32, out_length: usize) -> u32
    tuno_parent_count(; out: *mut u32, out_length: usize) -> u32
    tuno_version_for_symbol(;
        raw: *const u8, raw_length: usize, demangled: *const u8, demangled_length: usize,
        has_wanted: u32, wanted: *const u8, wanted_length: usize, out: *mut u32, out_length: usize
    ) -> u32
    tuno_locality(;
        raw: *const u8, raw_length: usize, demangled: *const u8, demangled_length: usize,
        out: *mut u32, out_length: usize
    ) -> u32
    tuno_contains(;
        raw: *const u8, raw_length: usize, demangled: *const u8, demangled_length: usize,
        out: *mut u32, out_length: usize
    ) -> u32
    tuno_why(;
        raw: *const u8, raw_length: usize, demangled: *const u8, demangled_length: usize,
        has_wanted: u32, wanted: *const u8, wanted_length: usize, out: *mut u32, out_length: usize
    ) -> u32
}

/// Calls one of them; a book is lent by the pointers that a method gives.
macro_rules! call {
    ($call:ident($($before:expr),*; $book:ident.$pointer:ident(); $($behind:expr),*)) => {
        unsafe {
            $call(
                $($before,)*
                $book.counts.$pointer(),
                $book.counts.len(),
                $book.nodes.$pointer(),
                $book.nodes.len(),
                $book.names.$pointer(),
                $book.names.len(),
                $book.lines.$pointer(),
                $book.lines.len(),
                $book.pool.$pointer(),
                $book.pool.len(),
                $book.journal.$pointer(),
                $book.journal.len(),
                $($behind,)*
            )
        }
    };
}

/// Opens a script or an export list: 0, or a refusal's number plus 256 times its place.
pub fn open(source: Source, text: &[u8], book: &mut Buffers) -> u64 {
    let (start, length) = (text.as_ptr(), text.len());
    match source {
        Source::Script => call!(tuno_open_version_script(start, length; book.as_mut_ptr();)),
        Source::ExportList => call!(tuno_open_export_list(start, length; book.as_mut_ptr();)),
        Source::AddSymbol | Source::AddSymbolWithoutSemicolon => panic!("such a text is no book"),
    }
}

/// Adds a line: 0, or a refusal's number, as of every edit.
pub fn add(book: &mut Buffers, [node, section, language]: [u32; 3], token: &[u8]) -> u64 {
    let (start, length) = (token.as_ptr(), token.len());
    u64::from(call!(tuno_add(; book.as_mut_ptr(); node, section, language, start, length)))
}

pub fn strike(book: &mut Buffers, line: u32) -> u64 {
    u64::from(call!(tuno_strike(; book.as_mut_ptr(); line)))
}

pub fn undo(book: &mut Buffers) -> u64 {
    u64::from(call!(tuno_undo(; book.as_mut_ptr();)))
}

pub fn settle(book: &mut Buffers) -> u64 {
    u64::from(call!(tuno_settle(; book.as_mut_ptr();)))
}

pub fn add_symbol(book: &mut Buffers, text: &[u8], without_semicolon: u32) -> u64 {
    let (start, length) = (text.as_ptr(), text.len());
    u64::from(call!(tuno_add_symbol(; book.as_mut_ptr(); start, length, without_semicolon)))
}

/// The value that a function answers of a book and of what is given besides, or a refusal's number.
macro_rules! ask {
    ($call:ident, $book:ident $(, $given:expr)*) => {
        answered(|out| call!($call(; $book.as_ptr(); $($given,)* out.as_mut_ptr(), out.len())))
    };
}

fn answered(call: impl FnOnce(&mut [u32]) -> u32) -> Result<u32, u64> {
    const BEFORE: [u32; 2] = [0xa5a5_a5a5; 2];
    let mut out = BEFORE;
    let number = call(&mut out);
    assert!(out[1] == BEFORE[1], "a number behind the value was written");
    if number == 0 {
        return Ok(out[0]);
    }
    assert!(out == BEFORE, "a refused value was written");
    Err(u64::from(number))
}

/// How many versions a book has, or a refusal's number.
pub fn version_count(book: &Buffers) -> Result<u32, u64> {
    ask!(tuno_version_count, book)
}

/// How many of its nodes have a parent, or a refusal's number.
pub fn parent_count(book: &Buffers) -> Result<u32, u64> {
    ask!(tuno_parent_count, book)
}

/// A name as the library is asked of it: raw, and demangled, or the raw one again.
#[derive(Clone, Copy)]
pub struct Name<'n> {
    pub raw: &'n [u8],
    pub demangled: &'n [u8],
}

/// The index of the version, 0 for none, or a refusal's number.
#[inline]
pub fn version(book: &Buffers, name: Name, wanted: Option<&[u8]>) -> Result<u32, u64> {
    let Name { raw, demangled } = name;
    let has_wanted = u32::from(wanted.is_some());
    let wanted = wanted.unwrap_or_default();
    ask!(
        tuno_version_for_symbol,
        book,
        raw.as_ptr(),
        raw.len(),
        demangled.as_ptr(),
        demangled.len(),
        has_wanted,
        wanted.as_ptr(),
        wanted.len()
    )
}

/// 0 for nothing, 1 for global, 2 for local, or a refusal's number.
pub fn locality(book: &Buffers, name: Name) -> Result<u32, u64> {
    let Name { raw, demangled } = name;
    ask!(
        tuno_locality,
        book,
        raw.as_ptr(),
        raw.len(),
        demangled.as_ptr(),
        demangled.len()
    )
}

/// 1 where the name is in the list, else 0, or a refusal's number.
pub fn contains(book: &Buffers, name: Name) -> Result<u32, u64> {
    let Name { raw, demangled } = name;
    ask!(
        tuno_contains,
        book,
        raw.as_ptr(),
        raw.len(),
        demangled.as_ptr(),
        demangled.len()
    )
}

/// What decides over the name, in seven numbers, or a refusal's number.
pub fn why(book: &Buffers, name: Name, wanted: Option<&[u8]>) -> Result<[u32; NUMBERS], u64> {
    const BEFORE: [u32; NUMBERS + 1] = [u32::NOISE; NUMBERS + 1];
    let mut out = BEFORE;
    let has_wanted = u32::from(wanted.is_some());
    let number = why_into(book, name, has_wanted, wanted.unwrap_or_default(), &mut out);
    let (told, behind) = out.split_at(NUMBERS);
    assert!(
        behind == &BEFORE[NUMBERS..],
        "a number behind the seven was written"
    );
    if number == 0 {
        return Ok(told.try_into().expect("they are seven"));
    }
    assert!(out == BEFORE, "refused numbers were written");
    Err(number)
}

/// The same into any room: 0, or a refusal's number.
pub fn why_into(
    book: &Buffers,
    name: Name,
    has_wanted: u32,
    wanted: &[u8],
    out: &mut [u32],
) -> u64 {
    let Name { raw, demangled } = name;
    u64::from(call!(tuno_why(;
        book.as_ptr();
        raw.as_ptr(),
        raw.len(),
        demangled.as_ptr(),
        demangled.len(),
        has_wanted,
        wanted.as_ptr(),
        wanted.len(),
        out.as_mut_ptr(),
        out.len()
    )))
}
