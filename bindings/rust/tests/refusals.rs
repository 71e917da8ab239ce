//! Each refusal that a `Book` can meet, with its number, place and text. 14 is not among them: only
//! the library writes a book's buffers, and what it writes is a book; the tests of `calls` meet it,
//! on buffers alone. Nor is 11 for a section or a language: they are enums. Of 8 only the limits are
//! met, since rooms grow.

use tunoyaket::{Book, Language, NodeNumber, Refusal, Section};

const TOO_LONG: &str = "a text, a token or a name is too long";
const UNREADABLE: &str = "nothing that may stand here, or bytes behind the end";
const UNCLOSED: &str = "a comment that is not closed, or an extern block without its `}`";
const BAD_EXTERN: &str = "extern of another language than C or C++, or within an extern block";
const GLOB_NOT_UTF8: &str = "a pattern that is not UTF-8";
const BAD_PATTERN: &str = "a bracket that is not closed";
const UNKNOWN_PARENT: &str = "a parent that no earlier node is";
const NO_ROOM: &str = "no room is left";
const NAME_NOT_UTF8: &str = "a name that is not UTF-8";
const UNKNOWN_VERSION: &str = "a version that no node has";
const NO_SUCH: &str = "no such node, section, language or standing line";
const NOTHING_TO_UNDO: &str = "no edit is left to undo";
const WRONG_KIND: &str = "a book of this kind does not answer that";

/// An opening that is refused: number, offset, line, column, text.
#[track_caller]
fn placed<T>(
    result: Result<T, Refusal>,
    number: u32,
    [offset, line, column]: [usize; 3],
    text: &str,
) {
    let refusal = result.err().expect("a refusal");
    assert_eq!(refusal.number(), number);
    let place = refusal.place().expect("a place");
    assert_eq!(
        (place.offset, place.line, place.column),
        (offset, line, column)
    );
    assert_eq!(refusal.meaning(), text);
    assert_eq!(
        refusal.to_string(),
        format!("line {line}, column {column}: {text}")
    );
}

/// Any other call that is refused.
#[track_caller]
fn plain<T>(result: Result<T, Refusal>, number: u32, text: &str) {
    let refusal = result.err().expect("a refusal");
    assert_eq!((refusal.number(), refusal.place()), (number, None));
    assert_eq!(refusal.to_string(), text);
}

fn script(text: impl AsRef<[u8]>) -> Result<Book, Refusal> {
    Book::version_script(text.as_ref())
}

fn list(text: impl AsRef<[u8]>) -> Result<Book, Refusal> {
    Book::export_list(text.as_ref())
}

fn add(book: &mut Book, token: &[u8]) -> Result<u32, Refusal> {
    book.add(NodeNumber::BASE, Section::Global, Language::General, token)
}

#[test]
fn texts_over_their_limit() -> Result<(), Refusal> {
    script(vec![b' '; 1_048_576])?;
    placed(script(vec![b' '; 1_048_577]), 1, [0, 1, 1], TOO_LONG);
    placed(list(vec![b' '; 1_048_577]), 1, [0, 1, 1], TOO_LONG);
    let token = |length| format!("{{\n  {};\n}};", "a".repeat(length));
    script(token(65_536))?;
    placed(script(token(65_537)), 1, [4, 2, 3], TOO_LONG);
    placed(list(token(65_537)), 1, [4, 2, 3], TOO_LONG);

    let mut book = script("V { f*; };")?;
    let long = vec![b'f'; 65_537];
    let name = |length: usize| &long[..length];
    assert_eq!(
        book.locality(name(4_096), name(65_536))?,
        Some(Section::Global)
    );
    plain(book.locality(name(4_097), name(1)), 1, TOO_LONG);
    plain(book.locality(name(1), name(65_537)), 1, TOO_LONG);
    plain(book.version(name(4_097), name(1), None), 1, TOO_LONG);
    plain(book.version(name(1), name(65_537), None), 1, TOO_LONG);
    plain(
        book.version(name(1), name(1), Some(name(4_097))),
        1,
        TOO_LONG,
    );
    plain(
        book.version(name(1), name(1), Some(name(4_096))),
        10,
        UNKNOWN_VERSION,
    );
    assert!(book.why(name(4_096), name(65_536), None).is_ok());
    plain(book.why(name(4_097), name(1), None), 1, TOO_LONG);
    plain(book.why(name(1), name(65_537), None), 1, TOO_LONG);
    plain(book.why(name(1), name(1), Some(name(4_097))), 1, TOO_LONG);
    plain(
        book.why(name(1), name(1), Some(name(4_096))),
        10,
        UNKNOWN_VERSION,
    );
    plain(add(&mut book, name(65_537)), 1, TOO_LONG);
    add(&mut book, name(65_536))?;

    // of the Rust kind a wanted version is not looked up, but has its limit
    let book = script("{ f; local: *; };")?;
    assert!(book.why(name(1), name(1), Some(name(4_096))).is_ok());
    plain(book.why(name(1), name(1), Some(name(4_097))), 1, TOO_LONG);

    let mut book = list("{ f*; };")?;
    plain(book.contains(name(4_097), name(1)), 1, TOO_LONG);
    plain(book.why(name(1), name(65_537), None), 1, TOO_LONG);
    plain(book.add_symbol(name(65_537), true), 1, TOO_LONG);
    assert_eq!(book.add_symbol(name(65_536), true)?, 1..2);
    Ok(())
}

#[test]
fn texts_that_no_rule_reads() {
    placed(script("{ f; }"), 2, [6, 1, 7], UNREADABLE);
    placed(script("A {\n f;\n};\n{};"), 2, [11, 4, 1], UNREADABLE);
    placed(list(""), 2, [0, 1, 1], UNREADABLE);
    placed(list("{ f; };\n\nx"), 2, [9, 3, 1], UNREADABLE);
    let mut book = list("{};").unwrap();
    plain(book.add_symbol(b"f", false), 2, UNREADABLE);
}

#[test]
fn texts_that_are_not_closed() {
    placed(script("# no line feed"), 3, [0, 1, 1], UNCLOSED);
    placed(script("{ f; /* };"), 3, [5, 1, 6], UNCLOSED);
    placed(script("{ extern \"C\" { f"), 3, [15, 1, 16], UNCLOSED);
    placed(list("{\nextern \"C\" { f"), 3, [15, 2, 14], UNCLOSED);
    let mut book = list("{};").unwrap();
    plain(book.add_symbol(b"#x", true), 3, UNCLOSED);
}

#[test]
fn externs() {
    placed(
        script("{ extern \"Rust\" { f; }; };"),
        4,
        [2, 1, 3],
        BAD_EXTERN,
    );
    placed(
        list("{ extern \"C\" {\nextern \"C\" { f; }; }; };"),
        4,
        [15, 2, 1],
        BAD_EXTERN,
    );
    let mut book = list("{};").unwrap();
    plain(book.add_symbol(b"extern x", false), 4, BAD_EXTERN);
}

#[test]
fn patterns() {
    placed(script(b"{ \xff?; };"), 5, [2, 1, 3], GLOB_NOT_UTF8);
    placed(list(b"{ f;\n\xc3*; };"), 5, [5, 2, 1], GLOB_NOT_UTF8);
    placed(script("{ []; };"), 6, [2, 1, 3], BAD_PATTERN);
    placed(list("{ a[**; };"), 6, [2, 1, 3], BAD_PATTERN);
    let mut book = list("{};").unwrap();
    plain(add(&mut book, b"\xff?"), 5, GLOB_NOT_UTF8);
    plain(add(&mut book, b"[a"), 6, BAD_PATTERN);
    plain(book.add_symbol(b"\xff?;", false), 5, GLOB_NOT_UTF8);
    plain(
        book.add_symbol(b"extern \"C\" { a; [a; };", false),
        6,
        BAD_PATTERN,
    );
    assert_eq!(book, list("{};").unwrap());
}

#[test]
fn parents() {
    placed(script("A {}; B {} A ;"), 7, [11, 1, 12], UNKNOWN_PARENT);
    placed(script("A {}\nA;"), 7, [5, 2, 1], UNKNOWN_PARENT);
}

/// The limits of nodes and lines at an opening; those of edits and bytes are met by edits.
#[test]
fn openings_at_the_limits() -> Result<(), Refusal> {
    assert_eq!(script("A{};".repeat(1_023))?.version_count()?, 1_024);
    placed(
        script("A{};\n".repeat(1_024)),
        8,
        [5_115, 1_024, 1],
        NO_ROOM,
    );
    let lines = |times| format!("{{{}}};", "a;".repeat(times));
    assert_eq!(script(lines(16_384))?.lines().len(), 16_384);
    placed(script(lines(16_385)), 8, [32_769, 1, 32_770], NO_ROOM);
    placed(list(lines(16_385)), 8, [32_769, 1, 32_770], NO_ROOM);
    Ok(())
}

#[test]
fn edits_at_the_limits() -> Result<(), Refusal> {
    // bytes
    let mut book = script("")?;
    let token = vec![b'a'; 65_536];
    for line in 0..32 {
        assert_eq!(add(&mut book, &token)?, line);
    }
    let full = book.clone();
    plain(add(&mut book, b"a"), 8, NO_ROOM);
    assert_eq!(book, full);
    add(&mut book, b"*")?;

    // edits
    let mut book = list("{};")?;
    for line in 0..4_096 {
        assert_eq!(add(&mut book, b"f")?, line);
    }
    plain(add(&mut book, b"f"), 8, NO_ROOM);
    plain(book.strike(0), 8, NO_ROOM);
    plain(book.add_symbol(b"f;", false), 8, NO_ROOM);
    assert_eq!(book.add_symbol(b"extern \"C\" {};", false)?, 4_096..4_096);
    book.undo()?;
    book.strike(0)?;

    // lines
    let text = format!("{{{}}};", "a;".repeat(16_384));
    let mut book = list(text)?;
    plain(add(&mut book, b"f"), 8, NO_ROOM);
    book.strike(7)?;
    plain(add(&mut book, b"f"), 8, NO_ROOM);
    book.settle()?;
    assert_eq!(add(&mut book, b"f")?, 16_383);
    Ok(())
}

#[test]
fn names() -> Result<(), Refusal> {
    let book = script("V { f; };")?;
    plain(book.version(b"\xff", b"f", None), 9, NAME_NOT_UTF8);
    plain(book.version(b"f", b"\xff", Some(b"W")), 9, NAME_NOT_UTF8);
    plain(book.locality(b"\xc3", b"f"), 9, NAME_NOT_UTF8);
    plain(book.version(b"f", b"f", Some(b"W")), 10, UNKNOWN_VERSION);
    plain(book.why(b"\xff", b"f", None), 9, NAME_NOT_UTF8);
    plain(book.why(b"f", b"\xff", Some(b"W")), 9, NAME_NOT_UTF8);
    plain(book.why(b"f", b"f", Some(b"W")), 10, UNKNOWN_VERSION);
    let book = list("{};")?;
    plain(book.contains(b"f", b"\xff"), 9, NAME_NOT_UTF8);
    plain(book.why(b"f", b"\xff", None), 9, NAME_NOT_UTF8);
    let book = script("{ local: *; };")?;
    plain(book.why(b"\xff", b"f", Some(b"W")), 9, NAME_NOT_UTF8);
    Ok(())
}

#[test]
fn things_that_are_not_there() -> Result<(), Refusal> {
    let mut book = script("V { f; };")?;
    let (global, local, general) = (Section::Global, Section::Local, Language::General);
    plain(book.add(NodeNumber(2), global, general, b"["), 11, NO_SUCH);
    plain(
        book.add(NodeNumber(u32::MAX), global, general, b"f"),
        11,
        NO_SUCH,
    );
    plain(book.strike(1), 11, NO_SUCH);
    plain(book.undo(), 12, NOTHING_TO_UNDO);
    book.strike(0)?;
    plain(book.strike(0), 11, NO_SUCH);

    let mut book = list("{ f; };")?;
    plain(book.add(NodeNumber(1), global, general, b"f"), 11, NO_SUCH);
    plain(
        book.add(NodeNumber::BASE, local, general, b"f"),
        11,
        NO_SUCH,
    );
    assert_eq!(book.add(NodeNumber::BASE, global, Language::Cxx, b"f")?, 1);
    Ok(())
}

#[test]
fn kinds() -> Result<(), Refusal> {
    let mut book = script("V { f; };")?;
    plain(book.contains(b"f", b"f"), 13, WRONG_KIND);
    plain(book.add_symbol(b"f;", false), 13, WRONG_KIND);

    let book = list("{ f; };")?;
    plain(book.version_count(), 13, WRONG_KIND);
    plain(book.parent_count(), 13, WRONG_KIND);
    plain(book.version(b"f", b"f", None), 13, WRONG_KIND);
    plain(book.locality(b"f", b"f"), 13, WRONG_KIND);
    plain(book.why(b"f", b"f", Some(b"")), 13, WRONG_KIND);
    plain(book.why(b"\xff", b"f", Some(b"V")), 13, WRONG_KIND);

    let mut book = script("{ f; local: *; };")?;
    plain(add(&mut book, b"f"), 13, WRONG_KIND);
    plain(book.strike(0), 13, WRONG_KIND);
    plain(book.undo(), 12, NOTHING_TO_UNDO);
    assert_eq!(book.settle(), Ok(()));
    Ok(())
}

/// A refusal is an error like any other.
#[test]
fn refusals_are_errors() {
    fn open() -> Result<Book, Box<dyn std::error::Error + Send + Sync>> {
        Ok(Book::version_script(b"{")?)
    }
    assert_eq!(
        open().unwrap_err().to_string(),
        format!("line 1, column 2: {UNREADABLE}")
    );
}
