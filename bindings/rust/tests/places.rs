//! Where lines came from: their offsets in the text that was opened, and lines and columns there.

use tunoyaket::{Book, Class, Language, Line, NodeNumber, Refusal, Section};

/// The examples' scripts, each with symbols behind a line `%%`.
const EXAMPLES: [&str; 4] = [
    include_str!("../../../examples/haze.txt"),
    include_str!("../../../examples/c_library.txt"),
    include_str!("../../../examples/cpp_library.txt"),
    include_str!("../../../examples/rust_library.txt"),
];

fn script(example: &'static str) -> &'static str {
    example.split_once("%%\n").expect("a line `%%`").0
}

fn offsets(book: &Book) -> Vec<Option<usize>> {
    book.lines().map(|line| line.offset).collect()
}

/// The places of all lines, as text.
fn told(book: &Book, text: impl AsRef<[u8]>) -> Vec<Option<String>> {
    book.lines()
        .map(|line| Some(line.place_in(text.as_ref())?.to_string()))
        .collect()
}

/// A token that the examples have: `*`, in quotes, or what is kept of it.
fn spelled(line: &Line, rest: &str) -> Vec<u8> {
    match line.class {
        Class::All => b"*".to_vec(),
        Class::Exact if rest.starts_with('"') => [b"\"", line.bytes, b"\""].concat(),
        _ => line.bytes.to_vec(),
    }
}

#[test]
fn the_example_by_line_and_column() -> Result<(), Refusal> {
    let text = script(EXAMPLES[0]);
    let book = Book::version_script(text.as_bytes())?;
    assert_eq!(offsets(&book), [Some(17), Some(32), Some(55)]);
    let places = [
        "line 1, column 18",
        "line 1, column 33",
        "line 2, column 18",
    ];
    assert_eq!(told(&book, text), places.map(|place| Some(place.into())));
    Ok(())
}

/// The tokens of the examples stand at the offsets of their lines, and where line and column say.
#[test]
fn tokens_stand_where_their_lines_say() -> Result<(), Refusal> {
    let mut seen = 0;
    for text in EXAMPLES.map(script) {
        let book = Book::version_script(text.as_bytes())?;
        let mut end = 0;
        for line in book.lines() {
            let offset = line.offset.unwrap();
            let token = spelled(&line, &text[offset..]);
            assert!(text.as_bytes()[offset..].starts_with(&token), "{line:?}");
            assert!(end <= offset, "{line:?}");
            end = offset + token.len();

            let place = line.place_in(text.as_bytes()).unwrap();
            assert_eq!(place.offset, offset);
            let row = text.split('\n').nth(place.line - 1).unwrap();
            let rest = &row.as_bytes()[place.column - 1..];
            assert!(rest.starts_with(&token), "{line:?}");
            seen += 1;
        }
    }
    assert_eq!(seen, 3 + 11 + 11 + 4);
    Ok(())
}

#[test]
fn tokens_in_every_spelling() -> Result<(), Refusal> {
    let points: [(&str, &[usize]); 7] = [
        ("V { a; \\f; };", &[4, 7]),
        ("{ \"a b\" ; *; };", &[2, 10]),
        ("{[^a]**;a\\;};", &[1, 8]),
        ("{ f; local: *; };", &[2, 12]),
        ("# c\n{\r\n\tlocal: /* d */ a; };", &[23]),
        (
            "A { extern \"C++\" { \"b()\"; c }; };B { d; }A;",
            &[19, 26, 37],
        ),
        // a form feed is a token, of which nothing is kept
        ("V { a; \x0c; };", &[4, 7]),
    ];
    for (text, places) in points {
        let book = Book::version_script(text.as_bytes())?;
        let places: Vec<_> = places.iter().copied().map(Some).collect();
        assert_eq!(offsets(&book), places, "{text}");
    }
    let book = Book::export_list(b"{ f; extern \"C\" { g; \"h\"; }; };")?;
    assert_eq!(offsets(&book), [Some(2), Some(18), Some(21)]);
    Ok(())
}

/// Only a line feed ends a line, and columns count bytes.
#[test]
fn lines_and_columns() -> Result<(), Refusal> {
    let text = "{ a;\r b;\r\n\"\u{e9}\u{e9}\"; c;\x0c;\n\n  \td; };";
    let book = Book::version_script(text.as_bytes())?;
    let places = [
        "line 1, column 3",
        "line 1, column 7",
        "line 2, column 1",
        "line 2, column 9",
        "line 2, column 11",
        "line 4, column 4",
    ];
    assert_eq!(told(&book, text), places.map(|place| Some(place.into())));
    Ok(())
}

#[test]
fn added_lines_have_no_place() -> Result<(), Refusal> {
    let text = b"V { a; };";
    let mut book = Book::version_script(text)?;
    book.add(NodeNumber(1), Section::Global, Language::General, b"a")?;
    assert_eq!(offsets(&book), [Some(4), None]);
    assert_eq!(told(&book, text)[1], None);

    let text = b"{ a; };";
    let mut book = Book::export_list(text)?;
    book.add_symbol(b"extern \"C\" { b; c; };", false)?;
    book.add_symbol(b"d", true)?;
    assert_eq!(offsets(&book), [Some(2), None, None, None]);
    assert_eq!(told(&book, text)[1..], [None, None, None]);
    Ok(())
}

/// Strike, undo and settle leave a line's offset, though a settle gives it another number.
#[test]
fn edits_keep_offsets() -> Result<(), Refusal> {
    let (global, general) = (Section::Global, Language::General);
    let mut book = Book::version_script(script(EXAMPLES[0]).as_bytes())?;
    book.add(NodeNumber(2), global, general, b"\"f\"")?;
    let before = [Some(17), Some(32), Some(55), None];
    assert_eq!(offsets(&book), before);
    book.strike(1)?;
    book.strike(3)?;
    assert_eq!(offsets(&book), before);
    book.undo()?;
    assert_eq!(offsets(&book), before);

    book.settle()?;
    assert_eq!(offsets(&book), [Some(17), Some(55), None]);
    let settled = book.clone();
    book.add(NodeNumber(2), global, general, b"g")?;
    book.strike(1)?;
    assert_eq!(offsets(&book), [Some(17), Some(55), None, None]);
    book.undo()?;
    book.undo()?;
    assert_eq!(book, settled);
    book.strike(0)?;
    book.settle()?;
    let left: Vec<_> = book
        .lines()
        .map(|line| (line.number, line.offset))
        .collect();
    assert_eq!(left, [(0, Some(55)), (1, None)]);
    Ok(())
}

/// What differs in blanks alone gives the same answers, and other offsets.
#[test]
fn lookups_do_not_go_by_offsets() -> Result<(), Refusal> {
    let close = Book::version_script(b"V{f*;local:*;};")?;
    let wide = Book::version_script(b"V {\n  f*;\n  local: *;\n};\n")?;
    for name in [&b"f"[..], b"f1", b"g", b""] {
        let version = close.version(name, name, None)?;
        assert_eq!(version, wide.version(name, name, None)?);
        let locality = close.locality(name, name)?;
        assert_eq!(locality, wide.locality(name, name)?);
    }
    assert!(close != wide);
    Ok(())
}

/// A text without a byte at the offset is not the one that was opened.
#[test]
fn places_lie_in_the_text() -> Result<(), Refusal> {
    let text = b"V {\n a; };";
    let book = Book::version_script(text)?;
    let line = book.lines().next().unwrap();
    assert_eq!(line.offset, Some(5));
    for length in 0..=text.len() {
        let place = line.place_in(&text[..length]);
        assert_eq!(place.is_some(), length > 5, "{length} bytes");
    }
    Ok(())
}

/// The last offset that an opening can give: in the longest text, with `;};` alone behind it.
#[test]
fn the_last_place_of_all() -> Result<(), Refusal> {
    let blanks = "\n".repeat(1_048_576 - 5);
    let text = format!("{{{blanks}a;}};");
    assert_eq!(text.len(), 1_048_576);
    for book in [
        Book::version_script(text.as_bytes())?,
        Book::export_list(text.as_bytes())?,
    ] {
        assert_eq!(offsets(&book), [Some(1_048_572)]);
        let place = "line 1048572, column 1".to_string();
        assert_eq!(told(&book, &text), [Some(place)]);
    }
    Ok(())
}
