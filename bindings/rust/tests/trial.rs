//! The trial book: histories beside a slow model, everything back after the undos, and growth.

use tunoyaket::{Book, Class, Language, NodeNumber, Refusal, Section};

const SCRIPT: &[u8] = b"A { f*; g; local: *; };\nB { f?; extern \"C++\" { \"h()\"; }; } A;\n";

/// A line without its number.
type Kept = (u32, Class, Section, Language, bool, Vec<u8>, Option<usize>);

fn kept(book: &Book) -> Vec<Kept> {
    book.lines()
        .enumerate()
        .map(|(number, line)| {
            assert_eq!(line.number, number as u32);
            let bytes = line.bytes.to_vec();
            (
                line.node.0,
                line.class,
                line.section,
                line.language,
                line.struck,
                bytes,
                line.offset,
            )
        })
        .collect()
}

/// What names get: index and locality of a version script, membership of an export list.
fn answers(book: &Book) -> Vec<(Option<u32>, Option<Section>)> {
    let names: [(&[u8], &[u8]); 7] = [
        (b"f", b"f"),
        (b"f1", b"f1"),
        (b"f12", b"f12"),
        (b"g", b"g"),
        (b"_Z1hv", b"h()"),
        (b"k", b"k"),
        (b"", b""),
    ];
    names
        .iter()
        .map(|&(raw, demangled)| match book.version_count() {
            Ok(_) => {
                let version = book.version(raw, demangled, None).unwrap();
                (
                    version.map(|index| index.number()),
                    book.locality(raw, demangled).unwrap(),
                )
            }
            Err(_) => (
                Some(u32::from(book.contains(raw, demangled).unwrap())),
                None,
            ),
        })
        .collect()
}

/// Marsaglia's xorshift.
struct Random(u64);

impl Random {
    fn below(&mut self, bound: usize) -> usize {
        self.0 ^= self.0 << 13;
        self.0 ^= self.0 >> 7;
        self.0 ^= self.0 << 17;
        (self.0 >> 11) as usize % bound
    }
}

const TOKENS: [(&[u8], Class, &[u8]); 11] = [
    (b"k", Class::Exact, b"k"),
    (b"", Class::Exact, b""),
    (b"f? ", Class::NonStar, b"f?"),
    (b"*", Class::All, b""),
    (b"?*", Class::Star, b"?*"),
    (b"\"h()\"", Class::Exact, b"h()"),
    (b"\\f", Class::Escaped, b"f"),
    (b"[^f]*\n", Class::Star, b"[!f]*"),
    (b"k**", Class::Star, b"k*"),
    (b"*** ", Class::Star, b"*"),
    (
        b"a rather long token, so that the pool has to grow",
        Class::Exact,
        b"a rather long token, so that the pool has to grow",
    ),
];

/// Random adds, strikes, undos and settles, refused ones among them. The model keeps the lines
/// after each edit that can be undone, and the book of the moment that undoing leads back to.
fn replay(opened: Book, nodes: usize, seed: u64) {
    let mut random = Random(seed);
    let mut book = opened.clone();
    let mut moment = opened;
    let mut earlier = Vec::new();
    let mut lines = kept(&book);
    let list = book.version_count().is_err();
    for _ in 0..600 {
        match random.below(12) {
            0..=3 => {
                let (token, class, bytes) = TOKENS[random.below(TOKENS.len())];
                let node = random.below(nodes);
                let local = !list && random.below(2) == 1;
                let section = if local {
                    Section::Local
                } else {
                    Section::Global
                };
                let language = [Language::General, Language::Cxx][random.below(2)];
                let number = book.add(NodeNumber(node as u32), section, language, token);
                assert_eq!(number, Ok(lines.len() as u32));
                earlier.push(lines.clone());
                lines.push((
                    node as u32,
                    class,
                    section,
                    language,
                    false,
                    bytes.to_vec(),
                    None,
                ));
            }
            4..=6 => {
                let line = random.below(lines.len() + 2);
                let stands = lines.get(line).is_some_and(|line| !line.4);
                match book.strike(line as u32) {
                    Ok(()) => {
                        assert!(stands);
                        earlier.push(lines.clone());
                        lines[line].4 = true;
                    }
                    Err(refusal) => assert!(refusal == Refusal::NoSuch && !stands),
                }
            }
            7..=9 => match book.undo() {
                Ok(()) => lines = earlier.pop().expect("an edit to undo"),
                Err(refusal) => {
                    assert!(refusal == Refusal::NothingToUndo && earlier.is_empty());
                    assert_eq!(book, moment);
                }
            },
            10 => {
                let refused = book.add(NodeNumber::BASE, Section::Global, Language::General, b"[");
                assert_eq!(refused, Err(Refusal::BadPattern(None)));
            }
            _ if random.below(8) == 0 => {
                let before = answers(&book);
                book.settle().unwrap();
                // a settle drops lines that no lookup saw
                assert_eq!(answers(&book), before);
                if lines.iter().any(|line| line.4) {
                    lines.retain(|line| !line.4);
                    earlier.clear();
                    moment = book.clone();
                }
            }
            _ => {}
        }
        assert_eq!(kept(&book), lines);
        assert_eq!(book.edit_count() as usize, earlier.len());
    }
    for _ in 0..earlier.len() {
        book.undo().unwrap();
    }
    assert_eq!(book, moment);
    assert_eq!(answers(&book), answers(&moment));
    assert_eq!(book.undo(), Err(Refusal::NothingToUndo));
}

#[test]
fn histories_of_a_script() {
    for seed in 1..=12 {
        replay(Book::version_script(SCRIPT).unwrap(), 3, seed);
    }
}

#[test]
fn histories_of_a_list() {
    for seed in 1..=12 {
        replay(Book::export_list(b"{ f*; k; };").unwrap(), 1, seed);
    }
}

/// What a struck or added line changes, by hand.
#[test]
fn lookups_go_by_the_lines_that_stand() -> Result<(), Refusal> {
    let mut book = Book::version_script(SCRIPT)?;
    let index = |book: &Book, name: &[u8]| {
        book.version(name, name, None)
            .map(|v| v.map(|v| v.number()))
    };
    assert_eq!(index(&book, b"f1")?, Some(3));
    book.strike(3)?;
    assert_eq!(index(&book, b"f1")?, Some(2));
    book.strike(0)?;
    assert_eq!(book.locality(b"f1", b"f1")?, Some(Section::Local));
    book.strike(2)?;
    assert_eq!(index(&book, b"f1")?, None);
    book.add(NodeNumber(2), Section::Local, Language::General, b"f1")?;
    assert_eq!(index(&book, b"f1")?, Some(3));
    book.settle()?;
    assert_eq!(kept(&book).len(), 3);
    assert_eq!(index(&book, b"f1")?, Some(3));
    assert_eq!(book.edit_count(), 0);
    Ok(())
}

#[test]
fn add_symbol_is_undone_line_by_line() -> Result<(), Refusal> {
    let opened = Book::export_list(b"{ f; };")?;
    let mut book = opened.clone();
    assert_eq!(book.add_symbol(b"extern \"C\" { a; b; };", false)?, 1..3);
    book.undo()?;
    assert!(book.contains(b"a", b"a")? && !book.contains(b"b", b"b")?);
    book.undo()?;
    assert_eq!(book, opened);
    // all or none, also where the rooms grew on the way
    let text = format!("extern \"C\" {{ {} [; }};", "a;".repeat(1_000));
    assert_eq!(
        book.add_symbol(text.as_bytes(), false),
        Err(Refusal::BadPattern(None))
    );
    assert_eq!(book, opened);
    let text = format!("extern \"C\" {{ {} }};", "a;".repeat(1_000));
    assert_eq!(book.add_symbol(text.as_bytes(), false)?, 1..1_001);
    assert_eq!(book.add_symbol(b"a;b}c", true)?, 1_001..1_002);
    assert_eq!(book.lines().last().unwrap().bytes, b"a;b");
    Ok(())
}

#[test]
fn runs_of_stars_are_added_as_one() -> Result<(), Refusal> {
    let opened = Book::export_list(b"{ f; };")?;
    let mut book = opened.clone();
    let global = Section::Global;
    book.add(NodeNumber::BASE, global, Language::General, b"g**")?;
    let text = b"extern \"C++\" { h[^**]**; \\**; };";
    assert_eq!(book.add_symbol(text, false)?, 2..4);
    let lines: Vec<_> = book.lines().map(|line| (line.class, line.bytes)).collect();
    let stars = [&b"g*"[..], b"h[!**]*", b"\\*"].map(|kept| (Class::Star, kept));
    assert_eq!(lines[1..], stars);
    assert!(book.contains(b"gx", b"x")? && book.contains(b"x", b"hx")?);
    assert!(!book.contains(b"x", b"h*")?);
    for _ in 0..3 {
        book.undo()?;
    }
    assert_eq!(book, opened);
    Ok(())
}

/// Texts that are dense in nodes, names, lines or bytes, which the first rooms are too small for.
#[test]
fn openings_grow() -> Result<(), Refusal> {
    let book = Book::version_script("A{};".repeat(1_000).as_bytes())?;
    assert_eq!(book.nodes().len(), 1_001);
    let name = "A".repeat(100_000);
    let book = Book::version_script(format!("{name}{{}};").as_bytes())?;
    assert_eq!(book.nodes().last().unwrap().name.len(), 100_000);
    let book = Book::version_script(format!("{{{}}};", "a;".repeat(10_000)).as_bytes())?;
    assert_eq!(book.lines().len(), 10_000);
    let token = "a".repeat(60_000);
    let book = Book::export_list(format!("{{{token};}};").as_bytes())?;
    assert_eq!(book.lines().last().unwrap().bytes.len(), 60_000);
    Ok(())
}

/// The own refusal of a text, where smaller rooms are refused first.
#[test]
fn growth_finds_the_texts_own_refusal() {
    let text = format!("{{{}[; }};", "a;".repeat(5_000));
    let refusal = Book::version_script(text.as_bytes()).unwrap_err();
    assert_eq!(
        (refusal.number(), refusal.place().unwrap().offset),
        (6, 10_001)
    );
    for text in ["A", "A{};B", "A{};B{", "A{};B{}", "{a;", "{a;b"] {
        assert_eq!(
            Book::version_script(text.as_bytes()).unwrap_err().number(),
            2,
            "{text}"
        );
    }
}

#[test]
fn edits_grow() -> Result<(), Refusal> {
    let opened = Book::version_script(b"A {};")?;
    let mut book = opened.clone();
    for number in 0..3_000u32 {
        let token = format!("name_{number}");
        let line = book.add(
            NodeNumber(1),
            Section::Global,
            Language::General,
            token.as_bytes(),
        )?;
        assert_eq!(line, number);
    }
    book.add(
        NodeNumber(1),
        Section::Global,
        Language::General,
        &[b'x'; 65_536],
    )?;
    book.strike(17)?;
    assert_eq!(
        book.version(b"name_16", b"name_16", None)?
            .unwrap()
            .number(),
        2
    );
    assert_eq!(book.version(b"name_17", b"name_17", None)?, None);
    for _ in 0..book.edit_count() {
        book.undo()?;
    }
    assert_eq!(book, opened);
    Ok(())
}

/// A book can be handed to another thread, and asked from several.
#[test]
fn books_are_shared() {
    let book = Book::version_script(SCRIPT).unwrap();
    let expected = answers(&book);
    std::thread::scope(|scope| {
        for _ in 0..2 {
            scope.spawn(|| assert_eq!(answers(&book), expected));
        }
    });
}
