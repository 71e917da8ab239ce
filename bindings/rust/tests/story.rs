//! Document 01's example and known points, through a `Book`.

use std::fmt::Write;
use tunoyaket::{Book, Class, Kind, Language, NodeNumber, Refusal, Section, VersionIndex};

/// The example's input, as `verlist` takes it: a script, a line `%%`, symbols.
const HAZE: &str = include_str!("../../../examples/haze.txt");

fn haze() -> (Book, Vec<&'static str>) {
    let (script, symbols) = HAZE
        .split_once("%%\n")
        .expect("the example has a line `%%`");
    let book = Book::version_script(script.as_bytes()).expect("the example is accepted");
    (book, symbols.lines().collect())
}

fn index(book: &Book, name: &str) -> Result<Option<u32>, Refusal> {
    let version = book.version(name.as_bytes(), name.as_bytes(), None)?;
    Ok(version.map(VersionIndex::number))
}

fn locality(book: &Book, name: &str) -> Result<Option<Section>, Refusal> {
    book.locality(name.as_bytes(), name.as_bytes())
}

fn wanted(book: &Book, name: &str, version: &str) -> Result<Option<u32>, Refusal> {
    let version = book.version(name.as_bytes(), name.as_bytes(), Some(version.as_bytes()))?;
    Ok(version.map(VersionIndex::number))
}

#[test]
fn the_example_prints_what_01_says() -> Result<(), Refusal> {
    let (book, symbols) = haze();
    let mut output = String::new();
    let (versions, parents) = (book.version_count()?, book.parent_count()?);
    writeln!(output, "nodes {versions} parents {parents}").unwrap();
    for name in symbols {
        let version = index(&book, name)?.map_or("-".to_string(), |number| number.to_string());
        let letter = match locality(&book, name)? {
            None => '-',
            Some(Section::Global) => 'G',
            Some(Section::Local) => 'L',
        };
        writeln!(output, "{name} {version} {letter}").unwrap();
    }
    assert_eq!(
        output,
        "nodes 3 parents 1\nhaze_month 3 G\nhaze_day 2 G\nmain 2 L\n"
    );
    Ok(())
}

#[test]
fn the_example_has_its_nodes_and_lines() {
    let (book, _) = haze();
    assert_eq!(book.kind(), Kind::Regular);
    assert_eq!(book.edit_count(), 0);
    let nodes: Vec<_> = book
        .nodes()
        .map(|node| (node.number, node.name, node.parent))
        .collect();
    assert_eq!(
        nodes,
        [
            (NodeNumber::BASE, &b""[..], None),
            (NodeNumber(1), b"HAZE_1", None),
            (NodeNumber(2), b"HAZE_2", Some(NodeNumber(1))),
        ]
    );
    let lines: Vec<_> = book
        .lines()
        .map(|line| {
            (
                line.number,
                line.node.0,
                line.class,
                line.section,
                line.bytes,
                line.offset,
            )
        })
        .collect();
    let (global, local) = (Section::Global, Section::Local);
    assert_eq!(
        lines,
        [
            (0, 1, Class::Star, global, &b"haze_*"[..], Some(17)),
            (1, 1, Class::All, local, b"", Some(32)),
            (2, 2, Class::Exact, global, b"haze_month", Some(55)),
        ]
    );
    assert!(book
        .lines()
        .all(|line| line.language == Language::General && !line.struck));
    assert_eq!((book.nodes().len(), book.lines().len()), (3, 3));
    assert_eq!(book.lines().next_back().map(|line| line.number), Some(2));
}

/// "With line 0 struck, haze_day is 2 L; after undo 2 G."
#[test]
fn a_line_is_struck_and_comes_back() -> Result<(), Refusal> {
    let (mut book, _) = haze();
    let opened = book.clone();
    book.strike(0)?;
    assert!(book.lines().next().unwrap().struck);
    assert_eq!(book.edit_count(), 1);
    assert_eq!(index(&book, "haze_day")?, Some(2));
    assert_eq!(locality(&book, "haze_day")?, Some(Section::Local));
    book.undo()?;
    assert_eq!(index(&book, "haze_day")?, Some(2));
    assert_eq!(locality(&book, "haze_day")?, Some(Section::Global));
    assert_eq!(book, opened);
    Ok(())
}

/// The auditor's two questions. Which line gave haze_month its version? With line 2 struck it falls
/// to HAZE_1, so line 2 did; with line 0 struck too it is hidden. And what would be exported without
/// the wildcard line? haze_month as before, and haze_day no more.
#[test]
fn the_auditor_is_answered() -> Result<(), Refusal> {
    let (mut book, symbols) = haze();
    let opened = book.clone();
    assert_eq!(index(&book, "haze_month")?, Some(3));
    book.strike(2)?;
    assert_eq!(index(&book, "haze_month")?, Some(2));
    assert_eq!(locality(&book, "haze_month")?, Some(Section::Global));
    book.strike(0)?;
    assert_eq!(index(&book, "haze_month")?, Some(2));
    assert_eq!(locality(&book, "haze_month")?, Some(Section::Local));
    book.undo()?;
    book.undo()?;
    assert_eq!(book, opened);

    book.strike(0)?;
    let mut exported = Vec::new();
    for name in symbols {
        if locality(&book, name)? != Some(Section::Local) {
            exported.push((name, index(&book, name)?));
        }
    }
    assert_eq!(exported, [("haze_month", Some(3))]);
    Ok(())
}

/// P1 to P8, and runs of stars: a token's class, what is kept of it, and a name with whether it
/// matches.
#[test]
fn tokens_are_classed_and_matched() -> Result<(), Refusal> {
    let points: [(&str, Class, &str, &str, bool); 19] = [
        ("\"*\"", Class::Exact, "*", "x", false),
        ("*", Class::All, "", "x", true),
        ("\\*", Class::Escaped, "*", "*", true),
        ("?*", Class::Star, "?*", "", false),
        ("?\\*", Class::NonStar, "?\\*", "x\\yz", true),
        ("a\\", Class::Escaped, "a\\", "a\\", true),
        ("[]]", Class::NonStar, "[]]", "]", true),
        ("[^a]b", Class::NonStar, "[!a]b", "xb", true),
        ("[^a]b", Class::NonStar, "[!a]b", "ab", false),
        ("h?", Class::NonStar, "h?", "h\u{e9}", true),
        ("a**", Class::Star, "a*", "abc", true),
        ("a**", Class::Star, "a*", "b", false),
        ("**", Class::Star, "*", "", true),
        ("?**?", Class::Star, "?*?", "a", false),
        ("[**]", Class::Star, "[**]", "*", true),
        ("a[^**]**", Class::Star, "a[!**]*", "a*", false),
        ("a[^**]**", Class::Star, "a[!**]*", "abc", true),
        ("[^]**]**", Class::Star, "[!]**]*", "*b", false),
        ("\\**", Class::Star, "\\*", "\\x", true),
    ];
    for (token, class, kept, name, matches) in points {
        let book = Book::version_script(format!("{{ {token}; }};").as_bytes())?;
        let line = book.lines().next().unwrap();
        assert_eq!(
            (line.class, line.bytes),
            (class, kept.as_bytes()),
            "{token}"
        );
        assert_eq!(
            locality(&book, name)?.is_some(),
            matches,
            "{token} on {name}"
        );
    }
    Ok(())
}

/// P9 to P12, and the empty wanted version.
#[test]
fn nodes_are_ranked_and_counted() -> Result<(), Refusal> {
    assert_eq!(Book::version_script(b"/*/{};")?.version_count()?, 0);

    let book = Book::version_script(b"A {}; B {}; A {}; C {} A;")?;
    assert_eq!(book.nodes().last().unwrap().parent, Some(NodeNumber(1)));
    assert_eq!(wanted(&book, "f", "A")?, Some(4));
    assert_eq!(
        wanted(&book, "foo", "")?,
        Some(VersionIndex::GLOBAL.number())
    );

    let book = Book::version_script(b"V { extern \"C++\" { f; }; local: f; };")?;
    assert_eq!(index(&book, "f")?, Some(2));
    assert_eq!(locality(&book, "f")?, Some(Section::Local));
    assert_eq!(book.locality(b"_Z1f", b"f")?, Some(Section::Global));

    let book = Book::version_script(b"A { f*; }; B { local: f?; }; C { f*; };")?;
    assert_eq!(index(&book, "fx")?, Some(3));
    assert_eq!(locality(&book, "fx")?, Some(Section::Local));
    assert_eq!(index(&book, "fxy")?, Some(4));
    assert_eq!(locality(&book, "fxy")?, Some(Section::Global));
    Ok(())
}

#[test]
fn a_rust_script_lists_its_globals() -> Result<(), Refusal> {
    let book = Book::version_script(b"{ global: f; local: *; };")?;
    assert_eq!(book.kind(), Kind::Rust);
    assert_eq!((book.version_count()?, book.parent_count()?), (0, 0));
    assert_eq!(index(&book, "f")?, None);
    assert_eq!(wanted(&book, "f", "V")?, None);
    assert_eq!(locality(&book, "f")?, Some(Section::Global));
    assert_eq!(locality(&book, "g")?, Some(Section::Local));
    Ok(())
}

#[test]
fn an_export_list_has_members() -> Result<(), Refusal> {
    let book = Book::export_list(b"{ f; extern \"C++\" { haze::*; }; };")?;
    assert_eq!(book.kind(), Kind::ExportList);
    assert!(book.contains(b"f", b"g")?);
    assert!(book.contains(b"_Z", b"haze::day()")?);
    assert!(!book.contains(b"haze::day()", b"day")?);
    Ok(())
}
