//! Why a symbol has its version, is global or local, or is in an export list: the line that
//! decides.

use tunoyaket::{
    Book, Class, Kind, Language, Line, NodeNumber, Reason, Refusal, Section, VersionIndex, Why,
};

/// The example's script, with symbols behind a line `%%`.
const HAZE: &str = include_str!("../../../examples/haze.txt");

fn haze() -> &'static str {
    HAZE.split_once("%%\n").expect("a line `%%`").0
}

fn script(text: &str) -> Result<Book, Refusal> {
    Book::version_script(text.as_bytes())
}

/// Why, by a name that is not mangled.
fn why(book: &Book, name: &str) -> Result<Why, Refusal> {
    book.why(name.as_bytes(), name.as_bytes(), None)
}

fn why_wanted(book: &Book, name: &str, version: &str) -> Result<Why, Refusal> {
    book.why(name.as_bytes(), name.as_bytes(), Some(version.as_bytes()))
}

/// What is told of a line.
fn told(line: &Line) -> Why {
    Why::Line(Reason {
        line: line.number,
        class: line.class,
        node: line.node,
        section: line.section,
        language: line.language,
        offset: line.offset,
    })
}

/// What is told where the line with a number decides.
fn by_line(book: &Book, number: usize) -> Why {
    told(&book.lines().nth(number).expect("a line"))
}

#[test]
fn the_example_is_explained() -> Result<(), Refusal> {
    let book = script(haze())?;
    let month = Reason {
        line: 2,
        class: Class::Exact,
        node: NodeNumber(2),
        section: Section::Global,
        language: Language::General,
        offset: Some(55),
    };
    let day = Reason {
        line: 0,
        class: Class::Star,
        node: NodeNumber(1),
        offset: Some(17),
        ..month
    };
    let main = Reason {
        line: 1,
        class: Class::All,
        section: Section::Local,
        offset: Some(32),
        ..day
    };
    assert_eq!(why(&book, "haze_month")?, Why::Line(month));
    assert_eq!(why(&book, "haze_day")?, Why::Line(day));
    assert_eq!(why(&book, "main")?, Why::Line(main));
    Ok(())
}

/// A script, a symbol's two names, and the line that decides.
#[test]
fn lines_are_named_by_the_ranking() -> Result<(), Refusal> {
    let points: [(&str, &str, &str, Option<usize>); 22] = [
        // at equal rank the lowest number
        ("A { f; f; };", "f", "f", Some(0)),
        ("V { foo*; foo_b*; };", "foo_bar", "foo_bar", Some(0)),
        ("A { \\f; f; };", "f", "f", Some(0)),
        ("A { f; \\f; };", "f", "f", Some(0)),
        ("A { local: f; global: f; f; };", "f", "f", Some(1)),
        // names before patterns, and nodes upward of names
        ("A { local: *; }; B { f; };", "f", "f", Some(1)),
        ("A { local: *; }; B { f; };", "g", "g", Some(0)),
        ("A { local: f; }; B { f; };", "f", "f", Some(0)),
        // of patterns downward, those without a star first and `*` last
        ("A { f*; }; B { local: f?; }; C { f*; };", "fx", "", Some(1)),
        (
            "A { f*; }; B { local: f?; }; C { f*; };",
            "fxy",
            "",
            Some(2),
        ),
        ("A { f*; }; B { *; };", "fx", "", Some(0)),
        ("A { *; }; B { local: *; };", "f", "", Some(1)),
        ("A { **; }; B { *; };", "f", "", Some(0)),
        // C++ lines see the demangled name
        ("V { extern \"C++\" { f; }; local: f; };", "f", "f", Some(1)),
        (
            "V { extern \"C++\" { f; }; local: f; };",
            "_Zf",
            "f",
            Some(0),
        ),
        ("V { extern \"C++\" { f; }; local: f; };", "_Zf", "g", None),
        ("V { extern \"C++\" { f*; }; f*; };", "fx", "fx", Some(0)),
        ("V { extern \"C++\" { f*; }; f*; };", "fx", "g", Some(1)),
        // one body, none, and a name that nothing matches
        ("{ \"a b\"; f*; };", "a b", "a b", Some(0)),
        ("{ \"a b\"; f*; };", "a", "f", None),
        ("V { ?*; };", "", "", None),
        ("", "f", "f", None),
    ];
    for (text, raw, demangled, line) in points {
        let book = script(text)?;
        let expected = line.map_or(Why::NoLine, |number| by_line(&book, number));
        let told = book.why(raw.as_bytes(), demangled.as_bytes(), None)?;
        assert_eq!(told, expected, "{text} on {raw}, {demangled}");
    }
    Ok(())
}

#[test]
fn a_wanted_version_decides() -> Result<(), Refusal> {
    let book = script("A {}; B { f; }; A {}; C {} A;")?;
    for name in ["f", "g"] {
        for version in ["A", "B", "C", ""] {
            assert_eq!(why_wanted(&book, name, version)?, Why::Wanted);
        }
        let refused = why_wanted(&book, name, "D");
        assert_eq!(refused, Err(Refusal::UnknownVersion));
    }
    let book = script("{ f*; };")?;
    assert_eq!(why_wanted(&book, "f", "")?, Why::Wanted);
    let refused = why_wanted(&book, "f", "A");
    assert_eq!(refused, Err(Refusal::UnknownVersion));
    Ok(())
}

/// The first listed line that is the name, else the first general local `*`; what is wanted decides
/// nothing.
#[test]
fn a_rust_script_names_a_line_always() -> Result<(), Refusal> {
    let points = [
        ("{ f; local: extern \"C++\" { *; }; *; };", "f", 0),
        ("{ f; local: extern \"C++\" { *; }; *; };", "g", 2),
        ("{ g; \"f\"; f; local: f; f*; *; *; };", "f", 1),
        ("{ g; \"f\"; f; local: f; f*; *; *; };", "fx", 5),
        // a local name is not listed, and `*` in extern "C" is general
        ("{ local: f; extern \"C\" { *; }; *; };", "f", 1),
    ];
    for (text, name, line) in points {
        let book = script(text)?;
        assert_eq!(book.kind(), Kind::Rust);
        let expected = by_line(&book, line);
        assert_eq!(why(&book, name)?, expected, "{text} on {name}");
        assert_eq!(why_wanted(&book, name, "V")?, expected, "{text} on {name}");
        assert_eq!(why_wanted(&book, name, "")?, expected, "{text} on {name}");
        // the demangled name is not looked at
        let told = book.why(name.as_bytes(), b"g", None)?;
        assert_eq!(told, expected, "{text} on {name}");
    }
    Ok(())
}

#[test]
fn an_export_list_names_a_line() -> Result<(), Refusal> {
    let text = "{ *_b; foo*; extern \"C++\" { \"f()\"; }; foo; foo_?; };";
    let mut book = Book::export_list(text.as_bytes())?;
    for (name, line) in [("foo", 3), ("foo_b", 4), ("foo_bar_b", 0), ("foo_bar", 1)] {
        assert_eq!(why(&book, name)?, by_line(&book, line), "{name}");
    }
    assert_eq!(book.why(b"_Zf", b"f()", None)?, by_line(&book, 2));
    assert_eq!(book.why(b"f()", b"f", None)?, Why::NoLine);
    for version in ["", "V"] {
        let refused = why_wanted(&book, "foo", version);
        assert_eq!(refused, Err(Refusal::WrongKind));
    }

    book.add_symbol(b"g", true)?;
    assert_eq!(why(&book, "g")?, by_line(&book, 5));
    book.undo()?;
    assert_eq!(why(&book, "g")?, Why::NoLine);
    Ok(())
}

#[test]
fn struck_lines_are_not_named() -> Result<(), Refusal> {
    let mut book = script("A { f; f; };")?;
    assert_eq!(why(&book, "f")?, by_line(&book, 0));
    book.strike(0)?;
    assert_eq!(why(&book, "f")?, by_line(&book, 1));
    book.strike(1)?;
    assert_eq!(why(&book, "f")?, Why::NoLine);
    book.undo()?;
    assert_eq!(why(&book, "f")?, by_line(&book, 1));
    // a settle gives the line another number, and leaves what else is told
    book.settle()?;
    let Why::Line(reason) = why(&book, "f")? else {
        panic!("line 0 stands");
    };
    assert_eq!((reason.line, reason.offset), (0, Some(7)));
    Ok(())
}

/// The place of a line that an opening read; an added one has none.
#[test]
fn reasons_have_places() -> Result<(), Refusal> {
    let text = haze().as_bytes();
    let mut book = Book::version_script(text)?;
    let places = |book: &Book| -> Result<Vec<_>, Refusal> {
        let mut places = Vec::new();
        for name in ["haze_month", "haze_day", "main"] {
            let Why::Line(reason) = why(book, name)? else {
                panic!("no line matches {name}");
            };
            let line = book.lines().nth(reason.line as usize).unwrap();
            assert_eq!(reason.place_in(text), line.place_in(text));
            // another text, which ends before the token
            assert_eq!(reason.place_in(&text[..reason.offset.unwrap_or(0)]), None);
            places.push(reason.place_in(text).map(|place| place.to_string()));
        }
        Ok(places)
    };
    let (month, day, main) = (
        Some("line 2, column 18".to_string()),
        Some("line 1, column 18".to_string()),
        Some("line 1, column 33".to_string()),
    );
    assert_eq!(places(&book)?, [month.clone(), day, main.clone()]);
    let (node, general) = (NodeNumber(2), Language::General);
    book.add(node, Section::Local, general, b"haze_day")?;
    assert_eq!(places(&book)?, [month, None, main]);
    Ok(())
}

/// Marsaglia's xorshift.
struct Random(u64);

impl Random {
    fn below(&mut self, bound: usize) -> usize {
        self.0 ^= self.0 << 13;
        self.0 ^= self.0 >> 7;
        self.0 ^= self.0 << 17;
        (self.0 >> 11) as usize % bound
    }

    fn one_of<T: Copy>(&mut self, values: &[T]) -> T {
        values[self.below(values.len())]
    }

    fn name(&mut self) -> String {
        let length = self.below(4);
        (0..length)
            .map(|_| self.one_of(&['a', 'b', '\u{e9}']))
            .collect()
    }

    /// Some matchers, of a script's body where there are sections.
    fn matchers(&mut self, sections: bool) -> String {
        let mut text = String::new();
        for _ in 0..self.below(6) {
            if sections && self.below(3) == 0 {
                text += self.one_of(&["global:", "local:"]);
            }
            let (first, second) = (self.one_of(&TOKENS), self.one_of(&TOKENS));
            text += &match self.below(4) {
                0 => format!("extern \"C++\" {{{first}; {second};}};"),
                1 => format!("extern \"C\" {{{first};}};"),
                _ => format!("{first};"),
            };
        }
        text
    }

    fn book(&mut self) -> Result<Book, Refusal> {
        match self.below(4) {
            0 => Book::export_list(format!("{{{}}};", self.matchers(false)).as_bytes()),
            1 => script(&format!("{{{}}};", self.matchers(true))),
            // of the Rust kind
            2 => {
                let listed = [(); 3].map(|()| self.one_of(&["", "a;", "b;", "ab;"]));
                let locals = self.matchers(false);
                script(&format!("{{{} local:{locals} *;}};", listed.concat()))
            }
            _ => {
                let nodes = &["A", "B", "C"][..1 + self.below(3)];
                let bodies = nodes
                    .iter()
                    .map(|node| format!("{node} {{{}}};\n", self.matchers(true)));
                script(&bodies.collect::<String>())
            }
        }
    }

    fn edit(&mut self, book: &mut Book) {
        let (node, line) = (self.below(book.nodes().len()), self.below(8));
        let section = self.one_of(&[Section::Global, Section::Local]);
        let language = self.one_of(&[Language::General, Language::Cxx]);
        let token = self.one_of(&TOKENS).as_bytes();
        // what is refused changes nothing
        let _ = match self.below(6) {
            0 | 1 => book
                .add(NodeNumber(node as u32), section, language, token)
                .map(drop),
            2 | 3 => book.strike(line as u32),
            4 => book.undo(),
            _ => book.settle(),
        };
    }
}

const TOKENS: [&str; 13] = [
    "a", "b", "ab", "\"a\"", "\\a", "\"\"", "?", "a?", "a*", "*b", "?*", "*", "**",
];

/// Whether a pattern matches, where it has `?` and `*` and no brackets.
fn glob(pattern: &[char], name: &[char]) -> bool {
    match (pattern.split_first(), name.split_first()) {
        (None, left) => left.is_none(),
        (Some(('*', rest)), None) => glob(rest, name),
        (Some(('*', rest)), Some((_, left))) => glob(rest, name) || glob(pattern, left),
        (Some((sign, rest)), Some((character, left))) => {
            (*sign == '?' || sign == character) && glob(rest, left)
        }
        (Some(_), None) => false,
    }
}

fn matches(line: &Line, raw: &str, demangled: &str) -> bool {
    let name = match line.language {
        Language::General => raw,
        Language::Cxx => demangled,
    };
    let bytes = std::str::from_utf8(line.bytes).expect("the tokens are UTF-8");
    let signs = |text: &str| text.chars().collect::<Vec<_>>();
    match line.class {
        Class::Exact | Class::Escaped => bytes == name,
        Class::NonStar | Class::Star => glob(&signs(bytes), &signs(name)),
        Class::All => true,
    }
}

/// A line's place in the ranking. Names: nodes upward, in a node general global, general local, C++
/// global, C++ local. Then the other classes, of each nodes downward, in a node global, local.
fn rank(line: &Line) -> (u32, i64, bool, bool) {
    let (node, cxx) = (line.node.0.into(), line.language == Language::Cxx);
    let local = line.section == Section::Local;
    match line.class {
        Class::Exact | Class::Escaped => (1, node, cxx, local),
        Class::NonStar => (2, -node, false, local),
        Class::Star => (3, -node, false, local),
        Class::All => (4, -node, false, local),
    }
}

/// What is told of a name, said without the library.
fn expected(book: &Book, raw: &str, demangled: &str) -> Why {
    let line = if book.kind() == Kind::Rust {
        let listed = |line: &Line| line.section == Section::Global && line.bytes == raw.as_bytes();
        let star = (Class::All, Section::Local, Language::General);
        let is_star = |line: &Line| (line.class, line.section, line.language) == star;
        let first = book.lines().find(listed);
        first.or_else(|| book.lines().find(is_star))
    } else {
        book.lines()
            .filter(|line| !line.struck && matches(line, raw, demangled))
            .min_by_key(|line| (rank(line), line.number))
    };
    line.map_or(Why::NoLine, |line| told(&line))
}

/// The line that decides is the one that is told of, the lookups answer what it gives, and a wanted
/// version decides where they look it up.
fn agrees(book: &Book, raw: &str, demangled: &str) -> Why {
    let why = expected(book, raw, demangled);
    let (raw, demangled) = (raw.as_bytes(), demangled.as_bytes());
    assert_eq!(book.why(raw, demangled, None), Ok(why), "{book:?}");
    let reason = match why {
        Why::Line(reason) => Some(reason),
        _ => None,
    };
    if book.kind() == Kind::ExportList {
        assert_eq!(book.contains(raw, demangled), Ok(reason.is_some()));
    } else {
        let node = reason.map(|reason| reason.node);
        let version = node.filter(|&node| node != NodeNumber::BASE);
        let version = version.map(VersionIndex::from_node);
        assert_eq!(book.version(raw, demangled, None), Ok(version));
        let locality = reason.map(|reason| reason.section);
        assert_eq!(book.locality(raw, demangled), Ok(locality));
    }
    for wanted in [&b""[..], b"B", b"D"] {
        let expected = match book.version(raw, demangled, Some(wanted)) {
            Ok(_) if book.kind() == Kind::Rust => Ok(why),
            Ok(_) => Ok(Why::Wanted),
            Err(refusal) => Err(refusal),
        };
        assert_eq!(book.why(raw, demangled, Some(wanted)), expected);
    }
    why
}

#[test]
fn reasons_agree_with_the_lookups() -> Result<(), Refusal> {
    let mut random = Random(3);
    let mut seen = [[0; 2]; 3];
    for _ in 0..600 {
        let mut book = random.book()?;
        for _ in 0..6 {
            for _ in 0..6 {
                let (raw, other) = (random.name(), random.name());
                let demangled = random.one_of(&[&raw, &other]);
                let why = agrees(&book, &raw, demangled);
                seen[book.kind() as usize][usize::from(why == Why::NoLine)] += 1;
            }
            random.edit(&mut book);
        }
    }
    // lines and none, of every kind but the Rust one, which always names a line
    assert!(seen.iter().all(|of_a_kind| of_a_kind[0] > 1_000));
    assert!(seen[Kind::Rust as usize][1] == 0);
    assert!(seen[Kind::Regular as usize][1] > 1_000);
    assert!(seen[Kind::ExportList as usize][1] > 1_000);
    Ok(())
}
