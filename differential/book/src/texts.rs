//! Scripts and export lists over few stems, so that their lines come close to one another, and names
//! that come close to a book's lines.

use crate::model::{Line, Model};
use differential::domain::{has_run, negated};
use differential::inputs::{Random, DAMAGE};
use host::{class, published};
use reading::scripts::Kind;

/// What tokens and names are made of.
const STEMS: [&str; 20] = [
    "f",
    "g",
    "fx",
    "fxy",
    "haze",
    "haze_day",
    "haze_month",
    "_ZN2ns1fEi",
    "f(int)",
    "ns::f(int)",
    "ns::g(char const*)",
    "ns::v::operator[](int)",
    "\u{e9}",
    "f\u{e9}",
    "a*b",
    "x?y",
    "a[b",
    "]",
    "a\\b",
    "f ",
];

/// Names of nodes; some more often, so that several nodes have one.
const NODES: [&str; 9] = ["A", "A", "A", "B", "B", "V1", "V1.2", "A;b", "\u{e9}"];

/// A script or an export list that is accepted, of one of the kinds that can be books.
pub fn text(random: &mut Random, kind: Kind) -> Vec<u8> {
    Text::new(random).of(kind)
}

/// The same with runs of stars, which the Rust may refuse.
pub fn with_runs(random: &mut Random, kind: Kind) -> Vec<u8> {
    let mut text = Text::new(random);
    text.runs = true;
    text.of(kind)
}

/// A token over the stems, which can be one that is refused.
pub fn token(random: &mut Random) -> Vec<u8> {
    Text::new(random).any_token().into_bytes()
}

/// A matcher that is accepted, with blanks behind it.
pub fn matcher(random: &mut Random) -> Vec<u8> {
    let mut text = Text::new(random);
    text.matcher();
    text.text
}

struct Text<'r> {
    random: &'r mut Random,
    stems: Vec<&'static str>,
    /// Whether some stars become runs.
    runs: bool,
    text: Vec<u8>,
}

impl<'r> Text<'r> {
    fn new(random: &'r mut Random) -> Self {
        let count = 2 + random.below(4);
        let stems = (0..count).map(|_| random.pick(&STEMS)).collect();
        Self {
            random,
            stems,
            runs: false,
            text: Vec::new(),
        }
    }

    fn of(mut self, kind: Kind) -> Vec<u8> {
        match kind {
            Kind::Nodes => self.nodes(),
            Kind::RustKind => self.rust_kind(),
            Kind::ExportList => self.list(),
            _ => self.one_body(),
        }
        self.text
    }

    fn put(&mut self, words: &str) {
        self.text.extend_from_slice(words.as_bytes());
    }

    fn nodes(&mut self) {
        let mut names: Vec<&str> = Vec::new();
        for _ in 0..1 + self.random.below(5) {
            let name = self.random.pick(&NODES);
            self.put(name);
            self.put(" ");
            self.body();
            if !names.is_empty() && self.random.one_in(2) {
                let parent = self.random.pick(&names);
                // A parent's text goes up to the first `;`.
                if !parent.contains(';') {
                    self.put(parent);
                }
            }
            self.put(";\n");
            names.push(name);
        }
    }

    fn one_body(&mut self) {
        self.body();
        self.put(";");
    }

    fn body(&mut self) {
        self.put("{ ");
        for _ in 0..self.random.below(6) {
            match self.random.below(5) {
                0 => self.put("global: "),
                1 | 2 => self.put("local: "),
                _ => {}
            }
            self.matcher();
        }
        self.put("} ");
    }

    fn list(&mut self) {
        self.put("{ ");
        for _ in 0..self.random.below(7) {
            self.matcher();
        }
        self.put("};");
    }

    /// Exact lines outside extern, and a bare `*` among the locals.
    fn rust_kind(&mut self) {
        self.put("{ global: ");
        for _ in 0..self.random.below(5) {
            let stem = self.stem();
            self.put(&format!("\"{stem}\"; "));
        }
        self.put("local: ");
        if self.random.one_in(3) {
            self.matcher();
        }
        self.put("*; };");
    }

    fn matcher(&mut self) {
        let language = match self.random.below(6) {
            0 | 1 => "extern \"C++\" { ",
            2 if self.random.one_in(2) => "extern \"C\" { ",
            _ => {
                self.token();
                return self.put("; ");
            }
        };
        self.put(language);
        for _ in 0..self.random.below(4) {
            self.token();
            self.put("; ");
        }
        self.put("}; ");
    }

    /// A token that both sides accept, and read alike wherever it stands.
    fn token(&mut self) {
        let token = loop {
            let token = self.any_token();
            let bytes = token.as_bytes();
            let class = published::class(bytes);
            if !token.trim_ascii().is_empty()
                && !token.contains([';', '{', '}', '#', '/', ':', '\n'])
                && published::store(bytes).is_ok()
                && !(class::is_glob(class) && has_run(&negated(bytes)))
            {
                break token;
            }
        };
        match self.runs {
            true => self.run(&token),
            false => self.put(&token),
        }
    }

    /// A token with more stars, or one that the Rust takes for folders.
    fn run(&mut self, token: &str) {
        let more = self.random.pick(&["**", "**", "***"]);
        let folders = self
            .random
            .pick(&["**", "**/f", "f/**", "f/**/g", "haze/**/f*"]);
        match self.random.below(4) {
            0 => self.put(folders),
            1 => self.put(token),
            _ => self.put(&token.replace('*', more)),
        }
    }

    fn any_token(&mut self) -> String {
        let stem = self.stem();
        let mut letters: Vec<char> = stem.chars().collect();
        let at = self.random.below(letters.len());
        match self.random.below(12) {
            0..=2 => return stem,
            3 => return format!("\"{stem}\""),
            4 => letters.insert(at, '\\'),
            5 => letters[at] = '?',
            6 => {
                let member = letters[at];
                let bracket = match self.random.below(4) {
                    0 => format!("[{member}]"),
                    1 => "[!z]".to_string(),
                    2 => format!("[^{member}x]"),
                    _ => "[a-z]".to_string(),
                };
                letters.splice(at..=at, bracket.chars());
            }
            7 => letters.insert(at, '*'),
            8 => {
                let end = at + self.random.below(letters.len() - at + 1);
                letters.splice(at..end, ['*']);
            }
            9 => letters.push('*'),
            10 => return "*".to_string(),
            _ => {
                let length = 1 + self.random.below(6);
                let (pattern, _) = self.random.pair(length);
                return String::from_utf8_lossy(&pattern).into_owned();
            }
        }
        letters.into_iter().collect()
    }

    /// One of the stems, at times with another behind it.
    fn stem(&mut self) -> String {
        let stem = self.random.pick(&self.stems);
        match self.random.one_in(4) {
            true => format!("{stem}{}", self.random.pick(&self.stems)),
            false => stem.to_string(),
        }
    }
}

/// A name that a line of the book matches or nearly matches; one in 64 is not UTF-8.
pub fn name(random: &mut Random, book: &Model) -> Vec<u8> {
    let mut name: Vec<char> = match random.below(8) {
        0..=5 if !book.lines.is_empty() => {
            let line = &book.lines[random.below(book.lines.len())];
            matched(random, line)
        }
        6 => String::from_utf8_lossy(&random.pair(6).1).chars().collect(),
        _ => random.pick(&STEMS).chars().collect(),
    };
    if random.one_in(3) {
        random.change(&mut name);
    }
    let mut name = String::from_iter(name).into_bytes();
    if random.one_in(64) {
        name.extend_from_slice(random.pick(&DAMAGE));
    }
    name
}

/// A name that the line matches, but for a bracket with `!` at times.
pub fn matched(random: &mut Random, line: &Line) -> Vec<char> {
    let bytes = String::from_utf8_lossy(&line.bytes);
    if line.class == class::ALL {
        return random.pick(&STEMS).chars().collect();
    }
    if !class::is_glob(line.class) {
        return bytes.chars().collect();
    }
    let mut name = Vec::new();
    let mut rest = bytes.chars();
    while let Some(sign) = rest.next() {
        match sign {
            '*' => name.extend((0..random.below(4)).map(|_| random.character())),
            '?' => name.push(random.character()),
            '[' => {
                // The first character never closes.
                let members = rest.as_str();
                let not = members.starts_with('!');
                let first = members.chars().nth(usize::from(not)).expect("it is closed");
                for _ in 0..1 + usize::from(not) {
                    rest.next();
                }
                rest.find(|&sign| sign == ']');
                name.push(if not { random.character() } else { first });
            }
            _ => name.push(sign),
        }
    }
    name
}

/// A version that is wanted: none, an empty one, one of the book, or hardly one of it.
pub fn wanted(random: &mut Random, book: &Model) -> Option<Vec<u8>> {
    let name = &book.nodes[random.below(book.nodes.len())].name;
    match random.below(5) {
        0 | 1 => None,
        2 if random.one_in(2) => Some(Vec::new()),
        3 => Some([name, random.pick(&NODES).as_bytes()].concat()),
        _ => Some(name.clone()),
    }
}
