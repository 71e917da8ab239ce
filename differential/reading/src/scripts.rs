//! Inputs of a reader: the words of the grammar, frames to set texts into, texts at which a rule is
//! easily read two ways, and random scripts, well formed and damaged.

use differential::inputs::{every, long, Random};
use reading_host::Source;

/// The words that mean something to a reader, two letters, and a star.
pub const WORDS: [&[u8]; 17] = [
    b"{", b"}", b";", b"};", b" ", b"\n", b"#", b"/*", b"*/", b"extern ", b"\"C\"", b"\"C++\"",
    b"global:", b"local:", b"a", b"*", b"A",
];

/// The bytes that mean something to a reader or in a token, blanks of every kind, and bytes that
/// are not ASCII.
pub const BYTES: [&[u8]; 22] = [
    b" ", b"\t", b"\r", b"\n", b"\x0b", b"\x0c", b"(", b")", b"{", b"}", b";", b"#", b"/", b"*",
    b"\"", b"\\", b"[", b"]", b"a", b"\0", b"\xc3", b"\xa9",
];

/// What stands before and behind a text, so that it is read at each place of the grammar.
pub const FRAMES: [[&[u8]; 2]; 9] = [
    [b"", b""],
    [b"{", b"};"],
    [b"A{", b"};"],
    [b"A{};a{}", b";"],
    [b"{local:a;", b"*;};"],
    [b"{extern \"C\"{", b"};};"],
    [b"{extern \"C++\"{", b""],
    [b"extern \"C\"{", b"};"],
    [b"extern \"C++\"{", b""],
];

/// Texts at which document 01 could be read two ways, or at which a reader is easily wrong.
pub const DOUBTFUL: [&[u8]; 78] = [
    b"/*/{};",
    b"A {}; B {}; A {}; C {} A;",
    b"V { extern \"C++\" { f; }; local: f; };",
    b"{ extern \"C\" { f",
    b"A {}; B {} A ;",
    b"{ extern x; };",
    b"{ extern  \"C\" { f; }; };",
    b"{ extern ",
    b"{ extern \"C\" { }",
    b"{ extern \"C\" {",
    b"{ extern \"C\" { [",
    b"{ extern \"C\" { extern ",
    b"{ extern \"C\" { a; /* }; */ b",
    b"{ extern \"C\" { ;",
    b"{ extern \"C\" { ;#",
    b"{ extern \"C\" { # }\n b",
    b"{ extern \"C\" { f /* ; */ g }; };",
    b"{ f /*c*/; };",
    b"{ extern \"C\" { f } };",
    b"{ extern \"C\" { global: f; }; };",
    b"{ global : f; };",
    b"{ global:local:f; };",
    b"{ extern \"C\" { a} ; b }; };",
    b"{ f; } ;",
    b"{ f; };",
    b"{ f }; };",
    b"{ f; }; x",
    b"A {} B;",
    b"A {}; B {} A/*c*/;",
    b"A {}; B {} /*c*/A;",
    b"A {}; B {} A\n;",
    b"A {} #x;",
    b"A {} #x\n;",
    b"A {}",
    b"A;b {}; C {} A;",
    b"A\r\n{};",
    b"A\r {}; B {} A\r;",
    b"A\"#/* {};",
    b"\xff {}; B {} \xff;",
    b"{ \x0c; };",
    b"{ ;; };",
    b"{ a;; };",
    b"{ \x0b a \x0b; };",
    b"{ [; };",
    b"{ \xff?; };",
    b"{ \xff; };",
    b"{ a**b; };",
    b"{ **; };",
    b"{ ***; };",
    b"{ a/**/b; };",
    b"{ **/a; };",
    b"{ a[^**]**; };",
    b"{ \\**; };",
    b"{ [**; };",
    b"{ **[; };",
    b"{ global: a; local: **; };",
    b"{ *; };",
    b"{ global: a; local: *; };",
    b"{ global: a; a; \"*\"; local: * ; b; };",
    b"{ global: extern \"C\" { }; local: *; };",
    b"{ local: extern \"C\" { *; }; };",
    b"{ global: a\\*; local: *; };",
    b"{ local: *; };",
    b"A { local: *; };",
    b"",
    b" # c\n/**/",
    b"{};{};",
    b"A{}; {};",
    b"(A {};",
    b"A( {};",
    b"f;",
    b"a;b}c",
    b"f #x",
    b"#x}",
    b"#x",
    b"#x\nf",
    b"extern \"C\" { f; }; #x",
    b"extern \"C\" { a; b",
];

/// What a skip takes, most often nothing or a blank.
const GAPS: [&[u8]; 20] = [
    b"",
    b"",
    b"",
    b"",
    b" ",
    b" ",
    b" ",
    b"\n",
    b"\t",
    b"\r\n",
    b"  ",
    b"#\n",
    b" # c\n",
    b"# a; }; b {\n",
    b"/**/",
    b"/*/",
    b"/* c */",
    b"/* }; */",
    b"/* ; } # */\n",
    b"/* * / */",
];

const NAMES: [&[u8]; 16] = [
    b"A",
    b"A",
    b"A",
    b"B",
    b"B",
    b"C",
    b"HAZE_1",
    b"HAZE_2",
    b"V1.2",
    b"A;b",
    b"x\"y",
    b"A\r",
    b"\xc3\xa9",
    b"\xff",
    b"local:",
    b"extern",
];

const TOKENS: [&[u8]; 24] = [
    b"a",
    b"b",
    b"haze_month",
    b"haze_*",
    b"haze_?",
    b"*",
    b"*",
    b"\"*\"",
    b"\"a b\"",
    b"\"",
    b"a\\*b",
    b"a\\",
    b"?\\*",
    b"[]]",
    b"[^a]b",
    b"[",
    b"a**",
    b"f(int, char const*)",
    b"ns::f::operator[]",
    b"a /* c */ b",
    b"global",
    b"local :a",
    b"extern\"C\"",
    b"\xff",
];

const BLANKS: [&[u8]; 10] = [
    b"", b"", b"", b"", b" ", b"\t", b"\n", b"\x0c", b" \r\n", b"\x0b",
];

/// The kinds of random texts, by what they are mostly well formed as.
#[derive(Clone, Copy)]
pub enum Kind {
    Nodes,
    OneBody,
    RustKind,
    ExportList,
    Matcher,
    Bare,
    /// With no plan.
    Words,
}

impl Kind {
    pub const ALL: [Kind; 7] = [
        Kind::Nodes,
        Kind::OneBody,
        Kind::RustKind,
        Kind::ExportList,
        Kind::Matcher,
        Kind::Bare,
        Kind::Words,
    ];

    /// What a text that is to be a book is opened as.
    pub fn source(self) -> Source {
        match self {
            Kind::ExportList => Source::ExportList,
            _ => Source::Script,
        }
    }
}

pub fn random(random: &mut Random, kind: Kind) -> Vec<u8> {
    let mut script = Script {
        random,
        text: Vec::new(),
    };
    match kind {
        Kind::Nodes => script.nodes(),
        Kind::OneBody => script.one_body(),
        Kind::RustKind => script.rust_kind(),
        Kind::ExportList => script.list(),
        Kind::Matcher => script.matcher(),
        Kind::Bare => script.bare(),
        Kind::Words => script.words(),
    }
    script.text
}

/// One byte less, one more, or another one.
pub fn damaged(random: &mut Random, text: &[u8]) -> Vec<u8> {
    let mut text = text.to_vec();
    let at = random.below(text.len() + 1);
    let kind = random.below(3);
    let byte = match random.below(3) {
        0 => random.below(256) as u8,
        1 => random.pick(&BYTES)[0],
        _ => random.pick(b"{};\"# \n"),
    };
    if kind > 0 && at < text.len() {
        text.remove(at);
    }
    if kind < 2 {
        text.insert(at, byte);
    }
    text
}

/// Every text of at most so many pieces, in each frame.
pub fn framed(frames: &[[&[u8]; 2]], pieces: &[&[u8]], most: usize, take: &mut dyn FnMut(&[u8])) {
    for [front, back] in frames {
        let mut framed = Vec::new();
        every(pieces, most, &mut |text| {
            framed.clear();
            framed.extend_from_slice(front);
            framed.extend_from_slice(text);
            framed.extend_from_slice(back);
            take(&framed);
        });
    }
}

/// In each round, a random text of each kind, and five copies with one byte damaged. What takes
/// them may draw numbers too.
pub fn whole_and_damaged(
    random: &mut Random,
    kinds: &[Kind],
    rounds: u64,
    take: &mut dyn FnMut(&mut Random, &[u8]),
) {
    for _ in 0..rounds {
        for &kind in kinds {
            let text = self::random(random, kind);
            take(random, &text);
            for _ in 0..5 {
                let text = damaged(random, &text);
                take(random, &text);
            }
        }
    }
}

/// Blocks within blocks, closed and not closed.
pub fn nested(take: &mut dyn FnMut(&[u8])) {
    for count in [1, 2, 3, 10, 100, 1000, 5000] {
        let open = b"extern \"C\"{".repeat(count);
        for inside in [&b""[..], b"a;", b"a", b";"] {
            for closed in [0, 1, count - 1, count] {
                let close = b"};".repeat(closed);
                for [front, back] in [[&b""[..], &b""[..]], [b"{", b"};"], [b"A {", b"};"]] {
                    take(&[front, &open, inside, &close, back].concat());
                }
            }
        }
    }
}

/// Texts of the longest lengths that are taken, and of up to two bytes less and more; tokens of the
/// longest length, with blanks behind them.
pub fn limits(take: &mut dyn FnMut(&[u8])) {
    let block = [b"b".repeat(60_000), b";".to_vec()].concat();
    let shapes: [[&[u8]; 3]; 16] = [
        [b"{", b"a;", b";};"],
        [b"{", b"haze_month;\n", b";};"],
        [b"{", b" ", b"};"],
        [b"{", b" ", b"a;};"],
        [b"A{/*", b"c", b"*/\"a\";};"],
        [b"", b"\n", b"{};"],
        [b"{/*", b"c", b"*/};"],
        [b"{};#", b"c", b"\n"],
        [b"", b"A", b"{};"],
        [b"", b"A{};", b"{};"],
        [b"A{}", b"p", b";"],
        [b"{extern \"C\"{", &block, b"};};"],
        [b"extern \"C++\"{", &block, b"};"],
        [b"extern \"C\"{};", b" ", b"\n"],
        [b"", b"a", b";"],
        [b"\"", b"*", b"\""],
    ];
    for shape in shapes {
        for limit in [Source::Script.limit(), Source::AddSymbol.limit()] {
            for length in limit - 2..=limit + 2 {
                take(&long(shape, length));
            }
        }
    }
    let limit = Source::AddSymbol.limit();
    for length in limit - 2..=limit + 2 {
        for token in [
            long([b"", b"a", b""], length),
            long([b"\"", b"a", b"\""], length),
            long([b"", b"\\*", b""], length),
            long([b"*", b"a", b"?"], length),
            long([b"?", b"a", b"["], length),
        ] {
            for [front, back] in [
                [&b"{"[..], &b";};"[..]],
                [b"{", b" \t;};"],
                [b"{extern \"C\"{", b"\n};};"],
                [b"A{", b"};"],
            ] {
                take(&[front, &token, back].concat());
            }
        }
    }
}

struct Script<'r> {
    random: &'r mut Random,
    text: Vec<u8>,
}

impl Script<'_> {
    fn put(&mut self, text: &[u8]) {
        self.text.extend_from_slice(text);
    }

    fn pick(&mut self, from: &[&[u8]]) {
        let text = self.random.pick(from);
        self.put(text);
    }

    fn gap(&mut self) {
        while {
            self.pick(&GAPS);
            self.random.one_in(4)
        } {}
    }

    fn nodes(&mut self) {
        self.gap();
        let mut names: Vec<&[u8]> = Vec::new();
        for _ in 0..self.random.below(4) {
            let name = self.random.pick(&NAMES);
            self.put(name);
            self.pick(&[b" ", b" ", b"\n", b"", b"\t/* c */"]);
            self.body();
            match self.random.below(8) {
                0..=3 if !names.is_empty() => {
                    let parent = self.random.pick(&names);
                    self.put(parent);
                }
                4 if self.random.one_in(4) => self.pick(&NAMES),
                5 if self.random.one_in(4) => self.pick(&BLANKS),
                _ => {}
            }
            self.put(b";");
            self.gap();
            names.push(name);
        }
    }

    fn one_body(&mut self) {
        self.gap();
        self.body();
        self.put(b";");
        self.gap();
    }

    /// A body whose globals are mostly Exact, and whose locals have a `*`.
    fn rust_kind(&mut self) {
        self.put(b"{");
        self.pick(&[b"global:", b"", b"\n"]);
        for _ in 0..self.random.below(4) {
            self.gap();
            match self.random.below(12) {
                0 => self.matcher(),
                _ => self.pick(&[b"a;", b"haze_day ;", b"\"*\";", b"\"a\\b\"\t;", b"\xff;"]),
            }
        }
        self.gap();
        self.put(b"local:");
        self.gap();
        if self.random.one_in(4) {
            self.matcher();
        }
        self.pick(&[
            b"*;",
            b"* ;",
            b"*;*;",
            b"*\n;",
            b"\"*\";",
            b"extern \"C\"{*;};",
        ]);
        self.gap();
        self.put(b"};");
    }

    fn body(&mut self) {
        self.put(b"{");
        for _ in 0..self.random.below(6) {
            self.gap();
            match self.random.below(6) {
                0 => self.put(b"global:"),
                1 => self.put(b"local:"),
                _ => self.matcher(),
            }
        }
        self.gap();
        self.put(b"}");
        self.gap();
    }

    fn list(&mut self) {
        self.gap();
        self.put(b"{");
        for _ in 0..self.random.below(6) {
            self.gap();
            self.matcher();
        }
        self.gap();
        self.put(b"};");
        self.gap();
    }

    fn matcher(&mut self) {
        if self.random.one_in(4) {
            self.block();
        } else {
            self.token();
            self.put(b";");
        }
    }

    fn block(&mut self) {
        self.put(b"extern ");
        match self.random.below(24) {
            0 => self.pick(&[b" \"C\"", b"\"D\"", b"C", b"\"C+\"", b""]),
            1..=12 => self.put(b"\"C\""),
            _ => self.put(b"\"C++\""),
        }
        self.gap();
        self.put(b"{");
        let count = self.random.below(5);
        for number in 0..count {
            self.gap();
            match self.random.below(48) {
                0 => self.block(),
                _ => self.token(),
            }
            if number + 1 < count || self.random.one_in(2) {
                self.put(b";");
                self.gap();
            }
        }
        match self.random.below(24) {
            0 => self.pick(&[b"} ;", b"}", b"", b"}}"]),
            _ => self.put(b"};"),
        }
        self.gap();
    }

    /// A token, and blanks behind it.
    fn token(&mut self) {
        if self.random.one_in(3) {
            let length = 1 + self.random.below(10);
            let mut token = match self.random.below(3) {
                0 => self.random.text(length),
                _ => self.random.pair(length).0,
            };
            if !self.random.one_in(16) {
                token.retain(|byte| !b";}".contains(byte));
            }
            self.put(&token);
        } else {
            self.pick(&TOKENS);
        }
        self.pick(&BLANKS);
    }

    /// As it stands on a command line.
    fn bare(&mut self) {
        match self.random.below(4) {
            0 => self.block(),
            _ => self.token(),
        }
        if self.random.one_in(4) {
            self.pick(&[b";", b"}", b"};", b"a", b"\n"]);
        }
    }

    fn words(&mut self) {
        for _ in 0..self.random.below(20) {
            match self.random.below(8) {
                0 => self.pick(&BYTES),
                1 => self.pick(&TOKENS),
                _ => self.pick(&WORDS),
            }
        }
    }
}
