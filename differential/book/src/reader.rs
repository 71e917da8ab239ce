//! Document 01's 'Reading', and nothing of the proved library's own definitions: what is read of a
//! text, where each token starts, and where the text is refused. Slow and plain, one sentence of the
//! paper after the other. The places of refusals, and what the paper leaves open, are those of
//! docs/DECISIONS.md.

use host::refusal;
use reading_host::Source;

/// A refusal: its number, its place in the text, and, of an 8, what is full.
#[derive(Clone, Copy, Debug, PartialEq, Eq)]
pub struct Refused {
    pub number: u64,
    pub place: usize,
    pub full: Option<Full>,
}

/// A buffer without room for more, by its number, or one that has reached its limit.
#[derive(Clone, Copy, Debug, PartialEq, Eq)]
pub struct Full {
    pub buffer: usize,
    pub limit: bool,
}

impl Refused {
    pub fn new(number: u64) -> Self {
        Self {
            number,
            place: 0,
            full: None,
        }
    }

    /// As an opening answers it: the number, and 256 times the place.
    pub fn answer(&self) -> u64 {
        self.number + 256 * self.place as u64
    }

    fn at(self, place: usize) -> Self {
        Self { place, ..self }
    }
}

pub type Read<T> = Result<T, Refused>;

/// A token as it is read, with its blanks.
pub struct Token<'t> {
    /// Its first byte's place in the text, behind the skip before it.
    pub start: usize,
    pub bytes: &'t [u8],
    pub section: usize,
    pub language: usize,
    pub in_block: bool,
}

/// Who takes what is read, in order, and may refuse it.
pub trait Taker {
    fn node(&mut self, name: &[u8]) -> Read<()>;
    fn parent(&mut self, name: &[u8]) -> Read<()>;
    /// An extern block begins.
    fn block(&mut self, section: usize);
    fn line(&mut self, token: Token) -> Read<()>;
}

/// Reads a text whose length and, for a book, whose row 0 were asked before.
pub fn read(source: Source, text: &[u8], taker: &mut dyn Taker) -> Read<()> {
    let without_semicolon = source == Source::AddSymbolWithoutSemicolon;
    let mut reader = Reader {
        text,
        at: 0,
        without_semicolon,
        taker,
    };
    match source {
        Source::Script => reader.script(),
        Source::ExportList => reader.list(),
        // "Reads one matcher with no skip before it and ignores what is left."
        _ => reader.matcher(0),
    }
}

struct Reader<'t, 'k> {
    text: &'t [u8],
    at: usize,
    without_semicolon: bool,
    taker: &'k mut dyn Taker,
}

fn find(text: &[u8], words: &[u8]) -> Option<usize> {
    text.windows(words.len()).position(|part| part == words)
}

impl<'t> Reader<'t, '_> {
    fn rest(&self) -> &'t [u8] {
        &self.text[self.at..]
    }

    fn refuse<T>(&self, number: u64, place: usize) -> Read<T> {
        Err(Refused::new(number).at(place))
    }

    fn takes(&mut self, words: &[u8]) -> bool {
        let there = self.rest().starts_with(words);
        if there {
            self.at += words.len();
        }
        there
    }

    fn must_take(&mut self, words: &[u8]) -> Read<()> {
        match self.takes(words) {
            true => Ok(()),
            false => self.refuse(refusal::UNREADABLE, self.at),
        }
    }

    fn end(&self) -> Read<()> {
        match self.rest().is_empty() {
            true => Ok(()),
            false => self.refuse(refusal::UNREADABLE, self.at),
        }
    }

    /// "Spaces, tabs, CR, LF; `#` up to LF, which must come; `/*` up to the first `*/` that starts at
    /// least one byte after the `/`."
    fn skip(&mut self) -> Read<()> {
        loop {
            let length = match self.rest() {
                [b' ' | b'\t' | b'\r' | b'\n', ..] => Some(1),
                rest @ [b'#', ..] => find(rest, b"\n").map(|at| at + 1),
                [_, rest @ ..] if self.rest().starts_with(b"/*") => {
                    find(rest, b"*/").map(|at| 1 + at + 2)
                }
                _ => return Ok(()),
            };
            match length {
                Some(length) => self.at += length,
                None => return self.refuse(refusal::UNCLOSED, self.at),
            }
        }
    }

    /// "Skip. If `{` follows: one body, `;`, skip, end; node 0 holds the body. Otherwise node 0 is the
    /// empty base, then until the end: a name (one or more bytes outside space ( ) { } LF tab), skip,
    /// body, parent text up to `;` (raw, trailing blanks kept), `;`, skip."
    fn script(&mut self) -> Read<()> {
        self.skip()?;
        if self.rest().starts_with(b"{") {
            self.body()?;
            self.must_take(b";")?;
            self.skip()?;
            return self.end();
        }
        while !self.rest().is_empty() {
            let start = self.at;
            let ends = |byte: &u8| b" (){}\n\t".contains(byte);
            let name = self.rest().split(ends).next().unwrap_or_default();
            if name.is_empty() {
                return self.refuse(refusal::UNREADABLE, start);
            }
            self.at += name.len();
            let node = self.taker.node(name);
            node.map_err(|refused| refused.at(start))?;
            self.skip()?;
            self.body()?;
            let start = self.at;
            let Some(length) = find(self.rest(), b";") else {
                return self.refuse(refusal::UNREADABLE, start);
            };
            let parent = &self.rest()[..length];
            // "Empty parent text means none."
            if !parent.is_empty() {
                let parent = self.taker.parent(parent);
                parent.map_err(|refused| refused.at(start))?;
            }
            self.at += length;
            self.must_take(b";")?;
            self.skip()?;
        }
        Ok(())
    }

    /// "`{`, then repeatedly skip; `}` ends it and skips; `global:` and `local:` set the section (global
    /// at first); else a matcher."
    fn body(&mut self) -> Read<()> {
        self.must_take(b"{")?;
        let mut section = 0;
        loop {
            self.skip()?;
            if self.takes(b"}") {
                return self.skip();
            } else if self.takes(b"global:") {
                section = 0;
            } else if self.takes(b"local:") {
                section = 1;
            } else {
                self.matcher(section)?;
            }
        }
    }

    /// "Skip, `{`, matchers, `};` with nothing between, skip, end."
    fn list(&mut self) -> Read<()> {
        self.skip()?;
        self.must_take(b"{")?;
        loop {
            self.skip()?;
            if self.takes(b"};") {
                self.skip()?;
                return self.end();
            }
            self.matcher(0)?;
        }
    }

    /// "`extern ` (one space), then `"C++"` or `"C"`, …" "Otherwise a token: the bytes up to the first
    /// `;`, at least one." "With `without_semicolon` a bare token goes to the first `}` (at least one
    /// byte); where there is none it is all the text, empty too, and the skip after it starts at the
    /// text's first byte."
    fn matcher(&mut self, section: usize) -> Read<()> {
        let start = self.at;
        if self.takes(b"extern ") {
            return self.block(section, start);
        }
        let rest = self.rest();
        let token = |length: usize| Token {
            start,
            bytes: &rest[..length],
            section,
            language: 0,
            in_block: false,
        };
        let sign: &[u8] = if self.without_semicolon { b"}" } else { b";" };
        match find(rest, sign) {
            None if self.without_semicolon => self.line(start, token(rest.len())),
            None | Some(0) => self.refuse(refusal::UNREADABLE, start),
            Some(length) => self.line(start + length, token(length)),
        }
    }

    /// "… skip, `{`, tokens, `};`, skip; `extern ` within it is refused 4 at once." "In an extern block
    /// a token goes instead to the first `}` (at least one byte) when the remaining text has no `};`, or
    /// has one with no `;` before it." Without semicolon, "with no `};` left, tokens go to `;`".
    fn block(&mut self, section: usize, start: usize) -> Read<()> {
        let language = if self.takes(b"\"C++\"") {
            1
        } else if self.takes(b"\"C\"") {
            0
        } else {
            return self.refuse(refusal::BAD_EXTERN, start);
        };
        self.skip()?;
        self.must_take(b"{")?;
        self.taker.block(section);
        loop {
            self.skip()?;
            if self.takes(b"};") {
                return self.skip();
            }
            let (start, rest) = (self.at, self.rest());
            if rest.starts_with(b"extern ") {
                return self.refuse(refusal::BAD_EXTERN, start);
            }
            let semicolon = find(rest, b";");
            let to_brace = match find(rest, b"};") {
                Some(close) => semicolon > Some(close),
                None => !self.without_semicolon,
            };
            let length = match to_brace {
                true => match find(rest, b"}") {
                    Some(length) => length,
                    None => return self.refuse(refusal::UNCLOSED, start),
                },
                false => semicolon.unwrap_or(0),
            };
            if length == 0 {
                return self.refuse(refusal::UNREADABLE, start);
            }
            let token = Token {
                start,
                bytes: &rest[..length],
                section,
                language,
                in_block: true,
            };
            self.line(start + length, token)?;
        }
    }

    /// A token, and where it is followed: "skip; take a `;` if there". "The skip between a token and its
    /// `;` comes before its 1, 5, 6, 8."
    fn line(&mut self, behind: usize, token: Token) -> Read<()> {
        self.at = behind;
        self.skip()?;
        self.takes(b";");
        let start = token.start;
        let line = self.taker.line(token);
        line.map_err(|refused| refused.at(start))
    }
}
