//! Our side: the events of a text, each row checked, become nodes, and these become what is kept,
//! by document 01's rules. The tokens are stored by the proved library.

use differential::domain::{negated, shape};
use host::{class, ours as tokens, refusal};
use reading_host::kept::{is_placed, Kept, KeptNode, Line, Matcher, Node};
use reading_host::ours::{kind, WIDTH};
use reading_host::Source;

/// A text that the reader accepts.
pub struct Read {
    pub nodes: Vec<Node>,
    /// Whether the script is one body, without a name.
    pub one_body: bool,
    /// Whether a token is refused as no glob; for its length; whether a glob has a run of stars.
    pub bad_glob: bool,
    pub over_the_limit: bool,
    pub runs: bool,
}

/// What can follow.
#[derive(Clone, Copy, PartialEq, Eq)]
enum Place {
    Start,
    BehindName,
    InBody,
    InExtern,
    BehindNode,
    Matcher,
    End,
}

struct Rows<'t> {
    source: Source,
    text: &'t [u8],
    place: Place,
    section: u64,
    language: u64,
    read: Read,
}

/// The nodes that the rows tell of, or what is wrong with the rows.
pub fn read(source: Source, text: &[u8], rows: &[u64]) -> Result<Read, String> {
    let mut walk = Rows {
        source,
        text,
        place: match source {
            Source::Script | Source::ExportList => Place::Start,
            Source::AddSymbol | Source::AddSymbolWithoutSemicolon => Place::Matcher,
        },
        section: 0,
        language: 0,
        read: Read {
            nodes: vec![Node::default()],
            one_body: false,
            bad_glob: false,
            over_the_limit: false,
            runs: false,
        },
    };
    for (number, row) in rows.chunks_exact(WIDTH).enumerate() {
        walk.take(row)
            .ok_or_else(|| format!("row {number} cannot be {row:?}"))?;
    }
    let whole = match source {
        Source::Script if walk.read.one_body => walk.place == Place::InBody,
        Source::Script => matches!(walk.place, Place::Start | Place::BehindNode),
        Source::ExportList => walk.place == Place::InBody,
        Source::AddSymbol | Source::AddSymbolWithoutSemicolon => walk.place == Place::End,
    };
    if whole {
        Ok(walk.read)
    } else {
        Err("the events end too early".to_string())
    }
}

impl<'t> Rows<'t> {
    /// One row; nothing where it cannot stand.
    fn take(&mut self, row: &[u64]) -> Option<()> {
        let &[kind, a, b, c, d] = row else {
            return None;
        };
        let script = self.source == Source::Script;
        self.place = match (kind, self.place) {
            (kind::NODE, Place::Start | Place::BehindNode) if script && [c, d] == [0; 2] => {
                let name = self.part(a, b)?.to_vec();
                self.read.nodes.push(Node {
                    name,
                    ..Default::default()
                });
                Place::BehindName
            }
            (kind::BODY, Place::Start | Place::BehindName) if [a, b, c, d] == [0; 4] => {
                self.read.one_body = script && self.place == Place::Start;
                self.section = 0;
                Place::InBody
            }
            (kind::SECTION, Place::InBody) if script && a < 2 && [b, c, d] == [0; 3] => {
                self.section = a;
                Place::InBody
            }
            (kind::EXTERN, Place::InBody | Place::Matcher)
                if a == self.section && b < 2 && [c, d] == [0; 2] =>
            {
                self.language = b;
                self.matchers().push(Matcher::Extern {
                    language: b as usize,
                    lines: Vec::new(),
                });
                Place::InExtern
            }
            (kind::CLOSED, Place::InExtern) if [a, b, c, d] == [0; 4] => self.behind_matcher(),
            (kind::LINE, Place::InExtern) if [a, b] == [self.section, self.language] => {
                let line = self.line(c, d)?;
                let Some(Matcher::Extern { lines, .. }) = self.matchers().last_mut() else {
                    return None;
                };
                lines.push(line);
                Place::InExtern
            }
            (kind::LINE, Place::InBody | Place::Matcher) if [a, b] == [self.section, 0] => {
                let line = self.line(c, d)?;
                self.matchers().push(Matcher::Bare(line));
                self.behind_matcher()
            }
            (kind::PARENT, Place::InBody) if script && !self.read.one_body && [c, d] == [0; 2] => {
                self.node().parent = self.part(a, b)?.to_vec();
                Place::BehindNode
            }
            _ => return None,
        };
        Some(())
    }

    fn behind_matcher(&self) -> Place {
        match self.source {
            Source::Script | Source::ExportList => Place::InBody,
            Source::AddSymbol | Source::AddSymbolWithoutSemicolon => Place::End,
        }
    }

    fn node(&mut self) -> &mut Node {
        self.read.nodes.last_mut().expect("there is node 0")
    }

    fn matchers(&mut self) -> &mut Vec<Matcher> {
        let section = self.section as usize;
        &mut self.node().matchers[section]
    }

    fn part(&self, start: u64, length: u64) -> Option<&'t [u8]> {
        let start = start as usize;
        self.text.get(start..start + length as usize)
    }

    /// A token's line. One that is refused is marked, and one with a run of stars, of which we keep
    /// what document 02, request 01, says; both stand as the Rust would hold them.
    fn line(&mut self, start: u64, length: u64) -> Option<Line> {
        let token = self.part(start, length)?;
        let mut bytes = vec![0; token.len()];
        let answer = tokens::store(token, &mut bytes);
        let value = answer / 256;
        let class = host::published::class(token);
        let as_a_glob = negated(token);
        let shape = shape(&as_a_glob);
        let run = class::is_glob(class) && shape.runs;
        self.read.runs |= run;
        match answer % 256 {
            0 => {
                bytes.truncate(value as usize / 8);
                if !run {
                    let class = value % 8;
                    return Some(placed(class, bytes, start));
                }
                if value % 8 != class || shape.open || bytes != shape.kept.as_bytes() {
                    return None;
                }
            }
            refusal::OVER_THE_LIMIT => self.read.over_the_limit = true,
            refusal::BAD_GLOB if run && !shape.open => return None,
            refusal::GLOB_NOT_UTF8 | refusal::BAD_GLOB => self.read.bad_glob = true,
            _ => return None,
        }
        Some(placed(class, as_a_glob.into_bytes(), start))
    }
}

/// A line whose token starts there, which is told where the Rust tells it.
fn placed(class: u64, bytes: Vec<u8>, start: u64) -> Line {
    Line {
        class,
        bytes,
        place: is_placed(class).then_some(start as usize),
    }
}

impl Read {
    /// What is kept, as the Rust would hold it; nothing where a parent is unknown.
    pub fn kept(&self) -> Option<Kept> {
        if self.one_body && self.rust_kind() {
            let listed = self.nodes[0].matchers[0].iter().flat_map(Matcher::lines);
            return Some(Kept::Listed(
                listed.map(|line| line.bytes.clone()).collect(),
            ));
        }
        let nodes = self.nodes.iter().enumerate();
        let kept = nodes.map(|(number, node)| {
            let mut kept = KeptNode {
                name: node.name.clone(),
                parent: self.parent(number)?,
                lines: Default::default(),
            };
            for (matchers, lines) in node.matchers.iter().zip(&mut kept.lines) {
                for matcher in matchers {
                    for line in matcher.lines() {
                        lines[matcher.language()].push(line.class, line.bytes.clone());
                    }
                }
            }
            Some(kept)
        });
        kept.collect::<Option<_>>().map(Kept::Nodes)
    }

    /// "Empty parent text means none; otherwise it equals an earlier node's name, the first such."
    /// Nothing where it is unknown.
    fn parent(&self, number: usize) -> Option<Option<usize>> {
        let text = &self.nodes[number].parent;
        if text.is_empty() {
            return Some(None);
        }
        let mut earlier = self.nodes[..number].iter();
        earlier.position(|node| node.name == *text).map(Some)
    }

    /// "A bare `*;` among its locals (outside extern) and only Exact lines, outside extern, as
    /// globals; an extern block among the globals, even an empty one, makes it Regular."
    fn rust_kind(&self) -> bool {
        let [globals, locals] = &self.nodes[0].matchers;
        let bare = |matcher: &Matcher, class| match matcher {
            Matcher::Bare(line) => line.class == class,
            Matcher::Extern { .. } => false,
        };
        globals.iter().all(|matcher| bare(matcher, class::EXACT))
            && locals.iter().any(|matcher| bare(matcher, class::ALL))
    }
}
