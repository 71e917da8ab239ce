//! Questions of names, and who answers them: the proved library, and the published Rust over a text
//! that it holds. What document 01 answers stands in `ranking`.

use crate::buffers::Buffers;
use crate::limit;
use crate::ours::{self, Name};
use crate::why::NUMBERS;
use host::refusal;
use reading_host::asked::{demangler_answers, First, List, Script, Symbol};
use reading_host::Source;

/// Why a question lies outside the domain of equality. It must be refused there.
#[derive(Clone, Copy, Debug, PartialEq, Eq)]
pub enum Outside {
    Limit,
    Name,
}

impl Outside {
    /// In words, by their numbers.
    pub const REASONS: [&'static str; 2] = ["a name over the limit", "a name that is not UTF-8"];

    pub fn refusal(self) -> u64 {
        [refusal::OVER_THE_LIMIT, refusal::NAME_NOT_UTF8][self as usize]
    }
}

/// What is asked of a name.
#[derive(Clone, Copy, Debug, PartialEq, Eq)]
pub enum What {
    Version,
    Locality,
    Membership,
}

impl What {
    /// What can be asked of a book that is opened from this source.
    pub fn of(source: Source) -> &'static [What] {
        match source {
            Source::ExportList => &[What::Membership],
            _ => &[What::Version, What::Locality],
        }
    }
}

/// A question. Without a demangled name the raw one is given again; a version is wanted or not.
#[derive(Clone)]
pub struct Question {
    pub what: What,
    pub raw: Vec<u8>,
    pub demangled: Option<Vec<u8>>,
    pub wanted: Option<Vec<u8>>,
}

impl Question {
    pub fn name(&self) -> Name<'_> {
        let raw = &self.raw[..];
        Name {
            raw,
            demangled: self.demangled.as_deref().unwrap_or(raw),
        }
    }

    /// Whether equality is asked of it.
    pub fn is_within(&self) -> bool {
        self.outside().is_none()
    }

    pub fn outside(&self) -> Option<Outside> {
        let Name { raw, demangled } = self.name();
        let wanted = self.wanted.as_deref().unwrap_or_default();
        let utf8 = |name| std::str::from_utf8(name).is_ok();
        if raw.len() > limit::RAW
            || demangled.len() > limit::DEMANGLED
            || wanted.len() > limit::WANTED
        {
            Some(Outside::Limit)
        } else if !(utf8(raw) && utf8(demangled)) {
            Some(Outside::Name)
        } else {
            None
        }
    }

    /// The library's answer.
    pub fn ours(&self, book: &Buffers) -> Result<u32, u64> {
        let name = self.name();
        match self.what {
            What::Version => ours::version(book, name, self.wanted.as_deref()),
            What::Locality => ours::locality(book, name),
            What::Membership => ours::contains(book, name),
        }
    }

    /// The library's answer to why, of the same name and wanted version, whatever is asked of them.
    pub fn why(&self, book: &Buffers) -> Result<[u32; NUMBERS], u64> {
        ours::why(book, self.name(), self.wanted.as_deref())
    }
}

/// What the Rust holds of a text.
pub enum Held<'t> {
    Script(Script<'t>),
    List(List<'t>),
}

impl<'t> Held<'t> {
    /// Nothing where it refuses the text.
    pub fn parse(source: Source, text: &'t [u8]) -> Option<Self> {
        Some(match source {
            Source::ExportList => Held::List(List::parse(text)?),
            _ => Held::Script(Script::parse(text)?),
        })
    }

    /// The counts of versions and parents that it gives for a script.
    pub fn counts(&self) -> Option<[u32; 2]> {
        match self {
            Held::Script(script) => Some(script.counts().map(u32::from)),
            Held::List(_) => None,
        }
    }

    /// The Rust's answer to a question within the domain, in the library's numbers. For the Rust kind,
    /// locality is document 01's: "global for listed names, else local".
    pub fn answer(&self, question: &Question) -> Result<u32, u64> {
        demangled_as(question);
        let symbol = Symbol::new(&question.raw);
        match (self, question.what) {
            (Held::Script(script), What::Version) => {
                let version = script.version(&symbol, question.wanted.as_deref());
                let index = version.ok_or(refusal::UNKNOWN_VERSION)?;
                Ok(index.map_or(0, u32::from))
            }
            (Held::Script(script), What::Locality) => Ok(match script.listed() {
                Some(listed) if listed.contains(&&question.raw[..]) => 1,
                Some(_) => 2,
                None => script
                    .deciding(&symbol)
                    .map_or(0, |(_, section)| 1 + section as u32),
            }),
            (Held::List(list), What::Membership) => Ok(u32::from(list.contains(&symbol))),
            _ => Err(refusal::WRONG_KIND),
        }
    }

    /// Which line of this node, section, language and class matches a name first, by the Rust's own
    /// sets, patterns and marks, as far as they tell. An export list is the globals of node 0, and the
    /// Rust kind's exact globals are those that are listed; of its locals the Rust keeps nothing.
    pub fn first(
        &self,
        [node, section, language]: [usize; 3],
        class: u64,
        name: &[u8],
    ) -> Option<First> {
        match self {
            Held::Script(script) => script.first([node, section, language], class, name),
            Held::List(list) if section == 0 => list.first(language, class, name),
            Held::List(_) => None,
        }
    }

    /// Which node of a script decides over a question's name, and by which section, by `find_match`.
    /// The Rust kind has no nodes.
    pub fn deciding(&self, question: &Question) -> Option<(usize, usize)> {
        match self {
            Held::Script(script) => {
                demangled_as(question);
                script.deciding(&Symbol::new(&question.raw))
            }
            Held::List(_) => None,
        }
    }
}

/// Has the demangler answer the question's demangled name.
fn demangled_as(question: &Question) {
    let text = |name| std::str::from_utf8(name).expect("names are UTF-8 here");
    demangler_answers(question.demangled.as_deref().map(text));
}
