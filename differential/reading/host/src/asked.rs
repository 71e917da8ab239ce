//! What the published Rust answers of a symbol's name, over a script or an export list that it holds.

use crate::export_list::{self, ExportList};
use crate::hash::PreHashed;
use crate::input_data::ScriptData;
use crate::linker_script::if_it_ends;
use crate::standins::symbolic_demangle;
use crate::symbol::UnversionedSymbolName;
use crate::version_script::{self, VersionScript};

/// A symbol's name, with its hash, as the linker has it.
pub struct Symbol<'n>(PreHashed<UnversionedSymbolName<'n>>);

impl<'n> Symbol<'n> {
    pub fn new(raw: &'n [u8]) -> Self {
        Self(UnversionedSymbolName::prehashed(raw))
    }
}

/// What the demangler answers from now on, whatever it is asked: a name, or that it knows none.
pub fn demangler_answers(name: Option<&str>) {
    symbolic_demangle::answer(name);
}

/// Which of the lines of one node, section, language and class matches a name first, as far as the Rust
/// tells it.
#[derive(Clone, Copy, Debug, PartialEq, Eq)]
pub enum First {
    /// An exact one: where its token starts in the text.
    At(usize),
    /// A glob: its number among these lines.
    Number(usize),
    /// An escaped one, or a `*`: no more than that there is one.
    Untold,
}

/// A version script that is accepted, and its text.
pub struct Script<'t>(VersionScript<'t>, &'t [u8]);

impl<'t> Script<'t> {
    pub fn parse(text: &'t [u8]) -> Option<Self> {
        let parse = || VersionScript::parse(ScriptData { raw: text }).ok();
        if_it_ends(parse)?.map(|script| Self(script, text))
    }

    /// The counts of versions and of parents.
    pub fn counts(&self) -> [u16; 2] {
        [self.0.version_count(), self.0.parent_count()]
    }

    /// The version's index, or none; nothing where an unknown version is wanted.
    #[inline]
    pub fn version(&self, symbol: &Symbol, wanted: Option<&[u8]>) -> Option<Option<u16>> {
        let answer = self.0.version_for_symbol(&symbol.0, wanted);
        answer.ok().map(|index| index.map(|index| index.0))
    }

    /// Which node decides, and by which section (1 for local).
    pub fn deciding(&self, symbol: &Symbol) -> Option<(usize, usize)> {
        version_script::probe::deciding(&self.0, &symbol.0)
    }

    /// Which line of this node, section, language and class matches a name first.
    pub fn first(&self, place: [usize; 3], class: u64, name: &[u8]) -> Option<First> {
        version_script::probe::first_of_script(self.1, &self.0, place, class, name)
    }

    /// The globals that a script of the Rust kind lists.
    pub fn listed(&self) -> Option<&[&'t [u8]]> {
        match &self.0 {
            VersionScript::Regular(_) => None,
            VersionScript::Rust(script) => Some(&script.global),
        }
    }
}

/// An export list that is accepted, and its text.
pub struct List<'t>(ExportList<'t>, &'t [u8]);

impl<'t> List<'t> {
    pub fn parse(text: &'t [u8]) -> Option<Self> {
        let parse = || ExportList::parse(ScriptData { raw: text }).ok();
        if_it_ends(parse)?.map(|list| Self(list, text))
    }

    /// Which line of this language and class matches a name first.
    pub fn first(&self, language: usize, class: u64, name: &[u8]) -> Option<First> {
        export_list::probe::first_of_list(self.1, &self.0, language, class, name)
    }

    pub fn contains(&self, symbol: &Symbol) -> bool {
        self.0.contains(&symbol.0)
    }
}
