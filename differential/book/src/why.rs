//! Document 02's request 03: what decides over a name, and what is told of it.

use crate::kind;
use crate::model::Line;
use crate::questions::What;

/// How many numbers tell it.
pub const NUMBERS: usize = 7;

#[derive(Clone, Copy, Debug, PartialEq, Eq)]
pub enum Why {
    NoLine,
    Line(Reason),
    /// "When the `@` part decided."
    Wanted,
}

/// "The deciding line's number, class, node, section, language and offset."
#[derive(Clone, Copy, Debug, PartialEq, Eq)]
pub struct Reason {
    pub line: usize,
    pub class: u64,
    pub node: usize,
    pub section: usize,
    pub language: usize,
    pub offset: usize,
}

impl Reason {
    pub fn of(number: usize, line: &Line) -> Self {
        Self {
            line: number,
            class: line.class,
            node: line.node,
            section: line.section,
            language: line.language,
            offset: line.offset,
        }
    }
}

impl Why {
    /// What the numbers say; nothing where no answer has them.
    pub fn of(numbers: [u32; NUMBERS]) -> Option<Why> {
        let [what, told @ ..] = numbers.map(|number| number as usize);
        let [line, class, node, section, language, offset] = told;
        let why = match what {
            0 => Why::NoLine,
            1 => Why::Line(Reason {
                line,
                class: class as u64,
                node,
                section,
                language,
                offset,
            }),
            _ => Why::Wanted,
        };
        (why.numbers() == numbers).then_some(why)
    }

    /// As they are written: what decides, then the line's own, zeros where there is none.
    pub fn numbers(&self) -> [u32; NUMBERS] {
        match self {
            Why::NoLine => [0; NUMBERS],
            Why::Line(reason) => {
                let Reason {
                    line,
                    class,
                    node,
                    section,
                    language,
                    offset,
                } = *reason;
                let told = [line, class as usize, node, section, language, offset];
                let [line, class, node, section, language, offset] = told.map(|told| told as u32);
                [1, line, class, node, section, language, offset]
            }
            Why::Wanted => [2, 0, 0, 0, 0, 0, 0],
        }
    }

    /// What a question of a book of this kind is answered for this reason; nothing where the wanted
    /// version decides, which it does not tell.
    pub fn gives(&self, kind: u32, what: What) -> Option<u32> {
        Some(match (self, what) {
            (Why::Wanted, _) => return None,
            (Why::NoLine, _) => 0,
            // "Index is 1 plus number"; "node 0 answers none"; for the Rust kind "always none".
            (Why::Line(Reason { node: 0, .. }), What::Version) => 0,
            (Why::Line(_), What::Version) if kind == kind::RUST => 0,
            (Why::Line(reason), What::Version) => 1 + reason.node as u32,
            // "Locality is the deciding section."
            (Why::Line(reason), What::Locality) => 1 + reason.section as u32,
            (Why::Line(_), What::Membership) => 1,
        })
    }
}
