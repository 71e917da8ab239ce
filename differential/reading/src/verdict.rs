//! How the two sides compare on one text.

/// Why a text lies outside the domain of equality. There it must be refused, or of a run of stars kept
/// as document 02, request 01, says, whatever the Rust does.
#[derive(Clone, Copy)]
pub enum Outside {
    Limit,
    /// A glob of it has a run of stars; whether the Rust takes the text.
    Run {
        taken: bool,
    },
    Endless,
}

/// The same in words, by their numbers.
pub const REASONS: [&str; 3] = [
    "over the limit",
    "a run of stars",
    "an extern block at which the Rust never ends",
];

impl Outside {
    fn number(self) -> usize {
        match self {
            Outside::Limit => 0,
            Outside::Run { .. } => 1,
            Outside::Endless => 2,
        }
    }
}

/// `A` is what is told of a text that both accept.
pub enum Verdict<A> {
    Accepted(A),
    Refused,
    Outside(Outside),
    Different(String),
}

impl<A> Verdict<A> {
    /// The number of the reason for which it lies outside, and whether both sides do as they must.
    pub fn judged(&self) -> (Option<usize>, bool) {
        match self {
            Verdict::Accepted(_) | Verdict::Refused => (None, true),
            Verdict::Outside(reason) => (Some(reason.number()), true),
            Verdict::Different(_) => (None, false),
        }
    }

    /// What is wrong with a text, where it differs.
    pub fn different(self) -> Option<String> {
        match self {
            Verdict::Different(what) => Some(what),
            _ => None,
        }
    }
}
