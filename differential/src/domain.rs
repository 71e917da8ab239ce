//! Which patterns lie outside the domain of equality: those with a run of stars outside a bracket;
//! and what document 02, request 01, has the library keep of them. Written from the document, and
//! nothing of the proved library's own definitions.

/// The text of a glob with each `[^` as `[!`, as the Rust stores it; empty when the token is not
/// UTF-8, which both sides refuse.
pub fn negated(token: &[u8]) -> String {
    std::str::from_utf8(token).map_or(String::new(), |text| text.replace("[^", "[!"))
}

/// What the brackets and the stars of a glob's text are.
#[derive(Default)]
pub struct Shape {
    /// "A run outside a bracket is kept as one star."
    pub kept: String,
    /// Whether there is such a run.
    pub runs: bool,
    /// Whether a bracket is not closed. Behind it nothing is looked at, and nothing is kept.
    pub open: bool,
}

/// "Brackets being read after `[^` has become `[!`": of a token the text is its negated one, of a
/// stored pattern its own.
pub fn shape(text: &str) -> Shape {
    let mut shape = Shape::default();
    let mut rest = text;
    while let Some(first) = rest.chars().next() {
        let length = match first {
            '[' => match bracket(rest) {
                Some(length) => length,
                None => {
                    shape.open = true;
                    return shape;
                }
            },
            _ => first.len_utf8(),
        };
        let (piece, behind) = rest.split_at(length);
        // No other piece ends with a star.
        match piece == "*" && shape.kept.ends_with('*') {
            true => shape.runs = true,
            false => shape.kept += piece,
        }
        rest = behind;
    }
    shape
}

/// How long a bracket is, from its `[` to its `]`, which is never its first character.
fn bracket(text: &str) -> Option<usize> {
    let inside = &text[1..];
    let members = inside.strip_prefix('!').unwrap_or(inside);
    let first = members.chars().next()?;
    let rest = &members[first.len_utf8()..];
    let end = rest.find(']')?;
    Some(text.len() - rest.len() + end + 1)
}

/// Whether the text has a run of stars outside a bracket.
pub fn has_run(text: &str) -> bool {
    shape(text).runs
}
