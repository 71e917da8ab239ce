//! Places in a text.

use std::fmt;

/// A place in a text: where an opening was refused, which is the byte at which the rule that failed
/// began ([`Refusal::place`](crate::Refusal::place)), or where the token of a line starts
/// ([`Line::place_in`](crate::Line::place_in), [`Reason::place_in`](crate::Reason::place_in)).
///
/// Lines and columns count from 1 on, columns in bytes. Only a line feed ends a line.
#[derive(Clone, Copy, Debug, PartialEq, Eq, Hash)]
pub struct Place {
    /// How many bytes stand before it.
    pub offset: usize,
    /// Its line.
    pub line: usize,
    /// Its column.
    pub column: usize,
}

impl Place {
    /// That of an offset in a text, which lies in it or at its end.
    pub(crate) fn of(text: &[u8], offset: usize) -> Place {
        let before = &text[..offset];
        let start = match before.iter().rposition(|&byte| byte == b'\n') {
            Some(feed) => feed + 1,
            None => 0,
        };
        Place {
            offset,
            line: 1 + before.iter().filter(|&&byte| byte == b'\n').count(),
            column: 1 + offset - start,
        }
    }

    /// That of a line's offset, where there is one and the text has a byte there.
    pub(crate) fn of_line(text: &[u8], offset: Option<usize>) -> Option<Place> {
        let offset = offset.filter(|&offset| offset < text.len())?;
        Some(Place::of(text, offset))
    }
}

impl fmt::Display for Place {
    fn fmt(&self, f: &mut fmt::Formatter<'_>) -> fmt::Result {
        write!(f, "line {}, column {}", self.line, self.column)
    }
}

#[cfg(test)]
mod tests {
    use super::*;

    #[test]
    fn places_by_line_and_column() {
        let text = b"ab\n\ncd\n";
        let told = |offset| Place::of(text, offset).to_string();
        assert_eq!(told(0), "line 1, column 1");
        assert_eq!(told(2), "line 1, column 3");
        assert_eq!(told(3), "line 2, column 1");
        assert_eq!(told(4), "line 3, column 1");
        assert_eq!(told(5), "line 3, column 2");
        assert_eq!(told(7), "line 4, column 1");
    }
}
