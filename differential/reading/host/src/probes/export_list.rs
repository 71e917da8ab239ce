//! A child of the published export_list.rs, whose private parts it sees: what an export list, or a
//! text of `add_symbol`, is read as, and what is kept of it.

use super::*;
use crate::asked::First;
use crate::kept::{Kept, KeptNode, Matcher, Node};
use crate::published::Accepted;
use crate::version_script::probe::{first, is_for_meaning, languages, matcher};

pub(crate) fn list(text: &[u8]) -> Option<Accepted> {
    let list = ExportList::parse(ScriptData { raw: text }).ok()?;
    let matchers = matchers(text).expect("an accepted list is read again");
    Some(accepted(matchers, list))
}

/// Which line of this language and class matches a name first.
pub(crate) fn first_of_list(
    text: &[u8],
    list: &ExportList,
    language: usize,
    class: u64,
    name: &[u8],
) -> Option<First> {
    first(text, &list.0, language, class, name)
}

/// The matchers in order of reading: the steps of `parse_export_list`, by its own functions.
fn matchers(text: &[u8]) -> winnow::Result<Vec<Matcher>> {
    let input = &mut BStr::new(text);
    skip_comments_and_whitespace(input)?;
    '{'.parse_next(input)?;
    let mut matchers = Vec::new();
    loop {
        skip_comments_and_whitespace(input)?;
        if input.starts_with(b"};") {
            return Ok(matchers);
        }
        matchers.push(matcher(text, parse_matcher(input, false)?));
    }
}

/// Added to an empty list.
pub(crate) fn symbol(text: &[u8], without_semicolon: bool) -> Option<Accepted> {
    let mut list = ExportList::default();
    match std::str::from_utf8(text) {
        Ok(text) => list.add_symbol(text, without_semicolon).ok()?,
        // `add_symbol` takes a `str`: for other bytes, what it does with one.
        Err(_) => list
            .0
            .push(parse_matcher(&mut BStr::new(text), without_semicolon).ok()?),
    }
    let read = parse_matcher(&mut BStr::new(text), without_semicolon);
    let read = read.expect("an accepted text is read again");
    Some(accepted(vec![matcher(text, read)], list))
}

fn accepted(globals: Vec<Matcher>, list: ExportList) -> Accepted {
    let node = Node {
        matchers: [globals, Vec::new()],
        ..Default::default()
    };
    let kept = KeptNode {
        name: Vec::new(),
        parent: None,
        lines: [languages(&list.0), Default::default()],
    };
    Accepted {
        nodes: vec![node],
        kept: Kept::Nodes(vec![kept]),
        counts: None,
    }
}

pub(crate) fn list_refused_for_meaning(text: &[u8]) -> bool {
    is_for_meaning(parse_export_list(&mut BStr::new(text)))
}

pub(crate) fn symbol_refused_for_meaning(text: &[u8], without_semicolon: bool) -> bool {
    is_for_meaning(parse_matcher(&mut BStr::new(text), without_semicolon))
}
