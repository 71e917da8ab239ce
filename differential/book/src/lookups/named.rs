//! The line that is named: the library's answer to why beside document 01's ranking, beside the sets and
//! patterns in which the Rust holds the lines, and beside what the Rust answers once the line's token is
//! struck in the text.

use crate::compare::Opened;
use book::buffers::{Buffers, Rooms};
use book::model::Line;
use book::ours::{self, Name};
use book::questions::{Held, Question, What};
use book::ranking::ranks;
use book::tokens::tokens;
use book::why::{Reason, Why};
use book::{kind, limit, width};
use differential::report::{cut, expect};
use host::{class, refusal};
use reading_host::asked::First;

/// What is told of a name, and what the Rust tells of it.
pub struct Named {
    pub why: Result<Why, u64>,
    /// By what the Rust tells which line it is.
    pub first: Option<First>,
    /// Whether the Rust answers otherwise once the line is struck.
    pub changed: Option<bool>,
}

/// What is named, where it is the line that must be, or what is wrong.
pub fn named(opened: &Opened, question: &Question) -> Result<Named, String> {
    let why = opened.ranking.why(question);
    let numbers = |why: Result<Why, u64>| why.map(|why| why.numbers());
    let [got, want] = [question.why(&opened.book), numbers(why)];
    expect(got == want, || {
        format!("why: expected {want:?}, got {got:?}")
    })?;
    let elsewhere = why.map(|why| match why {
        Why::Line(reason) => Why::Line(Reason {
            offset: limit::SCRIPT - reason.line,
            ..reason
        }),
        why => why,
    });
    let [got, want] = [question.why(&opened.elsewhere), numbers(elsewhere)];
    expect(got == want, || {
        format!("why: expected {want:?}, got {got:?} of lines with other offsets")
    })?;
    let mut named = Named {
        why,
        first: None,
        changed: None,
    };
    let Some(held) = opened.held.as_ref() else {
        return Ok(named);
    };
    if opened.runs || !question.is_within() {
        return Ok(named);
    }
    gives(opened, held, question, why)?;
    let Ok(why) = why else {
        return Ok(named);
    };
    if why != Why::Wanted {
        named.first = by_the_rust(opened, held, question.name(), why)?;
    }
    // A text is read once for a name, and then asked all that can be asked of it.
    let is_first = question.what == What::of(opened.source)[0] && question.wanted.is_none();
    if let (Why::Line(reason), true) = (why, is_first) {
        named.changed = Some(struck(opened, held, question, reason)?);
    }
    Ok(named)
}

/// The Rust's own answer is what the named line gives: its node the index, its section the locality; and
/// a wanted version decides, or is refused, where the Rust does so.
fn gives(
    opened: &Opened,
    held: &Held,
    question: &Question,
    why: Result<Why, u64>,
) -> Result<(), String> {
    let kind = opened.model.kind;
    let rust = held.answer(question);
    let agree = match why {
        Ok(Why::Wanted) => rust.is_ok(),
        Ok(why) => rust == why.gives(kind, question.what).ok_or(0),
        // A version that is wanted of a list is nothing that the Rust is asked.
        Err(refusal::WRONG_KIND) => true,
        Err(number) => rust == Err(number),
    };
    expect(agree, || {
        format!("why is {why:?}, and the Rust answers {rust:?}")
    })?;
    if kind != kind::REGULAR || question.wanted.is_some() {
        return Ok(());
    }
    let found = held.deciding(question);
    let named = match why {
        Ok(Why::Line(reason)) => Some((reason.node, reason.section)),
        _ => None,
    };
    expect(found == named, || {
        format!("why is {why:?}, and the Rust finds {found:?}")
    })
}

/// The named line is the one that the Rust's own sets, patterns and marks have first: at the first place
/// of the ranking at which one of them has the name, the lowest number. By what the Rust tells of it.
fn by_the_rust(
    opened: &Opened,
    held: &Held,
    name: Name,
    why: Why,
) -> Result<Option<First>, String> {
    let model = &opened.model;
    let lines = || model.lines.iter().enumerate();
    let found = ranks(model.nodes.len()).find_map(|rank| {
        let mut found = Vec::new();
        for &language in rank.languages {
            let name = [name.raw, name.demangled][language];
            for &class in rank.classes {
                let place = [rank.node, rank.section, language];
                let is_there = |line: &Line| {
                    [line.node, line.section, line.language] == place && line.class == class
                };
                let Some(first) = held.first(place, class, name) else {
                    continue;
                };
                let mut there = lines().filter(|(_, line)| is_there(line));
                let line = match first {
                    First::At(at) => there.find(|(_, line)| line.offset == at + 1),
                    First::Number(number) => there.nth(number),
                    First::Untold => {
                        there.find(|(_, line)| class == class::ALL || line.bytes == name)
                    }
                };
                found.push((line.map(|(number, _)| number), first));
            }
        }
        found.into_iter().min_by_key(|(number, _)| *number)
    });
    let agree = match (why, found) {
        (Why::Line(reason), Some((number, _))) => number == Some(reason.line),
        // Of the Rust kind's locals the Rust keeps nothing.
        (Why::Line(reason), None) => model.kind == kind::RUST && reason.section == 1,
        (_, found) => found.is_none(),
    };
    expect(agree, || {
        format!("why is {why:?}, and by the Rust's own sets and patterns it is {found:?}")
    })?;
    Ok(found.map(|(_, first)| first))
}

/// The line is struck: its token in the text, in place of which one stands that matches neither name,
/// and the line in the book. The Rust's answers over that text must be the library's over that book, and
/// what the line gives that is named next; whether one of them is another than before.
fn struck(
    opened: &Opened,
    held: &Held,
    question: &Question,
    reason: Reason,
) -> Result<bool, String> {
    let text = text_without(opened, question, reason)?;
    let shown = || cut(text.escape_ascii().to_string());
    let left = Held::parse(opened.source, &text);
    let left = left.ok_or_else(|| format!("the Rust refuses {}", shown()))?;
    let book = book_without(opened, &text, reason)?;
    let kind = book.counted().kind;

    let next = question.why(&book);
    let another = |why: &Why| !matches!(why, Why::Line(next) if next.line == reason.line);
    let why = next.ok().and_then(Why::of).filter(another);
    let why = why.ok_or_else(|| format!("without line {}, why is {next:?}", reason.line))?;

    let mut changed = false;
    for &what in What::of(opened.source) {
        let question = Question {
            what,
            ..question.clone()
        };
        let [before, rust] = [held, &left].map(|held| held.answer(&question));
        let ours = question.ours(&book);
        let gave = Why::Line(reason).gives(opened.model.kind, what);
        let given = why.gives(kind, what);
        let agree = rust == ours && rust == given.ok_or(0) && (rust != before) == (given != gave);
        expect(agree, || {
            format!(
                "{what:?} without line {}: the Rust answers {rust:?} over {}, and before {before:?}; we answer {ours:?}, by \
                 {why:?}",
                reason.line,
                shown()
            )
        })?;
        changed |= rust != before;
    }
    Ok(changed)
}

/// The text with another token in place of the line's, which is found by its offset. It is a glob, so
/// that no script becomes the Rust kind; in one of that kind it is exact, as a listed name must be.
fn text_without(opened: &Opened, question: &Question, reason: Reason) -> Result<Vec<u8>, String> {
    let Name { raw, demangled } = question.name();
    let others: [&[u8]; 3] = match opened.model.kind {
        kind::RUST => [b"x", b"y", b"z"],
        _ => [b"]x", b"]y", b"]z"],
    };
    let mut others = others.into_iter();
    let other = others.find(|other| ![raw, demangled].contains(other));
    let other = other.expect("there are two names");
    let mut tokens = tokens(opened.source, opened.text).into_iter();
    let token = tokens.find(|token| token.start + 1 == reason.offset);
    let token = token.ok_or_else(|| format!("no token starts where {reason:?} says"))?;
    let (front, back) = (&opened.text[..token.start], &opened.text[token.end..]);
    Ok([front, other, back].concat())
}

/// The book with the line struck. The Rust kind refuses a strike: there it is the book of the text.
fn book_without(opened: &Opened, text: &[u8], reason: Reason) -> Result<Buffers, String> {
    let mut book = opened.model.laid(Rooms {
        journal: width::EDIT,
        ..opened.book.rooms()
    });
    let answer = ours::strike(&mut book, reason.line as u32);
    let want = match opened.model.kind {
        kind::RUST => refusal::WRONG_KIND,
        _ => 0,
    };
    expect(answer == want, || {
        format!("strike {}: expected {want}, got {answer}", reason.line)
    })?;
    if opened.model.kind == kind::RUST {
        book = Buffers::new(Rooms::ample(text.len()));
        let answer = ours::open(opened.source, text, &mut book);
        expect(answer == 0, || {
            format!("the text without line {}: {answer}", reason.line)
        })?;
    }
    Ok(book)
}
