//! Histories that are drawn, each step from what the book is by then.

use crate::desk::{is_book, Desk};
use crate::history::Step;
use book::buffers::{Buffers, Lent, Rooms};
use book::changes::CHANGES;
use book::model::{Line, Model};
use book::questions::{Question, What};
use book::trial::Trial;
use book::{kind, limit, texts, width};
use differential::inputs::{long, Random};
use reading::scripts::{self, Kind, DOUBTFUL};
use reading_host::Source;

const KINDS: [Kind; 10] = [
    Kind::Nodes,
    Kind::Nodes,
    Kind::Nodes,
    Kind::OneBody,
    Kind::OneBody,
    Kind::RustKind,
    Kind::ExportList,
    Kind::ExportList,
    Kind::ExportList,
    Kind::ExportList,
];

/// Tokens at which a rule is easily read two ways, or that are refused.
const TOKENS: [&[u8]; 34] = [
    b"",
    b" ",
    b"\x0c",
    b"\x0b",
    b"\"",
    b"\"\"",
    b"*",
    b"\"*\"",
    b"\\*",
    b"a\\",
    b"?\\*",
    b"[",
    b"[]",
    b"[]]",
    b"[^a]b",
    b"\\[^]]",
    b"a**",
    b"**",
    b"***",
    b"a[^**]**",
    b"\\**",
    b"[**",
    b"?**/***a",
    b"\xff?",
    b"\xff",
    b" f",
    b" f*",
    b"}?",
    b"#f?",
    b"/*",
    b"local:f*",
    b"extern f*",
    b"a;b",
    b"extern \"C\" { f; };",
];

const BLANKS: [&[u8]; 5] = [b" ", b"\t", b"\r\n", b"\x0c", b"  \n"];

/// Memory, and an opening into it: in rooms for what is read and mostly a little more, at times for
/// less.
pub fn beginning(random: &mut Random) -> Vec<Step> {
    let opening = opening(random);
    let Step::Open(source, text) = &opening else {
        unreachable!("it is an opening")
    };
    let read = Trial::open(*source, text, 6, Rooms::ample(text.len()));
    let needs = read.map_or(Rooms::ample(0), |read| read.book.needs());
    let mut room = |needed: usize, unit: usize| match random.below(40) {
        0 => needed.saturating_sub(1 + random.below(unit)),
        1..=3 => needed,
        4..=11 => needed + random.below(8 * unit),
        12..=16 => needed + 300 * unit,
        _ => needed + 30 * unit + random.below(unit),
    };
    let rooms = Rooms {
        nodes: room(needs.nodes, width::NODE),
        names: room(needs.names, 1),
        lines: room(needs.lines, width::LINE),
        pool: room(needs.pool, 6),
        journal: room(needs.journal, width::EDIT),
    };
    let counts = match random.one_in(100) {
        true => random.below(9),
        false => 6,
    };
    vec![Step::Lend(counts, rooms), opening]
}

fn opening(random: &mut Random) -> Step {
    let kind = random.pick(&KINDS);
    let text = match random.below(9) {
        0..=4 => texts::text(random, kind),
        5 => texts::with_runs(random, kind),
        6 | 7 => scripts::random(random, kind),
        _ => {
            let text = scripts::random(random, kind);
            scripts::damaged(random, &text)
        }
    };
    Step::Open(kind.source(), text)
}

/// How many calls are made of a book: few of one that cannot be edited, or that is none; one time in
/// forty many.
pub fn calls(random: &mut Random, desk: &Desk) -> usize {
    let trial = desk.trial.as_ref();
    let edited = trial.is_some_and(|trial| trial.book.kind != kind::RUST);
    let most = match random.one_in(40) {
        _ if !edited => 4,
        true => 200,
        false => 28,
    };
    2 + random.below(most)
}

/// The next call.
pub fn call(random: &mut Random, desk: &Desk) -> Step {
    let trial = desk.trial.as_ref();
    let book = trial.map(|trial| &trial.book);
    // Where there is no edit, an undo is asked for one time in four.
    let edited = book.is_some_and(|book| !book.edits.is_empty()) || random.one_in(4);
    let goes_back = desk.goes_back() && edited;
    let list = book.is_none_or(|book| book.kind == kind::EXPORT_LIST);
    match random.below(64) {
        0..=21 => add(random, book),
        22..=33 => strike(random, book),
        34..=46 if goes_back => Step::Undo,
        47..=49 => Step::Settle,
        50..=61 if list || random.one_in(12) => symbol(random),
        62 if random.one_in(4) => opening(random),
        _ if random.one_in(2) => add(random, book),
        _ => strike(random, book),
    }
}

fn add(random: &mut Random, book: Option<&Model>) -> Step {
    let nodes = book.map_or(1, |book| book.nodes.len());
    let list = book.is_some_and(|book| book.kind == kind::EXPORT_LIST);
    let node = match random.below(24) {
        0 => nodes,
        1 if random.one_in(4) => u32::MAX as usize - random.below(2),
        // A script of named nodes has no line of node 0.
        2..=20 if nodes > 1 => 1 + random.below(nodes - 1),
        _ => random.below(nodes),
    };
    let mut bit = |most: usize| match random.below(24) {
        0 => 1 + random.below(3) as u32,
        1 if random.one_in(4) => u32::MAX,
        _ => random.below(most) as u32,
    };
    let place = [node as u32, bit(if list { 1 } else { 2 }), bit(2)];
    Step::Add(place, token(random, book))
}

fn token(random: &mut Random, book: Option<&Model>) -> Vec<u8> {
    let lines = book.map_or(&[][..], |book| &book.lines);
    let mut token = match random.below(12) {
        0..=6 => texts::token(random),
        7 | 8 if !lines.is_empty() => lines[random.below(lines.len())].bytes.clone(),
        9 => random.pick(&TOKENS).to_vec(),
        10 => scripts::random(random, Kind::Bare),
        _ => {
            let length = random.below(9);
            random.text(length)
        }
    };
    if random.one_in(4) {
        token.extend_from_slice(random.pick(&BLANKS));
    }
    token
}

fn strike(random: &mut Random, book: Option<&Model>) -> Step {
    let lines = book.map_or(&[][..], |book| &book.lines);
    let standing: Vec<usize> = (0..lines.len())
        .filter(|&line| !lines[line].struck)
        .collect();
    Step::Strike(match random.below(16) {
        0 => lines.len() as u32,
        1 if random.one_in(4) => u32::MAX - random.below(2) as u32,
        2 if !lines.is_empty() => random.below(lines.len()) as u32,
        _ if !standing.is_empty() => random.pick(&standing) as u32,
        _ => 0,
    })
}

fn symbol(random: &mut Random) -> Step {
    let text = match random.below(12) {
        0..=4 => texts::matcher(random),
        5 | 6 => scripts::random(random, Kind::Matcher),
        7 | 8 => scripts::random(random, Kind::Bare),
        9 => random.pick(&DOUBTFUL).to_vec(),
        10 => texts::token(random),
        _ => {
            let text = scripts::random(random, Kind::Matcher);
            scripts::damaged(random, &text)
        }
    };
    let flag = match random.below(8) {
        0..=4 => 0,
        5 | 6 => 1,
        _ => random.pick(&[2, 256, u32::MAX]),
    };
    Step::AddSymbol(flag, text)
}

/// Names that matter: mostly those of lines that the latest call has changed.
pub fn ask(random: &mut Random, before: Option<&Model>, after: Option<&Model>) -> Step {
    let nothing = Model::new(kind::REGULAR);
    let [before, book] = [before, after].map(|book| book.unwrap_or(&nothing));
    let rows = 0..before.lines.len().max(book.lines.len());
    let changed: Vec<&Line> = rows
        .map(|row| [before.lines.get(row), book.lines.get(row)])
        .filter(|[before, after]| before != after)
        .flatten()
        .flatten()
        .collect();
    let source = match book.kind {
        kind::EXPORT_LIST => Source::ExportList,
        _ => Source::Script,
    };
    let mut questions = Vec::new();
    for _ in 0..1 + random.below(2) {
        let raw = name(random, book, &changed);
        let demangled = (!random.one_in(3)).then(|| name(random, book, &changed));
        let mut ask = |what, wanted| {
            questions.push(Question {
                what,
                raw: raw.clone(),
                demangled: demangled.clone(),
                wanted,
            });
        };
        for &what in What::of(source) {
            ask(what, None);
        }
        if source == Source::Script && random.one_in(3) {
            ask(What::Version, texts::wanted(random, book));
        }
        if source == Source::ExportList && random.one_in(24) {
            ask(What::Membership, texts::wanted(random, book));
        }
        if random.one_in(24) {
            let what = random.pick(&[What::Version, What::Locality, What::Membership]);
            ask(what, None);
        }
    }
    Step::Ask(questions)
}

fn name(random: &mut Random, book: &Model, changed: &[&Line]) -> Vec<u8> {
    if random.one_in(400) {
        let limit = random.pick(&[limit::RAW, limit::DEMANGLED]);
        let length = limit - 1 + random.below(3);
        return long([b"", b"f", b""], length);
    }
    if changed.is_empty() || random.one_in(4) {
        return texts::name(random, book);
    }
    let line = random.pick(changed);
    let mut name = texts::matched(random, line);
    if random.one_in(6) {
        random.change(&mut name);
    }
    String::from_iter(name).into_bytes()
}

/// The lent buffers with something changed, mostly so that they are no book.
pub fn damaged(random: &mut Random, lent: &Buffers) -> Step {
    let mut book = lent.clone();
    if random.one_in(16) {
        let count = random.pick(&[0, 5, 7]);
        let mut counts = lent.counts.to_vec();
        counts.resize(count, 0);
        book.counts = Lent::holding(&counts, count);
    } else if lent.counts.len() == 6 {
        for _ in 0..20 {
            book = lent.clone();
            (CHANGES[random.below(CHANGES.len())].make)(random, &mut book);
            if !is_book(&book) || random.one_in(8) {
                break;
            }
        }
    }
    Step::Book(Box::new(book))
}

/// One call of each kind.
pub fn each(random: &mut Random, book: Option<&Model>) -> Vec<Step> {
    vec![
        add(random, book),
        strike(random, book),
        Step::Undo,
        Step::Settle,
        symbol(random),
    ]
}
