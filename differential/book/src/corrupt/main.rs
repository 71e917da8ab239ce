//! Holds the proved library's refusal 14 against the plain reading of document 01's row 14 in this
//! crate, on books that are whole and on books with something changed.
//!
//!     corrupt [--seed N] [--rounds N]   compare; exit status 1 when anything differs
//!
//! The books are opened by the library from random scripts and export lists, into rooms of random
//! sizes; half of those that can have them are given more nodes, and adds, strikes and undos, by
//! document 01's rules, on a model apart from buffers, and laid out again. Such a book must be one,
//! by both. Then, a hundred times for each, a copy of its buffers is changed, and both are asked:
//! the count of versions and the count of parents are either both refused 14, or are what the model
//! that is read out of the buffers says (13 for an export list). So is why of a name of the whole book,
//! with any flag for a wanted version and into any room, which is asked for last (8); a refusal leaves the
//! room as it was. Which kinds of change left a book and which did not is printed at the end.

use book::buffers::{Buffers, Lent, Noise, Rooms};
use book::changes::CHANGES;
use book::fault::fault;
use book::model::{Line, Model, Node};
use book::ours::{self, Name};
use book::questions::{Question, What};
use book::ranking::Ranking;
use book::why::NUMBERS;
use book::{kind, limit, texts};
use differential::command::Program;
use differential::inputs::{long, Random};
use differential::report::cut;
use differential::tally::Tally;
use host::{class, refusal};
use reading::scripts::{self, Kind};
use std::collections::BTreeMap;
use std::fmt::{self, Debug, Formatter};
use std::process::ExitCode;

/// How often something is changed in a copy of each book.
const TIMES: usize = 100;

fn main() -> ExitCode {
    Program {
        name: "corrupt",
        rounds: 200_000,
        compared,
        sample: None,
        replay: None,
    }
    .run()
}

/// The whole comparison; true when nothing differed.
fn compared(mut random: Random, rounds: u64) -> bool {
    let mut comparison = Comparison {
        tally: Tally::new([]),
        kinds: [0; 3],
        edited: 0,
        changed: vec![[0; 2]; CHANGES.len()],
        faults: BTreeMap::new(),
        whys: BTreeMap::new(),
    };
    comparison.phase("books, whole and changed", |comparison| {
        for _ in 0..rounds {
            let book = good(&mut random);
            let model = Model::of(&book);
            comparison.whole(&book, &Asked::any(&mut random, &model));
            for _ in 0..TIMES {
                comparison.change(&mut random, &book, &model);
            }
        }
    });
    comparison.phase("around the limits", limits);
    comparison.finish()
}

struct Comparison {
    tally: Tally<0>,
    /// How many whole books of each kind, and how many of them with edits.
    kinds: [u64; 3],
    edited: u64,
    /// By the change: how many were refused 14, and how many were still books.
    changed: Vec<[u64; 2]>,
    /// How many were refused for each reason.
    faults: BTreeMap<&'static str, u64>,
    /// How often why was answered by each number, and how often with room that is too short besides.
    whys: BTreeMap<u64, [u64; 2]>,
}

impl Comparison {
    /// Runs a named part, and prints how many comparisons it made.
    fn phase(&mut self, name: &'static str, run: impl FnOnce(&mut Self)) {
        self.tally.begin(name);
        run(self);
        self.tally.end();
    }

    /// The last lines; true when nothing differed.
    fn finish(self) -> bool {
        let [regular, rust, lists] = self.kinds;
        println!(
            "whole books: {regular} regular, {rust} of the Rust kind, {lists} export lists; {} of them with edits",
            self.edited
        );
        println!("\n| change | refused 14 | still a book |\n|---|--:|--:|");
        for (change, [refused, book]) in CHANGES.iter().zip(&self.changed) {
            println!("| {} | {refused} | {book} |", change.words);
        }
        println!("\n| what is wrong first | times |\n|---|--:|");
        for (words, times) in &self.faults {
            println!("| {words} | {times} |");
        }
        println!("\n| why | times | with too little room |\n|---|--:|--:|");
        for (number, [times, short]) in &self.whys {
            println!("| {number} | {times} | {short} |");
        }
        println!();
        self.tally.finish()
    }

    /// A book that nothing is wrong with.
    fn whole(&mut self, book: &Buffers, asked: &Asked) {
        let counts = book.counted();
        self.kinds[counts.kind as usize] += 1;
        self.edited += u64::from(counts.edits > 0);
        let fault = fault(book);
        let got = answers(book, asked);
        let agree = fault.is_none() && got == wanted(book, asked);
        self.tally.judge(None, agree, || {
            format!("a whole book: {fault:?}, {got:?}, {}", told(book, asked))
        });
    }

    /// One change. A kind that finds nothing to change, or changes nothing, is drawn again.
    fn change(&mut self, random: &mut Random, whole: &Buffers, model: &Model) {
        let (number, book) = loop {
            let number = random.below(CHANGES.len());
            let mut book = whole.clone();
            (CHANGES[number].make)(random, &mut book);
            if book != *whole {
                break (number, book);
            }
        };
        let asked = Asked::any(random, model);
        let refused = self.held(&book, CHANGES[number].words, &asked);
        self.changed[number][usize::from(!refused)] += 1;
    }

    /// Holds the library's answers against the plain reading; true when that is 14.
    fn held(&mut self, book: &Buffers, words: &str, asked: &Asked) -> bool {
        let fault = fault(book);
        let (got, want) = (answers(book, asked), wanted(book, asked));
        let why = self.whys.entry(want.why).or_default();
        why[0] += 1;
        why[1] += u64::from(asked.room < NUMBERS);
        self.tally.judge(None, got == want, || {
            let fault = fault.unwrap_or("a book");
            format!(
                "{words}: {fault}, and the answers are {got:?}, and not {want:?}: {}",
                told(book, asked)
            )
        });
        if let Some(fault) = fault {
            *self.faults.entry(fault).or_default() += 1;
        }
        fault.is_some()
    }
}

/// A question of why, and how it is given.
struct Asked {
    question: Question,
    has_wanted: u32,
    /// Nobody looks at it where the flag is 0.
    wanted: Vec<u8>,
    room: usize,
}

impl Asked {
    fn new(raw: Vec<u8>) -> Self {
        Self {
            question: Question {
                what: What::Version,
                raw,
                demangled: None,
                wanted: None,
            },
            has_wanted: 0,
            wanted: Vec::new(),
            room: NUMBERS,
        }
    }

    /// Of a name of the book; at times a name or a version is too long, and the room too short.
    fn any(random: &mut Random, book: &Model) -> Self {
        let mut name = |most: usize| match random.one_in(32) {
            true => long([b"", b"f", b""], most + random.below(2)),
            false => texts::name(random, book),
        };
        let [raw, demangled] = [limit::RAW, limit::DEMANGLED].map(&mut name);
        let demangled = (!random.one_in(3)).then_some(demangled);
        let wanted = match random.one_in(16) {
            true => long([b"", b"A", b""], limit::WANTED + random.below(2)),
            false => texts::wanted(random, book).unwrap_or_default(),
        };
        let has_wanted = match random.below(8) {
            0..=4 => 0,
            5 | 6 => 1,
            _ => random.pick(&[2, 256, u32::MAX]),
        };
        let room = match random.below(4) {
            0 => random.below(NUMBERS),
            1 => NUMBERS + random.below(4),
            _ => NUMBERS,
        };
        let question = Question {
            demangled,
            wanted: (has_wanted != 0).then(|| wanted.clone()),
            ..Asked::new(raw).question
        };
        Self {
            question,
            has_wanted,
            wanted,
            room,
        }
    }
}

/// The two counts, and why: its number, and what it leaves in the room.
#[derive(PartialEq)]
struct Answers {
    counts: [Result<u32, u64>; 2],
    why: u64,
    out: Lent<u32>,
}

impl Debug for Answers {
    fn fmt(&self, to: &mut Formatter) -> fmt::Result {
        write!(
            to,
            "{:?}, why {} {:?}",
            self.counts,
            self.why,
            &self.out[..]
        )
    }
}

/// A room with these numbers at its front, and noise behind them.
fn room(numbers: &[u32], room: usize) -> Lent<u32> {
    let mut values = numbers.to_vec();
    values.resize(room, u32::NOISE);
    Lent::holding(&values, room)
}

/// The library's.
fn answers(book: &Buffers, asked: &Asked) -> Answers {
    let mut out = room(&[], asked.room);
    let name = asked.question.name();
    Answers {
        counts: [ours::version_count(book), ours::parent_count(book)],
        why: ours::why_into(book, name, asked.has_wanted, &asked.wanted, &mut out),
        out,
    }
}

/// What they must be.
fn wanted(book: &Buffers, asked: &Asked) -> Answers {
    let (counts, why) = match fault(book) {
        Some(_) => ([Err(refusal::NO_BOOK); 2], Err(refusal::NO_BOOK)),
        None => {
            let model = Model::of(book);
            let why = match Ranking::new(&model).why(&asked.question) {
                Ok(_) if asked.room < NUMBERS => Err(refusal::NO_ROOM),
                why => why,
            };
            (model.asked_counts(), why)
        }
    };
    Answers {
        counts,
        why: why.err().unwrap_or(0),
        out: match why {
            Ok(why) => room(&why.numbers(), asked.room),
            Err(_) => room(&[], asked.room),
        },
    }
}

fn told(book: &Buffers, asked: &Asked) -> String {
    let shown = |name: &[u8]| cut(name.escape_ascii().to_string());
    let Name { raw, demangled } = asked.question.name();
    let book = cut(format!(
        "counts {:?}, nodes {:?}, names {:?}, lines {:?}, pool {:?}, journal {:?}",
        &book.counts[..],
        &book.nodes[..],
        &book.names[..],
        &book.lines[..],
        &book.pool[..],
        &book.journal[..],
    ));
    format!(
        "{book}; why of `{}`, `{}`, wanted {} `{}`, into {}",
        shown(raw),
        shown(demangled),
        asked.has_wanted,
        shown(&asked.wanted),
        asked.room
    )
}

/// A random book, in rooms with a little to spare, which is not always a whole row.
fn good(random: &mut Random) -> Buffers {
    let mut model = opened(random);
    if model.kind == kind::REGULAR && random.one_in(2) {
        name(random, &mut model);
    }
    if model.kind != kind::RUST && random.one_in(2) {
        edit(random, &mut model);
    }
    let needs = model.needs();
    let mut room = |needed: usize| match random.one_in(3) {
        true => needed,
        false => needed + random.below(12),
    };
    model.laid(Rooms {
        nodes: room(needs.nodes),
        names: room(needs.names),
        lines: room(needs.lines),
        pool: room(needs.pool),
        journal: room(needs.journal),
    })
}

/// What the library opens; texts that it refuses, and most of those without a line, are drawn again.
fn opened(random: &mut Random) -> Model {
    loop {
        let kind = random.pick(&[
            Kind::Nodes,
            Kind::Nodes,
            Kind::Nodes,
            Kind::OneBody,
            Kind::RustKind,
            Kind::ExportList,
        ]);
        let text = scripts::random(random, kind);
        let mut book = Buffers::new(Rooms::ample(text.len()));
        if ours::open(kind.source(), &text, &mut book) != 0 {
            continue;
        }
        let model = Model::of(&book);
        if model.lines.is_empty() && !random.one_in(16) {
            continue;
        }
        return model;
    }
}

/// Some more nodes, with a parent that a reading can give: the first of its name, without a `;`.
fn name(random: &mut Random, model: &mut Model) {
    let names: [&[u8]; 10] = [
        b"A", b"A", b"B", b"A;b", b";", b"/", b"A#", b"\x0b", b"\xff", b"A\r",
    ];
    for _ in 0..random.below(8) {
        let drawn = random.below(model.nodes.len());
        let parent = &model.nodes[drawn].name;
        let first = model.nodes.iter().position(|node| node.name == *parent);
        let parent = match parent.contains(&b';') {
            true => 0,
            false => first.expect("it has it"),
        };
        model.nodes.push(Node {
            name: random.pick(&names).to_vec(),
            parent,
        });
    }
}

/// Lines that a token of each class is stored as.
const STORED: [(u64, &[u8]); 12] = [
    (class::EXACT, b"haze"),
    (class::EXACT, b""),
    (class::EXACT, b"[^"),
    (class::ESCAPED, b"a*"),
    (class::ESCAPED, b"\\"),
    (class::NON_STAR, b"a?"),
    (class::NON_STAR, b"[!a]\xc3\xa9"),
    (class::NON_STAR, b"[]]"),
    (class::STAR, b"*a"),
    (class::STAR, b"[**]?*"),
    (class::STAR, b"a*b"),
    (class::ALL, b""),
];

/// Some adds, strikes of standing lines, and undos.
fn edit(random: &mut Random, model: &mut Model) {
    let list = model.kind == kind::EXPORT_LIST;
    for _ in 0..random.below(10) {
        let standing: Vec<usize> = (0..model.lines.len())
            .filter(|&line| !model.lines[line].struck)
            .collect();
        match random.below(7) {
            0..=2 => {
                let (class, bytes) = random.pick(&STORED);
                model.add(Line {
                    node: random.below(model.nodes.len()),
                    class,
                    section: if list { 0 } else { random.below(2) },
                    language: random.below(2),
                    ..Line::exact(bytes)
                });
            }
            3 => model.undo(),
            _ if !standing.is_empty() => model.strike(random.pick(&standing)),
            _ => {}
        }
    }
}

/// Books with as many nodes, lines, pool bytes and edits as are taken, and up to two less and more,
/// in rooms that are larger; a line as long as it can be, and one with the last offset; a name, and a
/// parent's, as long as a script can have it; and more bytes of names than a script has.
fn limits(comparison: &mut Comparison) {
    let over = |limit: usize| limit - 2..=limit + 2;
    let mut held = |words, model: &Model, within: bool| {
        let needs = model.needs();
        let book = model.laid(Rooms {
            nodes: needs.nodes + 10,
            names: needs.names + 3,
            lines: needs.lines + 12,
            pool: needs.pool + 3,
            journal: needs.journal + 5,
        });
        let refused = comparison.held(&book, words, &Asked::new(b"haze".to_vec()));
        comparison.tally.judge(None, refused != within, || {
            format!("{words}: {:?} {:?}", book.counted(), fault(&book))
        });
    };
    let regular = || Model::new(kind::REGULAR);
    for count in over(limit::NODES) {
        let mut model = regular();
        for number in 1..count {
            let name = format!("N{number}").into_bytes();
            let parent = number / 2;
            model.nodes.push(Node { name, parent });
        }
        held("nodes", &model, count <= limit::NODES);
    }
    for count in over(limit::LINES) {
        held("lines", &Model::with_lines(count), count <= limit::LINES);
    }
    for bytes in over(limit::POOL) {
        held("pool", &Model::with_pool(bytes), bytes <= limit::POOL);
    }
    for count in over(limit::EDITS) {
        held("edits", &Model::with_edits(count), count <= limit::EDITS);
    }
    for length in over(limit::TOKEN) {
        for (class, byte) in [
            (class::EXACT, b"a"),
            (class::STAR, b"?"),
            (class::ESCAPED, b"*"),
        ] {
            let mut model = Model::new(kind::EXPORT_LIST);
            model.lines.push(Line {
                class,
                ..Line::exact(&byte.repeat(length))
            });
            held("a line's length", &model, length <= limit::TOKEN);
        }
    }
    for offset in over(limit::SCRIPT).chain([u32::MAX as usize]) {
        for kind in [kind::REGULAR, kind::RUST, kind::EXPORT_LIST] {
            let opened = Line {
                offset: 2,
                section: usize::from(kind == kind::RUST),
                class: class::ALL,
                ..Line::exact(b"")
            };
            let line = Line {
                offset,
                ..Line::exact(b"haze")
            };
            let mut model = Model::new(kind);
            model.lines = vec![line.clone(), opened.clone()];
            held("an offset", &model, offset <= limit::SCRIPT);
            model.lines.reverse();
            held("an offset", &model, offset <= limit::SCRIPT);
            if kind != kind::RUST {
                let mut model = Model::new(kind);
                model.lines.push(opened);
                model.add(line);
                held("an added line's offset", &model, offset <= limit::SCRIPT);
                model.strike(1);
                held("a struck line's offset", &model, offset <= limit::SCRIPT);
            }
        }
    }
    let named = |letter: &[u8], length, parent| Node {
        name: letter.repeat(length),
        parent,
    };
    for length in over(limit::SCRIPT - 3) {
        let mut model = regular();
        model.nodes.push(named(b"A", length, 0));
        held("a name's length", &model, length + 3 <= limit::SCRIPT);
        model.nodes.push(named(b"B", length, 0));
        held("two such names", &model, length + 3 <= limit::SCRIPT);
    }
    // `A{};N{}A;`, with a name N of one byte to three.
    for length in over((limit::SCRIPT - 7) / 2) {
        for own in 1..=3 {
            let mut model = regular();
            model.nodes.push(named(b"A", length, 0));
            model.nodes.push(named(b"N", own, 1));
            let within = 2 * length + own + 6 <= limit::SCRIPT;
            held("a parent's length", &model, within);
        }
    }
}
