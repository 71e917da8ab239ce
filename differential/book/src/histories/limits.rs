//! Histories at the limits, in rooms that are larger, so that the limit says no and not the room; of
//! lines with offsets that no text gives; and runs of stars, in rooms for what is kept of them.

use crate::history::Step;
use book::buffers::Rooms;
use book::model::{Line, Model};
use book::questions::{Question, What};
use book::{kind, limit, width};
use differential::inputs::long;
use reading_host::Source;

pub fn histories() -> Vec<Vec<Step>> {
    vec![
        openings(),
        lines(),
        pool(),
        edits(),
        offsets(),
        tokens(),
        runs(),
        symbols(),
        many_symbols(),
    ]
}

/// Texts with as many nodes, lines and bytes as are taken, and up to one less and more.
fn openings() -> Vec<Step> {
    let rooms = Rooms {
        nodes: Rooms::FULL.nodes + 2 * width::NODE,
        names: Rooms::FULL.names + 2,
        lines: Rooms::FULL.lines + 2 * width::LINE,
        pool: Rooms::FULL.pool + 2,
        journal: 2 * width::EDIT,
    };
    let mut steps = vec![Step::Lend(6, rooms)];
    let around = |limit: usize| limit - 1..=limit + 1;
    let mut open = |text: Vec<u8>| {
        for source in [Source::Script, Source::ExportList] {
            steps.push(Step::Open(source, text.clone()));
            steps.push(ask(b"a"));
        }
    };
    for count in around(limit::NODES) {
        // Node 0 is one of them.
        open(b"A{a;};".repeat(count - 1));
    }
    for count in around(limit::LINES) {
        open([b"{", &b"a;".repeat(count)[..], b"};"].concat());
    }
    for length in around(limit::SCRIPT) {
        open(long([b"{a;};", b" ", b"\n"], length));
        // The last place that a token can have, bare, in quotes and in a block.
        open(long([b"{b;", b" ", b"\na;};"], length));
        open(long([b"{b;", b" ", b"\n\"a\";};"], length));
        open(long([b"{extern \"C\"{b;", b" ", b"\na};};"], length));
    }
    steps
}

/// A book in rooms for some more of everything.
fn lent(book: &Model) -> Step {
    let needs = book.needs();
    Step::Book(Box::new(book.laid(Rooms {
        nodes: needs.nodes,
        names: needs.names + 3,
        lines: needs.lines + 16 * width::LINE + 1,
        pool: needs.pool + 1000,
        journal: needs.journal + 32 * width::EDIT + 1,
    })))
}

fn add(token: &[u8]) -> Step {
    Step::Add([0, 0, 0], token.to_vec())
}

fn ask(name: &[u8]) -> Step {
    let question = |what| Question {
        what,
        raw: name.to_vec(),
        demangled: None,
        wanted: None,
    };
    Step::Ask(vec![
        question(What::Version),
        question(What::Locality),
        question(What::Membership),
    ])
}

fn lines() -> Vec<Step> {
    vec![
        lent(&Model::with_lines(limit::LINES - 2)),
        add(b"c"),
        add(b"d*"),
        ask(b"dx"),
        add(b"e"),
        add(b""),
        Step::Strike(limit::LINES as u32 - 1),
        Step::Strike(limit::LINES as u32),
        ask(b"dx"),
        add(b"f"),
        Step::Undo,
        Step::Undo,
        add(b"f?"),
        add(b"g"),
        ask(b"fx"),
        Step::Strike(0),
        Step::Settle,
        add(b"*"),
        add(b"g"),
        ask(b"g"),
    ]
}

fn pool() -> Vec<Step> {
    vec![
        lent(&Model::with_pool(limit::POOL - 5)),
        add(b"sixsix"),
        add(b"\"fives\""),
        add(b"x"),
        add(b""),
        add(b"*"),
        ask(b"fives"),
        Step::Undo,
        Step::Undo,
        Step::Undo,
        add(b"\\four"),
        add(b"??"),
        add(b"?"),
        ask(b"x"),
        Step::Strike(0),
        Step::Settle,
        add(&b"y".repeat(limit::TOKEN)),
        add(b"z"),
        ask(b"four"),
    ]
}

fn edits() -> Vec<Step> {
    vec![
        lent(&Model::with_edits(limit::EDITS - 2)),
        add(b"c"),
        Step::Strike(limit::EDITS as u32 / 2 - 1),
        Step::Strike(0),
        add(b"d"),
        Step::Undo,
        Step::Undo,
        Step::Undo,
        add(b"e*"),
        add(b"f"),
        add(b"g"),
        add(b"h"),
        ask(b"ex"),
        Step::Settle,
        add(b"h"),
        ask(b"h"),
        Step::Undo,
        Step::Undo,
    ]
}

/// The last offset that is taken, and less and more, of an opened line and of one that was added: each
/// call keeps it, or where it is over the limit is refused.
fn offsets() -> Vec<Step> {
    let mut steps = Vec::new();
    for offset in [
        1,
        65_536,
        limit::SCRIPT - 1,
        limit::SCRIPT,
        limit::SCRIPT + 1,
        u32::MAX as usize,
    ] {
        for [opened, added] in [[offset, 0], [7, offset]] {
            for kind in [kind::REGULAR, kind::EXPORT_LIST] {
                let line = |bytes, offset| Line {
                    offset,
                    ..Line::exact(bytes)
                };
                let mut book = Model::new(kind);
                book.lines = vec![line(b"a", 3), line(b"bc", opened), line(b"", 5)];
                book.add(line(b"d", added));
                steps.extend([
                    lent(&book),
                    ask(b"d"),
                    Step::Strike(1),
                    Step::Strike(3),
                    ask(b"bc"),
                    add(b"e"),
                    Step::AddSymbol(0, b"f;".to_vec()),
                    Step::Undo,
                    Step::Undo,
                    Step::Undo,
                    Step::Undo,
                    Step::Undo,
                    add(b"g*"),
                    Step::Strike(0),
                    Step::Settle,
                    ask(b"gh"),
                    add(b"h"),
                    Step::Strike(0),
                    Step::Settle,
                    ask(b"h"),
                ]);
            }
        }
    }
    steps
}

/// Tokens of the longest length, and of up to two bytes less and more.
fn tokens() -> Vec<Step> {
    let shapes: [[&[u8]; 3]; 8] = [
        [b"", b"a", b""],
        [b"\"", b"a", b"\""],
        [b"", b"\\*", b""],
        [b"*", b"a", b"?"],
        [b"?", b"a", b"["],
        [b"", b"*", b""],
        [b"a", b"*", b"["],
        [b"a", b" ", b""],
    ];
    // Room for one of them at a time.
    let rooms = Rooms {
        pool: limit::TOKEN + 10,
        journal: 2 * width::EDIT,
        lines: 2 * width::LINE,
        ..Rooms::ample(8)
    };
    let mut steps = vec![
        Step::Lend(6, rooms),
        Step::Open(Source::Script, b"{};".to_vec()),
    ];
    for shape in shapes {
        for length in limit::TOKEN - 2..=limit::TOKEN + 2 {
            steps.push(add(&long(shape, length)));
            steps.push(ask(b"a"));
            steps.push(Step::Undo);
        }
    }
    steps.push(add(&b" ".repeat(70_000)));
    steps
}

/// Runs of stars, in room for what is kept of them and for a byte less.
fn runs() -> Vec<Step> {
    let mut steps = Vec::new();
    for (token, kept) in [
        (&b"**"[..], 1),
        (b"a**", 2),
        (b"a[^**]**", 7),
        (b"\\**", 2),
        (b"?***?**", 4),
    ] {
        for pool in [kept, kept - 1] {
            let rooms = Rooms {
                pool,
                journal: 2 * width::EDIT,
                ..Rooms::ample(20)
            };
            let script = [b"A{", token, b";};"].concat();
            let list = [b"{", token, b";};"].concat();
            steps.extend([
                Step::Lend(6, rooms),
                Step::Open(Source::Script, script),
                ask(b"a"),
                Step::Open(Source::ExportList, list),
                ask(b"a"),
                Step::Open(Source::ExportList, b"{};".to_vec()),
                add(token),
                ask(b"ab"),
                Step::Undo,
                Step::AddSymbol(0, [token, b";"].concat()),
                ask(b"ab"),
                Step::Undo,
                Step::AddSymbol(1, token.to_vec()),
                ask(b"ab"),
            ]);
        }
    }
    steps
}

/// Texts of `add_symbol` of the longest length, and of up to two bytes less and more.
fn symbols() -> Vec<Step> {
    let rooms = Rooms {
        pool: limit::TOKEN + 10,
        journal: 3 * width::EDIT,
        lines: 3 * width::LINE,
        ..Rooms::ample(8)
    };
    let mut steps = vec![
        Step::Lend(6, rooms),
        Step::Open(Source::ExportList, b"{};".to_vec()),
    ];
    let shapes: [[&[u8]; 3]; 5] = [
        [b"", b"a", b";"],
        [b"a;", b" ", b""],
        [b"extern \"C++\"{a;", b"b", b";};"],
        [b"extern \"C\"{a;b;};", b" ", b"\n"],
        [b"", b"a", b""],
    ];
    for shape in shapes {
        for length in limit::TOKEN - 2..=limit::TOKEN + 2 {
            for flag in [0, 1] {
                steps.push(Step::AddSymbol(flag, long(shape, length)));
                steps.push(Step::Undo);
                steps.push(Step::Undo);
            }
        }
    }
    steps
}

/// As many lines in one text as the journal takes, and one more.
fn many_symbols() -> Vec<Step> {
    let mut steps = Vec::new();
    for count in [limit::EDITS, limit::EDITS + 1] {
        let text = [b"extern \"C\"{", &b"ab*;".repeat(count)[..], b"};"].concat();
        steps.extend([
            Step::Lend(6, Rooms::FULL),
            Step::Open(Source::ExportList, b"{c;};".to_vec()),
            Step::AddSymbol(0, text),
            ask(b"abc"),
            Step::Strike(0),
            add(b"d"),
            Step::Undo,
            Step::Strike(0),
            ask(b"c"),
            Step::Settle,
        ]);
    }
    steps
}
