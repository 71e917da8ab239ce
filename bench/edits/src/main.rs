//! The edits of a trial book by the proved library, and the check of the whole book that each of them
//! makes first, as the count of versions. The Rust has nothing like them.

use bench::{Bench, Figures, Unit};
use book::buffers::Buffers;
use book::model::{Line, Model};
use book::{limit, ours, width};
use std::cell::OnceCell;
use std::hint::black_box;
use std::time::{Duration, Instant};

#[derive(Clone, Copy)]
enum Side {
    Call,
    /// The check alone.
    Check,
}

const SIDES: [Side; 2] = [Side::Call, Side::Check];

#[derive(Clone, Copy)]
enum Call {
    Add(&'static str),
    Strike,
    UndoAdd,
    UndoStrike,
    /// With no line struck, the first one, or as many as the journal has.
    SettleNone,
    SettleFirst,
    SettleMany,
}

const CALLS: [(&str, Call, bool); 11] = [
    ("add, an exact name", Call::Add("_"), false),
    ("add, an exact name", Call::Add("_"), true),
    ("add, a glob", Call::Add("*"), false),
    ("strike", Call::Strike, false),
    ("strike", Call::Strike, true),
    ("undo of an add", Call::UndoAdd, false),
    ("undo of a strike", Call::UndoStrike, false),
    ("undo of a strike", Call::UndoStrike, true),
    ("settle, nothing struck", Call::SettleNone, false),
    ("settle, the first line struck", Call::SettleFirst, false),
    (
        "settle, half of the edits are strikes",
        Call::SettleMany,
        true,
    ),
];

/// The nodes, and the bytes of a line.
const NODES: usize = 4;
const LINE: usize = 128;

/// A book, which is made when it is first edited: under valgrind only one of them is.
struct Case {
    title: &'static str,
    call: Call,
    lines: usize,
    /// Whether the journal is full, or has room for one edit more where the call needs it.
    full: bool,
    made: OnceCell<Buffers>,
}

fn cases() -> Vec<Case> {
    let mut cases = Vec::new();
    for (title, call, full) in CALLS {
        for lines in [1_024, 4_096, limit::LINES] {
            // Each of the edits is an add or a strike of a line.
            if full && lines < limit::EDITS / 2 {
                continue;
            }
            cases.push(Case {
                title,
                call,
                lines,
                full,
                made: OnceCell::new(),
            });
        }
    }
    cases
}

impl Case {
    fn made(&self) -> &Buffers {
        self.made.get_or_init(|| {
            // Half of the edits are adds, half strikes; there is room for two more.
            let edits = if self.full { limit::EDITS - 2 } else { 0 };
            let adds = matches!(self.call, Call::Add(_) | Call::UndoAdd);
            let lines = self.lines - usize::from(adds);
            let mut model = Model::mixed(lines, NODES, edits, 9);
            let mut rooms = model.needs();
            rooms.journal += 2 * width::EDIT;
            if adds {
                rooms.lines += width::LINE;
                rooms.pool += LINE;
            }
            match self.call {
                Call::UndoAdd => model.add(Line::exact(&self.token())),
                Call::UndoStrike | Call::SettleFirst => model.strike(0),
                Call::Add(_) | Call::Strike | Call::SettleNone | Call::SettleMany => {}
            }
            model.laid(rooms)
        })
    }

    fn token(&self) -> Vec<u8> {
        let end = match self.call {
            Call::Add(end) => end,
            _ => "_",
        };
        format!("{:_<width$}{end}", "haze_more", width = LINE - 1).into_bytes()
    }

    fn call(&self, book: &mut Buffers, token: &[u8]) -> u64 {
        match self.call {
            Call::Add(_) => ours::add(book, [1, 0, 0], token),
            Call::Strike => ours::strike(book, 0),
            Call::UndoAdd | Call::UndoStrike => ours::undo(book),
            Call::SettleNone | Call::SettleFirst | Call::SettleMany => ours::settle(book),
        }
    }
}

/// Makes a call so many times, each on the same book, and gives the time taken. The book is given back
/// behind each, behind the check too.
fn repeat(side: Side, case: &Case, times: u32) -> Duration {
    let made = case.made();
    let token = case.token();
    let mut book = made.clone();
    let mut taken = Duration::ZERO;
    for _ in 0..times {
        let start = Instant::now();
        let done = match side {
            Side::Call => case.call(black_box(&mut book), black_box(&token)) == 0,
            Side::Check => ours::version_count(black_box(&book)) == Ok(NODES as u32),
        };
        taken += start.elapsed();
        assert!(done, "an edit of this list is done");
        again(black_box(&mut book), made);
    }
    taken
}

/// The book as it was; nodes and names are changed by no edit.
fn again(book: &mut Buffers, made: &Buffers) {
    book.counts.copy_from_slice(&made.counts);
    book.lines.copy_from_slice(&made.lines);
    book.pool.copy_from_slice(&made.pool);
    book.journal.copy_from_slice(&made.journal);
}

fn main() {
    let cases = cases();
    Bench {
        name: "bench_edits",
        cases: cases.len(),
        rounds: 41,
        repeat: &|side, case, times| Some(repeat(SIDES[side], &cases[case], times)),
        table: &|unit, figures| table(unit, &cases, figures),
    }
    .run()
}

/// What one call costs, how much of it is the check, both for each line too, and what is left.
fn table(unit: Unit, cases: &[Case], figures: &Figures<2>) {
    let words = match unit {
        Unit::Nanoseconds => "nanoseconds",
        Unit::Instructions => "instructions",
    };
    println!(
        "\n| {words} per call | lines | edits | ours | a line | the check | a line | the rest |"
    );
    println!("|---|--:|--:|--:|--:|--:|--:|--:|");
    for (case, &[call, check]) in cases.iter().zip(figures) {
        let counts = case.made().counted();
        let shown = |figure: Option<f64>, digits: usize| {
            figure.map_or("–".to_string(), |figure| format!("{figure:.digits$}"))
        };
        let a_line = |figure: Option<f64>| figure.map(|figure| figure / counts.lines as f64);
        let rest = call.zip(check).map(|(call, check)| call - check);
        println!(
            "| {} | {} | {} | {} | {} | {} | {} | {} |",
            case.title,
            counts.lines,
            counts.edits,
            shown(call, 0),
            shown(a_line(call), 2),
            shown(check, 0),
            shown(a_line(check), 2),
            shown(rest.filter(|&rest| rest > 0.0), 0)
        );
    }
}
