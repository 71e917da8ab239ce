//! Opening by the proved library beside the published Rust's `VersionScript::parse`, in one run; and
//! the check of a whole book, which every function that takes a book makes first and the Rust has
//! nothing like.
//!
//! The Rust's figure includes that what it built is freed, ours that the lent buffers are cleared.

use bench::{ratio, Bench, Figures, Unit};
use book::buffers::{Buffers, Rooms};
use book::model::Model;
use book::{kind, limit, ours};
use reading_host::{published, Source};
use std::cell::OnceCell;
use std::hint::black_box;
use std::time::{Duration, Instant};

/// The sides, by their numbers.
const PUBLISHED: usize = 0;

/// A case, which is made when it is first run: under valgrind only one of them is.
struct Case {
    title: &'static str,
    what: What,
    made: OnceCell<Made>,
}

enum What {
    /// One body of lines, to a length in bytes.
    Lines(Token, usize, usize, Lent),
    /// Nodes, each with the one before it as its parent, which both sides look for from the first
    /// on; and the length of a name.
    Nodes(usize, usize),
    /// The check of a book with so many lines, nodes and edits, and the length of a name.
    Check(usize, usize, usize, usize),
    /// The check of a book that has nothing, in rooms up to the limits.
    CheckEmpty,
}

/// The rooms that a script is opened into.
#[derive(Clone, Copy)]
enum Lent {
    JustEnough,
    Limits,
}

enum Made {
    Script { script: Vec<u8>, rooms: Rooms },
    Book(Buffers),
}

/// The lines of a script, by their numbers, to a given length.
type Token = fn(usize, usize) -> String;

const TOKENS: [(&str, Token); 5] = [
    ("exact names", |number, length| {
        format!("{:_<length$}", format!("haze_{number}"))
    }),
    ("quoted names", |number, length| {
        format!(
            "\"{:_<width$}\"",
            format!("haze_{number}"),
            width = length - 2
        )
    }),
    ("star globs", |number, length| {
        format!("{:_<width$}*", format!("haze_{number}"), width = length - 1)
    }),
    ("globs with `?`", |number, length| {
        format!("{:_<width$}?", format!("haze_{number}"), width = length - 1)
    }),
    ("globs with a bracket", |number, length| {
        format!(
            "{:_<width$}[a-z]",
            format!("haze_{number}"),
            width = length - 5
        )
    }),
];

/// The bytes of a line, with its `;` and its LF.
const LINE: usize = 63;

fn cases() -> Vec<Case> {
    let mut whats = Vec::new();
    for (title, token) in TOKENS {
        for part in [16, 4, 1] {
            let (lines, length) = (limit::LINES / part, limit::SCRIPT / part);
            whats.push((title, What::Lines(token, lines, length, Lent::JustEnough)));
        }
        let full = What::Lines(token, limit::LINES, limit::SCRIPT, Lent::Limits);
        whats.push((title, full));
    }
    for lent in [Lent::JustEnough, Lent::Limits] {
        let few = What::Lines(TOKENS[0].1, 10, 1024, lent);
        whats.push(("ten exact names", few));
    }
    for (title, length) in [("nodes, short names", 8), ("nodes, long names", 480)] {
        for nodes in [limit::NODES / 4, limit::NODES / 2, limit::NODES] {
            whats.push((title, What::Nodes(nodes, length)));
        }
    }

    for part in [16, 8, 4, 2, 1] {
        let [lines, nodes, edits] =
            [limit::LINES, limit::NODES, limit::EDITS].map(|limit| limit / part);
        whats.push(("short names", What::Check(lines, nodes, edits, 9)));
    }
    for part in [4, 2, 1] {
        let nodes = limit::NODES / part;
        let long = What::Check(limit::LINES, nodes, limit::EDITS, 1000);
        whats.push(("long names, alike but for the end", long));
    }
    let one = What::Check(limit::LINES, 1, limit::EDITS, 9);
    whats.push(("node 0 alone", one));
    whats.push(("nothing, in rooms up to the limits", What::CheckEmpty));

    let case = |(title, what)| Case {
        title,
        what,
        made: OnceCell::new(),
    };
    whats.into_iter().map(case).collect()
}

impl Case {
    fn made(&self) -> &Made {
        self.made.get_or_init(|| match self.what {
            What::Lines(token, lines, length, lent) => script(one_body(token, lines, length), lent),
            What::Nodes(nodes, length) => script(chain(nodes, length), Lent::JustEnough),
            What::Check(lines, nodes, edits, name) => {
                let model = Model::mixed(lines, nodes, edits, name);
                Made::Book(model.laid(model.needs()))
            }
            What::CheckEmpty => Made::Book(Model::new(kind::REGULAR).laid(Rooms::FULL)),
        })
    }
}

fn script(script: Vec<u8>, lent: Lent) -> Made {
    let rooms = match lent {
        Lent::JustEnough => just(&script),
        Lent::Limits => Rooms::FULL,
    };
    Made::Script { script, rooms }
}

/// A script of one body; what is left of its length is blanks.
fn one_body(token: Token, lines: usize, length: usize) -> Vec<u8> {
    let mut script = String::from("{\n");
    for number in 0..lines {
        script += &format!("{};\n", token(number, LINE - 2));
    }
    script += &" ".repeat(length - script.len() - 3);
    script += "};\n";
    script.into_bytes()
}

fn chain(nodes: usize, length: usize) -> Vec<u8> {
    let name = |number: usize| format!("{number:n>length$}");
    let node = |number: usize| match number {
        1 => format!("{} {{}};\n", name(1)),
        _ => format!("{} {{}} {};\n", name(number), name(number - 1)),
    };
    (1..nodes).map(node).collect::<String>().into_bytes()
}

/// The rooms that a script needs, to the last number and byte.
fn just(script: &[u8]) -> Rooms {
    let mut book = Buffers::new(Rooms::ample(script.len()));
    let answer = ours::open(Source::Script, script, &mut book);
    assert!(answer == 0, "a script of this list is refused {answer}");
    Model::of(&book).needs()
}

/// Runs a case so many times, and gives the time taken; nothing where the Rust does not have it.
fn repeat(side: usize, case: &Case, times: u32) -> Option<Duration> {
    match case.made() {
        Made::Script { script, .. } if side == PUBLISHED => {
            Some(timed(times, || published::parse_script(black_box(script))))
        }
        Made::Script { script, rooms } => {
            let mut book = Buffers::new(*rooms);
            Some(timed(times, || {
                ours::open(Source::Script, black_box(script), black_box(&mut book)) == 0
            }))
        }
        Made::Book(_) if side == PUBLISHED => None,
        Made::Book(book) => Some(timed(times, || {
            ours::version_count(black_box(book)).is_ok()
        })),
    }
}

fn timed(times: u32, mut run: impl FnMut() -> bool) -> Duration {
    let start = Instant::now();
    for _ in 0..times {
        assert!(run(), "a case of this list is accepted");
    }
    start.elapsed()
}

fn main() {
    let cases = cases();
    Bench {
        name: "bench_book",
        cases: cases.len(),
        rounds: 21,
        repeat: &|side, case, times| repeat(side, &cases[case], times),
        table: &|unit, figures| {
            openings(unit, &cases, figures);
            checks(unit, &cases, figures);
        },
    }
    .run()
}

fn words(unit: Unit) -> (&'static str, &'static str) {
    match unit {
        Unit::Nanoseconds => ("microseconds", "ns"),
        Unit::Instructions => ("thousand instructions", "instructions"),
    }
}

/// What one opening costs on each side, in thousands, and ours for each byte of the script.
fn openings(unit: Unit, cases: &[Case], figures: &Figures<2>) {
    let (thousands, unit) = words(unit);
    println!(
        "\n| {thousands} per opening | bytes | nodes | lines | rooms | Rust | ours | {unit} a byte | ratio |"
    );
    println!("|---|--:|--:|--:|---|--:|--:|--:|--:|");
    for (case, &[rust, ours]) in cases.iter().zip(figures) {
        let Made::Script { script, .. } = case.made() else {
            continue;
        };
        let (nodes, lines, lent) = match case.what {
            What::Lines(_, lines, _, Lent::JustEnough) => (1, lines, "just enough"),
            What::Lines(_, lines, _, Lent::Limits) => (1, lines, "the limits"),
            What::Nodes(nodes, _) => (nodes, 0, "just enough"),
            What::Check(..) | What::CheckEmpty => continue,
        };
        println!(
            "| {} | {} | {nodes} | {lines} | {lent} | {} | {} | {} | {} |",
            case.title,
            script.len(),
            in_thousands(rust),
            in_thousands(ours),
            each(ours, script.len()),
            ratio(rust, ours)
        );
    }
}

/// What one check costs, and for each byte of the buffers.
fn checks(unit: Unit, cases: &[Case], figures: &Figures<2>) {
    let (thousands, unit) = words(unit);
    println!(
        "\n| {thousands} per check | nodes | lines | pool | edits | ours | {unit} a byte lent |"
    );
    println!("|---|--:|--:|--:|--:|--:|--:|");
    for (case, &[_, ours]) in cases.iter().zip(figures) {
        let Made::Book(book) = case.made() else {
            continue;
        };
        let counts = book.counted();
        println!(
            "| {} | {} | {} | {} | {} | {} | {} |",
            case.title,
            counts.nodes,
            counts.lines,
            counts.pool,
            counts.edits,
            in_thousands(ours),
            each(ours, bytes(book.rooms()))
        );
    }
}

fn in_thousands(figure: Option<f64>) -> String {
    figure.map_or("–".to_string(), |figure| {
        format!("{:.1}", figure / 1000.0)
    })
}

fn each(figure: Option<f64>, bytes: usize) -> String {
    figure.map_or("–".to_string(), |figure| {
        format!("{:.2}", figure / bytes as f64)
    })
}

fn bytes(rooms: Rooms) -> usize {
    4 * (rooms.nodes + rooms.lines + rooms.journal) + rooms.names + rooms.pool
}
