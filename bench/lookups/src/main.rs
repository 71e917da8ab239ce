//! A version asked of an opened book, by the proved library beside the published Rust's
//! `version_for_symbol`, in one run. The Rust has hash sets of exact names and lists of compiled
//! patterns, ours has rows; and ours checks the whole book at every call, which is measured apart, as
//! the count of versions.

use bench::{ratio, Bench, Figures, Unit};
use book::buffers::{Buffers, Rooms};
use book::model::Model;
use book::ours::{self, Name};
use reading_host::asked::{Script, Symbol};
use reading_host::Source;
use std::cell::OnceCell;
use std::hint::black_box;
use std::time::{Duration, Instant};

#[derive(Clone, Copy)]
enum Side {
    Published,
    Ours,
    /// The check alone.
    Check,
}

const SIDES: [Side; 3] = [Side::Published, Side::Ours, Side::Check];

/// The nodes, each with as many of the lines.
const NODES: usize = 4;

/// The token of the line with a number, which matches the name with that number and no other.
type Token = fn(usize) -> String;

const SCRIPTS: [(&str, Token); 3] = [("exact names", name), ("globs", glob), ("mixed", mixed)];

fn name(number: usize) -> String {
    format!("haze_{number}_of_the_record")
}

fn without_star(number: usize) -> String {
    format!("haze_{number}_of_the_recor?")
}

fn with_star(number: usize) -> String {
    format!("haze_{number}_of_*")
}

/// Every second one has a star.
fn glob(number: usize) -> String {
    [without_star, with_star][number % 2](number)
}

/// Of ten lines, eight are exact names, the fifth has a `?` and the last a star.
fn mixed(number: usize) -> String {
    match number % 10 {
        4 => without_star(number),
        9 => with_star(number),
        _ => name(number),
    }
}

/// A script, which is made when it is first asked: under valgrind only one of them is.
struct Made {
    token: Token,
    lines: usize,
    text: OnceCell<Vec<u8>>,
    book: OnceCell<Buffers>,
}

impl Made {
    fn text(&self) -> &[u8] {
        self.text.get_or_init(|| {
            let node = |node: usize| {
                let [start, end] = [node, node + 1].map(|node| node * self.lines / NODES);
                let lines: String = (start..end)
                    .map(|number| format!("{};\n", (self.token)(number)))
                    .collect();
                format!("V{node} {{\n{lines}}};\n")
            };
            (0..NODES).map(node).collect::<String>().into_bytes()
        })
    }

    fn book(&self) -> &Buffers {
        self.book.get_or_init(|| {
            let text = self.text();
            let open = |rooms| {
                let mut book = Buffers::new(rooms);
                let answer = ours::open(Source::Script, text, &mut book);
                assert!(answer == 0, "a script of this list is refused {answer}");
                book
            };
            open(Model::of(&open(Rooms::ample(text.len()))).needs())
        })
    }
}

/// A name that is asked of a script, and the index of its version, 0 for none.
struct Case<'m> {
    title: &'static str,
    made: &'m Made,
    of: &'static str,
    name: String,
    index: u32,
}

fn cases<'m>(scripts: &'m [(&'static str, Made)]) -> Vec<Case<'m>> {
    let mut cases = Vec::new();
    for (title, made) in scripts {
        let names = [
            ("first line", name(0), 2),
            ("last line", name(made.lines - 1), 1 + NODES as u32),
            ("no line", "haze_of_the_record".to_string(), 0),
        ];
        cases.extend(names.map(|(of, name, index)| Case {
            title,
            made,
            of,
            name,
            index,
        }));
    }
    cases
}

/// Asks so many times, and gives the time taken.
fn repeat(side: Side, case: &Case, times: u32) -> Duration {
    let raw = case.name.as_bytes();
    match side {
        Side::Published => {
            let script = Script::parse(case.made.text()).expect("it is accepted");
            let symbol = Symbol::new(raw);
            let none = (case.index != 0).then_some(case.index as u16);
            timed(times, || {
                script.version(black_box(&symbol), None) == Some(none)
            })
        }
        Side::Ours => {
            let name = Name {
                raw,
                demangled: raw,
            };
            let book = case.made.book();
            timed(times, || {
                ours::version(black_box(book), black_box(name), None) == Ok(case.index)
            })
        }
        Side::Check => {
            let book = case.made.book();
            timed(times, || {
                ours::version_count(black_box(book)) == Ok(1 + NODES as u32)
            })
        }
    }
}

fn timed(times: u32, mut run: impl FnMut() -> bool) -> Duration {
    let start = Instant::now();
    for _ in 0..times {
        assert!(run(), "both sides answer as they must");
    }
    start.elapsed()
}

fn main() {
    let mut scripts = Vec::new();
    for (title, token) in SCRIPTS {
        for lines in [10, 1_000, 12_000] {
            let made = Made {
                token,
                lines,
                text: OnceCell::new(),
                book: OnceCell::new(),
            };
            scripts.push((title, made));
        }
    }
    let cases = cases(&scripts);
    Bench {
        name: "bench_lookups",
        cases: cases.len(),
        rounds: 61,
        repeat: &|side, case, times| Some(repeat(SIDES[side], &cases[case], times)),
        table: &|unit, figures| table(unit, &cases, figures),
    }
    .run()
}

/// What one lookup costs on each side, how much of ours is the check, and the ratios of all of ours,
/// and of ours without the check, to the Rust's.
fn table(unit: Unit, cases: &[Case], figures: &Figures<3>) {
    let (words, seconds) = match unit {
        Unit::Nanoseconds => ("nanoseconds", true),
        Unit::Instructions => ("instructions", false),
    };
    let (head, rule) = match seconds {
        true => (" Rust, per second | ours, per second |", "--:|--:|"),
        false => ("", ""),
    };
    println!(
        "\n| {words} per lookup | lines | name of |{head} Rust | ours | the check | the rest | ratio | of the rest |"
    );
    println!("|---|--:|---|{rule}--:|--:|--:|--:|--:|--:|");
    for (case, &[rust, ours, _]) in cases.iter().zip(figures) {
        let check = check(case.made, cases, figures);
        let rest = ours.zip(check).map(|(ours, check)| ours - check);
        let rest = rest.filter(|&rest| rest > 0.0);
        let shown =
            |figure: Option<f64>| figure.map_or("–".to_string(), |figure| format!("{figure:.0}"));
        let rates = match seconds {
            true => [rust, ours]
                .map(|figure| format!(" {} |", shown(figure.map(|figure| 1e9 / figure))))
                .concat(),
            false => String::new(),
        };
        println!(
            "| {} | {} | {} |{rates} {} | {} | {} | {} | {} | {} |",
            case.title,
            case.made.lines,
            case.of,
            shown(rust),
            shown(ours),
            shown(check),
            shown(rest),
            ratio(rust, ours),
            ratio(rust, rest)
        );
    }
}

/// The check is the same for each name of a script: its fastest.
fn check(made: &Made, cases: &[Case], figures: &Figures<3>) -> Option<f64> {
    let of_it = cases.iter().zip(figures);
    let of_it = of_it.filter(|(case, _)| std::ptr::eq(case.made, made));
    of_it
        .filter_map(|(_, &[_, _, check])| check)
        .min_by(f64::total_cmp)
}
