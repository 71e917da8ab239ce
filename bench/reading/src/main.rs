//! Reading by the proved library beside the published Rust's `VersionScript::parse`, in one run.
//!
//! The two do not do the same: `reading_events` writes a row for each event into lent memory, and
//! the Rust builds its sets, patterns and lists as it reads.

use bench::{ratio, Bench, Figures, Unit};
use reading_host::{ours, published, Source};
use std::hint::black_box;
use std::time::{Duration, Instant};

#[derive(Clone, Copy)]
enum Side {
    Published,
    Ours,
}

const SIDES: [Side; 2] = [Side::Published, Side::Ours];

struct Case {
    title: &'static str,
    lines: usize,
    script: Vec<u8>,
}

fn cases() -> Vec<Case> {
    let mut cases = Vec::new();
    let mut case = |title, [front, back]: [&str; 2], lines, line: usize, length: usize| {
        let mut script = String::from(front);
        for number in 0..lines {
            let name = format!("haze_{number}");
            script += &format!("{name:_<width$};\n", width = line - 2);
        }
        // What is left is blanks.
        script += &" ".repeat(length - script.len() - back.len());
        script += back;
        cases.push(Case {
            title,
            lines,
            script: script.into_bytes(),
        });
    };
    let body = ["{\n", "};\n"];
    let block = ["{ extern \"C\" {\n", "}; };\n"];
    // 64 KiB to 1 MiB, with as many lines of 65 bytes as fit, but for a few.
    for (title, ends) in [("one body", body), ("one extern block", block)] {
        for thousands in [1, 2, 4, 8, 16] {
            case(title, ends, thousands * 1000, 65, thousands * 65_536);
        }
    }
    case("one body, short lines", body, 16_000, 12, 196_608);
    cases
}

/// Reads so many times, and gives the time taken.
fn repeat(side: Side, case: &Case, times: u32) -> Duration {
    // The lines, a body, and a block's opening and closing.
    let mut rows = vec![0; (case.lines + 3) * ours::WIDTH];
    let start = Instant::now();
    for _ in 0..times {
        let accepted = once(side, black_box(&case.script), black_box(&mut rows));
        assert!(accepted, "{} is accepted", case.title);
    }
    start.elapsed()
}

fn once(side: Side, script: &[u8], rows: &mut [u64]) -> bool {
    match side {
        Side::Published => published::parse_script(script),
        Side::Ours => ours::events(Source::Script, script, rows) % 256 == 0,
    }
}

fn main() {
    let cases = cases();
    Bench {
        name: "bench_reading",
        cases: cases.len(),
        rounds: 21,
        repeat: &|side, case, times| Some(repeat(SIDES[side], &cases[case], times)),
        table: &|unit, figures| table(unit, &cases, figures),
    }
    .run()
}

/// One line for each case: what a reading costs on each side, in thousands, and for each byte, and
/// ours in ratio to the Rust's. A figure may be missing.
fn table(unit: Unit, cases: &[Case], figures: &Figures<2>) {
    let (thousands, unit) = match unit {
        Unit::Nanoseconds => ("microseconds", "ns"),
        Unit::Instructions => ("thousand instructions", "instructions"),
    };
    println!(
        "\n| {thousands} per reading | bytes | lines | Rust | {unit} a byte | ours | {unit} a byte | ratio |"
    );
    println!("|---|--:|--:|--:|--:|--:|--:|--:|");
    for (case, &[rust, ours]) in cases.iter().zip(figures) {
        let bytes = case.script.len();
        let shown = |figure: Option<f64>| match figure {
            Some(figure) => format!("{:.0} | {:.2}", figure / 1000.0, figure / bytes as f64),
            None => "– | –".to_string(),
        };
        println!(
            "| {} | {bytes} | {} | {} | {} | {} |",
            case.title,
            case.lines,
            shown(rust),
            shown(ours),
            ratio(rust, ours)
        );
    }
}
