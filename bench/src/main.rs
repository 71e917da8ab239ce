//! Matching by the proved library beside the published Rust's `Pattern::matches`, in one run.
//!
//! The Rust compiles a pattern once, before its clock starts. `glob_match_matches` checks the
//! stored bytes and the name at every call; `glob_match_tried` is the matching alone.

use bench::{Bench, Figures, Unit};
use host::ours;
use host::published::{self, Pattern};
use std::hint::black_box;
use std::time::{Duration, Instant};

#[derive(Clone, Copy)]
enum Side {
    Published,
    Tried,
    Matches,
}

const SIDES: [Side; 3] = [Side::Published, Side::Tried, Side::Matches];

struct Case {
    title: &'static str,
    pattern: String,
    name: String,
}

fn cases() -> Vec<Case> {
    let mut cases = Vec::new();
    let mut case = |title, pattern: &str, name: &str| {
        cases.push(Case {
            title,
            pattern: pattern.to_string(),
            name: name.to_string(),
        })
    };

    let literal = "haze_month_of_the_record";
    case("literal, equal", literal, literal);
    case(
        "literal, last byte differs",
        literal,
        "haze_month_of_the_recorx",
    );
    case(
        "literal, first byte differs",
        literal,
        "maze_month_of_the_record",
    );

    for middle in [1, 21, 117, 1013] {
        case(
            "one star",
            "haze_*_month",
            &format!("haze_{}_month", "x".repeat(middle)),
        );
    }
    case(
        "one star, no match",
        "haze_*_month",
        &format!("haze_{}_mont_", "x".repeat(117)),
    );

    case("brackets", "[a-z]aze_[0-9][0-9]", "haze_07");
    case("brackets, no match", "[a-z]aze_[0-9][0-9]", "haze_0x");

    // The name grows: it has each part of the pattern many times over, but for the last.
    let stars = format!("{}*ac", "*ab".repeat(29));
    for pairs in [128, 512, 2048, 8192, 32_768] {
        case("thirty stars, nearly", &stars, &"ab".repeat(pairs));
    }
    // The pattern grows: what stands behind the last star nearly fits at each place of the name.
    for last in [4, 68, 324] {
        let pattern = format!("{}*{}b", "*a".repeat(29), "a".repeat(last));
        case(
            "thirty stars, nearly at each place",
            &pattern,
            &"a".repeat(4096),
        );
    }
    cases
}

/// Matches so many times, and gives the time taken.
fn repeat(side: Side, case: &Case, times: u32) -> Duration {
    let pattern = pattern(case);
    let start = Instant::now();
    for _ in 0..times {
        black_box(once(side, black_box(case), black_box(&pattern)));
    }
    start.elapsed()
}

fn once(side: Side, case: &Case, pattern: &Pattern) -> bool {
    let (stored, name) = (case.pattern.as_bytes(), case.name.as_bytes());
    match side {
        Side::Published => pattern.matches(&case.name),
        Side::Tried => ours::tried(stored, name) == ours::done(1),
        Side::Matches => ours::matches(stored, name) == ours::done(1),
    }
}

fn pattern(case: &Case) -> Pattern {
    published::pattern(case.pattern.as_bytes()).expect("a pattern of this list is accepted")
}

fn main() {
    let cases = cases();
    Bench {
        name: "bench",
        cases: cases.len(),
        rounds: 41,
        repeat: &|side, case, times| Some(repeat(SIDES[side], &cases[case], times)),
        table: &|unit, figures| table(unit, &cases, figures),
    }
    .run()
}

/// One line for each case: what a match costs on each side, and ours in ratio to the Rust's.
fn table(unit: Unit, cases: &[Case], figures: &Figures<3>) {
    for case in cases {
        let [rust, tried, matches] = SIDES.map(|side| once(side, case, &pattern(case)));
        assert!(rust == tried && rust == matches, "{} differs", case.title);
    }
    let unit = match unit {
        Unit::Nanoseconds => "nanoseconds",
        Unit::Instructions => "instructions",
    };
    println!(
        "\n| {unit} per match | pattern | name | Rust | `tried` | ratio | `matches` | ratio |"
    );
    println!("|---|--:|--:|--:|--:|--:|--:|--:|");
    for (case, sides) in cases.iter().zip(figures) {
        let [rust, tried, matches] = sides.map(|figure| figure.expect("each side has each case"));
        println!(
            "| {} | {} | {} | {rust:.0} | {tried:.0} | {:.2} | {matches:.0} | {:.2} |",
            case.title,
            case.pattern.len(),
            case.name.len(),
            tried / rust,
            matches / rust,
        );
    }
}
