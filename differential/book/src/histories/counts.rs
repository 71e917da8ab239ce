//! How many calls there were, what they answered, and what was compared.

use crate::history::Step;
use crate::written::Cause;
use book::questions::{Outside, Question, What};
use book::reader::Refused;
use book::runs::text_has_run;
use book::storing::{has_run, trimmed};
use book::trial::BUFFERS;
use book::why::{Reason, Why, NUMBERS};
use reading_host::Source;

/// The calls, by their numbers.
const CALLS: [&str; 13] = [
    "open a version script",
    "open an export list",
    "add",
    "strike",
    "undo",
    "settle",
    "add_symbol",
    "version",
    "locality",
    "contains",
    "version count",
    "parent count",
    "why",
];

/// Done, and the refusals.
const ANSWERS: usize = 15;

#[derive(Clone, Default)]
pub struct Counts {
    /// By call and answer.
    calls: [[u64; ANSWERS]; CALLS.len()],
    /// How often each buffer had no room, and was at its limit.
    full: [[u64; 2]; BUFFERS.len()],
    /// Calls with a run of stars in a glob, and how many of them were done.
    runs: [u64; 2],
    /// What was named: an opened line, one that was added, no line, the wanted version.
    named: [u64; 4],
    /// Lookups that were held against the ranking, and against the Rust.
    pub with_model: u64,
    pub with_rust: u64,
    /// Lookups that were not held against the Rust, by the cause.
    pub unwritten: [u64; Cause::REASONS.len()],
    pub outside: [u64; Outside::REASONS.len()],
    pub of_the_other_kind: u64,
    pub rust_locality: u64,
}

impl Counts {
    /// An opening or an edit, and how it must be refused.
    pub fn called(&mut self, step: &Step, answer: u64, refused: Option<&Refused>) {
        let call = match step {
            Step::Open(Source::ExportList, _) => 1,
            Step::Open(..) => 0,
            Step::Add(..) => 2,
            Step::Strike(_) => 3,
            Step::Undo => 4,
            Step::Settle => 5,
            Step::AddSymbol(..) => 6,
            Step::Lend(..) | Step::Book(_) | Step::Ask(_) => panic!("it is no call"),
        };
        self.answered(call, answer);
        if with_a_run(step) {
            self.runs[0] += 1;
            self.runs[1] += u64::from(answer == 0);
        }
        if let Some(full) = refused.and_then(|refused| refused.full) {
            self.full[full.buffer][usize::from(full.limit)] += 1;
        }
    }

    pub fn asked(&mut self, question: &Question, answer: Result<u32, u64>) {
        let call = match question.what {
            What::Version => 7,
            What::Locality => 8,
            What::Membership => 9,
        };
        self.answered(call, answer.err().unwrap_or(0));
    }

    pub fn why(&mut self, answer: Result<[u32; NUMBERS], u64>) {
        self.answered(12, answer.err().unwrap_or(0));
        if let Some(why) = answer.ok().and_then(Why::of) {
            let named = match why {
                Why::Line(Reason { offset: 0, .. }) => 1,
                Why::Line(_) => 0,
                Why::NoLine => 2,
                Why::Wanted => 3,
            };
            self.named[named] += 1;
        }
    }

    pub fn counted(&mut self, answers: [Result<u32, u64>; 2]) {
        for (call, answer) in (10..).zip(answers) {
            self.answered(call, answer.err().unwrap_or(0));
        }
    }

    /// An answer that there is none of differs anyway.
    fn answered(&mut self, call: usize, answer: u64) {
        if let Some(count) = self.calls[call].get_mut(answer as usize) {
            *count += 1;
        }
    }

    pub fn print(&self) {
        let heads: Vec<String> = (0..ANSWERS).map(|answer| answer.to_string()).collect();
        println!("\n| calls that answered | {} | all |", heads.join(" | "));
        println!("|---|{}", "--:|".repeat(ANSWERS + 1));
        let row = |words: &str, counts: [u64; ANSWERS]| {
            let shown = counts.map(|count| count.to_string()).join(" | ");
            println!("| {words} | {shown} | {} |", counts.iter().sum::<u64>());
        };
        for (words, counts) in CALLS.iter().zip(self.calls) {
            row(words, counts);
        }
        let of = |answer: usize| self.calls.iter().map(|counts| counts[answer]).sum();
        row("all", std::array::from_fn(of));

        let full = BUFFERS.iter().zip(self.full);
        let full: Vec<String> = full
            .map(|(buffer, [room, limit])| format!("{buffer} {room} and {limit}"))
            .collect();
        println!(
            "\nrefused 8 for want of room, and at the limit: {}",
            full.join(", ")
        );
        let [runs, done] = self.runs;
        println!("calls with a run of stars: {runs}, of which {done} were done");
        let [opened, added, nothing, wanted] = self.named;
        println!(
            "why: an opened line {opened}, an added one {added}, no line {nothing}, the wanted version {wanted}"
        );
        println!(
            "lookups held against the model: {}; against the Rust, over the lines left standing: {}",
            self.with_model, self.with_rust
        );
        let left: Vec<String> = Cause::REASONS
            .iter()
            .zip(self.unwritten)
            .chain(Outside::REASONS.iter().zip(self.outside))
            .map(|(words, count)| format!("{words} {count}"))
            .collect();
        println!(
            "not held against the Rust: {}, a question of the other kind {}, the locality of the Rust kind {}",
            left.join(", "),
            self.of_the_other_kind,
            self.rust_locality
        );
    }
}

/// Whether a call is given a glob with a run of stars outside a bracket.
fn with_a_run(step: &Step) -> bool {
    match step {
        Step::Open(source, text) => text_has_run(*source, text),
        Step::Add(_, token) => has_run(trimmed(token)),
        Step::AddSymbol(0, text) => text_has_run(Source::AddSymbol, text),
        Step::AddSymbol(_, text) => text_has_run(Source::AddSymbolWithoutSemicolon, text),
        _ => false,
    }
}
