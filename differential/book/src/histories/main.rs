//! Compares random histories of trial books with a slow model of document 01, call by call.
//!
//!     histories [--seed N] [--rounds N]   compare; exit status 1 when anything differs
//!     histories replay FILE               a history that was written down (history.rs)
//!
//! A history opens a version script or an export list into lent buffers of random rooms, and then adds,
//! strikes, undoes, settles and adds symbols, at times what must be refused. After each call the six
//! buffers must be, number for number and byte for byte, what the model lays out, and the number what it
//! answers; then the counts and some names are asked, mostly of lines that the call has changed, and held
//! against document 01's ranking, which also says which line must be named where the library is asked
//! why. The model (../trial.rs, ../reader.rs, ../storing.rs, ../ranking.rs) is written from document 01,
//! document 02's requests 01 to 03 and docs/DECISIONS.md; its reading tells each line's offset, and its
//! undo goes back to the book before, which it has kept whole.
//!
//! Where the lines left standing can be written as a text, the published Rust reads that text and is
//! asked for the same names; its answers must be ours, and ours what the named line gives. Left out, and
//! counted by the cause, are books with a line that no text has there, questions outside the domain of
//! equality, and the locality of the Rust kind, which it has not.
//!
//! A third of the histories ends with the buffers changed. Where they are no book any more, by the plain
//! reading of row 14 (../fault.rs), every call must answer 14 and change nothing.

mod counts;
mod desk;
mod draw;
mod history;
mod limits;
mod smallest;
mod written;

use book::model::Model;
use counts::Counts;
use desk::Desk;
use differential::command::Program;
use differential::inputs::Random;
use differential::tally::Tally;
use history::Step;
use std::process::ExitCode;

fn main() -> ExitCode {
    Program {
        name: "histories",
        rounds: 150_000,
        compared,
        sample: None,
        replay: Some(replayed),
    }
    .run()
}

/// The whole comparison; true when nothing differed.
fn compared(mut random: Random, rounds: u64) -> bool {
    let mut comparison = Comparison {
        tally: Tally::new([]),
        counts: Counts::default(),
        desk: Desk::new(),
        history: Vec::new(),
    };
    comparison.phase("random histories", |comparison| {
        for _ in 0..rounds {
            comparison.random(&mut random);
        }
    });
    comparison.phase("around the limits", |comparison| {
        for history in limits::histories() {
            comparison.whole(history);
        }
    });
    comparison.counts.print();
    comparison.tally.finish()
}

/// A history that was written down; true when it does not differ.
fn replayed(text: &str) -> Result<bool, String> {
    let step = |line: &str| Step::parse(line).ok_or_else(|| format!("no step: {line}"));
    let history: Result<Vec<Step>, String> = text.lines().map(step).collect();
    let mut counts = Counts::default();
    let difference = Desk::differs(&history?, &mut counts);
    counts.print();
    match &difference {
        Some((step, what)) => println!("different, at line {}: {what}", step + 1),
        None => println!("different 0"),
    }
    Ok(difference.is_none())
}

struct Comparison {
    tally: Tally<0>,
    counts: Counts,
    desk: Desk,
    /// The steps so far.
    history: Vec<Step>,
}

impl Comparison {
    /// Runs a named part, and prints how many comparisons it made.
    fn phase(&mut self, name: &'static str, run: impl FnOnce(&mut Self)) {
        self.tally.begin(name);
        run(self);
        self.tally.end();
    }

    fn whole(&mut self, history: Vec<Step>) {
        self.history.clear();
        for step in history {
            if !self.takes(step) {
                return;
            }
        }
    }

    /// Nothing follows what differs.
    fn random(&mut self, random: &mut Random) -> Option<()> {
        self.history.clear();
        for step in draw::beginning(random) {
            self.step(random, step)?;
        }
        for _ in 0..draw::calls(random, &self.desk) {
            let call = draw::call(random, &self.desk);
            self.step(random, call)?;
        }
        if random.one_in(8) && self.desk.goes_back() {
            // Back to the beginning, and one undo more.
            for _ in 0..=self.book().map_or(0, |book| book.edits.len()) {
                self.step(random, Step::Undo)?;
            }
        }
        if random.one_in(3) {
            let book = self.book();
            let damaged = draw::damaged(random, &self.desk.lent);
            self.step(random, damaged)?;
            for call in draw::each(random, book.as_ref()) {
                self.step(random, call)?;
            }
            for _ in 0..random.below(4) {
                let call = draw::call(random, &self.desk);
                self.step(random, call)?;
            }
        }
        Some(())
    }

    /// A step, and questions; nothing where one differs.
    fn step(&mut self, random: &mut Random, step: Step) -> Option<()> {
        let before = self.book();
        let same = self.takes(step);
        let ask = draw::ask(random, before.as_ref(), self.book().as_ref());
        (same && self.takes(ask)).then_some(())
    }

    fn book(&self) -> Option<Model> {
        self.desk.trial.as_ref().map(|trial| trial.book.clone())
    }

    /// One step; false where it differs.
    fn takes(&mut self, step: Step) -> bool {
        let taken = self.desk.take(&step, &mut self.counts);
        self.history.push(step);
        let history = &self.history;
        self.tally
            .judge(None, taken.is_ok(), || smallest::smallest(history));
        taken.is_ok()
    }
}
