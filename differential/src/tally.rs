//! The counts of a comparison: what agreed, what lies outside the domain of equality, by its
//! reason, and what differed.

use std::time::{Duration, Instant};

/// The differences that are printed; the others are only counted.
const SHOWN: u64 = 10;

pub struct Tally<const REASONS: usize> {
    same: u64,
    outside: [(&'static str, u64); REASONS],
    different: u64,
    phase: &'static str,
    before_phase: u64,
    said: Instant,
}

impl<const REASONS: usize> Tally<REASONS> {
    /// With the reasons for which a case can lie outside, by their numbers.
    pub fn new(reasons: [&'static str; REASONS]) -> Self {
        Self {
            same: 0,
            outside: reasons.map(|reason| (reason, 0)),
            different: 0,
            phase: "",
            before_phase: 0,
            said: Instant::now(),
        }
    }

    /// A named part begins.
    pub fn begin(&mut self, phase: &'static str) {
        self.phase = phase;
        self.before_phase = self.total();
    }

    /// It ends, and how many comparisons it made is printed.
    pub fn end(&self) {
        println!("{}: {}", self.phase, self.total() - self.before_phase);
    }

    /// The last line; true when nothing differed.
    pub fn finish(&self) -> bool {
        let outside = match self
            .outside
            .map(|(reason, count)| format!("{reason} {count}"))
            .join(", ")
        {
            none if none.is_empty() => none,
            some => format!("outside the domain: {some}; "),
        };
        println!("same {}; {outside}different {}", self.same, self.different);
        self.different == 0
    }

    fn total(&self) -> u64 {
        let outside = self.outside.iter().map(|(_, count)| count);
        self.same + outside.sum::<u64>() + self.different
    }

    /// One comparison: the number of the reason for which it lies outside, whether the two sides
    /// did as they must, and words for it where they did not.
    pub fn judge(&mut self, outside: Option<usize>, agree: bool, case: impl FnOnce() -> String) {
        match outside {
            _ if !agree => {
                self.different += 1;
                if self.different <= SHOWN {
                    println!("different: {}", case());
                }
            }
            Some(reason) => self.outside[reason].1 += 1,
            None => self.same += 1,
        }
        if self.total() % 1024 == 0 && self.said.elapsed() > Duration::from_secs(1) {
            self.said = Instant::now();
            eprintln!(
                "{}: {} so far",
                self.phase,
                self.total() - self.before_phase
            );
        }
    }
}
