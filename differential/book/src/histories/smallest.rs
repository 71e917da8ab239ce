//! A history that differs, made smaller as long as it differs.

use crate::counts::Counts;
use crate::desk::Desk;
use crate::history::Step;
use differential::report::{cut, shorten};
use std::time::{Duration, Instant};

/// How long it is looked for.
const LONGEST: Duration = Duration::from_secs(20);

/// The smaller history, to be replayed, and what differs.
pub fn smallest(history: &[Step]) -> String {
    let mut search = Search {
        steps: history.to_vec(),
        until: Instant::now() + LONGEST,
    };
    let Some((step, mut what)) = differs(history) else {
        return "at one run and not at the next".to_string();
    };
    search.steps.truncate(step + 1);
    let mut size = usize::MAX;
    while search.size() < size {
        size = search.size();
        search.fewer_steps();
        search.fewer_questions();
        search.shorter_bytes();
    }
    if let Some((_, words)) = differs(&search.steps) {
        what = words;
    }
    let shown = search.steps.iter();
    let shown: String = shown.map(|step| format!("\n{step}")).collect();
    format!("{}; the smallest history:{shown}\n", cut(what))
}

fn differs(steps: &[Step]) -> Option<(usize, String)> {
    Desk::differs(steps, &mut Counts::default())
}

struct Search {
    /// They differ, and at the last one.
    steps: Vec<Step>,
    until: Instant,
}

impl Search {
    /// As they are written.
    fn size(&self) -> usize {
        let sizes = self.steps.iter().map(|step| 1 + step.to_string().len());
        sizes.sum()
    }

    /// Which of other steps differs, as long as there is time.
    fn differing(&self, steps: &[Step]) -> Option<usize> {
        if Instant::now() > self.until {
            return None;
        }
        differs(steps).map(|(step, _)| step)
    }

    fn fewer_steps(&mut self) {
        let mut number = self.steps.len();
        while number > 0 {
            number = (number - 1).min(self.steps.len() - 1);
            let mut fewer = self.steps.clone();
            fewer.remove(number);
            if let Some(step) = self.differing(&fewer) {
                fewer.truncate(step + 1);
                self.steps = fewer;
            }
        }
    }

    fn fewer_questions(&mut self) {
        for number in 0..self.steps.len() {
            let mut at = 0;
            loop {
                let mut fewer = self.steps.clone();
                match &mut fewer[number] {
                    Step::Ask(questions) if at < questions.len() => questions.remove(at),
                    _ => break,
                };
                match self.differing(&fewer) {
                    Some(_) => self.steps = fewer,
                    None => at += 1,
                }
            }
        }
    }

    fn shorter_bytes(&mut self) {
        for number in 0..self.steps.len() {
            let mut tried = self.steps.clone();
            let Some(mut bytes) = tried[number].bytes().cloned() else {
                continue;
            };
            shorten(&mut bytes, |bytes| {
                *tried[number].bytes().expect("it has some") = bytes.to_vec();
                self.differing(&tried).map(|_| String::new())
            });
            *self.steps[number].bytes().expect("it has some") = bytes;
        }
    }
}
