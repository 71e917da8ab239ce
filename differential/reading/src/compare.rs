//! One text at a time, as each of the four sources: what the published Rust reads, what the proved
//! reader reads, and whether the two agree.

use crate::events;
use differential::report::{expect, smallest};
use differential::runs::Runs;
use differential::tally::Tally;
use host::refusal;
use reading::verdict::{Outside, Verdict, REASONS};
use reading_host::ours::{self, WIDTH};
use reading_host::published::{self, Answer};
use reading_host::Source;

/// The numbers on either side of the rows that no call may touch.
const GUARD: usize = 8;

pub struct Comparison {
    tally: Tally<3>,
    texts: u64,
    accepted: u64,
    runs: Runs,
    memory: Memory,
}

impl Comparison {
    pub fn new() -> Self {
        Self {
            tally: Tally::new(REASONS),
            texts: 0,
            accepted: 0,
            runs: Runs::default(),
            memory: Memory(Vec::new()),
        }
    }

    /// Runs a named part, and prints how many comparisons it made.
    pub fn phase(&mut self, name: &'static str, run: impl FnOnce(&mut Self)) {
        self.tally.begin(name);
        run(self);
        self.tally.end();
    }

    /// The last lines; true when nothing differed.
    pub fn finish(self) -> bool {
        println!(
            "{} texts, each as four sources; accepted by both {} times",
            self.texts, self.accepted
        );
        self.runs.print("texts");
        self.tally.finish()
    }

    pub fn text(&mut self, text: &[u8]) {
        self.texts += 1;
        for source in Source::ALL {
            self.source(source, text);
        }
    }

    fn source(&mut self, source: Source, text: &[u8]) {
        let verdict = self.memory.verdict(source, text);
        match verdict {
            Verdict::Accepted(()) => self.accepted += 1,
            Verdict::Outside(Outside::Run { taken }) => self.runs.read(text, taken),
            _ => {}
        }
        let (outside, agree) = verdict.judged();
        let memory = &mut self.memory;
        self.tally.judge(outside, agree, || {
            let differs = |text: &[u8]| memory.verdict(source, text).different();
            format!("{source:?} {}", smallest(text, differs))
        });
    }
}

/// The rows that a call is lent, and what stands on either side of them.
struct Memory(Vec<u64>);

impl Memory {
    fn verdict(&mut self, source: Source, text: &[u8]) -> Verdict<()> {
        self.compared(source, text)
            .unwrap_or_else(Verdict::Different)
    }

    /// Whether both sides do as they must, or what is wrong.
    fn compared(&mut self, source: Source, text: &[u8]) -> Result<Verdict<()>, String> {
        let answer = self.events(source, text, ours::room(text.len()))?;
        let (number, value) = (answer % 256, (answer / 256) as usize);
        if text.len() > source.limit() {
            expect(number == refusal::OVER_THE_LIMIT, || {
                format!("expected refusal 1, got {number}")
            })?;
            return Ok(Verdict::Outside(Outside::Limit));
        }
        let rust = published::read(source, text);

        if number != 0 {
            expect((2..=4).contains(&number) && value <= text.len(), || {
                format!("refused {number} at {value}")
            })?;
            return match rust {
                Answer::Accepted(_) => Err(format!("the Rust accepts, we refuse {number}")),
                Answer::Refused => Ok(Verdict::Refused),
                // 4 for an extern block within another.
                Answer::Endless => {
                    expect(number > 2, || {
                        format!("the Rust never ends, we refuse {number}")
                    })?;
                    Ok(Verdict::Outside(Outside::Endless))
                }
            };
        }

        let rows = self.rows(value).to_vec();
        let read = events::read(source, text, &rows)?;
        self.rooms(source, text, &rows)?;
        let kept = if read.bad_glob { None } else { read.kept() };
        match (rust, kept) {
            (Answer::Endless, _) => Err("the Rust never ends, we accept".to_string()),
            (Answer::Refused, None) if !read.runs => Ok(Verdict::Refused),
            _ if read.over_the_limit => Ok(Verdict::Outside(Outside::Limit)),
            (Answer::Refused, _) if read.runs => {
                Ok(Verdict::Outside(Outside::Run { taken: false }))
            }
            (Answer::Refused, _) => Err("the Rust refuses, we accept".to_string()),
            (Answer::Accepted(_), None) => {
                Err("the Rust accepts, we refuse a glob or a parent".to_string())
            }
            (Answer::Accepted(rust), Some(kept)) => {
                expect(rust.nodes == read.nodes, || {
                    format!("the Rust reads {:?}, we read {:?}", rust.nodes, read.nodes)
                })?;
                expect(rust.kept == kept, || {
                    format!("the Rust keeps {:?}, we keep {kept:?}", rust.kept)
                })?;
                match read.runs {
                    true => Ok(Verdict::Outside(Outside::Run { taken: true })),
                    false => Ok(Verdict::Accepted(())),
                }
            }
        }
    }

    /// An accepted text again: with rows that are full to the last number, one number short, and
    /// none. What fits is written.
    fn rooms(&mut self, source: Source, text: &[u8], rows: &[u64]) -> Result<(), String> {
        for room in [rows.len(), rows.len().saturating_sub(1), 0] {
            let number = if room < rows.len() {
                refusal::NO_ROOM
            } else {
                0
            };
            let answer = self.events(source, text, room)?;
            let fit = room / WIDTH;
            let same = answer % 256 == number && self.rows(fit) == &rows[..fit * WIDTH];
            expect(same, || format!("room for {room} numbers: {answer}"))?;
        }
        Ok(())
    }

    /// The events into `room` numbers. Behind the rows that it writes, a call leaves what was there,
    /// or zeros.
    fn events(&mut self, source: Source, text: &[u8], room: usize) -> Result<u64, String> {
        let noise = |at: usize| (at as u64).wrapping_mul(2_654_435_761) | 1;
        let whole = room + 2 * GUARD;
        self.0.clear();
        self.0.extend((0..whole).map(noise));
        let answer = ours::events(source, text, &mut self.0[GUARD..GUARD + room]);

        let mut beside = (0..GUARD).chain(GUARD + room..whole);
        let untouched = beside.all(|at| self.0[at] == noise(at));
        expect(untouched, || {
            "numbers beside the rows were written".to_string()
        })?;
        if answer % 256 == 0 {
            let written = GUARD + (answer / 256) as usize * WIDTH;
            expect(written <= GUARD + room, || {
                format!("more events than room: {answer}")
            })?;
            let kept = (written..GUARD + room).all(|at| self.0[at] == noise(at) || self.0[at] == 0);
            expect(kept, || "numbers behind the rows were written".to_string())?;
        }
        Ok(answer)
    }

    fn rows(&self, count: usize) -> &[u64] {
        &self.0[GUARD..GUARD + count * WIDTH]
    }
}
