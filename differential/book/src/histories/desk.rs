//! One step at a time: what the proved library answers and leaves in the lent buffers, what document 01
//! has it answer and leave, and what the published Rust answers over the lines that are left.

use crate::counts::Counts;
use crate::history::Step;
use crate::written::{is_read_back, written};
use book::buffers::{Buffers, Rooms};
use book::fault::fault;
use book::kind;
use book::model::Model;
use book::ours;
use book::questions::{Held, Question, What};
use book::ranking::Ranking;
use book::reader::{Read, Refused};
use book::trial::Trial;
use differential::report::expect;
use host::refusal;

/// The lent buffers, and the book that they must be; nothing where they are none, and every call but an
/// opening is refused 14 and changes nothing.
pub struct Desk {
    pub lent: Buffers,
    pub trial: Option<Trial>,
}

impl Desk {
    pub fn new() -> Self {
        Self {
            lent: Buffers::new(Rooms::ample(0)),
            trial: None,
        }
    }

    /// Whether every edit can be undone.
    pub fn goes_back(&self) -> bool {
        self.trial.as_ref().is_none_or(Trial::goes_back)
    }

    /// What the whole history differs in first, and at which step.
    pub fn differs(history: &[Step], counts: &mut Counts) -> Option<(usize, String)> {
        let mut desk = Desk::new();
        let mut steps = history.iter().enumerate();
        steps.find_map(|(number, step)| Some((number, desk.take(step, counts).err()?)))
    }

    /// One step, or what differs.
    pub fn take(&mut self, step: &Step, counts: &mut Counts) -> Result<(), String> {
        match step {
            Step::Lend(count, rooms) => {
                self.lent.renew(*count, *rooms);
                self.trial = None;
                Ok(())
            }
            Step::Book(book) => {
                self.lent = Buffers::clone(book);
                self.trial = is_book(book).then(|| Trial::of(book));
                Ok(())
            }
            Step::Open(source, text) => {
                let (number, rooms) = (self.lent.counts.len(), self.lent.rooms());
                let opened = Trial::open(*source, text, number, rooms);
                let answer = ours::open(*source, text, &mut self.lent);
                counts.called(step, answer % 256, opened.as_ref().err());
                let want = opened.as_ref().map_or_else(Refused::answer, |_| 0);
                expect(answer == want, || told(step, want, answer))?;
                self.trial = opened.ok();
                match self.trial {
                    Some(_) => self.is_laid(),
                    None => expect(self.lent.are_zero() && self.lent.untouched_beside(), || {
                        "a refused opening has not left zeros".to_string()
                    }),
                }
            }
            Step::Add(place, token) => self.edit(
                step,
                counts,
                |lent| ours::add(lent, *place, token),
                |trial| trial.add(*place, token),
            ),
            Step::Strike(line) => self.edit(
                step,
                counts,
                |lent| ours::strike(lent, *line),
                |trial| trial.strike(*line),
            ),
            Step::Undo => self.edit(step, counts, ours::undo, Trial::undo),
            Step::Settle => self.edit(step, counts, ours::settle, |trial| {
                trial.settle();
                Ok(())
            }),
            Step::AddSymbol(flag, text) => self.edit(
                step,
                counts,
                |lent| ours::add_symbol(lent, text, *flag),
                |trial| trial.add_symbol(text, *flag != 0),
            ),
            Step::Ask(questions) => self.ask(questions, counts),
        }
    }

    /// An edit of the library's, and of the trial book.
    fn edit(
        &mut self,
        step: &Step,
        counts: &mut Counts,
        ours: impl FnOnce(&mut Buffers) -> u64,
        plain: impl FnOnce(&mut Trial) -> Read<()>,
    ) -> Result<(), String> {
        let before = self.trial.is_none().then(|| self.lent.clone());
        let answer = ours(&mut self.lent);
        let done = match &mut self.trial {
            Some(trial) => plain(trial),
            None => Err(Refused::new(refusal::NO_BOOK)),
        };
        counts.called(step, answer, done.as_ref().err());
        let want = done.err().map_or(0, |refused| refused.number);
        expect(answer == want, || told(step, want, answer))?;
        match before {
            Some(before) => expect(self.lent == before, || {
                "what is no book was changed".to_string()
            }),
            None => self.is_laid(),
        }
    }

    /// Whether the lent buffers are the trial book, number for number and byte for byte, with what
    /// stands beside them.
    fn is_laid(&self) -> Result<(), String> {
        let trial = self.trial.as_ref().expect("there is a book");
        let laid = trial.laid();
        expect(self.lent == laid, || first_unlike(&self.lent, &laid))?;
        match fault(&self.lent) {
            Some(fault) => Err(format!("it is no book: {fault}")),
            None => Ok(()),
        }
    }

    /// The counts and some names: the library's answers beside those of document 01, and of the Rust.
    fn ask(&self, questions: &[Question], counts: &mut Counts) -> Result<(), String> {
        let before = self.lent.clone();
        let counted = [
            ours::version_count(&self.lent),
            ours::parent_count(&self.lent),
        ];
        let answers: Vec<_> = questions
            .iter()
            .map(|asked| asked.ours(&self.lent))
            .collect();
        let whys: Vec<_> = questions
            .iter()
            .map(|asked| asked.why(&self.lent))
            .collect();
        expect(self.lent == before, || "a lookup has written".to_string())?;
        counts.counted(counted);
        for ((question, &answer), &why) in questions.iter().zip(&answers).zip(&whys) {
            counts.asked(question, answer);
            counts.why(why);
        }
        let Some(Trial { book, .. }) = &self.trial else {
            let mut numbers = whys.iter().map(|why| why.err());
            let no_book = |answer: &Result<u32, u64>| *answer == Err(refusal::NO_BOOK);
            let all = counted.iter().chain(&answers).all(no_book)
                && numbers.all(|number| number == Some(refusal::NO_BOOK));
            return expect(all, || {
                format!("of what is no book the answers are {counted:?}, {answers:?} and {whys:?}")
            });
        };

        let want = book.asked_counts();
        expect(counted == want, || {
            format!("the counts are {counted:?}, and not {want:?}")
        })?;
        let ranking = Ranking::new(book);
        for ((question, &answer), &why) in questions.iter().zip(&answers).zip(&whys) {
            let asked = || Step::Ask(vec![question.clone()]);
            let want = ranking.ranked(question).answer;
            expect(answer == want, || {
                format!("{}: expected {want:?}, got {answer:?}", asked())
            })?;
            let named = ranking.why(question);
            let want = named.map(|named| named.numbers());
            expect(why == want, || {
                format!("why of {}: expected {want:?}, got {why:?}", asked())
            })?;
            // A question of the other kind, and one of a version that is wanted, it does not answer.
            let gives = named
                .ok()
                .and_then(|why| why.gives(book.kind, question.what));
            let read_off = match (answer, gives) {
                (Ok(answer), Some(given)) => answer == given,
                _ => true,
            };
            expect(read_off, || {
                format!(
                    "{}: {answer:?}, and the named line gives {gives:?}",
                    asked()
                )
            })?;
            counts.with_model += 1;
        }
        rust(book, questions, &answers, counts)
    }
}

/// Whether the Rust answers the same over a text with the lines that stand.
fn rust(
    book: &Model,
    questions: &[Question],
    answers: &[Result<u32, u64>],
    counts: &mut Counts,
) -> Result<(), String> {
    let (source, text) = match written(book) {
        Ok(written) => written,
        Err(cause) => {
            counts.unwritten[cause as usize] += questions.len() as u64;
            return Ok(());
        }
    };
    let shown = || text.escape_ascii();
    expect(is_read_back(book, source, &text), || {
        format!("the text is read as another book: {}", shown())
    })?;
    let held = Held::parse(source, &text);
    let held = held.ok_or_else(|| format!("the Rust refuses the text {}", shown()))?;
    expect(held.counts() == book.counts(), || {
        format!("the Rust counts {:?} over {}", held.counts(), shown())
    })?;
    for (question, &answer) in questions.iter().zip(answers) {
        if let Some(outside) = question.outside() {
            counts.outside[outside as usize] += 1;
        } else if answer == Err(refusal::WRONG_KIND) {
            counts.of_the_other_kind += 1;
        } else if book.kind == kind::RUST && question.what == What::Locality {
            counts.rust_locality += 1;
        } else {
            let want = held.answer(question);
            expect(answer == want, || {
                let asked = Step::Ask(vec![question.clone()]);
                let shown = shown();
                format!("{asked}: the Rust answers {want:?} over {shown}, we {answer:?}")
            })?;
            counts.with_rust += 1;
        }
    }
    Ok(())
}

/// By the plain reading of row 14; and there must be six counts.
pub fn is_book(book: &Buffers) -> bool {
    book.counts.len() == 6 && fault(book).is_none()
}

/// The first number or byte that is not as it must be.
fn first_unlike(got: &Buffers, want: &Buffers) -> String {
    fn unlike<T: Copy + PartialEq + Into<u64>>(got: &[T], want: &[T]) -> Option<[u64; 3]> {
        let mut pairs = got.iter().zip(want).enumerate();
        let (at, (&got, &want)) = pairs.find(|(_, (got, want))| got != want)?;
        Some([at as u64, got.into(), want.into()])
    }
    let buffers = [
        ("counts", unlike(&got.counts, &want.counts)),
        ("nodes", unlike(&got.nodes, &want.nodes)),
        ("names", unlike(&got.names, &want.names)),
        ("lines", unlike(&got.lines, &want.lines)),
        ("pool", unlike(&got.pool, &want.pool)),
        ("journal", unlike(&got.journal, &want.journal)),
    ];
    let found = buffers.iter().find_map(|(name, unlike)| {
        unlike.map(|[at, got, want]| format!("{name}[{at}] is {got}, and not {want}"))
    });
    found.unwrap_or_else(|| "what stands beside the buffers was written".to_string())
}

fn told(step: &Step, want: u64, got: u64) -> String {
    format!("{step}: expected {want}, got {got}")
}
