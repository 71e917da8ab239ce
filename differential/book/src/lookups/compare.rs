//! One question at a time: what the published Rust answers, what document 01's ranking gives, what the
//! proved library answers, and whether they agree; then which line it names (`named`).

use crate::coverage::Coverage;
use crate::named::named;
use book::buffers::{Buffers, Rooms};
use book::limit;
use book::model::Model;
use book::ours::{self, Name};
use book::questions::{Held, Outside, Question};
use book::ranking::Ranking;
use book::runs::text_has_run;
use differential::hex;
use differential::report::{cut, expect, shorten, told};
use differential::runs::Runs;
use differential::tally::Tally;
use host::refusal;
use reading_host::Source;

/// The number of a reason beside those of a question: a run of stars in a glob of the text.
const RUN: usize = Outside::REASONS.len();

/// A text that both sides have opened. One with a run of stars the Rust may refuse.
pub struct Opened<'t> {
    pub source: Source,
    pub text: &'t [u8],
    pub held: Option<Held<'t>>,
    pub runs: bool,
    pub model: Model,
    pub book: Buffers,
    /// The same book, whose lines have other offsets.
    pub elsewhere: Buffers,
    pub ranking: Ranking,
}

/// Opens a text on both sides; nothing where one of them refuses it, but for the Rust and a run of
/// stars. That they do so alike, and keep the same, is compared by `differential/run book`.
pub fn opened(source: Source, text: &[u8]) -> Option<Opened<'_>> {
    let held = Held::parse(source, text);
    let runs = text_has_run(source, text);
    if held.is_none() && !runs {
        return None;
    }
    let mut book = Buffers::new(Rooms::ample(text.len()));
    if ours::open(source, text, &mut book) != 0 {
        return None;
    }
    let model = Model::of(&book);
    let ranking = Ranking::new(&model);
    let elsewhere = elsewhere(&model).laid(book.rooms());
    Some(Opened {
        source,
        text,
        held,
        runs,
        model,
        book,
        elsewhere,
        ranking,
    })
}

/// A book with the last offsets that are taken, in falling order.
fn elsewhere(book: &Model) -> Model {
    let mut book = book.clone();
    for (number, line) in book.lines.iter_mut().enumerate() {
        line.offset = limit::SCRIPT - number;
    }
    book
}

impl Opened<'_> {
    /// The counts of versions and parents, and that the questions of the other kind are refused 13.
    fn counts(&self) -> Result<(), String> {
        let wrong = Err(refusal::WRONG_KIND);
        let book = &self.book;
        let name = Name {
            raw: b"f",
            demangled: b"f",
        };
        let got = [ours::version_count(book), ours::parent_count(book)];
        let want = match &self.held {
            Some(held) => held.counts().map_or([wrong; 2], |counts| counts.map(Ok)),
            None => self.model.asked_counts(),
        };
        let others = match want == [wrong; 2] {
            true => vec![ours::version(book, name, None), ours::locality(book, name)],
            false => vec![ours::contains(book, name)],
        };
        expect(got == want, || {
            format!("the counts are {got:?}, and not {want:?}")
        })?;
        expect(others.iter().all(|&answer| answer == wrong), || {
            format!("of the other kind: {others:?}")
        })
    }

    /// The counts of versions and parents that the Rust gives for a script.
    pub fn published_counts(&self) -> Option<[u32; 2]> {
        self.held.as_ref()?.counts()
    }

    /// The Rust's answer, where it has opened the text.
    pub fn published(&self, question: &Question) -> Option<Result<u32, u64>> {
        Some(self.held.as_ref()?.answer(question))
    }

    /// Whether the Rust answers as we must, of a question that its runs of stars alone keep from being
    /// within the domain.
    fn alike(&self, question: &Question) -> Option<bool> {
        if !self.runs || !question.is_within() {
            return None;
        }
        Some(self.published(question)? == self.ranking.ranked(question).answer)
    }

    /// Whether the sides agree, and the number of the reason for which the question lies outside; or
    /// what is wrong.
    fn compared(
        &self,
        question: &Question,
        mut coverage: Option<&mut Coverage>,
    ) -> Result<Option<usize>, String> {
        let outside = question.outside().map(|reason| reason as usize);
        let outside = outside.or(self.runs.then_some(RUN));
        let ranked = self.ranking.ranked(question);
        let want = ranked.answer;
        if outside.is_none() {
            let rust = self.published(question);
            expect(rust == Some(want), || {
                format!("the Rust answers {rust:?}, the ranking gives {want:?}")
            })?;
        }
        if let Some(coverage) = coverage.as_deref_mut() {
            coverage.answered(&self.model, question, &ranked.by);
        }
        let got = question.ours(&self.book);
        expect(got == want, || format!("expected {want:?}, got {got:?}"))?;
        let got = question.ours(&self.elsewhere);
        expect(got == want, || {
            format!("expected {want:?}, got {got:?} of lines with other offsets")
        })?;
        let named = named(self, question)?;
        if let Some(coverage) = coverage {
            coverage.named(self.model.kind, &named);
        }
        Ok(outside)
    }
}

pub struct Comparison {
    tally: Tally<3>,
    runs: Runs,
    texts: u64,
    /// By their kinds.
    opened: [u64; 3],
    questions: u64,
    coverage: Coverage,
    /// The shortest text with a question that differs.
    shortest: Option<(Source, Vec<u8>, Question)>,
}

impl Comparison {
    pub fn new() -> Self {
        Self {
            tally: Tally::new({
                let [limit, name] = Outside::REASONS;
                [limit, name, "a run of stars"]
            }),
            runs: Runs::default(),
            texts: 0,
            opened: [0; 3],
            questions: 0,
            coverage: Coverage::default(),
            shortest: None,
        }
    }

    /// Runs a named part, and prints how many comparisons it made.
    pub fn phase(&mut self, name: &'static str, run: impl FnOnce(&mut Self)) {
        self.tally.begin(name);
        run(self);
        self.tally.end();
    }

    /// The last lines; true when nothing differed.
    pub fn finish(self) -> bool {
        let [regular, rust, lists] = self.opened;
        println!(
            "{} texts, opened by both: {regular} regular scripts, {rust} of the Rust kind, {lists} export lists; {} \
             questions of names\n",
            self.texts, self.questions
        );
        self.coverage.print();
        self.runs.print("texts");
        if let Some((source, text, question)) = self.shortest {
            println!("the smallest: {}", smallest(source, &text, question));
        }
        self.tally.finish()
    }

    /// A text that must be opened by both.
    pub fn surely(
        &mut self,
        source: Source,
        text: &[u8],
        questions: impl FnMut(&Model) -> Vec<Question>,
    ) {
        if !self.text(source, text, questions) {
            self.tally.judge(None, false, || {
                format!("{source:?} {}", told(text, "it is not opened by both"))
            });
        }
    }

    /// A text, with questions that are made of what it is opened as; false where one side refuses it.
    pub fn text(
        &mut self,
        source: Source,
        text: &[u8],
        mut questions: impl FnMut(&Model) -> Vec<Question>,
    ) -> bool {
        self.texts += 1;
        let Some(opened) = opened(source, text) else {
            return false;
        };
        self.opened[opened.model.kind as usize] += 1;
        if opened.runs {
            self.runs.read(text, opened.held.is_some());
        }
        let counts = opened.counts();
        self.tally.judge(None, counts.is_ok(), || {
            format!("{source:?} {}", told(text, &counts.unwrap_err()))
        });
        for question in questions(&opened.model) {
            self.questions += 1;
            let compared = opened.compared(&question, Some(&mut self.coverage));
            let outside = compared.as_ref().ok().copied().flatten();
            if let Some(alike) = opened.alike(&question) {
                self.runs.asked(text, &question.raw, alike);
            }
            if compared.is_err() {
                self.differs(source, text, &question);
            }
            self.tally.judge(outside, compared.is_ok(), || {
                smallest(source, text, question)
            });
        }
        true
    }

    fn differs(&mut self, source: Source, text: &[u8], question: &Question) {
        let shortest = self.shortest.as_ref();
        if shortest.is_none_or(|(_, shortest, _)| text.len() < shortest.len()) {
            self.shortest = Some((source, text.to_vec(), question.clone()));
        }
    }
}

/// A case that differs, its text and its names made shorter in turn as long as it differs.
fn smallest(source: Source, text: &[u8], mut question: Question) -> String {
    let differs = |text: &[u8], question: &Question| {
        let opened = opened(source, text)?;
        opened.compared(question, None).err()
    };
    let mut text = text.to_vec();
    let mut what = String::from("at one call and not at the next");
    let mut size = usize::MAX;
    let sizes = |text: &[u8], question: &Question| {
        let names = [&question.demangled, &question.wanted];
        let names: usize = names
            .map(|name| name.as_ref().map_or(0, Vec::len))
            .iter()
            .sum();
        text.len() + question.raw.len() + names
    };
    while sizes(&text, &question) < size {
        size = sizes(&text, &question);
        let asked = question.clone();
        if let Some(words) = shorten(&mut text, |text| differs(text, &asked)) {
            what = words;
        }
        let parts: [fn(&mut Question) -> Option<&mut Vec<u8>>; 3] = [
            |question| Some(&mut question.raw),
            |question| question.demangled.as_mut(),
            |question| question.wanted.as_mut(),
        ];
        for part in parts {
            let mut asked = question.clone();
            let Some(mut name) = part(&mut asked).cloned() else {
                continue;
            };
            let words = shorten(&mut name, |name| {
                *part(&mut asked).expect("it has one") = name.to_vec();
                differs(&text, &asked)
            });
            if let Some(words) = words {
                what = words;
                *part(&mut question).expect("it has one") = name;
            }
        }
    }
    let shown = |name: &Vec<u8>| cut(hex(name));
    let given = |name: &Option<Vec<u8>>| name.as_ref().map_or("none".to_string(), shown);
    format!(
        "{:?} of {}, demangled {}, wanted {}, over {source:?} {}",
        question.what,
        shown(&question.raw),
        given(&question.demangled),
        given(&question.wanted),
        told(&text, &what)
    )
}
