//! One text at a time, opened as a script and as an export list: what the published Rust keeps, what
//! the proved library leaves in the lent buffers, and whether the two agree.

use book::buffers::{Buffers, Rooms};
use book::fault::fault;
use book::model::{Line, Model};
use book::ours::{self, Name};
use book::questions::{Question, What};
use book::ranking::Ranking;
use book::reader::Refused;
use book::runs::text_has_run;
use book::trial::Trial;
use book::{kind, limit};
use differential::domain::shape;
use differential::inputs::Random;
use differential::report::{expect, smallest};
use differential::runs::Runs;
use differential::tally::Tally;
use host::{class, refusal};
use reading::verdict::{Outside, Verdict, REASONS};
use reading_host::kept::{self, is_placed, Kept, KeptNode, Matcher};
use reading_host::published::{self, Accepted, Answer};
use reading_host::Source;

/// The rooms that a text is opened into.
#[derive(Clone, Copy)]
pub struct Case {
    /// Up to the limits; else enough for any text of its length.
    full: bool,
    /// Small ones, in which it is opened once more.
    small: Option<Rooms>,
}

impl Case {
    pub const AMPLE: Case = Case {
        full: false,
        small: None,
    };

    pub const FULL: Case = Case {
        full: true,
        small: None,
    };

    /// One in 64 up to the limits, which takes a hundred times as long; every fourth once more in
    /// small rooms.
    pub fn any(random: &mut Random) -> Self {
        let full = random.one_in(64);
        let case = match random.one_in(4) {
            true => Case::small(random),
            false => Case::AMPLE,
        };
        Case { full, ..case }
    }

    /// Each room is small, or else enough for a short text.
    pub fn small(random: &mut Random) -> Self {
        let mut room = |most: usize| match random.one_in(2) {
            true => random.below(most + 1),
            false => 1000,
        };
        Case {
            full: false,
            small: Some(Rooms {
                nodes: room(13),
                names: room(8),
                lines: room(26),
                pool: room(16),
                journal: room(5),
            }),
        }
    }
}

pub struct Comparison {
    tally: Tally<3>,
    texts: u64,
    /// By their kinds.
    accepted: [u64; 3],
    /// How many openings in small rooms were refused 8, and how many were as in large ones.
    small: [u64; 2],
    /// How many openings had rooms up to the limits.
    full: u64,
    runs: Runs,
    openings: Openings,
}

impl Comparison {
    pub fn new() -> Self {
        Self {
            tally: Tally::new(REASONS),
            texts: 0,
            accepted: [0; 3],
            small: [0; 2],
            full: 0,
            runs: Runs::default(),
            openings: Openings {
                large: Buffers::new(Rooms::ample(0)),
                small: Buffers::new(Rooms::ample(0)),
            },
        }
    }

    /// Runs a named part, and prints how many comparisons it made.
    pub fn phase(&mut self, name: &'static str, run: impl FnOnce(&mut Self)) {
        self.tally.begin(name);
        run(self);
        self.tally.end();
    }

    /// The last lines; true when nothing differed.
    pub fn finish(self) -> bool {
        let [regular, rust, lists] = self.accepted;
        println!(
            "{} texts, each as script and as export list; accepted by both: {regular} regular scripts, {rust} of the \
             Rust kind, {lists} export lists",
            self.texts
        );
        let [refused, opened] = self.small;
        println!(
            "rooms up to the limits {} times; small rooms: refused 8 {refused} times, as in large ones {opened} times",
            self.full
        );
        self.runs.print("texts");
        self.tally.finish()
    }

    pub fn text(&mut self, text: &[u8], case: Case) {
        self.texts += 1;
        for source in [Source::Script, Source::ExportList] {
            self.source(source, text, case);
        }
    }

    fn source(&mut self, source: Source, text: &[u8], case: Case) {
        self.full += u64::from(case.full);
        let verdict = self.openings.verdict(source, text, case);
        match verdict {
            Verdict::Accepted(kind) => self.accepted[kind as usize] += 1,
            Verdict::Outside(Outside::Run { taken }) => self.runs.read(text, taken),
            _ => {}
        }
        let (outside, agree) = verdict.judged();
        let openings = &mut self.openings;
        self.tally.judge(outside, agree, || {
            let differs = |text: &[u8]| openings.verdict(source, text, case).different();
            format!("{source:?} {}", smallest(text, differs))
        });

        let Some(rooms) = case.small else {
            return;
        };
        let answer = self.openings.small(source, text, rooms);
        if let Ok(answer) = answer {
            self.small[usize::from(answer != refusal::NO_ROOM)] += 1;
        }
        let openings = &mut self.openings;
        self.tally.judge(None, answer.is_ok(), || {
            let differs = |text: &[u8]| openings.small(source, text, rooms).err();
            format!("{source:?} into {rooms:?}: {}", smallest(text, differs))
        });
    }

    /// Counts that are not six: refused 8, behind 1 for the text, and 14 where a book is asked for.
    pub fn not_six(&mut self, text: &[u8], counts: usize) {
        let name = Name {
            raw: b"a",
            demangled: b"a",
        };
        for source in [Source::Script, Source::ExportList] {
            let book = &mut self.openings.large;
            book.renew(counts, Rooms::ample(text.len()));
            let answer = ours::open(source, text, book);
            let agree = answer == refusal::NO_ROOM
                && book.are_zero()
                && book.untouched_beside()
                && ours::version_count(book) == Err(refusal::NO_BOOK)
                && ours::parent_count(book) == Err(refusal::NO_BOOK)
                && ours::why(book, name, None) == Err(refusal::NO_BOOK);
            self.tally.judge(None, agree, || {
                format!("{source:?} with {counts} counts: {answer}")
            });
        }
    }
}

/// The buffers that calls are lent.
struct Openings {
    large: Buffers,
    small: Buffers,
}

impl Openings {
    fn verdict(&mut self, source: Source, text: &[u8], case: Case) -> Verdict<u32> {
        self.compared(source, text, case)
            .unwrap_or_else(Verdict::Different)
    }

    /// Whether both sides do as they must, or what is wrong.
    fn compared(
        &mut self,
        source: Source,
        text: &[u8],
        case: Case,
    ) -> Result<Verdict<u32>, String> {
        let rooms = match case.full {
            true => Rooms::FULL,
            false => Rooms::ample(text.len()),
        };
        let answer = opened(source, text, rooms, &mut self.large)?;
        let (number, place) = (answer % 256, (answer / 256) as usize);
        if text.len() > limit::SCRIPT {
            expect(answer == refusal::OVER_THE_LIMIT, || {
                format!("expected refusal 1, got {answer}")
            })?;
            return Ok(Verdict::Outside(Outside::Limit));
        }
        expect(number <= refusal::NO_ROOM && place <= text.len(), || {
            format!("refused {number} at {place}")
        })?;

        let runs = text_has_run(source, text);
        match (published::read(source, text), number) {
            (Answer::Refused, _) if runs => Ok(Verdict::Outside(Outside::Run { taken: false })),
            (Answer::Refused, 0) => Err("the Rust refuses, we accept".to_string()),
            (Answer::Endless, 0) => Err("the Rust never ends, we accept".to_string()),
            (Answer::Accepted(mut rust), 0) => {
                let book = Model::of(&self.large);
                if runs {
                    squeeze(&mut rust);
                }
                same(source, &rust, &book)?;
                match runs {
                    true => Ok(Verdict::Outside(Outside::Run { taken: true })),
                    false => Ok(Verdict::Accepted(book.kind)),
                }
            }
            (Answer::Refused, _) => Ok(Verdict::Refused),
            // 4 for an extern block within another. What stands before it may be over the limit.
            (Answer::Endless, refusal::UNCLOSED | refusal::BAD_EXTERN) => {
                Ok(Verdict::Outside(Outside::Endless))
            }
            (_, refusal::OVER_THE_LIMIT) if over_the_limit_at(text, place) => {
                Ok(Verdict::Outside(Outside::Limit))
            }
            (Answer::Accepted(rust), refusal::NO_ROOM) if over_the_rows(&rust) => {
                Ok(Verdict::Outside(Outside::Limit))
            }
            (Answer::Endless, _) => Err(format!("the Rust never ends, we refuse {number}")),
            (Answer::Accepted(_), _) => Err(format!("the Rust accepts, we refuse {number}")),
        }
    }

    /// A text in small rooms, and then in large ones: its answer, or what is wrong.
    fn small(&mut self, source: Source, text: &[u8], rooms: Rooms) -> Result<u64, String> {
        let answer = opened(source, text, Rooms::ample(text.len()), &mut self.large)?;
        let got = opened(source, text, rooms, &mut self.small)?;
        if rooms.nodes < book::width::NODE {
            let no_row = refusal::NO_ROOM;
            expect(got == no_row, || format!("no row for node 0: {got}"))?;
        } else if answer != 0 {
            expect(got == answer || got % 256 == refusal::NO_ROOM, || {
                format!("refused {answer} in large rooms, {got} in small ones")
            })?;
        } else if self.large.counted().fit(rooms) {
            expect(got == 0, || format!("it fits, and is refused {got}"))?;
            expect(Model::of(&self.large) == Model::of(&self.small), || {
                "another book than in large rooms".to_string()
            })?;
        } else {
            expect(got % 256 == refusal::NO_ROOM, || {
                format!("it does not fit, and the answer is {got}")
            })?;
        }
        Ok(got % 256)
    }
}

/// Opens a text into buffers that are full of noise: the answer, or what is wrong with what it
/// leaves, whatever the text.
fn opened(source: Source, text: &[u8], rooms: Rooms, book: &mut Buffers) -> Result<u64, String> {
    book.renew(6, rooms);
    let answer = ours::open(source, text, book);
    expect(book.untouched_beside(), || {
        "memory beside the buffers was written".to_string()
    })?;
    let plain = Trial::open(source, text, 6, rooms);
    let want = plain.as_ref().map_or_else(Refused::answer, |_| 0);
    expect(answer == want, || format!("expected {want}, got {answer}"))?;
    if answer % 256 != 0 {
        expect(book.are_zero(), || {
            format!("refused {answer}, and not all is zero")
        })?;
        return Ok(answer);
    }
    expect(answer == 0, || format!("done, and the answer is {answer}"))?;
    if let Some(fault) = fault(book) {
        return Err(format!("opened, and no book: {fault}"));
    }
    let model = Model::of(book);
    let plain = plain.expect("it is opened").book;
    expect(plain == model, || {
        let mut lines = model.lines.iter().zip(&plain.lines);
        let unlike = lines.find(|(got, want)| got != want);
        let counts = book.counted();
        format!("another book than document 01's: {counts:?}, the first line unlike {unlike:?}")
    })?;
    let of_its_source = match source {
        Source::Script => model.kind != kind::EXPORT_LIST,
        _ => model.kind == kind::EXPORT_LIST,
    };
    expect(of_its_source && model.edits.is_empty(), || {
        format!("opened as {source:?}: {:?}", book.counted())
    })?;
    let counted = [ours::version_count(book), ours::parent_count(book)];
    let want = model.asked_counts();
    expect(counted == want, || {
        format!("the counts are {counted:?}, and not {want:?}")
    })?;
    named(book, &model)?;
    Ok(0)
}

/// Asks why of the names that the first and the last line have as their bytes: the line that document
/// 01's ranking has named, or what is wrong.
fn named(book: &Buffers, model: &Model) -> Result<(), String> {
    let lines = [model.lines.first(), model.lines.last()];
    let ranking = Ranking::new(model);
    for line in lines.into_iter().flatten() {
        let question = Question {
            what: What::Version,
            raw: line.bytes.clone(),
            demangled: None,
            wanted: None,
        };
        let [got, want] = [
            question.why(book),
            ranking.why(&question).map(|why| why.numbers()),
        ];
        expect(got == want, || {
            let name = line.bytes.escape_ascii();
            format!("why of `{name}`: expected {want:?}, got {got:?}")
        })?;
    }
    Ok(())
}

/// Whether the book is what the Rust keeps, or what is not.
fn same(source: Source, rust: &Accepted, book: &Model) -> Result<(), String> {
    let read = nodes(&rust.nodes);
    let ours = by_section(book);
    expect(read == ours, || {
        format!("the Rust reads {read:?}, we keep {ours:?}")
    })?;
    let kept = kept(book);
    expect(rust.kept == kept, || {
        format!("the Rust keeps {:?}, we keep {kept:?}", rust.kept)
    })?;
    let counts = rust.counts.map(|counts| counts.map(u32::from));
    expect(
        counts == book.counts() && counts.is_some() == (source == Source::Script),
        || format!("the Rust counts {counts:?}, we count {:?}", book.counts()),
    )
}

/// Makes each run of stars in the Rust's globs one star, which is what we keep.
fn squeeze(rust: &mut Accepted) {
    let squeeze = |glob: &mut Vec<u8>| {
        let text = std::str::from_utf8(glob).expect("a glob is UTF-8");
        *glob = shape(text).kept.into_bytes();
    };
    for matcher in rust
        .nodes
        .iter_mut()
        .flat_map(|node| node.matchers.iter_mut().flatten())
    {
        let lines = match matcher {
            Matcher::Bare(line) => std::slice::from_mut(line),
            Matcher::Extern { lines, .. } => &mut lines[..],
        };
        let globs = lines.iter_mut().filter(|line| class::is_glob(line.class));
        globs.for_each(|line| squeeze(&mut line.bytes));
    }
    if let Kept::Nodes(nodes) = &mut rust.kept {
        for lines in nodes
            .iter_mut()
            .flat_map(|node| node.lines.iter_mut().flatten())
        {
            lines
                .non_star
                .iter_mut()
                .chain(&mut lines.star)
                .for_each(squeeze);
        }
    }
}

/// A node's name, and its lines by section in order of reading.
type Ordered<'a> = Vec<(&'a [u8], [Vec<Told<'a>>; 2])>;

/// Of a line its language, its class, its bytes, and its offset where the Rust tells the token's place.
type Told<'a> = (usize, u64, &'a [u8], Option<usize>);

fn nodes(read: &[kept::Node]) -> Ordered<'_> {
    let nodes = read.iter();
    nodes
        .map(|node| (&node.name[..], node.matchers.each_ref().map(lines_of)))
        .collect()
}

fn lines_of(matchers: &Vec<Matcher>) -> Vec<Told<'_>> {
    let lines = matchers.iter().flat_map(|matcher| {
        let lines = matcher.lines().iter();
        lines.map(|line| {
            let offset = line.place.map(|place| place + 1);
            (matcher.language(), line.class, &line.bytes[..], offset)
        })
    });
    lines.collect()
}

fn by_section(book: &Model) -> Ordered<'_> {
    let mut nodes: Ordered = book
        .nodes
        .iter()
        .map(|node| (&node.name[..], Default::default()))
        .collect();
    for line in &book.lines {
        let offset = is_placed(line.class).then_some(line.offset);
        let told = (line.language, line.class, &line.bytes[..], offset);
        nodes[line.node].1[line.section].push(told);
    }
    nodes
}

/// The book as the Rust would hold it.
fn kept(book: &Model) -> Kept {
    if book.kind == kind::RUST {
        let globals = book.lines.iter().filter(|line| line.section == 0);
        return Kept::Listed(globals.map(|line| line.bytes.clone()).collect());
    }
    let mut nodes: Vec<KeptNode> = book
        .nodes
        .iter()
        .map(|node| KeptNode {
            name: node.name.clone(),
            parent: (node.parent != 0).then_some(node.parent),
            lines: Default::default(),
        })
        .collect();
    for Line {
        node,
        class,
        section,
        language,
        bytes,
        ..
    } in book.lines.clone()
    {
        nodes[node].lines[section][language].push(class, bytes);
    }
    Kept::Nodes(nodes)
}

/// What the token that begins there can be: up to the first `;`, or to the first `}`, without the
/// blanks at its end.
fn tokens_at(text: &[u8], place: usize) -> impl Iterator<Item = &[u8]> {
    let rest = &text[place..];
    let token = |sign| {
        let end = rest.iter().position(|&byte| byte == sign);
        end.map(|end| rest[..end].trim_ascii_end())
    };
    [token(b';'), token(b'}')].into_iter().flatten()
}

fn over_the_limit_at(text: &[u8], place: usize) -> bool {
    tokens_at(text, place).any(|token| token.len() > limit::TOKEN)
}

fn over_the_rows(rust: &Accepted) -> bool {
    let matchers = rust.nodes.iter().flat_map(|node| node.matchers.iter());
    let lines: usize = matchers.flatten().map(|read| read.lines().len()).sum();
    rust.nodes.len() > limit::NODES || lines > limit::LINES
}
