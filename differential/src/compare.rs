//! One case at a time: what the published Rust answers, what the proved library answers, and
//! whether the two agree.

use differential::domain::{negated, shape, Shape};
use differential::hex;
use differential::runs::Runs;
use differential::tally::Tally;
use host::published::{self, Pattern};
use host::{ours, refusal, LIMIT};

/// Why a case lies outside the domain of equality. What must be answered there is the interface's
/// refusal, or of a run what document 02, request 01, keeps; not the Rust's answer.
#[derive(Clone, Copy)]
enum Outside {
    Limit,
    Run,
    Name,
}

/// The same in words, by their numbers.
const REASONS: [&str; 3] = [
    "over the limit",
    "a run of stars",
    "a name that is not UTF-8",
];

/// The bytes on either side of an output that no call may touch.
const GUARD: usize = 16;

pub struct Comparison {
    tally: Tally<3>,
    runs: Runs,
    noise: Vec<u8>,
    memory: Vec<u8>,
}

impl Comparison {
    pub fn new() -> Self {
        let noise: Vec<u8> = (0..LIMIT + 64 + 2 * GUARD)
            .map(|i| (i * 37 + 91) as u8)
            .collect();
        Self {
            tally: Tally::new(REASONS),
            runs: Runs::default(),
            memory: noise.clone(),
            noise,
        }
    }

    /// Runs a named part, and prints how many comparisons it made.
    pub fn phase(&mut self, name: &'static str, run: impl FnOnce(&mut Self)) {
        self.tally.begin(name);
        run(self);
        self.tally.end();
    }

    /// The last lines; true when nothing differed.
    pub fn finish(self) -> bool {
        self.runs.print("patterns");
        self.tally.finish()
    }

    /// Class, unescaping and storing of one token.
    pub fn token(&mut self, token: &[u8]) {
        let over = (token.len() > LIMIT).then_some(Outside::Limit);

        let class = published::class(token);
        let want = if over.is_some() {
            refusal::OVER_THE_LIMIT
        } else {
            ours::done(class)
        };
        let got = ours::class(token);
        self.judge(over, want == got, || {
            format!("class {}: expected {want}, got {got}", hex(token))
        });

        let unescaped = published::unescape(token);
        let want = match over {
            Some(_) => Err(refusal::OVER_THE_LIMIT),
            None => Ok((unescaped.len() as u64, &unescaped[..])),
        };
        self.outputs("unescape", token, over, want, ours::unescape);

        let stored = published::store(token);
        let shape = shape(&negated(token));
        let kept = shape.kept.as_bytes();
        let (outside, want) = match &stored {
            _ if over.is_some() => (over, Err(refusal::OVER_THE_LIMIT)),
            _ if host::class::is_glob(class) && shape.runs => (
                Some(Outside::Run),
                match shape.open {
                    true => Err(refusal::BAD_GLOB),
                    false => Ok((ours::stored(class, kept.len()), kept)),
                },
            ),
            Ok(bytes) => (None, Ok((ours::stored(class, bytes.len()), &bytes[..]))),
            Err(number) => (None, Err(*number)),
        };
        if let Some(Outside::Run) = outside {
            self.runs.read(token, stored.is_ok());
        }
        self.outputs("store", token, outside, want, ours::store);
    }

    /// A call that writes, with an output that is full to the last byte, longer, one byte short,
    /// and empty. What it has no reason to write must stay, in the output and on either side of it.
    fn outputs(
        &mut self,
        what: &str,
        token: &[u8],
        outside: Option<Outside>,
        want: Result<(u64, &[u8]), u64>,
        call: fn(&[u8], &mut [u8]) -> u64,
    ) {
        let length = want.map_or(token.len().min(LIMIT), |(_, bytes)| bytes.len());
        let mut rooms = vec![length, length + 1 + token.len() % 48];
        if length > 0 {
            rooms.push(length - 1);
        }
        if length > 1 {
            rooms.push(0);
        }
        for room in rooms {
            let (answer, front) = match want {
                Ok((value, bytes)) if bytes.len() <= room => (ours::done(value), bytes),
                Ok(_) => (refusal::NO_ROOM, &[][..]),
                Err(number) => (number, &[][..]),
            };
            let whole = room + 2 * GUARD;
            let behind = GUARD + front.len();
            let (memory, noise) = (&mut self.memory[..whole], &self.noise[..whole]);
            memory.copy_from_slice(noise);
            let got = call(token, &mut memory[GUARD..GUARD + room]);
            let kept = memory[..GUARD] == noise[..GUARD]
                && memory[GUARD..behind] == *front
                && memory[behind..] == noise[behind..];
            self.judge(outside, answer == got && kept, || {
                let bytes = if kept {
                    ""
                } else {
                    ", and other bytes than expected were written"
                };
                format!(
                    "{what} {} into {room} bytes: expected {answer}, got {got}{bytes}",
                    hex(token)
                )
            });
        }
    }

    /// One stored pattern on one name.
    pub fn matches(&mut self, stored: &Stored, name: &[u8]) {
        let (outside, want) = if stored.bytes.len() > LIMIT || name.len() > LIMIT {
            (Some(Outside::Limit), refusal::OVER_THE_LIMIT)
        } else {
            let (run, pattern) = match &stored.kept {
                Some(kept) => (Some(Outside::Run), kept),
                None => (None, &stored.pattern),
            };
            match (pattern, std::str::from_utf8(name)) {
                (Err(number), _) => (run, *number),
                (Ok(_), Err(_)) => (Some(Outside::Name), refusal::NAME_NOT_UTF8),
                (Ok(pattern), Ok(text)) => {
                    let matches = pattern.matches(text);
                    if let (Some(_), Ok(rust)) = (run, &stored.pattern) {
                        let sides = [rust.matches(text), matches];
                        self.runs.matched(&stored.bytes, name, sides);
                    }
                    (run, ours::done(matches as u64))
                }
            }
        };
        let got = ours::matches(&stored.bytes, name);
        self.judge(outside, want == got, || {
            format!(
                "matches {} {}: expected {want}, got {got}",
                hex(&stored.bytes),
                hex(name)
            )
        });
    }

    fn judge(&mut self, outside: Option<Outside>, agree: bool, case: impl FnOnce() -> String) {
        let outside = outside.map(|reason| reason as usize);
        self.tally.judge(outside, agree, case);
    }
}

/// A stored pattern as the published Rust reads it, once for many names; and, where it has a run of
/// stars, what it is read as with each run as one star.
pub struct Stored {
    bytes: Vec<u8>,
    pattern: Result<Pattern, u64>,
    kept: Option<Result<Pattern, u64>>,
}

impl Stored {
    pub fn new(bytes: &[u8]) -> Self {
        let shape = std::str::from_utf8(bytes).map_or(Shape::default(), shape);
        let kept = match shape.open {
            true => Err(refusal::BAD_GLOB),
            false => published::pattern(shape.kept.as_bytes()),
        };
        Self {
            bytes: bytes.to_vec(),
            pattern: published::pattern(bytes),
            kept: shape.runs.then_some(kept),
        }
    }
}
