//! A sample of the published Rust's answers, one case a line, for a program that cannot link the
//! Rust. Fields are split by one blank; bytes are in hex, and `-` is no bytes.
//!
//!     C token class
//!     U pattern unescaped
//!     S token class stored
//!     S token ! refusal
//!     M stored name 0|1
//!
//! All lie within the domain of equality, and are the same for the same seed.

use differential::domain::{has_run, negated};
use differential::hex;
use differential::inputs::{Random, SPECIAL};
use differential::sampling;
use host::{class, published};

/// How many lines of each kind. Every second line of `M` matches.
const KINDS: [(&str, usize); 4] = [("C", 700), ("U", 600), ("S", 1100), ("M", 1600)];

const LONGEST: usize = 60;

pub fn write(file: &str, mut random: Random) -> std::io::Result<()> {
    let draw = |kind, number: usize| {
        let line = match kind {
            "C" => classed(&mut random),
            "U" => unescaped(&mut random),
            "S" => stored(&mut random),
            _ => matched(&mut random, number % 2 == 0),
        };
        line.map(|line| (line.clone(), format!("{kind} {line}\n")))
    };
    sampling::write(file, &KINDS, draw, |kind, count| format!("{kind} {count}"))
}

fn classed(random: &mut Random) -> Option<String> {
    let token = token(random);
    Some(format!("{} {}", hex(&token), published::class(&token)))
}

fn unescaped(random: &mut Random) -> Option<String> {
    let pattern = token(random);
    Some(format!(
        "{} {}",
        hex(&pattern),
        hex(&published::unescape(&pattern))
    ))
}

fn stored(random: &mut Random) -> Option<String> {
    let token = token(random);
    let class = published::class(&token);
    if class::is_glob(class) && has_run(&negated(&token)) {
        return None;
    }
    Some(match published::store(&token) {
        Ok(bytes) => format!("{} {class} {}", hex(&token), hex(&bytes)),
        Err(number) => format!("{} ! {number}", hex(&token)),
    })
}

fn matched(random: &mut Random, wanted: bool) -> Option<String> {
    let length = length(random);
    let (stored, name) = random.pair(length);
    let text = std::str::from_utf8(&name).ok()?;
    if name.len() > LONGEST || has_run(std::str::from_utf8(&stored).ok()?) {
        return None;
    }
    let found = published::pattern(&stored).ok()?.matches(text);
    (found == wanted).then(|| format!("{} {} {}", hex(&stored), hex(&name), u8::from(found)))
}

/// Short tokens of special bytes, tokens with no plan, and well formed patterns.
fn token(random: &mut Random) -> Vec<u8> {
    let length = length(random);
    match random.below(3) {
        0 => (0..length % 6)
            .flat_map(|_| random.pick(&SPECIAL))
            .copied()
            .collect(),
        1 => random.text(length),
        _ => random.pair(length).0,
    }
}

/// Mostly short, at times up to the longest.
fn length(random: &mut Random) -> usize {
    let most = random.pick(&[8, 20, LONGEST]);
    random.below(most + 1)
}
