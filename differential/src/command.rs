//! The command line of a comparison.
//!
//!     NAME [--seed N] [--rounds N]   compare; exit status 1 when anything differs
//!     NAME sample FILE [--seed N]    write a sample of the Rust's answers to FILE, where there is one
//!     NAME replay FILE               compare what stands in FILE, where a case can be written down

use crate::inputs::Random;
use std::process::ExitCode;

/// The published Rust calls itself: the matcher once for each star of a pattern, the reader once
/// for each `extern "C"{` within another. 32,768 stars, or five thousand blocks, take more than a
/// thread's usual stack.
const STACK: usize = 1 << 28;

pub struct Program {
    pub name: &'static str,
    /// How many rounds, where the command line does not say.
    pub rounds: u64,
    /// The whole comparison; true when nothing differed.
    pub compared: fn(Random, u64) -> bool,
    /// Writes a sample.
    pub sample: Option<fn(&str, Random) -> std::io::Result<()>>,
    /// Compares a case that was written down; true when it does not differ, or why it is none.
    pub replay: Option<fn(&str) -> Result<bool, String>>,
}

impl Program {
    pub fn run(&self) -> ExitCode {
        let mut seed = 1;
        let mut rounds = self.rounds;
        let mut words = Vec::new();
        let mut arguments = std::env::args().skip(1);
        while let Some(word) = arguments.next() {
            match word.as_str() {
                "--seed" => seed = self.number(arguments.next()),
                "--rounds" => rounds = self.number(arguments.next()),
                _ => words.push(word),
            }
        }
        let words: Vec<&str> = words.iter().map(String::as_str).collect();
        let agree = match (&words[..], self.sample) {
            ([], _) => {
                let compared = self.compared;
                let run = move || compared(Random(seed), rounds);
                let thread = std::thread::Builder::new().stack_size(STACK).spawn(run);
                thread
                    .expect("a thread can be started")
                    .join()
                    .expect("the comparison ends")
            }
            (["sample", file], Some(sample)) => {
                sample(file, Random(seed))
                    .unwrap_or_else(|error| quit(&format!("{file}: {error}")));
                true
            }
            (["replay", file], _) => {
                let replay = self.replay.unwrap_or_else(|| self.misused());
                let text = std::fs::read_to_string(file).map_err(|error| error.to_string());
                let agree = text.and_then(|text| replay(&text));
                agree.unwrap_or_else(|error| quit(&format!("{file}: {error}")))
            }
            _ => self.misused(),
        };
        ExitCode::from(if agree { 0 } else { 1 })
    }

    fn number(&self, word: Option<String>) -> u64 {
        word.and_then(|word| word.parse().ok())
            .unwrap_or_else(|| self.misused())
    }

    fn misused(&self) -> ! {
        let name = self.name;
        let mut usage = format!("usage: {name} [--seed N] [--rounds N]");
        if self.sample.is_some() {
            usage += &format!(", or {name} sample FILE [--seed N]");
        }
        if self.replay.is_some() {
            usage += &format!(", or {name} replay FILE");
        }
        quit(&usage)
    }
}

fn quit(message: &str) -> ! {
    eprintln!("{message}");
    std::process::exit(2)
}
