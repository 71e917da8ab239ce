//! What the benches share: cases that are run on each side in rounds, and counted under valgrind.
//!
//!     NAME                          the tables, in Markdown: times, and instructions by valgrind
//!     NAME count SIDE CASE TIMES    one case on one side, so many times, for valgrind to count

use std::process::Command;
use std::time::Duration;

/// How long a side is timed in one round, at least.
const ROUND: Duration = Duration::from_millis(2);

/// Where one run takes longer than this, it has three rounds only, and is not run under valgrind.
const LONG: Duration = Duration::from_millis(100);
const FEW: usize = 3;

/// What a table shows, and nothing where a side does not have the case, or was not counted.
pub type Figures<const SIDES: usize> = Vec<[Option<f64>; SIDES]>;

#[derive(Clone, Copy, PartialEq, Eq)]
pub enum Unit {
    Nanoseconds,
    Instructions,
}

pub struct Bench<'b, const SIDES: usize> {
    pub name: &'static str,
    pub cases: usize,
    /// In a round every case is run on each side, so that a busy while of the machine is spread over
    /// all; the fastest round counts.
    pub rounds: usize,
    /// Runs a case on a side so many times, and gives the time taken.
    pub repeat: &'b dyn Fn(usize, usize, u32) -> Option<Duration>,
    /// Prints the figures of one run of each case on each side.
    pub table: &'b dyn Fn(Unit, &Figures<SIDES>),
}

impl<const SIDES: usize> Bench<'_, SIDES> {
    pub fn run(&self) {
        let words: Vec<String> = std::env::args().skip(1).collect();
        let words: Vec<&str> = words.iter().map(String::as_str).collect();
        match words[..] {
            [] => self.tables(),
            ["count", side, case, times] => {
                let number = |word: &str| word.parse::<usize>().expect("a number");
                (self.repeat)(number(side), number(case), number(times) as u32);
            }
            _ => {
                eprintln!("usage: {}", self.name);
                std::process::exit(2)
            }
        }
    }

    fn tables(&self) {
        let times = self.timed();
        (self.table)(Unit::Nanoseconds, &times);
        match Command::new("valgrind").arg("--version").output() {
            Ok(_) => (self.table)(Unit::Instructions, &self.counted(&times)),
            Err(_) => eprintln!("no valgrind: instructions are not counted"),
        }
    }

    /// The time of one run of each case on each side, in its fastest round.
    fn timed(&self) -> Figures<SIDES> {
        let sides = |case| std::array::from_fn(|side| self.enough(side, case));
        let times: Vec<[Option<u32>; SIDES]> = (0..self.cases).map(sides).collect();
        let mut fastest = vec![[Duration::MAX; SIDES]; self.cases];
        for round in 1..=self.rounds {
            eprintln!("times: round {round} of {}", self.rounds);
            for (case, sides) in fastest.iter_mut().enumerate() {
                for (side, fastest) in sides.iter_mut().enumerate() {
                    let Some(times) = times[case][side] else {
                        continue;
                    };
                    if round <= FEW || *fastest < LONG {
                        let time = (self.repeat)(side, case, times);
                        *fastest = (time.expect("the side has it") / times).min(*fastest);
                    }
                }
            }
        }
        let nanoseconds = |time: Duration| (time < Duration::MAX).then_some(time.as_nanos() as f64);
        fastest
            .into_iter()
            .map(|sides| sides.map(nanoseconds))
            .collect()
    }

    /// How many runs a side makes in a round's time, by the faster of two tries.
    fn enough(&self, side: usize, case: usize) -> Option<u32> {
        let mut times = 1;
        loop {
            let tries = [
                (self.repeat)(side, case, times)?,
                (self.repeat)(side, case, times)?,
            ];
            if tries.iter().all(|&time| time >= ROUND) {
                return Some(times);
            }
            times *= 2;
        }
    }

    /// The instructions of one run of each case on each side, but for those that took long: the
    /// difference of two runs under valgrind, one of which does more.
    fn counted(&self, times: &Figures<SIDES>) -> Figures<SIDES> {
        let count = |case: usize| {
            eprintln!("instructions: case {} of {}", case + 1, self.cases);
            std::array::from_fn(|side| {
                let time = times[case][side].filter(|&time| time < LONG.as_nanos() as f64)?;
                let more = if time < 20_000.0 { 100 } else { 1 };
                let [one, all] = [1, 1 + more].map(|times| instructions(side, case, times));
                Some((all - one) as f64 / f64::from(more))
            })
        };
        (0..self.cases).map(count).collect()
    }
}

/// What callgrind collects of one run of this program.
fn instructions(side: usize, case: usize, times: u32) -> u64 {
    let program = std::env::current_exe().expect("this program has a path");
    let run = Command::new("valgrind")
        .args(["--tool=callgrind", "--callgrind-out-file=/dev/null"])
        .arg(program)
        .args([
            "count",
            &format!("{side}"),
            &format!("{case}"),
            &format!("{times}"),
        ])
        .output()
        .expect("valgrind runs");
    let said = String::from_utf8_lossy(&run.stderr);
    said.lines()
        .filter(|line| line.contains("Collected :"))
        .find_map(|line| line.split_whitespace().last()?.parse().ok())
        .expect("callgrind says what it collected")
}

/// A ratio of ours to the Rust's, as a fraction where ours is far less, and without its decimals where
/// ours is far more.
pub fn ratio(rust: Option<f64>, ours: Option<f64>) -> String {
    match (rust, ours) {
        (Some(rust), Some(ours)) if rust > 10.0 * ours => format!("1/{:.0}", rust / ours),
        (Some(rust), Some(ours)) if ours > 100.0 * rust => format!("{:.0}", ours / rust),
        (Some(rust), Some(ours)) => format!("{:.2}", ours / rust),
        _ => "–".to_string(),
    }
}
