//! How often each kind of line decided, what was wanted, and what was told of the line that is named.

use crate::named::Named;
use book::kind;
use book::model::{Line, Model};
use book::questions::Question;
use book::ranking::{ranks, By};
use book::why::Why;
use reading_host::asked::First;

const CLASSES: [&str; 5] = ["Exact", "Escaped", "NonStar", "Star", "All"];

/// The kinds of wanted versions, by their numbers.
const WANTED: [&str; 5] = [
    "empty",
    "of one node",
    "of several nodes",
    "unknown (10)",
    "any, of the Rust kind",
];

#[derive(Default)]
pub struct Coverage {
    /// By class, and by column: section and language of a script, then language of an export list.
    by: [[u64; 6]; 5],
    /// Nothing decided: in scripts, in export lists.
    nothing: [u64; 2],
    /// Of the Rust kind: listed, not listed.
    listed: [u64; 2],
    /// Several lines matched; of several classes, nodes, sections, languages.
    several: u64,
    of_several: [u64; 4],
    /// Another line of the deciding one's rank matched.
    of_equal_rank: u64,
    wanted: [u64; 5],
    /// Why: a line, no line, the wanted version, refused.
    why: [u64; 4],
    /// How the Rust tells which line it is: by its token's place, by its number among globs, or not.
    told: [u64; 3],
    /// By the kinds of books: struck lines after which the Rust answers otherwise, and as before.
    struck: [[u64; 2]; 3],
}

impl Coverage {
    pub fn answered(&mut self, book: &Model, question: &Question, by: &By) {
        match by {
            By::Refusal => {}
            By::Wanted(nodes) => self.wanted(book.kind, question, *nodes),
            By::Lines { matching, deciding } => {
                let line = |&number: &usize| &book.lines[number];
                let matching: Vec<&Line> = matching.iter().map(line).collect();
                self.decided(book, &matching, deciding.as_ref().map(line));
            }
        }
    }

    pub fn named(&mut self, kind: u32, named: &Named) {
        let why = match named.why {
            Ok(Why::Line(_)) => 0,
            Ok(Why::NoLine) => 1,
            Ok(Why::Wanted) => 2,
            Err(_) => 3,
        };
        self.why[why] += 1;
        if let Some(first) = named.first {
            let told = match first {
                First::At(_) => 0,
                First::Number(_) => 1,
                First::Untold => 2,
            };
            self.told[told] += 1;
        }
        if let Some(changed) = named.changed {
            self.struck[kind as usize][usize::from(!changed)] += 1;
        }
    }

    fn decided(&mut self, book: &Model, matching: &[&Line], line: Option<&Line>) {
        let list = book.kind == kind::EXPORT_LIST;
        if book.kind == kind::RUST {
            let listed = matching.iter().any(|line| line.section == 0);
            self.listed[usize::from(!listed)] += 1;
            return;
        }
        let Some(line) = line else {
            self.nothing[usize::from(list)] += 1;
            return;
        };
        let column = if list { 4 } else { 2 * line.section } + line.language;
        self.by[line.class as usize][column] += 1;
        self.several += u64::from(matching.len() > 1);
        let other: [fn(&Line, &Line) -> bool; 4] = [
            |a, b| a.class != b.class,
            |a, b| a.node != b.node,
            |a, b| a.section != b.section,
            |a, b| a.language != b.language,
        ];
        for (count, other) in self.of_several.iter_mut().zip(other) {
            *count += u64::from(matching.iter().any(|matched| other(matched, line)));
        }
        let rank = ranks(book.nodes.len()).find(|rank| rank.has(line));
        let rank = rank.expect("every line has a rank");
        let equal = matching.iter().filter(|line| rank.has(line)).count();
        self.of_equal_rank += u64::from(equal > 1);
    }

    fn wanted(&mut self, kind: u32, question: &Question, nodes: usize) {
        let number = match nodes {
            _ if kind == kind::RUST => 4,
            _ if question.wanted.as_deref() == Some(b"") => 0,
            0 => 3,
            1 => 1,
            _ => 2,
        };
        self.wanted[number] += 1;
    }

    pub fn print(&self) {
        println!(
            "| decided by | global | global, C++ | local | local, C++ | of a list | of a list, C++ |"
        );
        println!("|---|--:|--:|--:|--:|--:|--:|");
        for (class, columns) in CLASSES.iter().zip(self.by) {
            let columns = columns.map(|count| count.to_string());
            println!("| {class} | {} |", columns.join(" | "));
        }
        let [scripts, lists] = self.nothing;
        let [listed, others] = self.listed;
        println!("\nnothing decided: scripts {scripts}, export lists {lists}; the Rust kind: listed {listed}, not listed {others}");
        let [classes, nodes, sections, languages] = self.of_several;
        println!(
            "of them, several lines matched: {}; of another class than the deciding one {classes}, of another node {nodes}, \
             of the other section {sections}, of the other language {languages}, of its own rank {}",
            self.several, self.of_equal_rank
        );
        let wanted = WANTED.iter().zip(self.wanted);
        let wanted: Vec<String> = wanted
            .map(|(words, count)| format!("{words} {count}"))
            .collect();
        println!("wanted versions: {}", wanted.join(", "));
        let [line, nothing, wanted, refused] = self.why;
        println!(
            "why: a line {line}, no line {nothing}, the wanted version {wanted}, refused {refused}"
        );
        let [place, number, untold] = self.told;
        println!(
            "lines named as the Rust's sets and patterns have them: by a token's place {place}, by the order of globs \
             {number}, escaped or `*`, of which it tells no more than that there is one, {untold}"
        );
        let struck = ["regular scripts", "the Rust kind", "export lists"]
            .iter()
            .zip(self.struck)
            .map(|(words, [changed, same])| format!("{words} {changed} and {same}"));
        let struck: Vec<String> = struck.collect();
        println!(
            "named lines struck in the text, after which the Rust answers otherwise, and as before: {}\n",
            struck.join(", ")
        );
    }
}
