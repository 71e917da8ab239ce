//! What the published Rust does with a run of stars outside a bracket, which lies outside the domain
//! of equality: how much of it is refused, how much is taken, and which names the two sides answer
//! otherwise.

use crate::report::cut;

#[derive(Default)]
pub struct Runs {
    refused: u64,
    taken: Example,
    alike: u64,
    otherwise: Example,
    /// Of the patterns: how often the library alone must match.
    ours_alone: Option<u64>,
}

/// How many there are, and the shortest.
#[derive(Default)]
struct Example {
    count: u64,
    shortest: Option<[Vec<u8>; 2]>,
}

impl Example {
    fn add(&mut self, what: &[u8], name: &[u8]) {
        self.count += 1;
        let length = |shortest: &[Vec<u8>; 2]| shortest[0].len() + shortest[1].len();
        let shortest = self.shortest.as_ref().map_or(usize::MAX, length);
        if what.len() + name.len() < shortest {
            self.shortest = Some([what.to_vec(), name.to_vec()]);
        }
    }
}

impl Runs {
    /// A pattern, or a text that has one, and whether the Rust takes it.
    pub fn read(&mut self, what: &[u8], taken: bool) {
        match taken {
            true => self.taken.add(what, b""),
            false => self.refused += 1,
        }
    }

    /// A name asked of one that the Rust takes, and whether it answers as the library must.
    pub fn asked(&mut self, what: &[u8], name: &[u8], alike: bool) {
        match alike {
            true => self.alike += 1,
            false => self.otherwise.add(what, name),
        }
    }

    /// A name held against a pattern that the Rust takes: whether it matches there, and must match here.
    pub fn matched(&mut self, pattern: &[u8], name: &[u8], [rust, ours]: [bool; 2]) {
        self.asked(pattern, name, rust == ours);
        *self.ours_alone.get_or_insert(0) += u64::from(ours && !rust);
    }

    /// `what` says what has the runs.
    pub fn print(&self, what: &str) {
        let shown = |bytes: &[u8]| cut(bytes.escape_ascii().to_string());
        let taken = self.taken.shortest.as_ref();
        let taken = taken.map_or(String::new(), |[what, _]| {
            format!(", the shortest `{}`", shown(what))
        });
        let otherwise = self.otherwise.shortest.as_ref();
        let otherwise = otherwise.map_or(String::new(), |[what, name]| {
            format!(", the shortest `{}` on `{}`", shown(what), shown(name))
        });
        let alone = self.ours_alone.map_or(String::new(), |count| {
            format!("; we alone match {count} times")
        });
        let names = match self.alike + self.otherwise.count {
            0 => String::new(),
            _ => format!(
                "; names asked of these: alike {}, otherwise {}{otherwise}{alone}",
                self.alike, self.otherwise.count
            ),
        };
        println!(
            "{what} with a run of stars: the Rust refuses {}, and takes {}{taken}{names}",
            self.refused, self.taken.count
        );
    }
}
