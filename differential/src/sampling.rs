//! A sample of the Rust's answers, written to a file.

use std::collections::HashSet;
use std::fs::File;
use std::hash::Hash;
use std::io::{BufWriter, Write};

/// Writes so many cases of each kind, no two with one key. Each is drawn for its kind, and for how many
/// there are by then; one that is there already, or is none, is drawn again. What is said of a kind is
/// printed.
pub fn write<K: Copy, Key: Eq + Hash>(
    file: &str,
    kinds: &[(K, usize)],
    mut draw: impl FnMut(K, usize) -> Option<(Key, String)>,
    said: impl Fn(K, usize) -> String,
) -> std::io::Result<()> {
    let mut out = BufWriter::new(File::create(file)?);
    for &(kind, count) in kinds {
        let mut keys = HashSet::new();
        while keys.len() < count {
            if let Some((key, lines)) = draw(kind, keys.len()) {
                if keys.insert(key) {
                    out.write_all(lines.as_bytes())?;
                }
            }
        }
        println!("{}", said(kind, count));
    }
    out.flush()
}
