//! What is said of a case that differs.

use crate::hex;

/// What is wrong, where something does not hold.
pub fn expect(holds: bool, what: impl FnOnce() -> String) -> Result<(), String> {
    if holds {
        Ok(())
    } else {
        Err(what())
    }
}

/// A text that differs, made shorter as long as it differs, and what is wrong with it.
/// `differs` says what is wrong with a text, and nothing where it does not differ.
pub fn smallest(text: &[u8], differs: impl FnMut(&[u8]) -> Option<String>) -> String {
    let mut text = text.to_vec();
    match shorten(&mut text, differs) {
        Some(what) => told(&text, &what),
        None => told(&text, "at one call and not at the next"),
    }
}

/// Makes a text that differs shorter, and gives what is wrong with it then; nothing where it does
/// not differ.
pub fn shorten(
    text: &mut Vec<u8>,
    mut differs: impl FnMut(&[u8]) -> Option<String>,
) -> Option<String> {
    let mut what = differs(text)?;
    let mut size = text.len();
    while size > 0 && text.len() / size < 10_000 {
        let before = text.len();
        let mut at = 0;
        while at + size <= text.len() {
            let mut shorter = text.clone();
            shorter.drain(at..at + size);
            match differs(&shorter) {
                Some(words) => {
                    *text = shorter;
                    what = words;
                }
                None => at += size,
            }
        }
        // Single bytes as long as one can go.
        if size > 1 || text.len() == before {
            size /= 2;
        }
    }
    Some(what)
}

/// A text, and what is wrong with it.
pub fn told(text: &[u8], what: &str) -> String {
    let shown = text.escape_ascii().to_string();
    let [hex, shown, what] = [hex(text), shown, what.to_string()].map(cut);
    format!("{hex} `{shown}`, {} bytes: {what}", text.len())
}

/// Words short enough to be printed.
pub fn cut(mut words: String) -> String {
    if let Some((at, _)) = words.char_indices().nth(600) {
        words.truncate(at);
        words += "..";
    }
    words
}
