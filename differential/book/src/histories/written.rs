//! A text that the published Rust reads as the lines of a book that are left standing.

use book::buffers::Rooms;
use book::model::{Line, Model};
use book::storing::{stored, trimmed};
use book::trial::Trial;
use book::{kind, limit};
use host::class;
use reading_host::Source;

/// Why a book has no such text.
#[derive(Clone, Copy, Debug, PartialEq, Eq)]
pub enum Cause {
    /// A script of named nodes has an empty node 0.
    LineOfNodeZero,
    /// A token ends at its first `;`.
    Semicolon,
    /// Its token would begin with what is skipped or means something else there, or end in blanks.
    Place,
    Length,
}

impl Cause {
    /// In words, by their numbers.
    pub const REASONS: [&'static str; 4] = [
        "a line of node 0 beside named nodes",
        "a line with a `;`",
        "a line whose token cannot stand in a text",
        "a text over the limit",
    ];
}

/// The text, and what it is read as.
pub fn written(book: &Model) -> Result<(Source, Vec<u8>), Cause> {
    let standing: Vec<&Line> = book.lines.iter().filter(|line| !line.struck).collect();
    let lines = |node, section| -> Result<Vec<u8>, Cause> {
        let mut tokens = [Vec::new(), Vec::new()];
        for line in &standing {
            if line.node == node && line.section == section {
                // With the blank no `}` of the token stands before the `;`, but `extern` begins a block.
                tokens[line.language].extend([&token(line)?[..], b" ;\n"].concat());
            }
        }
        let [mut general, cxx] = tokens;
        if !cxx.is_empty() {
            general.extend([b"extern \"C++\" {\n", &cxx[..], b"};\n"].concat());
        }
        Ok(general)
    };
    if book.kind == kind::EXPORT_LIST {
        let text = [b"{\n", &lines(0, 0)?[..], b"};\n"].concat();
        return Ok((Source::ExportList, text));
    }
    let named = book.nodes.len() > 1;
    if named && standing.iter().any(|line| line.node == 0) {
        return Err(Cause::LineOfNodeZero);
    }
    // An extern block among the globals: what is left may not become the Rust kind.
    let block: &[u8] = match book.kind {
        kind::RUST => b"",
        _ => b"extern \"C\" {};\n",
    };
    let mut text = Vec::new();
    for (number, node) in book.nodes.iter().enumerate().skip(usize::from(named)) {
        let [globals, locals] = [lines(number, 0)?, lines(number, 1)?];
        let parent = &book.nodes[node.parent].name;
        text.extend([&node.name, &b" {\n"[..], block, &globals].concat());
        text.extend([&b"local:\n"[..], &locals, b"} ", parent, b";\n"].concat());
    }
    match text.len() > limit::SCRIPT {
        true => Err(Cause::Length),
        false => Ok((Source::Script, text)),
    }
}

/// A token that is stored as the line, and can stand wherever a token does: as it is, in quotes, or
/// with each byte escaped.
fn token(line: &Line) -> Result<Vec<u8>, Cause> {
    if line.bytes.contains(&b';') {
        return Err(Cause::Semicolon);
    }
    let quoted = [b"\"", &line.bytes[..], b"\""].concat();
    let escaped = line.bytes.iter().flat_map(|&byte| [b'\\', byte]).collect();
    let all = match line.class {
        class::ALL => b"*".to_vec(),
        _ => line.bytes.clone(),
    };
    let means_else: [&[u8]; 9] = [
        b" ", b"\t", b"\r", b"\n", b"#", b"/*", b"}", b"global:", b"local:",
    ];
    let stands = |token: &Vec<u8>| {
        !token.is_empty()
            && !(token == b"extern" || token.starts_with(b"extern "))
            && !means_else.iter().any(|front| token.starts_with(front))
            && stored(trimmed(token)) == Ok((line.class, line.bytes.clone()))
    };
    let tokens = [all, quoted, escaped];
    tokens.into_iter().find(stands).ok_or(Cause::Place)
}

/// Whether the text is read, by document 01, as the lines that stand, in each node, section and
/// language in order. They stand at other places there.
pub fn is_read_back(book: &Model, source: Source, text: &[u8]) -> bool {
    let lines = |book: &Model| {
        let mut lines: Vec<Line> = book.lines.clone();
        lines.retain(|line| !line.struck);
        lines.iter_mut().for_each(|line| line.offset = 0);
        lines.sort_by_key(|line| (line.node, line.section, line.language));
        lines
    };
    let read = Trial::open(source, text, 6, Rooms::ample(text.len()));
    read.is_ok_and(|read| {
        read.book.kind == book.kind
            && read.book.nodes == book.nodes
            && lines(&read.book) == lines(book)
    })
}
