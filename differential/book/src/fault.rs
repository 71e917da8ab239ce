//! Document 01's row 14, with document 02's requests 01 and 02, and nothing of the proved library's own
//! definitions: what keeps lent buffers from being a book. Slow and plain, one sentence of the papers
//! after the other.

use crate::buffers::{Buffers, Counted};
use crate::{kind, limit, width};
use differential::domain;
use host::class;

/// What is wrong, in the row's own words, or nothing where it is a book.
pub fn fault(book: &Buffers) -> Option<&'static str> {
    checked(book).err()
}

/// A node's name and its parent's number.
struct Node<'b> {
    name: &'b [u8],
    parent: usize,
}

struct Line<'b> {
    node: usize,
    class: u64,
    local: bool,
    cxx: bool,
    struck: bool,
    bytes: &'b [u8],
    offset: usize,
}

fn checked(book: &Buffers) -> Result<(), &'static str> {
    let counts = book.counted();
    within(book, &counts)?;
    no_rest(book, &counts)?;
    let nodes = nodes(book, &counts)?;
    for number in 0..nodes.len() {
        named(&nodes, number)?;
        with_parent(&nodes, number)?;
    }
    let lines = lines(book, &counts)?;
    for line in &lines {
        in_range(line, nodes.len())?;
        placed(line)?;
        glob(line)?;
    }
    of_its_kind(&counts, &nodes, &lines)?;
    journal(book, &counts, &lines)
}

fn demand(holds: bool, otherwise: &'static str) -> Result<(), &'static str> {
    if holds {
        Ok(())
    } else {
        Err(otherwise)
    }
}

/// "A count over its room or limit". Whole rows count as room; names have no limit of their own. A
/// kind that there is none of is a field out of range.
fn within(book: &Buffers, counts: &Counted) -> Result<(), &'static str> {
    demand(counts.kind <= kind::EXPORT_LIST, "an unknown kind")?;
    demand(counts.fit(book.rooms()), "a count over its room")?;
    demand(
        counts.nodes <= limit::NODES
            && counts.lines <= limit::LINES
            && counts.pool <= limit::POOL
            && counts.edits <= limit::EDITS,
        "a count over its limit",
    )
}

/// "A nonzero rest", also of what is no whole row.
fn no_rest(book: &Buffers, counts: &Counted) -> Result<(), &'static str> {
    let numbers = [
        &book.nodes[width::NODE * counts.nodes..],
        &book.lines[width::LINE * counts.lines..],
        &book.journal[width::EDIT * counts.edits..],
    ];
    let bytes = [&book.names[counts.names..], &book.pool[counts.pool..]];
    let zero = numbers
        .iter()
        .all(|rest| rest.iter().all(|&number| number == 0))
        && bytes.iter().all(|rest| rest.iter().all(|&byte| byte == 0));
    demand(zero, "a nonzero rest")
}

/// "A gap": "each start is the sum of the lengths before it", and the count is the sum of all.
fn packed<'b>(
    bytes: &'b [u8],
    places: impl Iterator<Item = [u32; 2]>,
) -> Result<Vec<&'b [u8]>, &'static str> {
    let mut parts = Vec::new();
    let mut sum = 0u64;
    for [start, length] in places {
        demand(u64::from(start) == sum, "a gap")?;
        sum += u64::from(length);
        demand(sum <= bytes.len() as u64, "a length past the bytes")?;
        parts.push(&bytes[start as usize..sum as usize]);
    }
    demand(sum == bytes.len() as u64, "bytes that nothing names")?;
    Ok(parts)
}

fn nodes<'b>(book: &'b Buffers, counts: &Counted) -> Result<Vec<Node<'b>>, &'static str> {
    demand(counts.nodes > 0, "no node 0")?;
    let rows = book.nodes.chunks_exact(width::NODE).take(counts.nodes);
    let places = rows.clone().map(|row| [row[0], row[1]]);
    let names = packed(&book.names[..counts.names], places)?;
    let nodes = names.into_iter().zip(rows).map(|(name, row)| Node {
        name,
        parent: row[2] as usize,
    });
    Ok(nodes.collect())
}

/// "A node name … that no reading gives": node 0 has none; another is one or more bytes outside
/// space ( ) { } LF tab, and none that the skip before it would take; and no script is longer than
/// its limit, in which it stands with a body and a `;` behind it.
fn named(nodes: &[Node], number: usize) -> Result<(), &'static str> {
    let name = nodes[number].name;
    if number == 0 {
        return demand(name.is_empty(), "a name of node 0");
    }
    let of_a_name = |byte| !b" (){}\n\t".contains(byte);
    let skipped = [&b"\r"[..], b"#", b"/*"];
    demand(
        !name.is_empty()
            && name.iter().all(of_a_name)
            && !skipped.iter().any(|front| name.starts_with(front))
            && name.len() + b"{};".len() <= limit::SCRIPT,
        "a node name that no reading gives",
    )
}

/// "Or parent that no reading gives": 0 for none, or an earlier node, the first of its name, which
/// is the text up to a `;`; in a script it stands twice, before its own body and behind the node's.
fn with_parent(nodes: &[Node], number: usize) -> Result<(), &'static str> {
    let parent = nodes[number].parent;
    if parent == 0 {
        return Ok(());
    }
    let earlier = &nodes[..number];
    let found = earlier.get(parent).is_some_and(|node| {
        let first = earlier.iter().position(|other| other.name == node.name);
        let script = 2 * node.name.len() + b"{};{};".len() + nodes[number].name.len();
        first == Some(parent) && !node.name.contains(&b';') && script <= limit::SCRIPT
    });
    demand(found, "a parent that no reading gives")
}

fn lines<'b>(book: &'b Buffers, counts: &Counted) -> Result<Vec<Line<'b>>, &'static str> {
    let rows = book.lines.chunks_exact(width::LINE).take(counts.lines);
    let places = rows.clone().map(|row| [row[2], row[3]]);
    let bytes = packed(&book.pool[..counts.pool], places)?;
    let line = |(bytes, row): (&'b [u8], &[u32])| {
        let code = row[1];
        // "Class x 4 + section x 2 + language", and "32 is added to a struck line's code".
        let (struck, code) = if code < 32 {
            (false, code)
        } else {
            (true, code - 32)
        };
        Line {
            node: row[0] as usize,
            class: u64::from(code / 4),
            local: code & 2 != 0,
            cxx: code & 1 != 0,
            struck,
            bytes,
            offset: row[4] as usize,
        }
    };
    Ok(bytes.into_iter().zip(rows).map(line).collect())
}

/// "A field out of range": the node, the class, a line longer than a token can be, and "All (length
/// 0)".
fn in_range(line: &Line, nodes: usize) -> Result<(), &'static str> {
    demand(line.node < nodes, "a line of no node")?;
    demand(line.class <= class::ALL, "an unknown class")?;
    demand(line.bytes.len() <= limit::TOKEN, "a line too long")?;
    demand(
        line.class != class::ALL || line.bytes.is_empty(),
        "an All line with bytes",
    )
}

/// "14 also covers an offset over 1,048,576", of whichever line, and nothing else of an offset: one that
/// the journal says was added may have another than 0.
fn placed(line: &Line) -> Result<(), &'static str> {
    demand(line.offset <= limit::SCRIPT, "an offset over the limit")
}

/// "A stored glob that 5 or 6 refuses or that storing would change".
fn glob(line: &Line) -> Result<(), &'static str> {
    if !class::is_glob(line.class) {
        return Ok(());
    }
    let text = std::str::from_utf8(line.bytes).map_err(|_| "a glob that 5 refuses")?;
    demand(!text.contains("[^"), "a glob with `[^`")?;
    let shape = domain::shape(text);
    demand(!shape.runs, "a glob with a run of stars")?;
    demand(!shape.open, "a glob that 6 refuses")
}

/// "A Rust kind with an edit or whose lines break its rule". An export list is node 0 alone, and its
/// lines are global.
fn of_its_kind(counts: &Counted, nodes: &[Node], lines: &[Line]) -> Result<(), &'static str> {
    let bare = |line: &Line, class| line.class == class && !line.cxx;
    match counts.kind {
        kind::RUST => {
            demand(nodes.len() == 1, "a Rust kind with named nodes")?;
            demand(counts.edits == 0, "a Rust kind with an edit")?;
            let mut globals = lines.iter().filter(|line| !line.local);
            let mut locals = lines.iter().filter(|line| line.local);
            demand(
                globals.all(|line| bare(line, class::EXACT))
                    && locals.any(|line| bare(line, class::ALL)),
                "a Rust kind whose lines break its rule",
            )
        }
        kind::EXPORT_LIST => {
            demand(nodes.len() == 1, "an export list with named nodes")?;
            demand(
                lines.iter().all(|line| !line.local),
                "a local line in an export list",
            )
        }
        _ => Ok(()),
    }
}

/// "A journal whose steps backward don't fit the lines or leave one struck": an add is undone by
/// taking away the last line, which stands; a strike by having its line, which is struck, stand
/// again.
fn journal(book: &Buffers, counts: &Counted, lines: &[Line]) -> Result<(), &'static str> {
    let mut struck: Vec<bool> = lines.iter().map(|line| line.struck).collect();
    let edits = book.journal.chunks_exact(width::EDIT).take(counts.edits);
    for edit in edits.rev() {
        let line = edit[1] as usize;
        match edit[0] {
            1 => {
                demand(line + 1 == struck.len(), "an add that is not the last line")?;
                demand(!struck[line], "an add of a struck line")?;
                struck.pop();
            }
            2 => {
                demand(line < struck.len(), "a strike of no line")?;
                demand(struck[line], "a strike of a standing line")?;
                struck[line] = false;
            }
            _ => return Err("an unknown edit"),
        }
    }
    demand(!struck.contains(&true), "a line left struck")
}
