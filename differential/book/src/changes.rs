//! The kinds of change. Most change one number or byte; the last ones move, swap or cut, so that
//! more than a plain damage is asked for.

use crate::buffers::{Buffers, Counted, Lent, Noise};
use crate::{limit, width};
use differential::inputs::Random;

pub struct Change {
    pub words: &'static str,
    pub make: fn(&mut Random, &mut Buffers),
}

const fn change(words: &'static str, make: fn(&mut Random, &mut Buffers)) -> Change {
    Change { words, make }
}

pub const CHANGES: [Change; 33] = [
    change("count: kind", |random, book| count(random, book, 0)),
    change("count: nodes", |random, book| count(random, book, 1)),
    change("count: name bytes", |random, book| count(random, book, 2)),
    change("count: lines", |random, book| count(random, book, 3)),
    change("count: pool bytes", |random, book| count(random, book, 4)),
    change("count: edits", |random, book| count(random, book, 5)),
    change("node: name start", |random, book| node(random, book, 0)),
    change("node: name length", |random, book| node(random, book, 1)),
    change("node: parent", |random, book| node(random, book, 2)),
    change("node: parent, an earlier node", earlier_parent),
    change("nodes: the rest", |random, book| {
        let used = width::NODE * used(book).nodes;
        rest(random, &mut book.nodes, used);
    }),
    change("names: a byte", |random, book| {
        let used = used(book).names;
        byte(random, &mut book.names[..used]);
    }),
    change("names: the rest", |random, book| {
        let used = used(book).names;
        byte(random, &mut book.names[used..]);
    }),
    change("line: node", |random, book| line(random, book, 0)),
    change("line: code", |random, book| line(random, book, 1)),
    change("line: code, below 64", any_code),
    change("line: start", |random, book| line(random, book, 2)),
    change("line: length", |random, book| line(random, book, 3)),
    change("line: offset", |random, book| line(random, book, OFFSET)),
    change("line: offset, around the limit", |random, book| {
        let lines = used(book).lines;
        if lines > 0 {
            let line = random.below(lines);
            book.lines[width::LINE * line + OFFSET] = around_the_limit(random);
        }
    }),
    change("line: offset of an added line", added_offset),
    change("lines: the rest", |random, book| {
        let used = width::LINE * used(book).lines;
        rest(random, &mut book.lines, used);
    }),
    change("pool: a byte", |random, book| {
        let used = used(book).pool;
        byte(random, &mut book.pool[..used]);
    }),
    change("pool: a star beside a star", star),
    change("pool: the rest", |random, book| {
        let used = used(book).pool;
        byte(random, &mut book.pool[used..]);
    }),
    change("edit: add or strike", |random, book| edit(random, book, 0)),
    change("edit: line", |random, book| edit(random, book, 1)),
    change("journal: the rest", |random, book| {
        let used = width::EDIT * used(book).edits;
        rest(random, &mut book.journal, used);
    }),
    change("a byte from one line to its neighbour", |random, book| {
        let rows = used(book).lines;
        border(random, &mut book.lines, rows, width::LINE, 2);
    }),
    change("a byte from one name to its neighbour", |random, book| {
        let rows = used(book).nodes;
        border(random, &mut book.nodes, rows, width::NODE, 0);
    }),
    change("two edits swapped", |random, book| {
        let edits = used(book).edits;
        if edits > 1 {
            let [one, other] = [random.below(edits), random.below(edits)];
            for field in 0..width::EDIT {
                let [one, other] = [one, other].map(|edit| width::EDIT * edit + field);
                book.journal.swap(one, other);
            }
        }
    }),
    change("a room cut or longer", room),
    change("two changes", |random, book| {
        for _ in 0..2 {
            let one = random.below(CHANGES.len() - 1);
            (CHANGES[one].make)(random, book);
        }
    }),
];

/// The field of a line's row that says where the line came from.
const OFFSET: usize = 4;

/// What is in use; no more than there is room for, should a change have made a count too large.
fn used(book: &Buffers) -> Counted {
    let (counts, rooms) = (book.counted(), book.rooms());
    Counted {
        kind: counts.kind,
        nodes: counts.nodes.min(rooms.nodes / width::NODE),
        names: counts.names.min(rooms.names),
        lines: counts.lines.min(rooms.lines / width::LINE),
        pool: counts.pool.min(rooms.pool),
        edits: counts.edits.min(rooms.journal / width::EDIT),
    }
}

fn count(random: &mut Random, book: &mut Buffers, number: usize) {
    let rooms = book.rooms();
    let room = [
        3,
        rooms.nodes / width::NODE,
        rooms.names,
        rooms.lines / width::LINE,
        rooms.pool,
        rooms.journal / width::EDIT,
    ][number] as u32;
    let limits = [limit::NODES, limit::LINES, limit::POOL, limit::EDITS].map(|limit| limit as u32);
    let others = [
        room,
        room + 1,
        random.pick(&limits),
        random.pick(&limits) + 1,
    ];
    book.counts[number] = other(random, book.counts[number], &others);
}

fn node(random: &mut Random, book: &mut Buffers, field: usize) {
    let rows = used(book).nodes;
    row(random, &mut book.nodes, rows, width::NODE, field);
}

fn line(random: &mut Random, book: &mut Buffers, field: usize) {
    let rows = used(book).lines;
    row(random, &mut book.lines, rows, width::LINE, field);
}

fn edit(random: &mut Random, book: &mut Buffers, field: usize) {
    let rows = used(book).edits;
    row(random, &mut book.journal, rows, width::EDIT, field);
}

/// One number of one of the first rows.
fn row(random: &mut Random, numbers: &mut [u32], rows: usize, width: usize, field: usize) {
    if rows > 0 {
        let neighbour = numbers[width * random.below(rows) + field];
        let number = &mut numbers[width * random.below(rows) + field];
        *number = other(random, *number, &[neighbour]);
    }
}

/// A number behind the rows.
fn rest(random: &mut Random, numbers: &mut [u32], used: usize) {
    let left = numbers.len() - used;
    if left > 0 {
        let number = &mut numbers[used + random.below(left)];
        *number = other(random, *number, &[1]);
    }
}

/// Another number: near it, far from it, one bit off, or one of some.
fn other(random: &mut Random, number: u32, others: &[u32]) -> u32 {
    let small = 1 + random.below(3) as u32;
    match random.below(8) {
        0 => number.wrapping_add(small),
        1 => number.wrapping_sub(small),
        2 => 0,
        3 => u32::MAX - random.below(4) as u32,
        4 => number ^ (1 << random.below(32)),
        5 => number ^ (1 << random.below(7)),
        6 => random.below(70) as u32,
        _ => random.pick(others),
    }
}

/// The bytes that mean something in a name or a glob, and any byte.
fn byte(random: &mut Random, bytes: &mut [u8]) {
    if !bytes.is_empty() {
        let byte = &mut bytes[random.below(bytes.len())];
        *byte = match random.below(4) {
            0 => random.below(256) as u8,
            1 => *byte ^ (1 << random.below(8)),
            _ => random.pick(b"\0\t\n\r #/*?;(){}[]!^-A\\\"\xc3\xa9\xff"),
        };
    }
}

/// A byte beside a star becomes one too, where there is such a byte.
fn star(random: &mut Random, book: &mut Buffers) {
    let used = used(book).pool;
    let pool = &mut book.pool[..used];
    let beside: Vec<usize> = (1..used)
        .filter(|&at| (pool[at - 1] == b'*') != (pool[at] == b'*'))
        .map(|at| at - usize::from(pool[at] == b'*'))
        .collect();
    if !beside.is_empty() {
        pool[random.pick(&beside)] = b'*';
    }
}

fn earlier_parent(random: &mut Random, book: &mut Buffers) {
    let nodes = used(book).nodes;
    if nodes > 1 {
        let node = 1 + random.below(nodes - 1);
        book.nodes[width::NODE * node + 2] = random.below(node) as u32;
    }
}

fn any_code(random: &mut Random, book: &mut Buffers) {
    let lines = used(book).lines;
    if lines > 0 {
        let line = random.below(lines);
        book.lines[width::LINE * line + 1] = random.below(64) as u32;
    }
}

/// The last offset that is taken, and up to two less and more.
fn around_the_limit(random: &mut Random) -> u32 {
    (limit::SCRIPT - 2 + random.below(5)) as u32
}

/// Of a line that the journal says was added, where there is one.
fn added_offset(random: &mut Random, book: &mut Buffers) {
    let Counted { lines, edits, .. } = used(book);
    let edits = book.journal.chunks_exact(width::EDIT).take(edits);
    let added: Vec<usize> = edits
        .filter(|edit| edit[0] == 1)
        .map(|edit| edit[1] as usize)
        .filter(|&line| line < lines)
        .collect();
    if !added.is_empty() {
        let offset = &mut book.lines[width::LINE * random.pick(&added) + OFFSET];
        *offset = match random.one_in(2) {
            true => around_the_limit(random),
            false => other(random, *offset, &[1]),
        };
    }
}

/// A byte goes over the border between two rows, to either side, where there is one; `start` is the
/// field before the length.
fn border(random: &mut Random, numbers: &mut [u32], rows: usize, width: usize, start: usize) {
    if rows > 1 {
        let row = random.below(rows - 1);
        let [length, next] = [width * row + start + 1, width * (row + 1) + start];
        if random.one_in(2) && numbers[length] > 0 {
            numbers[length] -= 1;
            numbers[next] = numbers[next].wrapping_sub(1);
            numbers[next + 1] = numbers[next + 1].wrapping_add(1);
        } else if numbers[next + 1] > 0 {
            numbers[length] = numbers[length].wrapping_add(1);
            numbers[next] = numbers[next].wrapping_add(1);
            numbers[next + 1] -= 1;
        }
    }
}

fn room(random: &mut Random, book: &mut Buffers) {
    let longer = random.one_in(2);
    match random.below(5) {
        0 => resize(&mut book.nodes, longer, random.one_in(2)),
        1 => resize(&mut book.names, longer, random.one_in(2)),
        2 => resize(&mut book.lines, longer, random.one_in(2)),
        3 => resize(&mut book.pool, longer, random.one_in(2)),
        _ => resize(&mut book.journal, longer, random.one_in(2)),
    }
}

/// By one number or byte at the end, a zero or not.
fn resize<T: Noise>(lent: &mut Lent<T>, longer: bool, zero: bool) {
    let mut values = lent.to_vec();
    if longer {
        values.push(if zero { T::default() } else { T::NOISE });
    } else {
        values.pop();
    }
    *lent = Lent::holding(&values, values.len());
}
