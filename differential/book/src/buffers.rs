//! The buffers of a book, with memory on either side of each that no call may touch.

use crate::{limit, width};
use std::ops::{Deref, DerefMut};

const GUARD: usize = 8;

/// What lent memory holds before a call, and what stands beside it.
pub trait Noise: Copy + PartialEq + Default {
    const NOISE: Self;
}

impl Noise for u8 {
    const NOISE: u8 = 0xa5;
}

impl Noise for u32 {
    const NOISE: u32 = 0xa5a5_a5a5;
}

/// One buffer.
#[derive(Clone, PartialEq)]
pub struct Lent<T>(Vec<T>);

impl<T: Noise> Lent<T> {
    /// Full of noise.
    fn new(room: usize) -> Self {
        Self(vec![T::NOISE; room + 2 * GUARD])
    }

    /// The same memory, again full of noise, with another room.
    fn renew(&mut self, room: usize) {
        self.0.clear();
        self.0.resize(room + 2 * GUARD, T::NOISE);
    }

    /// With these values at its front, and zeros behind them.
    pub fn holding(values: &[T], room: usize) -> Self {
        let mut lent = Self::new(room.max(values.len()));
        lent.fill(T::default());
        lent[..values.len()].copy_from_slice(values);
        lent
    }

    fn is_zero(&self) -> bool {
        self.iter()
            .fold(true, |zero, &value| zero & (value == T::default()))
    }

    fn untouched_beside(&self) -> bool {
        let (front, rest) = self.0.split_at(GUARD);
        let back = &rest[rest.len() - GUARD..];
        front.iter().chain(back).all(|&value| value == T::NOISE)
    }
}

impl<T> Deref for Lent<T> {
    type Target = [T];

    fn deref(&self) -> &[T] {
        &self.0[GUARD..self.0.len() - GUARD]
    }
}

impl<T> DerefMut for Lent<T> {
    fn deref_mut(&mut self) -> &mut [T] {
        let end = self.0.len() - GUARD;
        &mut self.0[GUARD..end]
    }
}

/// How many numbers or bytes each buffer has.
#[derive(Clone, Copy, Debug)]
pub struct Rooms {
    pub nodes: usize,
    pub names: usize,
    pub lines: usize,
    pub pool: usize,
    pub journal: usize,
}

impl Rooms {
    /// Up to the limits. Names have none of their own; a script has no more than its length.
    pub const FULL: Rooms = Rooms {
        nodes: width::NODE * limit::NODES,
        names: limit::SCRIPT,
        lines: width::LINE * limit::LINES,
        pool: limit::POOL,
        journal: width::EDIT * limit::EDITS,
    };

    /// Enough for any text of this length, and a little more, which is not always a whole row: a
    /// named node takes four bytes of a text at least, and a line two.
    pub const fn ample(length: usize) -> Rooms {
        Rooms {
            nodes: width::NODE * (length / 4 + 2) + length % width::NODE,
            names: length + 1,
            lines: width::LINE * (length / 2 + 1) + length % width::LINE,
            pool: length + 3,
            journal: length % 5,
        }
    }
}

/// A book as it is lent: its six counts, and its five buffers.
#[derive(Clone, PartialEq)]
pub struct Buffers {
    pub counts: Lent<u32>,
    pub nodes: Lent<u32>,
    pub names: Lent<u8>,
    pub lines: Lent<u32>,
    pub pool: Lent<u8>,
    pub journal: Lent<u32>,
}

impl Buffers {
    pub fn new(rooms: Rooms) -> Self {
        Self {
            counts: Lent::new(6),
            nodes: Lent::new(rooms.nodes),
            names: Lent::new(rooms.names),
            lines: Lent::new(rooms.lines),
            pool: Lent::new(rooms.pool),
            journal: Lent::new(rooms.journal),
        }
    }

    /// The same memory, full of noise, with so many counts and these rooms.
    pub fn renew(&mut self, counts: usize, rooms: Rooms) {
        self.counts.renew(counts);
        self.nodes.renew(rooms.nodes);
        self.names.renew(rooms.names);
        self.lines.renew(rooms.lines);
        self.pool.renew(rooms.pool);
        self.journal.renew(rooms.journal);
    }

    pub fn rooms(&self) -> Rooms {
        Rooms {
            nodes: self.nodes.len(),
            names: self.names.len(),
            lines: self.lines.len(),
            pool: self.pool.len(),
            journal: self.journal.len(),
        }
    }

    pub fn are_zero(&self) -> bool {
        self.counts.is_zero()
            && self.nodes.is_zero()
            && self.names.is_zero()
            && self.lines.is_zero()
            && self.pool.is_zero()
            && self.journal.is_zero()
    }

    /// Whether what stands beside each of them is as it was.
    pub fn untouched_beside(&self) -> bool {
        self.counts.untouched_beside()
            && self.nodes.untouched_beside()
            && self.names.untouched_beside()
            && self.lines.untouched_beside()
            && self.pool.untouched_beside()
            && self.journal.untouched_beside()
    }

    pub fn counted(&self) -> Counted {
        let [kind, nodes, names, lines, pool, edits] = self.counts[..] else {
            panic!("there are six counts")
        };
        let [nodes, names, lines, pool, edits] =
            [nodes, names, lines, pool, edits].map(|count| count as usize);
        Counted {
            kind,
            nodes,
            names,
            lines,
            pool,
            edits,
        }
    }
}

/// The counts by their names.
#[derive(Clone, Copy, Debug, PartialEq, Eq)]
pub struct Counted {
    pub kind: u32,
    pub nodes: usize,
    pub names: usize,
    pub lines: usize,
    pub pool: usize,
    pub edits: usize,
}

impl Counted {
    /// Whether rooms are large enough.
    pub fn fit(&self, rooms: Rooms) -> bool {
        self.nodes <= rooms.nodes / width::NODE
            && self.names <= rooms.names
            && self.lines <= rooms.lines / width::LINE
            && self.pool <= rooms.pool
            && self.edits <= rooms.journal / width::EDIT
    }
}
