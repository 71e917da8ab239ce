//! How large the buffers are. Zeros stand behind a book's contents, so a book is moved to other
//! rooms by adding zeros behind them or cutting those off.

use crate::calls::Buffers;

pub(crate) const NODE_WIDTH: usize = 3;
pub(crate) const LINE_WIDTH: usize = 5;
pub(crate) const EDIT_WIDTH: usize = 2;

const SCRIPT_LIMIT: usize = 1_048_576;
const NODE_LIMIT: usize = 1_024;
const LINE_LIMIT: usize = 16_384;
const POOL_LIMIT: usize = 2_097_152;
const EDIT_LIMIT: usize = 4_096;

/// How many numbers or bytes each buffer has.
#[derive(Clone, Copy, Debug, PartialEq, Eq)]
pub(crate) struct Rooms {
    pub(crate) nodes: usize,
    pub(crate) names: usize,
    pub(crate) lines: usize,
    pub(crate) pool: usize,
    pub(crate) journal: usize,
}

impl Rooms {
    /// What no text of this length needs more of, nor may take: a named node takes four bytes at
    /// least, the last one's name alone one, and a line two.
    pub(crate) fn most(length: usize) -> Rooms {
        let length = length.min(SCRIPT_LIMIT);
        Rooms {
            nodes: NODE_WIDTH * ((length + 3) / 4 + 1).min(NODE_LIMIT),
            names: length,
            lines: LINE_WIDTH * (length / 2).min(LINE_LIMIT),
            pool: length.min(POOL_LIMIT),
            journal: 0,
        }
    }

    /// What most texts of this length can do with.
    pub(crate) fn first(length: usize) -> Rooms {
        Rooms {
            nodes: NODE_WIDTH * (length / 64 + 1),
            names: length / 8,
            lines: LINE_WIDTH * (length / 16),
            pool: length / 2,
            journal: 0,
        }
        .at_most(Rooms::most(length))
    }

    /// More than twice as much, up to the most.
    pub(crate) fn larger(self, most: Rooms) -> Rooms {
        Rooms {
            nodes: 2 * self.nodes + NODE_WIDTH,
            names: 2 * self.names + 1,
            lines: 2 * self.lines + LINE_WIDTH,
            pool: 2 * self.pool + 1,
            journal: 0,
        }
        .at_most(most)
    }

    /// Where more is needed than is there: what is needed, and twice what is there at least, up to
    /// the limits. No edit needs more nodes or names.
    pub(crate) fn enlarged(self, needed: Rooms) -> Rooms {
        let to = |room: usize, needed: usize, limit: usize| {
            if needed <= room {
                room
            } else {
                needed.max(2 * room).min(limit)
            }
        };
        Rooms {
            lines: to(self.lines, needed.lines, LINE_WIDTH * LINE_LIMIT),
            pool: to(self.pool, needed.pool, POOL_LIMIT),
            journal: to(self.journal, needed.journal, EDIT_WIDTH * EDIT_LIMIT),
            ..self
        }
    }

    fn at_most(self, most: Rooms) -> Rooms {
        Rooms {
            nodes: self.nodes.min(most.nodes),
            names: self.names.min(most.names),
            lines: self.lines.min(most.lines),
            pool: self.pool.min(most.pool),
            journal: self.journal.min(most.journal),
        }
    }
}

/// What an edit may take.
#[derive(Clone, Copy)]
pub(crate) struct Needs {
    pub(crate) lines: usize,
    pub(crate) bytes: usize,
    pub(crate) edits: usize,
}

impl Buffers {
    /// Empty ones.
    pub(crate) fn with(rooms: Rooms) -> Buffers {
        Buffers {
            counts: [0; 6],
            nodes: vec![0; rooms.nodes],
            names: vec![0; rooms.names],
            lines: vec![0; rooms.lines],
            pool: vec![0; rooms.pool],
            journal: vec![0; rooms.journal],
        }
    }

    pub(crate) fn rooms(&self) -> Rooms {
        Rooms {
            nodes: self.nodes.len(),
            names: self.names.len(),
            lines: self.lines.len(),
            pool: self.pool.len(),
            journal: self.journal.len(),
        }
    }

    /// The rooms that the book fills.
    pub(crate) fn used(&self) -> Rooms {
        let [_, nodes, names, lines, pool, edits] = self.counts.map(|count| count as usize);
        Rooms {
            nodes: NODE_WIDTH * nodes,
            names,
            lines: LINE_WIDTH * lines,
            pool,
            journal: EDIT_WIDTH * edits,
        }
    }

    /// Cuts zeros off. Every call reads all that it is lent.
    pub(crate) fn cut(&mut self, rooms: Rooms) {
        self.nodes.truncate(rooms.nodes);
        self.names.truncate(rooms.names);
        self.lines.truncate(rooms.lines);
        self.pool.truncate(rooms.pool);
        self.journal.truncate(rooms.journal);
    }

    /// Gives back the memory behind the rooms.
    pub(crate) fn shrink(&mut self) {
        self.nodes.shrink_to_fit();
        self.names.shrink_to_fit();
        self.lines.shrink_to_fit();
        self.pool.shrink_to_fit();
        self.journal.shrink_to_fit();
    }

    /// Adds zeros where an edit could have too little room, up to the limits. Says whether there
    /// was such a place.
    pub(crate) fn grow(&mut self, needs: Needs) -> bool {
        let (rooms, used) = (self.rooms(), self.used());
        let enlarged = rooms.enlarged(Rooms {
            lines: used.lines + LINE_WIDTH * needs.lines,
            pool: used.pool + needs.bytes,
            journal: used.journal + EDIT_WIDTH * needs.edits,
            ..used
        });
        self.lines.resize(enlarged.lines, 0);
        self.pool.resize(enlarged.pool, 0);
        self.journal.resize(enlarged.journal, 0);
        enlarged != rooms
    }
}

#[cfg(test)]
mod tests {
    use super::*;

    #[test]
    fn rooms_reach_the_most() {
        for length in [0, 1, 7, 63, 64, 77, 4_096, SCRIPT_LIMIT, SCRIPT_LIMIT + 1] {
            let most = Rooms::most(length);
            let mut rooms = Rooms::first(length);
            let mut steps = 0;
            while rooms != most {
                rooms = rooms.larger(most);
                steps += 1;
                assert!(steps < 24, "{length} bytes");
            }
        }
    }

    #[test]
    fn the_most_is_within_the_limits() {
        let most = Rooms::most(usize::MAX);
        assert_eq!(most.nodes, NODE_WIDTH * NODE_LIMIT);
        assert_eq!(most.lines, LINE_WIDTH * LINE_LIMIT);
        assert!(most.pool <= POOL_LIMIT && most.names == SCRIPT_LIMIT);
    }

    #[test]
    fn buffers_grow_where_they_are_short() {
        let mut buffers = Buffers::with(Rooms {
            nodes: 3,
            names: 0,
            lines: 10,
            pool: 5,
            journal: 0,
        });
        buffers.counts = [0, 1, 0, 1, 5, 0];
        assert!(buffers.grow(Needs {
            lines: 1,
            bytes: 0,
            edits: 1
        }));
        assert_eq!(
            (
                buffers.lines.len(),
                buffers.pool.len(),
                buffers.journal.len()
            ),
            (10, 5, 2)
        );
        assert!(buffers.grow(Needs {
            lines: 2,
            bytes: 1,
            edits: 1
        }));
        assert_eq!(
            (
                buffers.lines.len(),
                buffers.pool.len(),
                buffers.journal.len()
            ),
            (20, 10, 2)
        );
        assert!(!buffers.grow(Needs {
            lines: 2,
            bytes: 1,
            edits: 1
        }));
        assert!(buffers.grow(Needs {
            lines: LINE_LIMIT,
            bytes: POOL_LIMIT,
            edits: EDIT_LIMIT + 1
        }));
        assert_eq!(buffers.lines.len(), LINE_WIDTH * LINE_LIMIT);
        assert_eq!(buffers.pool.len(), POOL_LIMIT);
        assert_eq!(buffers.journal.len(), EDIT_WIDTH * EDIT_LIMIT);
        assert!(!buffers.grow(Needs {
            lines: LINE_LIMIT,
            bytes: POOL_LIMIT,
            edits: EDIT_LIMIT + 1
        }));
    }
}
