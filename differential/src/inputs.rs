//! Inputs: every text over an alphabet, characters at the edges of UTF-8, and random tokens,
//! patterns and names.

/// The bytes that mean something in a token, two letters, and the two bytes of one character, each
/// for itself.
pub const SPECIAL: [&[u8]; 13] = [
    b"*", b"?", b"[", b"]", b"!", b"^", b"-", b"\\", b"\"", b"a", b"b", b"\xc3", b"\xa9",
];

/// The last and the first character of each length in UTF-8, and those beside the surrogates.
pub const EDGES: [char; 9] = [
    '\u{7f}',
    '\u{80}',
    '\u{7ff}',
    '\u{800}',
    '\u{d7ff}',
    '\u{e000}',
    '\u{ffff}',
    '\u{10000}',
    '\u{10ffff}',
];

/// The bytes on either side of each border that UTF-8 draws. Texts over these have every kind of
/// damage: cut short, overlong, a surrogate, above U+10FFFF, a tail with no lead.
pub const EDGE_BYTES: [&[u8]; 25] = [
    b"\x00", b"a", b"\x7f", b"\x80", b"\x8f", b"\x90", b"\x9f", b"\xa0", b"\xbf", b"\xc0", b"\xc1",
    b"\xc2", b"\xdf", b"\xe0", b"\xe1", b"\xec", b"\xed", b"\xee", b"\xef", b"\xf0", b"\xf1",
    b"\xf3", b"\xf4", b"\xf5", b"\xff",
];

/// What random texts are damaged with.
pub const DAMAGE: [&[u8]; 9] = [
    b"\xbf",
    b"\xc3",
    b"\xe2\x82",
    b"\xf0\x9f\x98",
    b"\xc0\xaf",
    b"\xe0\x9f\xbf",
    b"\xed\xa0\x80",
    b"\xf0\x8f\xbf\xbf",
    b"\xf4\x90\x80\x80",
];

/// Hands over every text of at most `most` pieces, the shorter ones first.
pub fn every(pieces: &[&[u8]], most: usize, take: &mut dyn FnMut(&[u8])) {
    fn longer(pieces: &[&[u8]], left: usize, text: &mut Vec<u8>, take: &mut dyn FnMut(&[u8])) {
        if left == 0 {
            return take(text);
        }
        for piece in pieces {
            let end = text.len();
            text.extend_from_slice(piece);
            longer(pieces, left - 1, text, take);
            text.truncate(end);
        }
    }
    for count in 0..=most {
        longer(pieces, count, &mut Vec::new(), take);
    }
}

/// `front`, then `unit` as often as it fits, then letters, then `back`: `length` bytes in all.
pub fn long([front, unit, back]: [&[u8]; 3], length: usize) -> Vec<u8> {
    let middle = length - front.len() - back.len();
    let mut text = front.to_vec();
    text.extend(unit.repeat(middle / unit.len()));
    text.resize(front.len() + middle, b'a');
    text.extend_from_slice(back);
    text
}

/// splitmix64: the same numbers from the same seed on every machine.
pub struct Random(pub u64);

impl Random {
    pub fn below(&mut self, bound: usize) -> usize {
        self.0 = self.0.wrapping_add(0x9e37_79b9_7f4a_7c15);
        let mut x = self.0;
        x = (x ^ (x >> 30)).wrapping_mul(0xbf58_476d_1ce4_e5b9);
        x = (x ^ (x >> 27)).wrapping_mul(0x94d0_49bb_1331_11eb);
        ((x ^ (x >> 31)) % bound as u64) as usize
    }

    pub fn one_in(&mut self, chances: usize) -> bool {
        self.below(chances) == 0
    }

    pub fn pick<T: Copy>(&mut self, from: &[T]) -> T {
        from[self.below(from.len())]
    }

    /// Mostly one of three letters, so that names come close to patterns.
    pub fn character(&mut self) -> char {
        match self.below(16) {
            0 => self.pick(&EDGES),
            1 => self.below(128) as u8 as char,
            2 => self.pick(&['\u{e9}', '/', '.', '-', '!', '^', ']', '"']),
            3 => '\\',
            _ => self.pick(&['a', 'b', 'c']),
        }
    }

    /// `length` bytes with no plan: special bytes, any bytes, or characters; at times damaged, at
    /// times in quotes.
    pub fn text(&mut self, length: usize) -> Vec<u8> {
        let kind = self.below(4);
        let damaged = self.one_in(8);
        let mut text = Vec::new();
        while text.len() < length {
            match kind {
                _ if damaged && self.one_in(8) => text.extend_from_slice(self.pick(&DAMAGE)),
                0 => text.extend_from_slice(self.pick(&SPECIAL)),
                1 => text.push(self.below(256) as u8),
                2 if self.one_in(6) => text.extend_from_slice(self.pick(&SPECIAL)),
                _ => push(&mut text, self.character()),
            }
        }
        text.truncate(length);
        if length > 0 && self.one_in(16) {
            text[0] = b'"';
            text[length - 1] = b'"';
        }
        text
    }

    /// A pattern of `length` bytes, mostly well formed, and a name that it matches or nearly
    /// matches.
    pub fn pair(&mut self, length: usize) -> (Vec<u8>, Vec<u8>) {
        let mut pattern = Vec::new();
        let mut name: Vec<char> = Vec::new();
        while pattern.len() < length {
            let (end, had) = (pattern.len(), name.len());
            match self.below(8) {
                0 if pattern.last() != Some(&b'*') => {
                    pattern.push(b'*');
                    name.extend((0..self.below(4)).map(|_| self.character()));
                }
                1 => {
                    pattern.push(b'?');
                    name.push(self.character());
                }
                2 => name.push(self.bracket(&mut pattern)),
                _ => {
                    name.push(self.character());
                    push(&mut pattern, name[had]);
                }
            }
            // What no longer fits gives way to a letter.
            if pattern.len() > length {
                pattern.truncate(end);
                pattern.push(b'a');
                name.truncate(had);
                name.push('a');
            }
        }
        if self.one_in(2) {
            self.change(&mut name);
        }
        let mut name = String::from_iter(name).into_bytes();
        if self.one_in(16) {
            name.extend_from_slice(self.pick(&DAMAGE));
        }
        (pattern, name)
    }

    /// Writes a bracket, and gives one of the characters that stand in it.
    fn bracket(&mut self, pattern: &mut Vec<u8>) -> char {
        pattern.extend_from_slice(self.pick::<&[u8]>(&[b"[", b"[!", b"[^"]));
        let mut member = self.character();
        push(pattern, member);
        for _ in 0..self.below(4) {
            if self.one_in(2) {
                pattern.push(b'-');
            }
            let c = self.character();
            push(pattern, c);
            if self.one_in(2) {
                member = c;
            }
        }
        pattern.push(b']');
        member
    }

    /// One character more, one less, or another one.
    pub fn change(&mut self, name: &mut Vec<char>) {
        let at = self.below(name.len() + 1);
        let kind = self.below(3);
        if kind > 0 && at < name.len() {
            name.remove(at);
        }
        if kind < 2 {
            name.insert(at, self.character());
        }
    }
}

fn push(text: &mut Vec<u8>, c: char) {
    text.extend_from_slice(c.encode_utf8(&mut [0; 4]).as_bytes());
}
