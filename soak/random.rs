//! Numbers, texts and scripts: at random, the same for the same seed, or all small ones in turn. Choices at random
//! prefer the borders: those of words and vectors, and those of the source.

/// Where choices come from.
pub struct Random {
    /// SplitMix64.
    state: u64,
    /// The choices of a small case, each with the number that it is below; `None` if they are at random.
    path: Option<Vec<(usize, usize)>>,
    /// How many choices were made.
    made: usize,
    /// The longest text of a small case.
    longest: usize,
}

const BORDERS: [usize; 17] = [0, 1, 2, 7, 8, 15, 16, 17, 31, 32, 33, 63, 64, 65, 127, 128, 129];

/// Lists of codes that texts are made of: separators, line ends, cases and their neighbors, digits, letters.
const CODES: [&[u8]; 6] =
    [b"aA,; \t\x0b\x0c\r\n", b"\r\n\nx", b"@AZ[`az{\\|]}^~_\x7f?", b"aBcDyZz09-_.:\0\x1b", b"0123456789", b"aab"];

impl Random {
    pub fn new(seed: u64) -> Random {
        Random { state: seed, path: None, made: 0, longest: 0 }
    }

    /// The first of the small cases, with texts up to a length.
    pub fn small(longest: usize) -> Random {
        Random { state: 1, path: Some(Vec::new()), made: 0, longest }
    }

    /// Goes to the next small case. Returns `false` after the last one.
    pub fn advance(&mut self) -> bool {
        self.made = 0;
        let Some(path) = &mut self.path else { return true };
        while let Some((n, choice)) = path.pop() {
            if choice + 1 < n {
                path.push((n, choice + 1));
                return true;
            }
        }
        false
    }

    /// Where the choices of a question begin.
    pub fn mark(&self) -> u64 {
        self.state
    }

    /// Goes back to where the choices of the last question began, so that they are repeated.
    pub fn back(&mut self, mark: u64) {
        (self.state, self.made) = (mark, 0);
    }

    pub fn next(&mut self) -> u64 {
        self.state = self.state.wrapping_add(0x9e37_79b9_7f4a_7c15);
        let mut z = self.state;
        z = (z ^ (z >> 30)).wrapping_mul(0xbf58_476d_1ce4_e5b9);
        z = (z ^ (z >> 27)).wrapping_mul(0x94d0_49bb_1331_11eb);
        z ^ (z >> 31)
    }

    /// A number under `n`, which is not 0.
    pub fn below(&mut self, n: usize) -> usize {
        let Some(path) = &mut self.path else { return (u128::from(self.next()) * n as u128 >> 64) as usize };
        if self.made == path.len() {
            path.push((n, 0));
        }
        self.made += 1;
        path[self.made - 1].1
    }

    /// Whether the choices are those of small cases.
    pub fn is_small(&self) -> bool {
        self.path.is_some()
    }

    /// Once in `n` times, and in a small case never.
    pub fn once_in(&mut self, n: usize) -> bool {
        !self.is_small() && self.below(n) == 0
    }

    pub fn pick<'a, T>(&mut self, from: &'a [T]) -> &'a T {
        &from[self.below(from.len())]
    }

    /// A length: mostly small, often at a border, seldom long.
    pub fn length(&mut self) -> usize {
        match self.below(16) {
            0..=8 => self.below(10),
            9..=11 => self.below(41),
            12..=14 => *self.pick(&BORDERS),
            _ => self.below(301),
        }
    }

    /// Codes of a list.
    fn codes(&mut self, from: &[u8], length: usize) -> Vec<u8> {
        (0..length).map(|_| *self.pick(from)).collect()
    }

    /// Codes of a list, up to 19 of them, or up to a border.
    pub fn line(&mut self, from: &[u8]) -> Vec<u8> {
        let length = if self.once_in(8) { self.length() } else { self.count(19) };
        self.codes(from, length)
    }

    /// Pieces of a list, one after the other.
    pub fn joined(&mut self, from: &[&[u8]]) -> Vec<u8> {
        let count = if self.once_in(16) { 3 * self.length() } else { self.count(24) };
        (0..count).flat_map(|_| self.pick(from).to_vec()).collect()
    }

    /// A number up to `most`, or up to the longest text of a small case.
    pub fn count(&mut self, most: usize) -> usize {
        self.below(if self.is_small() { self.longest.min(most) } else { most } + 1)
    }

    /// The size of a buffer: about the length of a line, about some length, or longer than several lines.
    pub fn size(&mut self, about: usize) -> usize {
        if self.is_small() {
            return self.below(8);
        }
        match self.below(8) {
            0..=3 => self.below(12),
            4 => *self.pick(&BORDERS),
            5 => (about + self.below(3)).saturating_sub(1),
            _ => self.below(301),
        }
    }

    /// A number of bytes about those at which strings grow.
    pub fn room(&mut self) -> usize {
        if self.is_small() {
            return *self.pick(&[0, 1, 8, 9, 24, 25]);
        }
        match self.below(4) {
            0 => *self.pick(&BORDERS),
            1 => self.below(100),
            _ => self.below(10),
        }
    }

    /// Codes of a list, up to a length, mostly long.
    pub fn repeated(&mut self, from: &[u8], most: usize) -> Vec<u8> {
        let length = if self.is_small() { self.below(3) } else { most - self.below(most) / 2 };
        self.codes(from, length)
    }

    /// A text of a few codes, and seldom of up to 70.
    pub fn short_text(&mut self) -> Vec<u8> {
        if self.is_small() {
            let length = self.below(3);
            return self.codes(b"\nA,", length);
        }
        let length = if self.below(8) == 0 { self.below(71) } else { self.below(5) };
        self.codes(b"aA,: \n0[{", length)
    }

    /// A code, which mostly is in the text.
    pub fn code_of(&mut self, text: &[u8]) -> u8 {
        if text.is_empty() || self.below(4) == 0 {
            return if self.is_small() { *self.pick(b"A,x") } else { self.below(128) as u8 };
        }
        text[self.below(text.len())]
    }

    /// A text, which mostly is a part of another one.
    pub fn needle(&mut self, text: &[u8]) -> Vec<u8> {
        if self.below(4) == 0 || text.is_empty() {
            return self.short_text();
        }
        let start = self.below(text.len());
        let most = if self.below(4) == 0 { 70 } else { 9 };
        let length = self.below((text.len() - start).min(most) + 1);
        let mut needle = text[start..start + length].to_vec();
        if length > 0 && self.once_in(4) {
            // One code differs, mostly the last.
            let at = if self.below(2) == 0 { length - 1 } else { self.below(length) };
            needle[at] ^= 1;
        }
        needle
    }

    /// A text that is another one, differs from it in few codes, or is not like it.
    pub fn other(&mut self, first: &[u8]) -> Vec<u8> {
        let mut second = first.to_vec();
        match self.below(8) {
            0 => return self.text(),
            1 => drop(second.pop()),
            2 => second.push(self.code_of(first)),
            3 => second.make_ascii_uppercase(),
            _ => (),
        }
        if !self.is_small() {
            for byte in &mut second {
                if self.below(4) == 0 && (byte.is_ascii_alphabetic() || self.below(32) == 0) {
                    *byte ^= 0x20;
                }
            }
        }
        if !second.is_empty() && self.below(4) == 0 {
            let at = self.below(second.len());
            second[at] = if self.below(2) == 0 { second[at] ^ 0x20 } else { self.code_of(b"") };
        }
        second
    }

    /// A text.
    pub fn text(&mut self) -> Vec<u8> {
        if self.is_small() {
            let length = self.below(self.longest + 1);
            return self.codes(b"\r\nA ,", length);
        }
        let length = self.length();
        if self.below(6) == 0 {
            return (0..length).map(|_| self.below(128) as u8).collect();
        }
        let from = *self.pick(&CODES);
        self.codes(from, length)
    }

    /// Bytes, with up to three runs of bytes above 127.
    pub fn bytes(&mut self) -> Vec<u8> {
        let mut bytes = self.text();
        if self.is_small() {
            if let Some(byte) = bytes.get_mut(self.below(self.longest + 1)) {
                *byte = 0xc4;
            }
            return bytes;
        }
        for _ in 0..self.below(4) {
            if !bytes.is_empty() {
                let start = self.place(bytes.len()).min(bytes.len() - 1);
                let length = if self.below(2) == 0 { 1 } else { self.length() };
                for byte in bytes.iter_mut().skip(start).take(length) {
                    *byte = 128 + self.below(128) as u8;
                }
            }
        }
        bytes
    }

    /// A text in UTF-8, ASCII in many of the cases.
    pub fn unicode(&mut self) -> Vec<u8> {
        let mut text: Vec<char> = self.text().into_iter().map(char::from).collect();
        for _ in 0..self.below(if self.is_small() { 2 } else { 4 }) {
            if !text.is_empty() {
                let start = self.below(text.len());
                let length = if self.once_in(4) { self.length() } else { 1 };
                for ch in text.iter_mut().skip(start).take(length) {
                    *ch = *self.pick(&['\u{80}', 'ß', 'č', '華', '\u{10ffff}', '\u{7ff}', 'ÿ']);
                }
            }
        }
        text.into_iter().collect::<String>().into_bytes()
    }

    /// A position in a source of a length, or outside it.
    pub fn place(&mut self, length: usize) -> usize {
        if self.is_small() {
            return self.below(length + 2);
        }
        match self.below(16) {
            0 => length,
            1 => length + 1,
            2 => usize::MAX - self.below(2),
            3 => length.saturating_sub(1),
            4 => *self.pick(&BORDERS),
            _ => self.below(length + 1),
        }
    }

    /// Two positions, mostly in order.
    pub fn places(&mut self, length: usize) -> (usize, usize) {
        let (a, b) = (self.place(length), self.place(length));
        if a > b && self.below(8) > 0 {
            (b, a)
        } else {
            (a, b)
        }
    }

    /// A position at which a text of a length can start: 0, any, or one of the last.
    pub fn offset(&mut self, length: usize) -> usize {
        match self.below(4) {
            0 => 0,
            1 => usize::MAX - length,
            2 => usize::MAX - length - self.below(100),
            _ => self.below(100_000),
        }
    }

    /// Numbers below `kinds`.
    pub fn script(&mut self, kinds: usize) -> Vec<u8> {
        let length = if self.is_small() { self.below(6) } else { self.below(12) };
        (0..length).map(|_| self.below(kinds) as u8).collect()
    }

    /// A number of any size, often next to a power of two.
    pub fn number(&mut self) -> u128 {
        let bits = self.below(129) as u32;
        let power = if bits == 128 { 0 } else { 1u128 << bits };
        match self.below(4) {
            0 => power.wrapping_sub(1),
            1 => power.wrapping_add(self.below(3) as u128).wrapping_sub(1),
            2 => 0u128.wrapping_sub(power).wrapping_sub(self.below(2) as u128),
            _ => (u128::from(self.next()) << 64 | u128::from(self.next())) >> self.below(128),
        }
    }
}
