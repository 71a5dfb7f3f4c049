//! The texts that are measured: the same bytes at every run.

/// Numbers that look random, from a seed other than 0.
pub struct Numbers(u64);

impl Numbers {
    pub fn new(seed: u64) -> Numbers {
        Numbers(seed)
    }

    /// A number under `bound`.
    pub fn under(&mut self, bound: u64) -> u64 {
        self.0 ^= self.0 << 13;
        self.0 ^= self.0 >> 7;
        self.0 ^= self.0 << 17;
        self.0 % bound
    }

    /// A letter, a digit, a space or a hyphen.
    pub fn letter(&mut self) -> u8 {
        let letters = b"abcdefghijklmnopqrstuvwxyzABCDEFGHIJKLMNOPQRSTUVWXYZ0123456789 -";
        letters[self.under(64) as usize]
    }
}

/// `length` letters.
pub fn letters(length: usize) -> Vec<u8> {
    let mut numbers = Numbers::new(length as u64 + 1);
    (0..length).map(|_| numbers.letter()).collect()
}

/// `length` letters with `mark` in the place of one in `mean`, at random.
pub fn marked(length: usize, mean: u64, mark: u8) -> Vec<u8> {
    let mut numbers = Numbers::new(mean + 5);
    let mut text = letters(length);
    let mut place = numbers.under(2 * mean - 1) as usize;
    while place < length {
        text[place] = mark;
        place += 1 + numbers.under(2 * mean - 1) as usize;
    }
    text
}

/// A text with CR LF in place of each LF.
pub fn with_cr(text: &[u8]) -> Vec<u8> {
    let lines: Vec<&[u8]> = text.split(|byte| *byte == b'\n').collect();
    lines.join(&b"\r\n"[..])
}

/// `length` digits, of which the first is not zero.
pub fn digits(length: usize) -> Vec<u8> {
    let mut numbers = Numbers::new(length as u64 + 1);
    (0..length)
        .map(|at| b'1' + numbers.under(9) as u8 - (at > 0) as u8)
        .collect()
}

/// Whitespace of all six kinds, with a letter in the middle.
pub fn blank_but_the_middle(length: usize) -> Vec<u8> {
    let mut numbers = Numbers::new(length as u64 + 1);
    let mut text: Vec<u8> = (0..length)
        .map(|_| b" \t\n\x0b\x0c\r"[numbers.under(6) as usize])
        .collect();
    text[length / 2] = b'x';
    text
}
