//! Numbers that look random, the same at each run, and pieces of the alphabet. `soak/vectors/edit_lists.rs` has this file, too.

const LETTERS: &str = "abcdefghijklmnopqrstuvwxyz";

pub struct Picks {
    pub state: u64,
}

impl Picks {
    /// The next number under `n`, or 0 if `n` is 0.
    pub fn below(&mut self, n: usize) -> usize {
        self.state = self.state.wrapping_mul(6364136223846793005).wrapping_add(1442695040888963407);
        ((self.state >> 33) as usize).checked_rem(n).unwrap_or(0)
    }

    /// Up to five letters that follow each other in the alphabet.
    pub fn piece(&mut self) -> &'static str {
        let start = self.below(20);
        let size = self.below(6);
        &LETTERS[start..start + size]
    }
}
