//! Prints `soak/rows/edit_lists.txt` with the upstream crate `ascii` 1.1.0: for the lists of 1 to 200 edits the characters
//! that were taken out, `.` if there was none, a colon, and the text at the end.
//!
//! With the library of that crate, built by `cargo build --release` in its folder, run it in this folder:
//!
//!     rustc --edition 2021 -O --extern ascii=libascii.rlib -o edit_lists edit_lists.rs
//!     ./edit_lists > ../rows/edit_lists.txt
//!
//! The number of a list decides its edits; `soak/rows/edit_lists.rs` makes the same ones.
use ascii::{AsAsciiStr, AsciiString};

#[path = "../rows/picks.rs"]
mod picks;

use picks::Picks;

/// What list `number` takes out, and the text at its end.
fn ran(number: usize) -> (String, AsciiString) {
    let mut picks = Picks { state: number as u64 };
    let mut taken = String::new();
    let mut string = AsciiString::new();
    for _ in 0..number {
        match picks.below(10) {
            0..=3 => string.push_str(picks.piece().as_ascii_str().unwrap()),
            4 => {
                let idx = picks.below(string.len() + 1);
                string.insert_str(idx, picks.piece().as_ascii_str().unwrap());
            }
            5 if !string.is_empty() => {
                let idx = picks.below(string.len());
                taken.push(string.remove(idx).as_char());
            }
            6 => string.truncate(8 + picks.below(40)),
            7 => string.make_ascii_uppercase(),
            8 => string.make_ascii_lowercase(),
            _ => taken.push(string.pop().map_or('.', |ch| ch.as_char())),
        }
    }
    (taken, string)
}

fn main() {
    for number in 1..=200 {
        let (taken, string) = ran(number);
        println!("{taken}:{string}");
    }
}
