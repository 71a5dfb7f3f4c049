//! Searches, cuts and numbers in texts of up to 40,000 characters.

use super::{Row, Rows};
use crate::kinds::numbers::ask_numbers;
use crate::kinds::searches::{ask_find, ask_find_character};
use crate::kinds::words::{ask_class, DIGIT};

pub static ROWS: &[Row] = &[
    ("searches_reach_the_end_of_a_long_text", |rows| {
        let text = "ab".repeat(10_000) + "c";
        rows.each(["abc", "bc", "c", "ab", "ba", "cc"], |needle, asked| ask_find(&text, needle, asked));
        rows.each(*b"abc", |code, asked| ask_find_character(code, text.clone().into_bytes(), asked));
    }),
    ("another_letter_among_many_of_one_is_found_in_either_case", other_letters),
    ("numbers_of_20_000_digits", |rows| {
        let digits = "00".repeat(10_000) + "42";
        for text in [digits.clone(), digits + ";"] {
            rows.ask(|asked| ask_numbers(text.as_bytes(), asked));
            rows.ask(|asked| ask_class(DIGIT, text.as_bytes(), &[], asked));
        }
    }),
];

/// The lengths of needles. One of more than 8,192 characters is compared at each position that may have it.
const NEEDLES: [usize; 7] = [31, 64, 100, 5_000, 8_192, 8_193, 9_000];

/// The lengths of texts, about that of a window in lower case after 64 positions, and more than that of two windows.
const TEXTS: [usize; 4] = [16_384, 16_448, 16_449, 40_000];

fn other_letters(rows: &mut Rows) {
    for length in NEEDLES {
        for other in [0, 1, length / 4, length / 2, length - 2, length - 1] {
            let needle = letters(length, other);
            for size in TEXTS {
                in_either_case(rows, &letters(size, size), &needle);
                in_either_case(rows, &letters(size, size - length + other), &needle);
            }
        }
    }
}

/// A text of the letter `a` with `b` at a position, if the text has that position.
fn letters(length: usize, other: usize) -> String {
    (0..length).map(|at| if at == other { 'b' } else { 'a' }).collect()
}

fn in_either_case(rows: &mut Rows, text: &str, needle: &str) {
    rows.ask(|asked| ask_find(text, needle, asked));
    rows.ask(|asked| ask_find(&text.to_ascii_uppercase(), needle, asked));
    rows.ask(|asked| ask_find(text, &needle.to_ascii_uppercase(), asked));
}
