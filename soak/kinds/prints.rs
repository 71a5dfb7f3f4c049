//! Printed texts and characters, by std.

use super::characters::codes;
use super::edits::INLINE;
use super::string;
use super::{allocating, Kind};
use crate::asked::{Asked, Needs};
use crate::calls;
use std::fmt::{Debug, Display};

pub static KINDS: &[Kind] = &[
    allocating("printed texts", |random, asked| {
        let (form, text) = (random.below(FORMS), random.text());
        ask_printed(form, &string(text), asked);
    }),
    allocating("printed characters", |random, asked| {
        let (form, codes) = (random.below(FORMS), codes(random, 128));
        calls::ask_printed_characters(asked, form as u8, &codes);
        codes.iter().for_each(|code| asked.want.copy(printed(form, &(*code as char))));
    }),
];

/// The number of forms.
pub const FORMS: usize = 12;

/// A value in one of the forms of `print` in `crates/exports/src/prints.rt`.
pub fn printed<T: Display + Debug + ?Sized>(form: usize, value: &T) -> String {
    match form {
        0 => format!("{value}"),
        1 => format!("{value:?}"),
        2 => format!("{value:7}"),
        3 => format!("{value:>20}"),
        4 => format!("{value:<20}"),
        5 => format!("{value:*^33}"),
        6 => format!("{value:.5}"),
        7 => format!("{value:.0}"),
        8 => format!("{value:10.3}"),
        9 => format!("{value:->12.40}"),
        10 => format!("{value:>5}"),
        _ => format!("{value:^1}"),
    }
}

pub fn ask_printed(form: usize, text: &str, asked: &mut Asked) {
    calls::ask_printed(asked, form as u8, text.as_bytes());
    let printed = printed(form, text);
    let (is_printed, is_some) = (!printed.is_empty(), !text.is_empty());
    // Two views, a string, an inline one, a box, a shared text and a borrowed one.
    for makes in [false, false, is_some, text.len() > INLINE, is_some, true, false] {
        asked.want.allocated(Needs::memory_if(makes || is_printed), &printed);
    }
}
