//! Parts of a text with their places, and lines and columns.

use super::{Row, Rows};
use crate::calls::{self, Step};
use crate::kinds::numbers::Fault;
use crate::kinds::numbers::Fault::{Empty, NotDigit, TooLarge};
use crate::kinds::places::ask_place;

pub static ROWS: &[Row] = &[
    ("parts_of_a_part_keep_their_place", parts),
    ("a_number_that_is_too_large_has_its_position", |rows| {
        ask(rows, "x=2560", "", &[(FROM, 0, 2, Some((2, "2560", Err(TooLarge(4)))))])
    }),
    ("every_position_has_its_line_and_column", |rows| {
        for text in ["", "a", "\n", "ab\ncd", "\n\n", "a\r\n\nb\n", "abc\nd"] {
            rows.each(0..=text.len() + 1, |at, asked| ask_place(at, text.as_bytes(), asked));
        }
    }),
];

/// A part: its start and its text, and what it writes as a `u8`.
type Part = (usize, &'static str, Result<usize, Fault>);

/// A step of a kind, with its code or its position, and the part that it takes.
type Taken = (u8, u8, usize, Option<Part>);

/// The kinds of steps.
const TRIM: u8 = 0;
const BEFORE: u8 = 1;
const AFTER: u8 = 2;
const FROM: u8 = 4;
const WITHOUT_PREFIX: u8 = 5;
const AFTER_DIGITS: u8 = 7;
const QUOTED: u8 = 8;
const AFTER_QUOTED: u8 = 9;

/// Asks for the parts that steps take, each of the part before it, in a text of one line. The texts of the steps are
/// their prefix.
fn ask(rows: &mut Rows, text: &str, prefix: &str, taken: &[Taken]) {
    let step = |(kind, code, at, _): &Taken| Step { kind: *kind, code: *code, at: *at, start: 0, end: prefix.len() };
    let steps: Vec<Step> = taken.iter().map(step).collect();
    rows.ask(|asked| {
        calls::ask_parts(asked, text.as_bytes(), prefix.as_bytes(), &steps);
        let place = |start: usize, text: &'static str| (start, text, start + text.len());
        let put = |(start, text, number): Part| {
            (place(start, text), (text.len(), text.is_empty()), (1usize, start + 1), number)
        };
        asked.want.all(taken.iter().map(|taken| taken.3.map(put)));
    });
}

/// A line of settings with a comment.
const LINE: &str = "\tport = 080 # x";

/// The setting before the comment, and its value.
const SETTING: Taken = (BEFORE, b'#', 0, Some((0, "\tport = 080 ", Err(NotDigit(0)))));
const VALUE: Taken = (AFTER, b'=', 0, Some((7, " 080 ", Err(NotDigit(7)))));
const KEY: Taken = (BEFORE, b'=', 0, Some((0, "\tport ", Err(NotDigit(0)))));
const DIGITS: Taken = (TRIM, 0, 0, Some((8, "080", Ok(80))));

fn parts(rows: &mut Rows) {
    ask(rows, LINE, "", &[(AFTER, b'#', 0, Some((13, " x", Err(NotDigit(13)))))]);
    for trimmed in [
        (TRIM, 0, 0, Some((1, "port", Err(NotDigit(1))))),
        (BEFORE, b'=', 0, None),
    ] {
        ask(rows, LINE, "", &[SETTING, KEY, trimmed]);
    }
    for of_digits in [
        (FROM, 0, 1, Some((9, "80", Ok(80)))),
        (FROM, 0, 3, Some((11, "", Err(Empty)))),
        (FROM, 0, 4, None),
        (WITHOUT_PREFIX, 0, 0, Some((10, "0", Ok(0)))),
    ] {
        ask(rows, LINE, "08", &[SETTING, VALUE, DIGITS, of_digits]);
    }
    ask(rows, LINE, "8", &[SETTING, VALUE, DIGITS, (WITHOUT_PREFIX, 0, 0, None)]);
    ask(rows, LINE, "", &[SETTING, VALUE, (AFTER_DIGITS, 0, 0, Some((7, " 080 ", Err(NotDigit(7)))))]);
    for of_quotes in [
        (QUOTED, b'"', 0, Some((3, "b\\\"", Err(NotDigit(3))))),
        (AFTER_QUOTED, b'"', 0, Some((7, "1", Ok(1)))),
        (QUOTED, b'b', 0, None),
    ] {
        ask(rows, "a=\"b\\\"\"1", "", &[(AFTER, b'=', 0, Some((2, "\"b\\\"\"1", Err(NotDigit(2))))), of_quotes]);
    }
}
