//! Characters: a table of the upstream crate, and numbers that are not characters.

use super::{Row, Rows};
use crate::calls;
use crate::kinds::characters::{ask_carets, ask_characters, ask_characters_of, ask_conversions, ask_pairs, ask_set};
use crate::kinds::prints::{ask_printed, printed, FORMS};

pub static ROWS: &[Row] = &[
    ("characters_as_in_the_upstream_crate", as_upstream),
    // The table has as many codes of each class as the class has, and the library has those of the table.
    ("how_many_characters_are_in_each_class", |rows| {
        for (bits, count) in COUNTS {
            assert_eq!((0..128).filter(|code| tested(*code) & bits == bits).count(), count);
        }
        let codes: Vec<u8> = (0..128).collect();
        rows.ask(|asked| ask_characters(&codes, 10, asked));
    }),
    ("numbers_that_are_characters", |rows| {
        let mut all: Vec<i64> = (-129..300).collect();
        all.extend([0x120, 0x3bb, 0xffff, 0xffff_ff20, 0xffff_ffff]);
        rows.each(all, |number, asked| ask_characters_of(&[number], asked));
    }),
    ("characters_by_unchecked_calls", |rows| rows.each(0..=255, |code, asked| ask_conversions(&[code], asked))),
    // Of a radix under 2 only 0 can be a digit, and of none no code.
    ("digits_of_each_radix", |rows| rows.each(0..37, |radix, asked| ask_characters(b"05z/AZ9", radix, asked))),
    ("pairs_of_characters", |rows| {
        for first in 0..128 {
            rows.each(0..128, |second, asked| ask_pairs(&[first, second], asked));
        }
    }),
    ("a_set_of_characters", |rows| rows.ask(|asked| ask_set(b"AAa", asked))),
    ("caret_notation_of_each_byte", carets),
];

/// The class tests that hold for the codes up to each of these, from the one before it on, by the upstream crate: as bits.
static TESTED: [(u8, u32); 17] = [
    (8, 0x00100),
    (9, 0x001e0),
    (10, 0x001c0),
    (11, 0x00140),
    (13, 0x001c0),
    (31, 0x00100),
    (32, 0x004e0),
    (47, 0x08600),
    (57, 0x1061c),
    (64, 0x08600),
    (70, 0x1661b),
    (90, 0x0661b),
    (96, 0x08600),
    (102, 0x11e1b),
    (122, 0x01e1b),
    (126, 0x08600),
    (127, 0x00100),
];

/// The class tests that hold for a code, as bits.
fn tested(code: u8) -> u32 {
    TESTED.iter().find(|(last, _)| code <= *last).map_or(0, |(_, bits)| *bits)
}

/// The bit of each test, in the order of `ask_characters`.
const TESTS: [u32; 17] = [0, 1, 2, 3, 4, 11, 12, 13, 14, 5, 6, 7, 8, 9, 10, 15, 16];

/// What `{:?}` writes of a code in a text.
fn in_debug(code: u8) -> String {
    match code {
        0 => "\\0".into(),
        b'\t' => "\\t".into(),
        b'\n' => "\\n".into(),
        b'\r' => "\\r".into(),
        b'"' => "\\\"".into(),
        b'\\' => "\\\\".into(),
        1..=31 | 127 => format!("\\u{{{code:x}}}"),
        _ => char::from(code).into(),
    }
}

fn as_upstream(rows: &mut Rows) {
    for code in 0..128 {
        for radix in 2..37 {
            rows.ask(|asked| {
                ask_characters(&[code], radix, asked);
                let tests = TESTS.map(|test| if tested(code) >> test & 1 == 1 { b't' } else { b'f' });
                assert_eq!(asked.want.bytes[..TESTS.len()], tests, "{code}");
            });
        }
        let ch = char::from(code);
        rows.ask(|asked| {
            calls::ask_printed_characters(asked, 1, &[code]);
            asked.want.put(format!("{ch:?}"));
            calls::ask_printed_characters(asked, 0, &[code]);
            asked.want.put([code]);
        });
        assert_eq!(printed(1, &ch.to_string()), format!("\"{}\"", in_debug(code)));
        rows.ask(|asked| ask_printed(1, &ch.to_string(), asked));
    }
    for form in 0..FORMS {
        for ch in ['t', '\n'] {
            rows.expect(printed(form, &ch), |asked| calls::ask_printed_characters(asked, form as u8, &[ch as u8]));
        }
    }
}

/// Tests by their bits, and how many codes have all of them.
static COUNTS: [(u32, usize); 13] = [
    (0x00003, 52),
    (0x00004, 10),
    (0x00018, 62),
    (0x00020, 2),
    (0x00040, 6),
    (0x00080, 5),
    (0x00100, 33),
    (0x00200, 94),
    (0x00400, 95),
    (0x01800, 26),
    (0x06000, 26),
    (0x08000, 32),
    (0x10000, 22),
];

fn carets(rows: &mut Rows) {
    let all: Vec<u8> = (0..=255).collect();
    rows.ask(|asked| ask_carets(&all, asked));
}
