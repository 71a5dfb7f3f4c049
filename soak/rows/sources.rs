//! A byte or a character that is not ASCII at every position, and two of them.

use super::{Row, Rows};
use crate::calls::{self, WHOLE};
use crate::kinds::conversions::ask_all;
use crate::kinds::engines::expected;
use crate::kinds::slices::{ask_parts, ask_position, ask_views};

pub static ROWS: &[Row] = &[
    ("a_byte_above_127_at_every_position", byte_at_every_position),
    ("two_bytes_above_127", two_bytes),
    ("a_character_above_127_at_every_position", character_at_every_position),
];

/// The longest source.
const LONGEST: usize = 65;

/// The number of `ToInclusive`, of `From` and of `To` in the forms of a range.
const TO_INCLUSIVE: usize = 5;
const FROM: usize = 1;
const TO: usize = 2;

/// Asks each call that turns bytes into a view or a string, and the engine. The first byte above 127 is at `place`;
/// each part that ends before it is a view.
fn ask_all_ways(rows: &mut Rows, source: &[u8], place: usize) {
    rows.ask(|asked| ask_views(&mut source.to_vec(), asked));
    rows.ask(|asked| ask_position(place, source, asked));
    rows.ask(|asked| ask_all(source, asked));
    rows.expect(expected(0, source, &[]), |asked| calls::ask_engine(asked, 0, &[], source, &WHOLE, &WHOLE));
    rows.each(0..place, |before, asked| ask_parts(TO_INCLUSIVE, 0, before, source, asked));
}

fn byte_at_every_position(rows: &mut Rows) {
    for length in 0..=LONGEST {
        ask_all_ways(rows, &vec![b'a'; length], length);
        for (place, byte) in (0..length).flat_map(|place| [(place, 128), (place, 255)]) {
            let mut source = vec![b'a'; length];
            source[place] = byte;
            ask_all_ways(rows, &source, place);
            rows.each(0..place, |before, asked| ask_parts(FROM, before, 0, &source, asked));
        }
    }
}

/// Lengths about the widths of the loops over bytes.
const LENGTHS: [usize; 8] = [0, 1, 31, 32, 33, 63, 64, 65];

fn two_bytes(rows: &mut Rows) {
    for length in LENGTHS {
        for (byte, other) in [(128, 255), (255, 128), (128, 128)] {
            for (second, place) in (0..length).flat_map(|second| (0..second).map(move |place| (second, place))) {
                let mut source = vec![b'a'; length];
                (source[place], source[second]) = (byte, other);
                ask_all_ways(rows, &source, place);
            }
        }
    }
}

fn character_at_every_position(rows: &mut Rows) {
    for length in 0..=LONGEST {
        for (place, ch) in (0..length).flat_map(|place| [(place, '\u{80}'), (place, 'ÿ')]) {
            let source: String = (0..length).map(|at| if at == place { ch } else { 'a' }).collect();
            rows.ask(|asked| ask_views(&mut source.clone().into_bytes(), asked));
            rows.ask(|asked| ask_all(source.as_bytes(), asked));
            rows.ask(|asked| ask_parts(TO, 0, place, source.as_bytes(), asked));
        }
    }
}
