//! Searches, comparisons and changes over bytes, at each length and each alignment, beside plain loops.

use super::{Row, Rows};
use crate::calls;
use crate::kinds::texts::{ask_case_in_place, ask_equal_bytes, ask_kernels};
use crate::kinds::words::{ask_class, ask_marks, CLASSES};

pub static ROWS: &[Row] = &[
    ("each_class_has_its_bytes", |rows| {
        let all: Vec<u8> = (0..=255).collect();
        rows.each(0..CLASSES.len(), |class, asked| ask_class(class as u8, &all, &[], asked));
    }),
    ("each_class_in_long_texts", long_texts),
    ("kernels_over_few_bytes", few_bytes),
    ("marks_of_several_bytes", |rows| {
        let all: Vec<u8> = (0..=255).collect();
        for text in [b"42px", b"Host: a.example".as_slice(), b"a\xc4b\xff", b"a \t\x85", &all] {
            rows.ask(|asked| ask_marks(text, asked));
        }
    }),
    ("searches_at_each_length_and_alignment", |rows| {
        for (start, length) in each_length() {
            let marked = Marked::new(start, length, [b' ', 0x85]);
            rows.ask(|asked| ask_kernels(marked.text(), asked));
            rows.ask(|asked| ask_class(BLANK, marked.text(), &[], asked));
        }
    }),
    ("searches_for_a_class_at_each_length_and_alignment", |rows| {
        for (start, length) in each_length() {
            let marked = Marked::new(start, length, [b'x', b' ']);
            rows.ask(|asked| ask_class(BLANK, marked.text(), &[], asked));
        }
    }),
    ("comparisons_at_each_length_and_alignment", |rows| {
        for (start, length) in each_length() {
            let upper = Marked::new(start, length, [b'Z', 0xda]);
            let lower = Marked::new(start, length, [b'z', 0xda]);
            let other = Marked::new(start, length, [b'z', 0xfa]);
            rows.ask(|asked| ask_equal_bytes(upper.text(), lower.text(), asked));
            rows.ask(|asked| ask_equal_bytes(upper.text(), other.text(), asked));
        }
    }),
    ("changes_at_each_length_and_alignment", changes),
    ("each_byte_above_127_at_each_position", above_127),
];

/// The numbers of classes in `ask_class`.
const DIGIT: u8 = 5;
const BLANK: u8 = 8;
const TOKEN: u8 = 14;

/// Texts of a byte that is in a class, with one that is not, or the other way round.
fn long_texts(rows: &mut Rows) {
    for (class, is_in) in CLASSES.iter().enumerate() {
        let byte = |inside: bool| (0..=255).find(|byte| is_in(*byte) == inside).expect("a byte on each side");
        for (inside, length) in [15, 16, 17, 33, 64, 65, 97, 130].into_iter().flat_map(|length| [(true, length), (false, length)]) {
            for at in [0, 1, 15, 16, 31, 32, 63, 64, 95, 96, 128, length - 1, length] {
                let text: Vec<u8> = (0..length).map(|place| byte(inside == (place != at))).collect();
                rows.ask(|asked| ask_class(class as u8, &text, &[], asked));
            }
        }
    }
}

fn few_bytes(rows: &mut Rows) {
    let texts: [&[u8]; 6] = [&[0x20, 0x0b, 0xa0], &[0x85, 0x20], &[0x20, 0x09], &[], b"  \twhite \tspace  \t", b"\x0ba\x0b"];
    rows.each(texts, |text, asked| ask_kernels(text, asked));
    let name = b"x-a-name-that-is-longer-than-sixty-four-bytes-so-that-all-steps-are-taken: y";
    let searched: [(u8, &[u8]); 6] =
        [(DIGIT, b"42px"), (DIGIT, b"42"), (DIGIT, b"v42"), (DIGIT, b""), (TOKEN, b"Content-Type: a"), (TOKEN, name)];
    rows.each(searched, |(class, text), asked| ask_class(class, text, &[], asked));
    for (to_upper, text) in [(true, [0x60, 0x61, 0x7a, 0x7b, 0xe1]), (false, [0x40, 0x41, 0x5a, 0x5b, 0xc1])] {
        rows.ask(|asked| ask_case_in_place(to_upper, &mut text.clone(), asked));
    }
    let pairs: [(&[u8], &[u8]); 6] = [
        (&[0xc1, 0x41], &[0xe1, 0x41]),
        (&[0x5b, 0x41], &[0x7b, 0x41]),
        (&[0x41, 0x7a], &[0x61, 0x5a]),
        (&[0x41, 0x5a], &[0x61, 0x7f]),
        (b"aZ", b"Azz"),
        (b"", b""),
    ];
    rows.each(pairs, |(first, second), asked| ask_equal_bytes(first, second, asked));
}

/// The longest text, and the number of offsets at which a text begins.
const LONGEST: usize = 300;
const OFFSETS: usize = 64;

/// A text that begins at an offset in a buffer: all its bytes are the first of `bytes`, except two, the second.
struct Marked {
    buffer: [u8; LONGEST + OFFSETS],
    start: usize,
    length: usize,
}

impl Marked {
    fn new(start: usize, length: usize, bytes: [u8; 2]) -> Marked {
        let mut buffer = [b'-'; LONGEST + OFFSETS];
        let text = &mut buffer[start..start + length];
        text.fill(bytes[0]);
        if length > 0 {
            text[length / 3] = bytes[1];
            text[length - 1 - length / 4] = bytes[1];
        }
        Marked { buffer, start, length }
    }

    fn text(&self) -> &[u8] {
        &self.buffer[self.start..self.start + self.length]
    }
}

/// Each length at each offset.
fn each_length() -> impl Iterator<Item = (usize, usize)> {
    (0..OFFSETS).flat_map(|start| (0..=LONGEST).map(move |length| (start, length)))
}

/// A text is changed to the other case, and the bytes before it and after it are not changed.
fn changes(rows: &mut Rows) {
    for (start, length) in each_length() {
        let upper = Marked::new(start, length, [b'Z', 0xfa]);
        let lower = Marked::new(start, length, [b'z', 0xfa]);
        for (to_upper, from, to) in [(true, &lower, &upper), (false, &upper, &lower)] {
            rows.ask(|asked| {
                let mut buffer = from.buffer;
                calls::ask_case_in_place(asked, to_upper, &mut buffer[start..start + length]);
                asked.want.put(to.text());
                asked.compare(&buffer, &to.buffer);
            });
        }
    }
}

fn above_127(rows: &mut Rows) {
    let mut text = [127; 130];
    for length in 0..131 {
        for place in 0..length {
            for byte in 128..=255 {
                text[place] = byte;
                rows.ask(|asked| ask_kernels(&text[..length], asked));
            }
            text[place] = 127;
        }
    }
}
