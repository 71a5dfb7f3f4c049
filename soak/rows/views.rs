//! Views: parts of sources by ranges, characters at positions, trims, comparisons, and views that change their source.

use super::{Row, Rows};
use crate::asked::Asked;
use crate::calls;
use crate::kinds::slices::{ask_equal_sources, ask_part_mut, ask_position, ask_range, ask_unchecked, ask_views, bounds};
use crate::kinds::texts::{ask_cases, ask_comparisons, ask_trims};

pub static ROWS: &[Row] = &[
    ("parts_of_sources", parts),
    ("every_form_at_its_edges", at_edges),
    ("views_of_sources", |rows| {
        let sources: [&[u8]; 7] = ["abčd".as_bytes(), b"A", b"( ;", b"", &[127, 128, 255], &[0xc4, 0x8d], "zoä华".as_bytes()];
        rows.each(sources, |source, asked| ask_views(&mut source.to_vec(), asked));
    }),
    ("characters_at_positions", |rows| {
        for source in ["abčd", "", "ab", "abc", "ABCD"] {
            rows.each((0..6).chain([usize::MAX]), |at, asked| ask_position(at, source.as_bytes(), asked));
        }
    }),
    ("ranges_that_fit", |rows| {
        rows.each(RANGES, |((form, start, end), length, bounds), asked| ask_range(form, start, end, length, bounds, asked))
    }),
    ("views_that_are_not_checked", |rows| {
        rows.each(["", "ABCD", "`aBz{", "`ABZ{"], |text, asked| ask_unchecked(text.into(), asked))
    }),
    ("trimmed_texts", |rows| {
        for (text, trimmed) in TRIMS {
            rows.ask(|asked| {
                calls::ask_trims(asked, text.as_bytes());
                asked.want.all(trimmed);
            });
            rows.ask(|asked| ask_trims(text, asked));
        }
        for text in SPACED {
            rows.ask(|asked| ask_trims(text, asked));
            rows.ask(|asked| ask_cases(text.as_bytes(), asked));
        }
    }),
    ("texts_in_rising_order", rising),
    ("folded_texts_have_the_order_of_texts_in_lower_case", |rows| {
        rows.each(NAMES.iter().flat_map(|one| NAMES.map(|other| (one, other))), |(one, other), asked| {
            ask_comparisons(one.as_bytes(), other.as_bytes(), asked)
        })
    }),
    ("a_view_edits_its_part_alone", part_mut),
    ("a_rejected_source_is_unchanged", rejected_mut),
];

/// The forms of a range, by their numbers.
const FULL: usize = 0;
const FROM: usize = 1;
const TO: usize = 2;
const RANGE: usize = 3;
const INCLUSIVE: usize = 4;
const TO_INCLUSIVE: usize = 5;

/// A range: its form and its bounds.
type Range = (usize, usize, usize);

/// A source, a range, and that part or the position of the error.
static PARTS: [(&str, Range, Result<&str, usize>); 17] = [
    ("abčd", (FULL, 0, 0), Err(2)),
    ("abčd", (TO, 0, 2), Ok("ab")),
    ("abčd", (RANGE, 0, 2), Ok("ab")),
    ("abčd", (TO_INCLUSIVE, 0, 2), Err(2)),
    ("abčd", (FROM, 4, 0), Ok("d")),
    ("abčd", (INCLUSIVE, 4, 10), Err(5)),
    ("abčd", (RANGE, 4, 2), Err(5)),
    ("abc", (INCLUSIVE, 3, 2), Ok("")),
    ("abc", (INCLUSIVE, 2, 0), Err(3)),
    ("abc", (INCLUSIVE, 0, usize::MAX), Err(3)),
    ("'zoä'", (TO, 0, 3), Ok("'zo")),
    ("'zoä'", (RANGE, 0, 4), Err(3)),
    ("'zoä'", (INCLUSIVE, 5, 5), Ok("'")),
    ("'zoä'", (FROM, 4, 0), Err(4)),
    ("'zoä'", (RANGE, 4, 4), Ok("")),
    ("zoä华", (FULL, 0, 0), Err(2)),
    ("( ;", (FULL, 0, 0), Ok("( ;")),
];

/// A range, and that part of `ABCD` or the position of the error.
static PARTS_OF_A_VIEW: [(Range, Result<&str, usize>); 12] = [
    ((FULL, 0, 0), Ok("ABCD")),
    ((TO, 0, 4), Ok("ABCD")),
    ((TO, 0, 2), Ok("AB")),
    ((FROM, 4, 0), Ok("")),
    ((FROM, 3, 0), Ok("D")),
    ((RANGE, 2, 3), Ok("C")),
    ((RANGE, 4, 4), Ok("")),
    ((TO_INCLUSIVE, 0, 3), Ok("ABCD")),
    ((TO_INCLUSIVE, 0, 0), Ok("A")),
    ((INCLUSIVE, 1, 1), Ok("B")),
    ((INCLUSIVE, 0, 2), Ok("ABC")),
    ((TO, 0, 5), Err(4)),
];

fn parts(rows: &mut Rows) {
    let of_a_view = PARTS_OF_A_VIEW.iter().map(|(range, part)| ("ABCD", *range, *part));
    rows.each(PARTS.into_iter().chain(of_a_view), |(source, range, part), asked| ask_part(source, range, part, asked));
}

fn ask_part(source: &str, (form, start, end): Range, part: Result<&str, usize>, asked: &mut Asked) {
    calls::ask_slices(asked, form as u8, start, end, source.as_bytes());
    // As bytes and as a `str`; of a view also as a part of it, and of one that is known to have the part.
    asked.want.times(if source.is_ascii() { 3 + usize::from(part.is_ok()) } else { 2 }, part);
}

/// For sources of length 0, 1 and 33 what the upstream crate says of each range: `w` for the whole source, `e` for no
/// character, `f` for the first one, and `r` for an error, which has the length.
static OUTCOMES: [(usize, &str); 3] = [
    (0, "wwwrwrwrrrrrwwrwrwrrrrrrrrrrrrrrrrrrrrrrrrrrr"),
    (1, "wwewewwrrrrrewrreerrrrrrrrrrrrrrrrrrrrrrrrrrr"),
    (33, "wwefefwrrrrrewrrrerrrrrrrrrrrrrrrrrrrrrrrrrrr"),
];

/// The six forms with 0, the length, one more and the largest number as each bound.
fn ranges(length: usize) -> impl Iterator<Item = Range> {
    let places = [0, length, length + 1, usize::MAX];
    let of_two = move |start| places.into_iter().flat_map(move |end| [(RANGE, start, end), (INCLUSIVE, start, end)]);
    let of_one = |place| [(FROM, place, 0), (TO, 0, place), (TO_INCLUSIVE, 0, place)];
    [(FULL, 0, 0)].into_iter().chain(places.into_iter().flat_map(move |place| of_one(place).into_iter().chain(of_two(place))))
}

fn at_edges(rows: &mut Rows) {
    for (length, letters) in OUTCOMES {
        let source = &"@ABCDEFGHIJKLMNOPQRSTUVWXYZ[\\]^_`"[..length];
        assert_eq!(ranges(length).count(), letters.len());
        for (range, letter) in ranges(length).zip(letters.bytes()) {
            let part = match letter {
                b'w' => Ok(source),
                b'e' => Ok(""),
                b'f' => Ok("@"),
                _ => Err(length),
            };
            let (form, start, end) = range;
            rows.ask(|asked| ask_part(source, range, part, asked));
            rows.ask(|asked| ask_part_mut(form, start, end, b'z', source.into(), asked));
            rows.ask(|asked| ask_range(form, start, end, length, bounds(form, start, end, length), asked));
        }
    }
}

/// A range, a length, and the bounds of the range there if it fits.
static RANGES: [(Range, usize, Option<(usize, usize)>); 16] = [
    ((FULL, 0, 0), 0, Some((0, 0))),
    ((FULL, 0, 0), 3, Some((0, 3))),
    ((FROM, 4, 0), 4, Some((4, 4))),
    ((FROM, 5, 0), 4, None),
    ((TO, 0, 4), 4, Some((0, 4))),
    ((TO, 0, 5), 4, None),
    ((RANGE, 4, 4), 5, Some((4, 4))),
    ((RANGE, 4, 2), 5, None),
    ((INCLUSIVE, 3, 2), 3, Some((3, 3))),
    ((INCLUSIVE, 1, 2), 3, Some((1, 3))),
    ((INCLUSIVE, 4, 10), 5, None),
    ((INCLUSIVE, 0, usize::MAX), 3, None),
    ((INCLUSIVE, 1, 0), usize::MAX, Some((1, 1))),
    ((TO_INCLUSIVE, 0, 2), 3, Some((0, 3))),
    ((TO_INCLUSIVE, 0, 3), 3, None),
    ((TO_INCLUSIVE, 0, usize::MAX), usize::MAX, None),
];

/// A text, and it without the whitespace at both ends, at its start and at its end.
static TRIMS: [(&str, [&str; 3]); 6] = [
    ("  \twhite \tspace  \t", ["white \tspace", "white \tspace  \t", "  \twhite \tspace"]),
    ("\x0ba\x0b", ["a", "a\x0b", "\x0ba"]),
    ("   ", ["", "", ""]),
    ("", ["", "", ""]),
    ("\r\n a\x0c", ["a", "a\x0c", "\r\n a"]),
    ("\x1fa\x00", ["\x1fa\x00", "\x1fa\x00", "\x1fa\x00"]),
];

/// Texts of whitespace, of the codes next to it, and of letters and the codes next to them.
static SPACED: [&str; 19] = [
    "\x0c\t\r\x7f\t\t@\x0b[", "\x1f", "\x0c[ Z@\rZa[\x7fa@`\x0b{ \x7f\n{Z\x1f\x0c@\t\x0b\nZ\t\x7f\x7f\n\x1fa", "\x0b\x0b@\t",
    "\x0c{\t\x7fa[", "\x0c\n Z{\x0c {\x0c\x7f\n\r\t\ta\x7f\ra\x7f\x7f@ \n`\x7f\x0b[ Z\x0b\x1f{`", "{", "\n\t\x7f\x7fa@", "\r\t",
    "\x0b\x0b\nZ", "\r\n \t@\x7f{@  \t \x0b\x1f\ra\x1f\n[ \x0c@a\x0b\r\x0c\r\r \x0b[[\x1f", "{\t", "@[\x0b`",
    "\x0bZ\x7fa\x7fa\t\r\rZ\x0cZ[a\x0bZ \x7f`\x0b@ZZ[ \t\x0b\x1f\x1fa` \x0c", " ", "\x0cZ{\raZ\x0c\x0c\n", "\n@",
    "\r\x7f\x7f\x7f\x0c\r\r\x7f\x0c", "\x1f\x1f [Za\r\x0b\x0b\x1f\x0cZa \t\x0ba\t\x7f{\n\x0c\x7f\x7f\x7f\rZ`Z\x1f@[\t",
];

fn rising(rows: &mut Rows) {
    let texts = ["", "Z", "a", "ab", "abc", "abd", "b"];
    for (i, one) in texts.iter().enumerate() {
        for (j, other) in texts.iter().enumerate() {
            assert_eq!(one.cmp(other), i.cmp(&j));
            rows.ask(|asked| ask_comparisons(one.as_bytes(), other.as_bytes(), asked));
            rows.ask(|asked| ask_equal_sources(one.as_bytes(), other.as_bytes(), asked));
        }
        rows.ask(|asked| ask_equal_sources(one.as_bytes(), "abč".as_bytes(), asked));
        rows.ask(|asked| ask_equal_sources(one.as_bytes(), &[0xc4], asked));
    }
}

/// Texts that differ in case, in one code, in length, and in codes next to the letters.
static NAMES: [&str; 38] = [
    "", "host", "HOST", "Host", "hose", "HOSTS", "a@", "A`", "a[", "A{", "[", "{", "Z", "\x7f", "z", "a@A", "A@a", "@", "`",
    "a", "ab", "@Z", "@@", "@a", "A", "AZZ", "Az@", "aZ`", "A`@", "Z@`", "z@`", "Zz", "zZ", "a`Z", "A`z", "z@a", "Z`A", "z`",
];

/// Two letters, a character that is not ASCII, and two letters.
const SOURCE: [u8; 5] = [0x61, 0xc4, 0x8d, 0x42, 0x62];

fn part_mut(rows: &mut Rows) {
    rows.ask(|asked| {
        let mut source = SOURCE;
        calls::ask_slice_mut(asked, FROM as u8, 3, 0, b'Z', &mut source);
        asked.want.put("Zb");
        asked.compare(&source, &[0x61, 0xc4, 0x8d, 0x5a, 0x62]);
    });
    for (form, start, end) in [(TO, 0, 1), (RANGE, 3, 4), (RANGE, 4, 4), (INCLUSIVE, 3, 4), (FROM, 5, 0)] {
        rows.ask(|asked| ask_part_mut(form, start, end, b'z', SOURCE.to_vec(), asked));
    }
}

fn rejected_mut(rows: &mut Rows) {
    let rejected = [(RANGE, 1, 3, 1), (TO, 0, 6, 5), (FULL, 0, 0, 1), (INCLUSIVE, 3, usize::MAX, 5)];
    for (form, start, end, position) in rejected {
        rows.ask(|asked| {
            let mut source = SOURCE;
            calls::ask_slice_mut(asked, form as u8, start, end, b'Z', &mut source);
            asked.want.put(position);
            asked.compare(&source, &SOURCE);
        });
    }
    rows.ask(|asked| {
        let mut source = SOURCE;
        calls::ask_view_mut(asked, &mut source);
        asked.want.put(1);
        asked.compare(&source, &SOURCE);
    });
}
