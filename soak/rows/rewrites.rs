//! Texts in another form: escapes and carets, quotes, joined and repeated texts, texts filled up, and edits of a range.

use super::{Row, Rows};
use crate::kinds::conversions::ask_split_off;
use crate::kinds::rewrites::Escaped::{Invalid, NotAscii};
use crate::kinds::rewrites::{
    ask_joined, ask_notation, ask_padded, ask_quoted, ask_range_edits, ask_repeated, ask_requoted, ask_unescaped,
    Escaped, Unquoted,
};

pub static ROWS: &[Row] = &[
    ("escapes_are_those_of_std", |rows| {
        for text in ["", "a", "a b~", "\t\r\n", "'\"\\", "\0\x01\x1f\x7f", "a\tb\\n", "\\x41", "a\n\x1b"] {
            ask_scripts(ESCAPES, text.as_bytes(), text.as_bytes().escape_ascii().to_string().as_bytes(), rows);
        }
        for code in 0..128_u8 {
            ask_scripts(ESCAPES, &[code], code.escape_ascii().to_string().as_bytes(), rows);
        }
    }),
    ("control_characters_in_caret_notation", |rows| {
        for (text, carets) in IN_CARETS {
            ask_scripts(CARETS, text.as_bytes(), carets.as_bytes(), rows);
        }
    }),
    ("what_std_escapes_comes_back", escaped_by_std),
    ("escapes_that_are_read_back", unescaped),
    ("quoted_texts_with_a_backslash", |rows| {
        rows.each(BY_BACKSLASH, |(text, expected), asked| ask_quoted(b'"', b'\\', text.as_bytes(), expected, asked))
    }),
    ("quoted_texts_with_doubled_quotes", |rows| {
        rows.each(DOUBLED, |(text, expected), asked| ask_quoted(b'"', b'"', text.as_bytes(), expected, asked))
    }),
    ("texts_in_quotes_and_what_they_represent", |rows| {
        for (table, escape) in [(&IN_QUOTES[..], b'\\'), (&IN_DOUBLED[..], b'"')] {
            rows.each(table, |(text, quoted, read), asked| {
                let [text, quoted, read] = [text, quoted, read].map(|text| text.as_bytes());
                ask_requoted((b'"', escape), b"", text, quoted, read, asked)
            });
        }
        let (text, inside) = ("a\"".repeat(10_000), "a\\\"".repeat(10_000));
        let quoted = format!("\"{inside}\"");
        rows.ask(|asked| {
            ask_requoted((b'"', b'\\'), b"a", text.as_bytes(), quoted.as_bytes(), text.as_bytes(), asked)
        });
    }),
    ("joined_pieces", |rows| {
        rows.each(
            SOURCES.iter().flat_map(|text| ["", ";", ", "].map(|separator| (text, separator))),
            |(text, separator), asked| ask_joined(b',', text, separator, asked),
        );
        rows.ask(|asked| ask_joined(b',', &"a,".repeat(10_000), ", ", asked));
    }),
    ("repeated_texts", |rows| {
        rows.each(SOURCES.iter().flat_map(|text| (0..4).map(move |times| (text, times))), |(text, times), asked| {
            ask_repeated(times, text.as_bytes(), asked)
        });
        rows.ask(|asked| ask_repeated(2, &b"ab".repeat(5_000), asked));
    }),
    ("texts_are_filled_up_as_format_does", |rows| {
        for (text, width) in ["", "a", "ab", "abc"].iter().flat_map(|text| (0..9).map(move |width| (text, width))) {
            let filled = [format!("{text:.<width$}"), format!("{text:.>width$}"), format!("{text:.^width$}")];
            for (form, filled) in filled.iter().enumerate() {
                let (text, filled) = (text.as_bytes(), filled.as_bytes());
                rows.ask(|asked| ask_padded(form as u8, b'.', width, b"-", text, filled, asked));
            }
        }
    }),
    ("each_range_is_replaced", |rows| {
        for (text, end) in ["", "a", "abcde"].iter().flat_map(|text| (0..6).map(move |end| (text, end))) {
            for start in 0..6 {
                for piece in ["", "x", "xy", "xyz", "a longer text than the source"] {
                    rows.ask(|asked| ask_range_edits(RANGE, start, end, text.as_bytes(), piece.as_bytes(), asked));
                }
            }
        }
        rows.ask(|asked| ask_range_edits(RANGE, 0, 0, &b"ab".repeat(5_000), &b"ab".repeat(10_000), asked));
    }),
    ("strings_cut_in_two", |rows| {
        let long = "ab".repeat(10_000);
        let cuts = [("", 0), ("abc", 0), ("abc", 2), ("abc", 3), (long.as_str(), 5_000)];
        rows.each(cuts, |(text, at), asked| ask_split_off(at, text.as_bytes(), asked))
    }),
];

/// The numbers of the notations.
const ESCAPES: u8 = 0;
const CARETS: u8 = 1;

/// Scripts from the front, from the back, and from both ends, with a clone and a longer step.
const SCRIPTS: [&[u8]; 5] = [&[], &[0; 9], &[1; 9], &[0, 1, 3, 0, 1, 1, 0, 1], &[2, 3, 1, 2, 0, 1]];

/// The codes that represent a text, by each script.
fn ask_scripts(form: u8, text: &[u8], codes: &[u8], rows: &mut Rows) {
    rows.each(SCRIPTS, |script, asked| ask_notation(form, text, codes.iter().copied().collect(), script, asked));
}

/// A text, and caret notation for it.
static IN_CARETS: [(&str, &str); 11] = [
    ("", ""),
    ("a b~", "a b~"),
    ("a\n", "a\n"),
    ("^", "^"),
    ("\x7f", "^?"),
    ("\0\x01\x02\x03\x04\x05\x06\x07", "^@^A^B^C^D^E^F^G"),
    ("\x08\t\x0b\x0c\r\x0e\x0f", "^H^I^K^L^M^N^O"),
    ("\x10\x11\x12\x13\x14\x15\x16\x17", "^P^Q^R^S^T^U^V^W"),
    ("\x18\x19\x1a\x1b\x1c\x1d\x1e\x1f", "^X^Y^Z^[^\\^]^^^_"),
    ("a\tb", "a^Ib"),
    ("a\tb\x7f", "a^Ib^?"),
];

fn escaped_by_std(rows: &mut Rows) {
    for code in 0..=255_u8 {
        let text = [code, b'a', code];
        let expected = if code.is_ascii() { Ok(text) } else { Err(NotAscii(0)) };
        rows.ask(|asked| ask_unescaped(text.escape_ascii().to_string().as_bytes(), expected, asked));
        let text = [b'a', code];
        let expected = if code.is_ascii() { Ok(text) } else { Err(NotAscii(1)) };
        rows.ask(|asked| ask_unescaped(text.escape_ascii().to_string().as_bytes(), expected, asked));
    }
}

/// A text, and what it represents.
static UNESCAPED: [(&str, Result<&str, Escaped>); 19] = [
    ("", Ok("")),
    ("a\tb'\"", Ok("a\tb'\"")),
    (r#"\t\r\n\'\"\\"#, Ok("\t\r\n'\"\\")),
    (r"\x41\x7f\x0a", Ok("A\x7f\n")),
    (r"\x4F\x4f\x7F", Ok("OO\x7f")),
    (r"\\x41", Ok(r"\x41")),
    (r"\x412", Ok("A2")),
    (r"\", Err(Invalid(0))),
    (r"ab\", Err(Invalid(2))),
    (r"\\\", Err(Invalid(2))),
    (r"\0", Err(Invalid(0))),
    (r"a\T", Err(Invalid(1))),
    (r"a\x4", Err(Invalid(1))),
    (r"\x4g", Err(Invalid(0))),
    (r"\xg4", Err(Invalid(0))),
    (r"\u{41}", Err(Invalid(0))),
    (r"a\x80", Err(NotAscii(1))),
    (r"\xFF\q", Err(NotAscii(0))),
    (r"\q\xFF", Err(Invalid(0))),
];

fn unescaped(rows: &mut Rows) {
    rows.each(UNESCAPED, |(text, expected), asked| ask_unescaped(text.as_bytes(), expected, asked));
    rows.ask(|asked| ask_unescaped(&b"a\\n".repeat(10_000), Ok("a\n".repeat(10_000)), asked));
}

/// A text, and the text between the quotes at its start and what comes after it.
type Quoted = (&'static str, Result<(&'static str, &'static str), Unquoted>);

/// With `"` as the quote and `\` as the escape, as in the quoted strings of RFC 9110.
static BY_BACKSLASH: [Quoted; 12] = [
    (r#""W/1"; a"#, Ok(("W/1", "; a"))),
    (r#""""#, Ok(("", ""))),
    (r#""foo\"bar",b"#, Ok((r#"foo\"bar"#, ",b"))),
    (r#""\\"\"""#, Ok((r"\\", r#"\"""#))),
    (r#""a""b""#, Ok(("a", r#""b""#))),
    (r#""a'b'""#, Ok(("a'b'", ""))),
    ("", Err(None)),
    (r#"a"b""#, Err(None)),
    (r#"\"b""#, Err(None)),
    (r#"""#, Err(Some(1))),
    (r#""a\"#, Err(Some(3))),
    (r#""a\""#, Err(Some(4))),
];

/// With `"` as the quote, doubled inside, as in the fields of RFC 4180.
static DOUBLED: [Quoted; 9] = [
    (r#""aaa","b""bb","ccc""#, Ok(("aaa", r#","b""bb","ccc""#))),
    (r#""b""bb","ccc""#, Ok((r#"b""bb"#, r#","ccc""#))),
    (r#""""""#, Ok((r#""""#, ""))),
    (r#""""#, Ok(("", ""))),
    (r#""a\"b"#, Ok((r"a\", "b"))),
    (r#"aaa"#, Err(None)),
    (r#"""#, Err(Some(1))),
    (r#"""""#, Err(Some(3))),
    (r#""a"""#, Err(Some(4))),
];

/// A text, what it is in quotes with `\` as the escape, and what it represents between quotes.
static IN_QUOTES: [(&str, &str, &str); 8] = [
    ("", r#""""#, ""),
    ("a b", r#""a b""#, "a b"),
    ("it's", r#""it's""#, "it's"),
    (r#"a"b"#, r#""a\"b""#, r#"a"b"#),
    (r"\", r#""\\""#, r"\"),
    (r"\n", r#""\\n""#, "n"),
    (r#"\"\\n"#, r#""\\\"\\\\n""#, r#""\n"#),
    (r"a\", r#""a\\""#, r"a\"),
];

/// The same with each quote doubled.
static IN_DOUBLED: [(&str, &str, &str); 5] = [
    ("", r#""""#, ""),
    (r"a\", r#""a\""#, r"a\"),
    (r#"""#, r#""""""#, r#"""#),
    (r#"a""b"#, r#""a""""b""#, r#"a"b"#),
    (r#""""#, r#""""""""#, r#"""#),
];

/// Texts whose pieces at a comma are joined, and which are repeated.
static SOURCES: [&str; 6] = ["", "a", ",", "a,b", "a,,b,", "one,two,three"];

/// The number of the form of a range with a start and an end.
const RANGE: usize = 3;
