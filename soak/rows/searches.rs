//! Searches and cuts at a text and at a character, beside std's `str`.

use super::small_texts::texts_of;
use super::{Row, Rows};
use crate::asked::NOTHING;
use crate::calls;
use crate::kinds::searches::{ask_find, ask_finder, ask_replace, ask_splitn};
use crate::kinds::words::ask_retain;

pub static ROWS: &[Row] = &[
    ("texts_that_are_found", |rows| rows.each(PAIRS, |(text, needle), asked| ask_find(text, needle, asked))),
    ("every_small_needle_in_every_small_text", |rows| {
        for needle in (1..5).flat_map(|length| parts(FOURS, length)) {
            rows.each((1..9).flat_map(|length| parts(EIGHTS, length)), |text, asked| ask_find(text, needle, asked));
        }
    }),
    ("a_needle_at_each_position", each_position),
    ("a_character_is_found_and_cut_at", cuts),
    ("prefixes_and_suffixes_ignore_the_case_of_letters_alone", |rows| {
        for (text, needle, starts, ends) in FOLDED {
            let (low, lower) = (text.to_ascii_lowercase(), needle.to_ascii_lowercase());
            assert_eq!((low.starts_with(&lower), low.ends_with(&lower)), (starts, ends), "{text} {needle}");
            rows.ask(|asked| ask_find(text, needle, asked));
        }
    }),
    ("a_text_is_found_as_in_lower_case", folded),
    ("lines_with_a_text", lines_with),
    ("lines_with_a_text_at_each_position", lines_at_each_position),
    ("the_first_pieces_of_every_small_text", |rows| {
        for text in texts_of(b" \x0ba,", 5) {
            let text = String::from_utf8(text).expect("ASCII");
            rows.each(0..4, |n, asked| ask_splitn(n, b',', &text, &[0; 6], asked));
        }
    }),
    ("remainder_of_the_first_pieces", first_pieces_left),
    ("replaced_texts", |rows| {
        rows.each(REPLACED, |(text, needle, to), asked| ask_replace(text, needle, to, asked));
        rows.ask(|asked| ask_replace(&"a,".repeat(10_000), ",", ", ", asked));
    }),
    ("kept_characters", |rows| {
        rows.each(["", "-", "abc", "a-b--c", "--a", "a--"], |text, asked| ask_retain(b'-', text.as_bytes(), asked))
    }),
];

/// A text, and a needle.
static PAIRS: [(&str, &str); 10] = [
    ("", ""),
    ("", "a"),
    ("abcabc", ""),
    ("abcabc", "abc"),
    ("abcabc", "bca"),
    ("abcabc", "cab"),
    ("abcabc", "abcabc"),
    ("abcabc", "abcabca"),
    ("aaa", "aa"),
    ("abcabd", "bd"),
];

/// Lines, each with its ending and its start.
type Lines = &'static [(&'static str, usize, &'static str)];

/// A text, a needle, and the lines that contain it.
type LinesWith = (&'static str, &'static str, Lines);

/// The same lines contain the needle in any case.
static LINES_WITH: [LinesWith; 12] = [
    ("a\nab\r\nb", "b", &[("crlf", 2, "ab"), ("none", 6, "b")]),
    ("ab\nab\n", "ab", &[("lf", 0, "ab"), ("lf", 3, "ab")]),
    // The CR before an LF is not in the body, and no LF is.
    ("a\r\na\rb\r\na\r", "\r", &[("crlf", 3, "a\rb"), ("none", 8, "a\r")]),
    ("a\r\na\r\r\n", "a\r", &[("crlf", 3, "a\r")]),
    ("a\nb\n", "a\nb", &[]),
    ("a\nb\n", "\n", &[]),
    ("xa\nbx\nxb", "a\nb", &[]),
    ("aa\naab\n", "ab", &[("lf", 3, "aab")]),
    // An empty needle is in each line.
    ("\n\r\nx", "", &[("lf", 0, ""), ("crlf", 1, ""), ("none", 3, "x")]),
    ("\r", "", &[("none", 0, "\r")]),
    ("", "", &[]),
    ("", "a", &[]),
];

/// A text, a needle, the lines that contain it, and those that contain it in any case.
static LINES_IN_ANY_CASE: [(&str, &str, Lines, Lines); 5] = [
    ("aB\nAb\nb", "ab", &[], &[("lf", 0, "aB"), ("lf", 3, "Ab")]),
    ("aB\r\nAB", "aB", &[("crlf", 0, "aB")], &[("crlf", 0, "aB"), ("none", 4, "AB")]),
    // No mark is a letter in another case.
    ("[a\n{A\n@", "{a", &[], &[("lf", 3, "{A")]),
    ("xA\nBx\nAB", "a\nb", &[], &[]),
    ("AA\r\nA\r", "a\r", &[], &[("none", 4, "A\r")]),
];

fn lines_with(rows: &mut Rows) {
    for (text, needle, lines) in LINES_WITH {
        ask_lines_with(rows, text, needle, lines, lines);
    }
    for (text, needle, lines, in_any_case) in LINES_IN_ANY_CASE {
        ask_lines_with(rows, text, needle, lines, in_any_case);
    }
}

fn ask_lines_with(rows: &mut Rows, text: &str, needle: &str, lines: Lines, in_any_case: Lines) {
    let (low, lower) = (text.to_ascii_lowercase(), needle.to_ascii_lowercase());
    rows.ask(|asked| {
        calls::ask_finder(asked, text.as_bytes(), needle.as_bytes(), &[0; 4]);
        for (text, wanted, lines) in [(text, needle, lines), (&low[..], &lower[..], in_any_case)] {
            asked.want.put((needle, text.find(wanted), text.contains(wanted)));
            asked.want.all(lines);
            asked.want.times(4 - lines.len(), NOTHING);
        }
    });
}

/// Texts about the length up to which they are searched by masks.
fn lines_at_each_position(rows: &mut Rows) {
    for size in [60, 255, 256, 257, 300, 1_023, 1_024, 1_025] {
        for position in 0..size - 1 {
            let mut text: Vec<u8> = b".\n......................".iter().copied().cycle().take(size).collect();
            text[position..position + 2].copy_from_slice(b"ab");
            let text = String::from_utf8(text).expect("ASCII");
            rows.each(["ab", ".ab", "b\n", "\nab"], |needle, asked| ask_finder(&text, needle, &[0; 3], asked));
        }
    }
}

/// Every text of `a` and `b` with 4 characters is a part of it, and so is every shorter one.
static FOURS: &str = "aaaabaabbababbbbaaa";

/// Every text of `a` and `b` with 8 characters is a part of it, and so is every shorter one.
static EIGHTS: &str = "aaaaaaaabaaaaaabbaaaaababaaaaabbbaaaabaabaaaababbaaaabbabaaaabbbbaaabaaabaabbaaabab\
    abaaababbbaaabbaabaaabbabbaaabbbabaaabbbbbaabaababaabaabbbaabababbaababbabaababbbbaabbaabbababbaab\
    babbbaabbbabbaabbbbabaabbbbbbababababbbababbabbababbbbbabbabbbbabbbabbbbbbbbaaaaaaa";

/// The parts of a text that have a length.
fn parts(text: &str, length: usize) -> impl Iterator<Item = &str> {
    (0..=text.len() - length).map(move |start| &text[start..start + length])
}

/// A needle, a filler that is before and after it in a longer text, and the number of fillers on each side. The fillers
/// have no byte of the needle, its first byte, its first and last byte at few or at many positions, or all bytes except
/// one.
static NEEDLES: [(&str, &str, usize); 6] = [
    ("#", ".", 300),
    ("-#", "-.", 150),
    ("(ab)", "(aa)....................", 12),
    ("(ab)", "(aa)", 75),
    ("-#-#", "-#.#", 75),
    ("(a needle of 24 letters)", "(a meedle of 24 letters)", 12),
];

/// A text with a number of fillers before the needle and after it.
fn around(needle: &str, filler: &str, count: usize) -> String {
    let side = filler.repeat(count);
    format!("{side}{needle}{side}")
}

fn each_position(rows: &mut Rows) {
    for (needle, filler, count) in NEEDLES {
        let text = around(needle, filler, count);
        for length in (1..71).chain([96, 129, 255, 256, 257, 260, 280]) {
            rows.each(parts(&text, length), |part, asked| ask_find(part, needle, asked));
        }
    }
}

/// Two sides of a character.
type Cut = Option<(&'static str, &'static str)>;

/// A text, and the first and the last position of `=` in it, and the two sides of each.
static CUTS: [(&str, Option<usize>, Option<usize>, Cut, Cut); 5] = [
    ("", None, None, None, None),
    ("ab", None, None, None, None),
    ("=", Some(0), Some(0), Some(("", "")), Some(("", ""))),
    ("a=b=c", Some(1), Some(3), Some(("a", "b=c")), Some(("a=b", "c"))),
    ("==", Some(0), Some(1), Some(("", "=")), Some(("=", ""))),
];

fn cuts(rows: &mut Rows) {
    for (text, first, last, once, at_last) in CUTS {
        rows.ask(|asked| {
            calls::ask_find_character(asked, b'=', text.as_bytes());
            asked.want.put((first, last, once, at_last));
            asked.want.put((text.starts_with('='), text.strip_prefix('=')));
            asked.want.put(text.as_bytes().split_first().map(|(code, rest)| (*code, rest)));
        });
    }
}

/// A text and another one, and whether the first one starts and ends with it, ignoring ASCII case.
static FOLDED: [(&str, &str, bool, bool); 11] = [
    ("Host: a", "hOST:", true, false),
    ("Host: a", "", true, true),
    ("Host", "hosts", false, false),
    ("", "h", false, false),
    ("[a", "{", false, false),
    ("@a", "`", false, false),
    ("a.HTML", ".html", false, true),
    ("a.HTML", "", true, true),
    ("html", ".html", false, false),
    ("a[", "{", false, false),
    ("a@", "`", false, false),
];

/// Letters in both cases, the marks beside them, and a digit. Each two of the first are neighbors.
static MIXED: &str = "aAbBaBAbb@`[{A@a{B1bAaA1BbAaBA";

fn folded(rows: &mut Rows) {
    rows.each([("", ""), ("", "a"), ("aB", "")], |(text, needle), asked| ask_find(text, needle, asked));
    for needle in (1..4).flat_map(|length| parts(MIXED, length)) {
        rows.each((1..13).flat_map(|length| parts(MIXED, length)), |text, asked| ask_find(text, needle, asked));
    }
    for (needle, filler, count) in NEEDLES {
        let text = around(needle, filler, count);
        rows.ask(|asked| ask_find(&text, &needle.to_ascii_uppercase(), asked));
    }
}

/// A text, a number of pieces, and what remains before each step and after the last one.
static FIRST_PIECES: [(&str, usize, &[Option<&str>]); 5] = [
    ("a,b,c", 2, &[Some("a,b,c"), Some("b,c"), None]),
    ("a,b,c", 1, &[Some("a,b,c"), None]),
    ("a,", 3, &[Some("a,"), Some(""), None]),
    ("", 2, &[Some(""), None]),
    ("a,b", 0, &[None, None]),
];

fn first_pieces_left(rows: &mut Rows) {
    for (text, n, rests) in FIRST_PIECES {
        rows.ask(|asked| {
            calls::ask_splitn(asked, n, b',', text.as_bytes(), &vec![0; rests.len() - 1]);
            asked.want.put(rests[0]);
            let mut pieces = text.splitn(n, ',');
            for rest in &rests[1..] {
                asked.want.put((pieces.next(), *rest));
            }
        });
    }
}

/// A text, what is replaced in it, and by what.
static REPLACED: [(&str, &str, &str); 8] = [
    ("", "a", "b"),
    ("abc", "d", "e"),
    ("a-b-c", "-", "::"),
    ("-a--", "-", ""),
    ("aaaaa", "aa", "b"),
    ("aaaa", "aa", "aaa"),
    ("abab", "abab", "ab"),
    ("ab", "abc", "x"),
];
