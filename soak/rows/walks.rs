//! Walks from both ends: tables by hand, lengths about those that are searched at once, and chunks of sources.

use super::{Row, Rows};
use crate::asked::{Answer, NOTHING};
use crate::calls;
use crate::kinds::walks::{
    ask_chars, ask_chars_of_view, ask_chunks, ask_counts, ask_pieces, ask_pieces_at, ask_split, lines_of, pieces, walk, Walk,
};
use crate::kinds::words::ask_class;

pub static ROWS: &[Row] = &[
    ("walked_pieces", |rows| {
        for (text, code, letters, answers) in PIECES {
            let script = script_of(letters);
            rows.ask(|asked| {
                calls::ask_split(asked, code, text.as_bytes(), &script);
                put_walk(walk(text.as_bytes(), pieces(text.as_bytes(), code), &script), answers, &mut asked.want);
            });
        }
    }),
    ("walked_lines", |rows| {
        for (text, letters, answers) in LINES {
            let script = script_of(letters);
            rows.ask(|asked| {
                calls::ask_lines(asked, text.as_bytes(), &script);
                put_walk(walk(text.as_bytes(), lines_of(text.as_bytes()), &script), answers, &mut asked.want);
            });
        }
    }),
    ("walked_characters", walked_characters),
    ("pieces_and_lines_that_remain_are_counted", |rows| {
        for (text, code) in [("a-b-c", b'-'), ("a\nb\r\nc", b'\n'), ("", b','), (",", b',')] {
            for letters in ["", "F", "B", "FB", "BB", "FBF", "FFFF"] {
                rows.ask(|asked| ask_counts(code, text.as_bytes(), &script_of(letters), asked));
            }
        }
    }),
    ("pieces_with_starts_and_what_remains", piece_spans),
    ("lines_with_starts_and_what_remains", line_spans),
    ("starts_up_to_the_largest_position", largest_positions),
    ("there_is_no_remainder_after_the_last_item", no_remainder),
    ("parts_by_a_class_at_each_length_from_both_ends", by_class),
    ("chunks_from_both_ends", chunks),
    ("remainder_of_chunks", remainder_of_chunks),
];

/// The script that the letters `F` and `B` name.
fn script_of(letters: &str) -> Vec<u8> {
    letters.bytes().map(|letter| u8::from(letter == b'B')).collect()
}

/// The answers that a text names: each before a bar, with `~` for none.
fn answers_of(joined: &str) -> impl Iterator<Item = Option<&str>> {
    joined.split_terminator('|').map(|answer| (answer != "~").then_some(answer))
}

/// The answers of a table, each with what then remains of the items.
fn put_walk(walk: Walk<'_>, answers: &str, want: &mut Answer) {
    assert_eq!(answers_of(answers).count(), walk.len(), "an answer for each step");
    want.all(answers_of(answers).zip(walk).map(|(answer, (_, rest))| (answer, rest.map(|rest| rest.1))));
}

/// A text, where it is split, the ends that are asked, and the answers.
static PIECES: [(&str, u8, &str, &str); 20] = [
    (" foo  bar baz ", b' ', "FBFBBFB", "||foo|baz|bar||~|"),
    ("", 21, "FF", "|~|"),
    ("", 21, "BB", "|~|"),
    ("|||", b'|', "FFFFF", "||||~|"),
    ("|||", b'|', "BBBBB", "||||~|"),
    ("foo;bar;baz;", b';', "FFFFF", "foo|bar|baz||~|"),
    (",", b',', "BBF", "||~|"),
    ("ab", b',', "BF", "ab|~|"),
    ("", b'=', "FFF", "|~|~|"),
    ("1,2,3", b',', "FFFF", "1|2|3|~|"),
    (" a  b  c ", b' ', "FFFFFFFF", "|a||b||c||~|"),
    (" a  b  c ", b' ', "BBBBBBBB", "|c||b||a||~|"),
    ("ab", b',', "", ""),
    // From here on made with the upstream crate.
    (",,a,baba", b',', "BFBFF", "baba||a||~|"),
    (",bbaabbb", b',', "BBF", "bbaabbb||~|"),
    ("bbb,,a,,", b',', "FBF", "bbb|||"),
    (",a,,,a,abbab,,,,,a,,a,ab,,b,,a,,,", b',', "FFB", "|a||"),
    (",baa,,bbb,ab", b',', "BFFBB", "ab||baa|bbb||"),
    ("bb,,,a,b", b',', "BBBFFFBF", "b|a||bb||~|~|~|"),
    (",,b,,,,,a,,,", b',', "FBFFB", "|||b||"),
];

/// A text, the ends that are asked, and the answers.
static LINES: [(&str, &str, &str); 23] = [
    ("foo\r\nbar\n\nbaz\n", "FBBFF", "foo|baz||bar|~|"),
    ("foo\r\nbar\n\nbaz", "FFFFF", "foo|bar||baz|~|"),
    ("foo\r\nbar\n\nbaz\n", "BBBBB", "baz||bar|foo|~|"),
    ("\r\r\n", "FF", "\r|~|"),
    ("\r\r\n", "BB", "\r|~|"),
    ("a\r", "FF", "a\r|~|"),
    ("a\r", "BB", "a\r|~|"),
    ("\n\r\n\n\r\n", "FFFFF", "||||~|"),
    ("\n\r\n\n\r\n", "BBBBB", "||||~|"),
    ("\n", "FF", "|~|"),
    ("", "FF", "~|~|"),
    ("", "BB", "~|~|"),
    ("\n\n", "BBFF", "||~|~|"),
    ("a\r\n\r\nb\r", "BBB", "b\r||a|"),
    // From here on made with the upstream crate.
    ("\n\n\r\n\raab", "BBBFB", "\raab||||~|"),
    ("b\n\n\naa\rb", "FFFBB", "b|||aa\rb|~|"),
    ("\ra\rb\r\r\nb", "FBF", "\ra\rb\r|b|~|"),
    ("\n\nba\na\r\r\n\n\n\r", "BFFBFBFB", "\r||||ba||a\r|~|"),
    ("\rb\raa", "BFFBBFBB", "\rb\raa|~|~|~|~|~|~|~|"),
    ("\r\r\n\nb\r\r\r", "BBFFF", "b\r\r\r||\r|~|~|"),
    ("b\rbab\ra\nb\ra\n", "BBFBB", "b\ra|b\rbab\ra|~|~|~|"),
    ("\n\n\r\ra\na\n\r\nba", "BFF", "ba|||"),
    ("a\n\naa\r\n\n\r\raa", "FBF", "a|\r\raa||"),
];

/// Each script of `next`, `next_back`, `nth(1)` and a clone in reverse, of a length.
fn walked_characters(rows: &mut Rows) {
    for text in ["", "abc", "xyz", "hello world\0"] {
        for length in 0..6 {
            for number in 0..4u32.pow(length) {
                let script: Vec<u8> = (0..length).map(|at| (number >> (2 * at) & 3) as u8).collect();
                rows.ask(|asked| ask_chars(text.as_bytes(), &script, asked));
                rows.ask(|asked| ask_chars_of_view(text.as_bytes(), &script, asked));
            }
        }
        for end in [0, 1] {
            rows.ask(|asked| ask_chars(text.as_bytes(), &[end; 13], asked));
            rows.ask(|asked| ask_chars_of_view(text.as_bytes(), &[end; 13], asked));
        }
    }
}

/// What remains: its start and its text.
type Rest = Option<(usize, &'static str)>;

/// A text, where it is split, and for each end that is asked the piece and what remains, both with their starts.
type PieceSpans = (&'static str, u8, &'static [(char, Rest, Rest)]);

static PIECE_SPANS: [PieceSpans; 6] = [
    (
        " foo  bar baz ",
        b' ',
        &[
            ('F', Some((0, "")), Some((1, "foo  bar baz "))),
            ('B', Some((14, "")), Some((1, "foo  bar baz"))),
            ('F', Some((1, "foo")), Some((5, " bar baz"))),
            ('B', Some((10, "baz")), Some((5, " bar"))),
            ('B', Some((6, "bar")), Some((5, ""))),
            ('F', Some((5, "")), None),
            ('B', None, None),
        ],
    ),
    ("", 21, &[('B', Some((0, "")), None), ('F', None, None)]),
    (
        "|||",
        b'|',
        &[
            ('B', Some((3, "")), Some((0, "||"))),
            ('F', Some((0, "")), Some((1, "|"))),
            ('B', Some((2, "")), Some((1, ""))),
            ('F', Some((1, "")), None),
        ],
    ),
    (",", b',', &[('B', Some((1, "")), Some((0, ""))), ('B', Some((0, "")), None), ('F', None, None)]),
    ("a,", b',', &[('F', Some((0, "a")), Some((2, ""))), ('F', Some((2, "")), None)]),
    // A clone yields the piece, so that all remains.
    ("", b',', &[('C', Some((0, "")), Some((0, "")))]),
];

/// The steps of a table: from the front, from the back, or from the back of a clone.
fn script_of_rows<T>(steps: &[(char, T, Rest)]) -> Vec<u8> {
    let number = |letter| "FBxC".find(letter).expect("a step") as u8;
    steps.iter().map(|step| number(step.0)).collect()
}

fn piece_spans(rows: &mut Rows) {
    for (text, code, steps) in PIECE_SPANS {
        let script = script_of_rows(steps);
        rows.ask(|asked| {
            calls::ask_split_spans(asked, 0, code, text.as_bytes(), &script);
            asked.want.all(steps.iter().map(|step| (step.1, step.2)));
            calls::ask_split(asked, code, text.as_bytes(), &script);
            asked.want.all(steps.iter().map(|(_, piece, rest)| (piece.map(|piece| piece.1), rest.map(|rest| rest.1))));
        });
    }
}

/// A line: its ending, its start and its body.
type Line = Option<(&'static str, usize, &'static str)>;

/// A text, the position at which it starts, and for each end that is asked the line and what remains.
type LineSpans = (&'static str, usize, &'static [(char, Line, Rest)]);

static LINE_SPANS: [LineSpans; 9] = [
    (
        "foo\r\nbar\n\nbaz\n",
        0,
        &[
            ('F', Some(("crlf", 0, "foo")), Some((5, "bar\n\nbaz\n"))),
            ('B', Some(("lf", 10, "baz")), Some((5, "bar\n\n"))),
            ('B', Some(("lf", 9, "")), Some((5, "bar\n"))),
            ('F', Some(("lf", 5, "bar")), None),
            ('F', None, None),
        ],
    ),
    (
        "\n\r\n\n\r\n",
        0,
        &[
            ('F', Some(("lf", 0, "")), Some((1, "\r\n\n\r\n"))),
            ('F', Some(("crlf", 1, "")), Some((3, "\n\r\n"))),
            ('F', Some(("lf", 3, "")), Some((4, "\r\n"))),
            ('F', Some(("crlf", 4, "")), None),
        ],
    ),
    ("\r\r\n", 0, &[('B', Some(("crlf", 0, "\r")), None)]),
    ("a\r", 0, &[('B', Some(("none", 0, "a\r")), None)]),
    ("", 0, &[('F', None, None), ('B', None, None)]),
    ("x\r\ny", 0, &[('F', Some(("crlf", 0, "x")), Some((3, "y"))), ('B', Some(("none", 3, "y")), None), ('B', None, None)]),
    ("a\nb\r\n", 0, &[('F', Some(("lf", 0, "a")), Some((2, "b\r\n"))), ('F', Some(("crlf", 2, "b")), None)]),
    ("a\n\r", 0, &[('B', Some(("none", 2, "\r")), Some((0, "a\n"))), ('B', Some(("lf", 0, "a")), None)]),
    ("bar\n\n", 5, &[('F', Some(("lf", 5, "bar")), Some((9, "\n"))), ('F', Some(("lf", 9, "")), None)]),
];

fn line_spans(rows: &mut Rows) {
    for (text, from, steps) in LINE_SPANS {
        let script = script_of_rows(steps);
        rows.ask(|asked| {
            calls::ask_line_spans(asked, from, text.as_bytes(), &script);
            asked.want.all(steps.iter().map(|step| (step.1, step.2)));
            calls::ask_lines(asked, text.as_bytes(), &script);
            asked.want.all(steps.iter().map(|(_, line, rest)| (line.map(|line| line.2), rest.map(|rest| rest.1))));
        });
    }
}

fn largest_positions(rows: &mut Rows) {
    let (last, before) = (Some((usize::MAX, "")), Some((usize::MAX - 2, "a")));
    for (script, answers) in [([1, 0], [last, before, before, None]), ([0, 0], [before, last, last, None])] {
        rows.ask(|asked| {
            calls::ask_split_spans(asked, usize::MAX - 2, b',', b"a,", &script);
            asked.want.all(answers);
        });
    }
    rows.ask(|asked| {
        calls::ask_line_spans(asked, usize::MAX - 3, b"\r\nb", &[0, 0, 1]);
        asked.want.put(("crlf", usize::MAX - 3, "", (usize::MAX - 1, "b")));
        asked.want.put(("none", usize::MAX - 1, "b"));
        asked.want.times(3, NOTHING);
        calls::ask_line_spans(asked, usize::MAX, b"", &[3]);
        asked.want.times(2, NOTHING);
    });
}

/// The number of the class of blanks in `ask_class`.
const BLANK: u8 = 8;

/// A text, and the number of its pieces at `;`, of those that `;` ends, of those with their `;`, of its words between
/// spaces and of the occurrences of `;`.
static COUNTS: [(&str, [usize; 5]); 6] = [
    ("", [1, 0, 0, 0, 0]),
    (";", [2, 1, 1, 1, 1]),
    ("a;", [2, 1, 1, 1, 1]),
    ("a; ;", [3, 2, 2, 2, 2]),
    ("  ", [1, 1, 1, 0, 0]),
    (" a ", [1, 1, 1, 1, 0]),
];

/// Something remains as long as there are items. The last of these steps takes the last item.
fn no_remainder(rows: &mut Rows) {
    for (text, [all, terminated, inclusive, words, found]) in COUNTS {
        let blank_to_blank = text.split(' ').filter(|word| !word.is_empty());
        assert_eq!(text.split(';').count(), all);
        assert_eq!(text.split_terminator(';').count(), terminated);
        assert_eq!(text.split_inclusive(';').count(), inclusive);
        assert_eq!((blank_to_blank.count(), text.matches(';').count()), (words, found));
        let text = text.as_bytes();
        for (form, count) in [(0, all), (1, terminated), (2, inclusive)] {
            rows.ask(|asked| ask_pieces(form, b';', text, &vec![0; count], asked));
        }
        rows.ask(|asked| ask_split(b';', text, &vec![0; all], asked));
        rows.ask(|asked| ask_pieces_at(text, b";", &vec![0; all.max(found)], asked));
        rows.ask(|asked| ask_class(BLANK, text, &vec![0; words], asked));
    }
}

/// The lengths of texts, which are about those that are searched at once.
const LENGTHS: [usize; 17] = [0, 15, 16, 17, 31, 32, 33, 47, 48, 49, 63, 64, 65, 66, 127, 128, 130];

/// The ends that a script asks, again and again.
const ASKED: [&[u8]; 4] = [&[0], &[1], &[0, 1], &[1, 0, 1]];

/// The text of a length in which `item` letters and `gap` spaces follow one another.
fn alternating(length: usize, item: usize, gap: usize, gap_first: bool) -> Vec<u8> {
    let (letters, spaces) = (vec![b'a'; item], vec![b' '; gap]);
    let both = if gap_first { [spaces, letters] } else { [letters, spaces] };
    both.concat().into_iter().cycle().take(length).collect()
}

fn by_class(rows: &mut Rows) {
    for length in LENGTHS {
        for item in [1, 2, 6, 15, 16, 17, 32, 33, 63, 64, 65] {
            for (gap, gap_first) in [1, 2, 17].into_iter().flat_map(|gap| [(gap, false), (gap, true)]) {
                let text = alternating(length, item, gap, gap_first);
                for ends in ASKED {
                    // All items, and then none.
                    let script: Vec<u8> = ends.iter().copied().cycle().take(length + 3).collect();
                    rows.ask(|asked| ask_class(BLANK, &text, &script, asked));
                }
            }
        }
    }
}

/// The chunks of sources.
static CHUNKS: [&[&[u8]]; 6] = [
    &[],
    &[b"ab"],
    &[b"\xc4\x96"],
    &[b"a", b"\x80", b"b"],
    &[b"\xff", b"\x7f\n", b"\xfe"],
    &[b"a23456789.123456789.123456789.123456789.", b"\x80"],
];

fn chunks(rows: &mut Rows) {
    for chunks in CHUNKS {
        let source = chunks.concat();
        assert!(source.chunk_by(|a, b| a.is_ascii() == b.is_ascii()).eq(chunks.iter().copied()));
        rows.each([[0; 4], [1; 4], [0, 1, 0, 1], [1, 0, 1, 0]], |script, asked| ask_chunks(&source, &script, asked));
    }
}

/// A step from an end, the chunk that it yields, and what then remains.
type ChunkStep = (u8, &'static str, Option<(usize, &'static [u8])>);

/// Over `ab\xc4cd`; the first step is that of a clone, which changes nothing.
static CHUNK_STEPS: [(ChunkStep, &[u8], usize); 4] = [
    ((3, "ascii", Some((0, b"ab\xc4cd"))), b"cd", 3),
    ((0, "ascii", Some((2, b"\xc4cd"))), b"ab", 0),
    ((1, "ascii", Some((2, b"\xc4"))), b"cd", 3),
    ((0, "other", None), b"\xc4", 2),
];

fn remainder_of_chunks(rows: &mut Rows) {
    rows.ask(|asked| {
        calls::ask_chunks(asked, b"ab\xc4cd", &CHUNK_STEPS.map(|step| step.0 .0));
        for ((_, kind, rest), chunk, start) in CHUNK_STEPS {
            asked.want.put((kind, start, chunk, rest));
        }
    });
    rows.ask(|asked| ask_chunks(b"", &[3], asked));
}
