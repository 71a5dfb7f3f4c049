//! Strings: their hashes, and what an inline string is.

use super::commands::{self, Cmd, Cmd::*, Reply};
use super::{Row, Rows};
use crate::asked::{items_of, Item};
use crate::calls::{self, Step, Steps};
use crate::heap::ONE;
use crate::kinds::conversions::{ask_all, ask_character_written, ask_collected, ask_round_trips, ask_written};
use crate::kinds::copies::{ask_both_runs, ask_copies, ask_extended, ask_turned};
use crate::kinds::json_values::ask_json;
use crate::kinds::numbers::ask_hex;
use crate::kinds::prints::{ask_printed, FORMS};
use crate::kinds::rewrites::ask_padded;
use crate::kinds::texts::{ask_cases, ask_hashes, ask_owned_comparisons};
use crate::kinds::walks::{ask_lines, ask_split, ask_walks};

pub static ROWS: &[Row] = &[
    ("every_text_type_has_one_hash", |rows| rows.each(HASHES, |(text, hash), asked| ask_hashes(text.as_bytes(), hash, asked))),
    ("an_inline_string_has_up_to_24_characters", |rows| {
        rows.each(["", "content-security-policy-"], |text, asked| {
            calls::ask_small_capacities(asked, text.as_bytes(), &[], &[]);
            asked.want.put((true, 24));
        })
    }),
    ("a_string_in_an_allocation_stays_there", |rows| {
        in_an_allocation(rows, "content-security-policy-x", [(6, 7), (12, 7)], [25, 7, 7], "content");
        let long = "ab".repeat(10_000);
        in_an_allocation(rows, &long, [(11, 10), (12, 0)], [20_000, 20_010, 20_010], &long);
        in_an_allocation(rows, &long, [(2, 0), (12, 0)], [20_000, 20_001, 20_001], &format!("\0{long}"));
    }),
    ("strings_are_copied_and_converted", |rows| {
        for text in ["", "A", "( ;", "abc", "abcdefghijklmnopqrstuvwxyz"] {
            rows.ask(|asked| ask_round_trips(text.as_bytes(), asked));
            rows.ask(|asked| ask_copies(text.as_bytes(), asked));
            rows.ask(|asked| ask_turned(text.as_bytes(), asked));
        }
    }),
    ("strings_in_rising_order", |rows| {
        for (i, first) in RISING.iter().enumerate() {
            for (j, second) in RISING.iter().enumerate() {
                rows.ask(|asked| ask_owned_comparisons(first.as_bytes(), second.as_bytes(), i.cmp(&j), asked));
            }
        }
    }),
    ("printed_strings", printed),
    ("only_ascii_is_written", written),
    ("single_edits_of_a_string", |rows| {
        SINGLE_EDITS.into_iter().for_each(|(text, cmd, reply, after)| commands::ask(rows, text, &[cmd], &[reply], after))
    }),
    ("sources_that_are_taken_over", |rows| {
        let sources: [&[u8]; 5] = ["bø!".as_bytes(), "zoä华".as_bytes(), &[127, 128, 255], &[40, 32, 59], b""];
        rows.each(sources, |source, asked| ask_all(source, asked));
    }),
    ("collected_characters_and_texts", collected),
    ("calls_that_allocate_over_long_texts", long_texts),
    ("strings_of_each_length_grow", grown),
];

/// Texts, and the hash of their bytes by Rust's `DefaultHasher`, as `rustc` 1.95 prints it.
static HASHES: [(&str, usize); 3] =
    [("", 0xbd60_acb6_58c7_9e45), ("foo", 0x703e_f007_929e_9d64), ("abcdefghijklmnopqrstuvwxyz", 0x9bfb_0217_afe8_b463)];

/// The capacities of a string in an allocation are as promised: at the start and after each of two steps, at least the number
/// in `least`.
fn in_an_allocation(rows: &mut Rows, text: &str, steps: [(u8, usize); 2], least: [usize; 3], after: &str) {
    let (text, steps) = (text.as_bytes(), steps.map(|(kind, at)| Step { kind, at, ..Step::default() }));
    rows.ask(|asked| {
        calls::ask_small_capacities(asked, text, &[], &steps);
        let capacities = items_of(asked.got()).into_iter().filter_map(|item| match item {
            Item::Number(capacity) => Some(capacity as usize),
            _ => None,
        });
        for (at, capacity) in capacities.enumerate() {
            if at > 0 {
                asked.want.put("done");
            }
            asked.want.put((false, capacity.max(least.get(at).copied().unwrap_or(0))));
        }
        calls::ask_edits(asked, true, text, &[], &steps);
        asked.want.put(("done", "done", after));
        // The capacities after a failure are not known.
        asked.want.has_other_failures = true;
    });
}

/// Texts in rising order.
static RISING: [&str; 7] = ["", "Z", "a", "ab", "abc", "abcdefghijklmnopqrstuvwxyz", "b"];

fn printed(rows: &mut Rows) {
    rows.ask(|asked| {
        calls::ask_printed(asked, 10, b"abc");
        (0..7).for_each(|_| asked.want.copy("  abc"));
    });
    rows.ask(|asked| {
        calls::ask_printed(asked, 1, b"\0\t'\\\x7f");
        (0..7).for_each(|_| asked.want.copy("\"\\0\\t'\\\\\\u{7f}\""));
    });
    for (form, text) in (0..FORMS).flat_map(|form| ["\0\t'\\\x7f", "a\"b", "abc"].map(|text| (form, text))) {
        rows.ask(|asked| ask_printed(form, text, asked));
    }
}

fn written(rows: &mut Rows) {
    for (text, piece) in [("", "ab"), ("ab", "cé"), ("ab", "λ"), ("ab", "-"), ("ab-", "1 of  20"), ("Hello ", "World 9")] {
        rows.ask(|asked| ask_written(text.as_bytes(), piece.as_bytes(), asked));
    }
    for (text, ch) in [("ab", 'é'), ("ab", 'c'), ("", '\u{80}'), ("", '\x7f')] {
        rows.ask(|asked| ask_character_written(ch, text.as_bytes(), asked));
    }
}

/// A text, a command over it, its reply, and the text after it.
static SINGLE_EDITS: [(&str, Cmd, Reply, &str); 8] = [
    ("", Push(b'x'), Reply::Done, "x"),
    ("x", Pop, Reply::Char(Some(b'x')), ""),
    ("foo", Remove(0), Reply::Char(Some(b'f')), "oo"),
    ("oo", Remove(1), Reply::Char(Some(b'o')), "o"),
    ("o", Remove(0), Reply::Char(Some(b'o')), ""),
    ("foo", Insert(2, b'b'), Reply::Done, "fobo"),
    ("hello", Truncate(2), Reply::Done, "he"),
    ("hello world\0", Set(0, b'H'), Reply::Done, "Hello world\0"),
];

fn collected(rows: &mut Rows) {
    rows.ask(|asked| {
        calls::ask_collected(asked, b'\n', b"one\ntwo\nthree", b"abcabc");
        asked.want.put(("onetwothree", true, "abcabconetwothree"));
        asked.want.has_other_failures = true;
    });
    for (text, code) in [("abc", b','), ("a,b,,c", b','), ("one\ntwo\nthree", b' '), ("ASCII Ascii ascii", b' '), ("", b',')] {
        rows.ask(|asked| ask_collected(code, text.as_bytes(), b"abc", asked));
    }
    let pieces = [PushStr("ASCII"), PushStr("ASCII"), PushStr("ASCII"), Push(b'\n')];
    commands::ask(rows, "abcabconetwothree", &pieces, &[Reply::Done; 4], "abcabconetwothreeASCIIASCIIASCII\n");
}

/// The lengths of texts over which each call that allocates is asked.
pub const LENGTHS: [usize; 4] = [0, 1, 33, 5_000];

/// Texts of each length, and 4,000 pieces, words and lines: each call that allocates for them returns them.
fn long_texts(rows: &mut Rows) {
    for (text, code) in [("abcd,", b','), ("word ", b' '), ("abc\r\n", b'a')].map(|(item, code)| (item.repeat(4_000), code)) {
        rows.ask(|asked| ask_copies(text.as_bytes(), asked));
        rows.ask(|asked| ask_collected(code, text.as_bytes(), text.as_bytes(), asked));
        rows.ask(|asked| ask_walks(code, text.as_bytes(), &vec![0; 4_001], asked));
    }
    for length in LENGTHS {
        let text = vec![b'a'; length];
        rows.ask(|asked| ask_all(&text, asked));
        rows.ask(|asked| ask_round_trips(&text, asked));
        rows.ask(|asked| ask_cases(&text, asked));
        rows.ask(|asked| ask_collected(b',', &text, &text, asked));
        rows.ask(|asked| ask_json(&text, asked));
        rows.ask(|asked| ask_split(b'a', &text, &vec![0; length.min(1_000)], asked));
        rows.ask(|asked| ask_lines(&text, &vec![0; length], asked));
        rows.ask(|asked| ask_walks(b'a', &text, &vec![0; length], asked));
        rows.ask(|asked| ask_copies(&text, asked));
        rows.ask(|asked| ask_turned(&text, asked));
    }
}

/// Strings of each length, of which most grow by a text of the same length.
fn grown(rows: &mut Rows) {
    for text in LENGTHS.map(|length| "a".repeat(length)) {
        let (length, bytes) = (text.len(), text.as_bytes());
        rows.ask(|asked| ask_written(bytes, bytes, asked));
        rows.ask(|asked| ask_character_written('b', bytes, asked));
        rows.ask(|asked| ask_hex(10, 2, bytes, asked));
        rows.ask(|asked| ask_padded(2, b'b', length + 3, bytes, bytes, format!("b{text}bb").as_bytes(), asked));
        rows.ask(|asked| ask_extended(ONE, length, text.repeat(2).as_bytes(), asked));
        // A character and a text at the end and at a position, room, and a copy.
        for (kind, at) in [(0, 0), (1, 0), (2, 0), (3, length / 2), (11, length), (12, 0), (17, 0)] {
            let command = Steps::of([(kind, at, text.as_str())]);
            rows.ask(|asked| ask_both_runs(bytes, &command, asked));
        }
        // As many characters at the end as the text has.
        rows.ask(|asked| {
            calls::ask_both_runs(asked, bytes, &[], &vec![Step { code: b'a', ..Step::default() }; length]);
            for _ in 0..2 {
                asked.want.times(length, "done");
                asked.want.put(text.repeat(2));
            }
            asked.want.has_other_failures = true;
        });
    }
}
