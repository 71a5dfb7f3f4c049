//! Both engines: their modes over memory and over long inputs, and over devices of which each call fails in turn.

use super::commands::{commands_of, Cmd};
use super::{Row, Rows};
use crate::asked::{Fault, Put};
use crate::calls::{self, Device, Steps, ERRORS, WHOLE};
use crate::kinds::engines::Run::{FailsToRead, FailsToWrite, Rejects, Writes};
use crate::kinds::engines::{self, bounded_output, expected, expected_bounded, output, runs_fail, Mode, Run, BOUNDED};
use crate::kinds::json_values::{ask_json, quoted};

pub static ROWS: &[Row] = &[
    ("each_mode_over_memory", over_memory),
    ("json_of_every_code", json_of_every_code),
    ("each_mode_over_long_inputs", long_inputs),
    ("each_mode_over_many_lines", many_lines),
    ("a_control_and_an_escape_at_each_position", at_each_position),
    ("outputs_about_the_size_of_the_buffer", about_the_buffer),
    ("nothing_is_written_without_memory", without_memory),
    ("each_call_of_the_devices_fails", each_call_fails),
    ("a_failed_call_far_from_the_first", far_calls),
    ("each_error_of_the_devices", each_error),
    ("each_bounded_mode", bounded),
    ("a_bounded_mode_before_a_fault", bounded_before_a_fault),
    ("lines_that_an_error_ends", ended_lines),
    ("every_byte_escaped_and_replaced", every_byte),
    ("lengths_about_the_chunk", about_the_chunk),
    ("the_names_of_the_modes", names),
];

/// The modes of `ask_engine_runs`, by their numbers.
const COPY: u8 = 0;
const LINES: u8 = 1;
const TAC: u8 = 2;
const CARET: u8 = 3;
const ENDS: u8 = 4;
const ENDS_SPANS: u8 = 5;
const JSON: u8 = 6;
const EDIT: u8 = 7;

/// Asks for two runs over the same devices. Each call of `writes` moves one byte or all.
fn ask_runs(rows: &mut Rows, mode: Mode<'_>, source: &[u8], devices: (&Device, &Device), runs: [Run<'_>; 2]) {
    rows.ask(|asked| engines::ask_runs(mode, source, devices, runs, asked));
}

/// Asks for the output of a mode over devices that do not fail. The second run is over the end of the text. The number
/// of calls of the writer is expected if the row says it.
fn ask_output(rows: &mut Rows, mode: Mode<'_>, source: &[u8], (output, at_end): (&[u8], &[u8]), calls: Option<usize>) {
    rows.ask(|asked| {
        let (number, script, Steps { texts, steps }) = mode;
        calls::ask_engine_runs(asked, number, script, texts, steps, source, &WHOLE, &WHOLE);
        asked.want.times(2, ("done", 0, 0));
        let got = calls_of_runs(asked.got(), output.len() + at_end.len());
        asked.want.put((calls.unwrap_or(got), [output, at_end].concat()));
        if output.len().max(at_end.len()) <= BUFFER {
            runs_fail(mode, source, (&WHOLE, &WHOLE), [Writes(output), Writes(at_end)], &mut asked.want);
        } else {
            // The number of the writes of a run is not known.
            asked.want.has_other_failures = true;
        }
    });
}

/// The number of calls of the writer that two runs answer, if as many bytes were written.
fn calls_of_runs(got: &[u8], written: usize) -> usize {
    // Before the text are its tag and its length; before these is the number.
    let at = got.len().saturating_sub(written + 17);
    got.get(at..).and_then(|rest| rest.first_chunk()).map_or(0, |calls| u64::from_le_bytes(*calls) as usize)
}

/// The size of the largest output buffer.
const BUFFER: usize = 65_536;

fn over_memory(rows: &mut Rows) {
    let expected: [(u8, &str, &str); 8] = [
        (COPY, "abc", "abc"),
        (LINES, "a\r\n\r\nb\r", "a\n\nb\r\n"),
        (TAC, "a\r\n\r\nb\r", "b\r\n\na\n"),
        (CARET, "a\tb\x7f\r\n", "a^Ib^?^M\n"),
        (ENDS, "x\r\ny", "+x\n+y\n-\n"),
        (ENDS, "", "-\n-\n-\n"),
        (JSON, "a\"b\n", "\"a\\\"b\\n\""),
        (JSON, "", "\"\""),
    ];
    for (mode, input, output) in expected {
        rows.expect(("done", output), |asked| calls::ask_engine(asked, mode, &[0, 1, 1], input.as_bytes(), &WHOLE, &WHOLE));
        rows.expect(("ascii", 2, ""), |asked| calls::ask_engine(asked, mode, &[0, 1, 1], &[97, 98, 200, 201], &WHOLE, &WHOLE));
    }
}

fn json_of_every_code(rows: &mut Rows) {
    for code in 0..128 {
        rows.ask(|asked| ask_json(&[code], asked));
        for source in [vec![code], [vec![b'a'; 5_000], vec![code]].concat()] {
            rows.expect(("done", quoted(&source)), |asked| calls::ask_engine(asked, JSON, &[], &source, &WHOLE, &WHOLE));
        }
    }
}

fn long_inputs(rows: &mut Rows) {
    for length in [0, 1, 33, 5_000, 65_535, 65_536, 65_537, 1_000_000] {
        let input = vec![b'a'; length];
        let [line, sign, span] = if length == 0 { ["", "-", "-"] } else { ["\n", "+", "+0 none "] };
        let expected = [
            (COPY, "", "", ""),
            (LINES, "", line, ""),
            (TAC, "", line, ""),
            (CARET, "", "", ""),
            (ENDS, sign, "\n", "-\n"),
            (ENDS_SPANS, span, "\n", "-\n"),
            (EDIT, "", "", ""),
            (JSON, "\"", "\"", "\"\""),
        ];
        for (number, before, after, at_end) in expected {
            let mode: Mode<'_> = (number, &[1], &commands_of(&[Cmd::Len]));
            let output = [before.as_bytes(), &input, after.as_bytes()].concat();
            ask_output(rows, mode, &input, (&output, at_end.as_bytes()), None);
        }
        // The call that fails is the flush after the write.
        let mode: Mode<'_> = (COPY, &[], &Steps::default());
        let writes = Device { fails: u64::from(length > 0), ..WHOLE };
        ask_runs(rows, mode, &input, (&WHOLE, &writes), [FailsToWrite(&input), Writes(b"")]);
    }
}

/// How many lines of ten bytes the input has.
const MANY: usize = 30_000;

/// The lines made of what is before the number of each, and what is after it.
fn by_lines(before: impl Fn(usize) -> String, after: &str, is_backward: bool) -> Vec<u8> {
    let line = |number: usize| format!("{}{number:05}{after}", before(number));
    let lines: String = if is_backward { (0..MANY).rev().map(line).collect() } else { (0..MANY).map(line).collect() };
    lines.into_bytes()
}

fn many_lines(rows: &mut Rows) {
    let (nothing, sign) = (|_| String::new(), |_| "+".to_string());
    let input = by_lines(nothing, "\t\"z\r\n", false);
    let (fronts, backs, none) = (vec![0; MANY], vec![1; MANY], "-\n".repeat(MANY));
    let starts = by_lines(|number| format!("+{} crlf ", 10 * number), "\t\"z\n", false);
    let json = [b"\"", &by_lines(nothing, "\\t\\\"z\\r\\n", false)[..], b"\""].concat();
    let expected: [(u8, &[u8], Vec<u8>, &str); 9] = [
        (COPY, &[], input.clone(), ""),
        (LINES, &[], by_lines(nothing, "\t\"z\n", false), ""),
        (TAC, &[], by_lines(nothing, "\t\"z\n", true), ""),
        (CARET, &[], by_lines(nothing, "^I\"z^M\n", false), ""),
        (ENDS, &fronts, by_lines(sign, "\t\"z\n", false), &none),
        (ENDS, &backs, by_lines(sign, "\t\"z\n", true), &none),
        (EDIT, &[], by_lines(nothing, "\t\"Z\r\n", false), ""),
        (ENDS_SPANS, &fronts, starts, &none),
        (JSON, &[], json, "\"\""),
    ];
    for (number, script, output, at_end) in expected {
        let mode = (number, script, &commands_of(&[Cmd::Upper]));
        ask_output(rows, mode, &input, (&output, at_end.as_bytes()), None);
    }
}

fn at_each_position(rows: &mut Rows) {
    let controls = [(0, "^@"), (31, "^_"), (127, "^?"), (10, "\n"), (32, " ")];
    let escapes = [(10, "\\n"), (31, "\\u001f"), (34, "\\\""), (92, "\\\\"), (127, "\x7f")];
    for place in 0..70 {
        for (mode, shown, after, quote) in [(CARET, controls, 40, ""), (JSON, escapes, 5_000, "\"")] {
            for (code, form) in shown {
                let (before, after) = ("a".repeat(place), "a".repeat(after));
                let input = [before.as_bytes(), &[code], after.as_bytes()].concat();
                rows.expect(("done", [quote, &before, form, &after, quote].concat()), |asked| {
                    calls::ask_engine(asked, mode, &[], &input, &WHOLE, &WHOLE)
                });
            }
        }
    }
}

fn about_the_buffer(rows: &mut Rows) {
    let commands = Steps::default();
    for (number, ending) in [(LINES, "abcdefg\r\n"), (TAC, "abcdefg\n")] {
        for lines in [8_191, 8_192, 8_193, 25_000] {
            let mode: Mode<'_> = (number, &[], &commands);
            let output = "abcdefg\n".repeat(lines);
            // A write for each buffer of the output, and a flush of each run.
            let calls = Some(output.len().div_ceil(BUFFER) + 2);
            ask_output(rows, mode, ending.repeat(lines).as_bytes(), (output.as_bytes(), b""), calls);
        }
    }
    let lines = "abcdefg\n".repeat(25_000);
    for fails in 0..4 {
        let writes = Device { fails, ..WHOLE };
        rows.ask(|asked| {
            calls::ask_engine_runs(asked, TAC, &[], &[], &[], lines.as_bytes(), &WHOLE, &writes);
            asked.want.put((("write", 0, 1), ("done", 0, 1)));
            // The calls up to the one that fails, and the flush of the second run.
            asked.want.put((fails as usize + 2, &lines[..BUFFER * fails as usize]));
            asked.want.has_other_failures = true;
        });
    }
}

const INPUT: &[u8] = b"a\tb\n\nc\r";

/// The script of the modes that have one.
const SCRIPT: &[u8] = &[1, 0, 0];

/// The number of each mode, and what it writes of `INPUT`.
static OUTPUTS: [(u8, &str); 8] = [
    (COPY, "a\tb\n\nc\r"),
    (LINES, "a\tb\n\nc\r\n"),
    (TAC, "c\r\n\na\tb\n"),
    (CARET, "a^Ib\n\nc^M"),
    (ENDS, "+c\r\n+a\tb\n+\n"),
    (ENDS_SPANS, "+5 none c\r\n+0 lf a\tb\n+4 lf \n"),
    (EDIT, "XYA\tB\n\nC\r"),
    (JSON, "\"a\\tb\\n\\nc\\r\""),
];

/// The output of a mode by its number; `EDIT` puts `xy` before the text and changes it to upper case.
fn output_of(mode: u8, text: &[u8]) -> Vec<u8> {
    match mode {
        EDIT => [b"XY", &text.to_ascii_uppercase()[..]].concat(),
        _ => output(mode.into(), text, SCRIPT),
    }
}

/// Each mode over `INPUT`, over bytes that are not all ASCII, and over 20,000 bytes.
fn without_memory(rows: &mut Rows) {
    let commands = commands_of(&[Cmd::InsertStr(0, "xy"), Cmd::Upper]);
    let much = b"ab\tc\n".repeat(4_000);
    for (number, all) in OUTPUTS {
        let (mode, at_end) = ((number, SCRIPT, &commands), output_of(number, b""));
        let (at_end, much_output) = (Writes(&at_end), output_of(number, &much));
        let inputs: [(&[u8], Run<'_>); 3] =
            [(INPUT, Writes(all.as_bytes())), (&[97, 98, 200, 201], Rejects("ascii", 2)), (&much, Writes(&much_output))];
        for (input, run) in inputs {
            ask_runs(rows, mode, input, (&WHOLE, &WHOLE), [run, at_end]);
        }
    }
    let text = "0123456789".repeat(4);
    let mut edits = Steps::default();
    edits.add_text(3, 0, text.as_bytes());
    edits.copy_to(40);
    edits.add(12, 0, 0);
    edits.add(6, 3, 0);
    let far = commands_of(&[Cmd::Push(b'a'), Cmd::Insert(99, b'a')]);
    for (edits, run) in [(&edits, Writes(b"012")), (&far, Rejects("position", 1))] {
        ask_runs(rows, (EDIT, &[], edits), INPUT, (&WHOLE, &WHOLE), [run, run]);
    }
}

/// Asks each mode, one byte a call, with each call failing in turn and each write taking no byte in turn. The
/// second run goes on from there.
fn each_call_fails(rows: &mut Rows) {
    let commands = commands_of(&[Cmd::InsertStr(0, "xy"), Cmd::Upper]);
    let slow = Device { most: 1, ..WHOLE };
    for (number, all) in OUTPUTS {
        let (mode, all) = ((number, SCRIPT, &commands), all.as_bytes());
        assert_eq!(output_of(number, INPUT), all, "the mode {number}");
        let at_end = output_of(number, b"");
        for reads in [&WHOLE, &slow] {
            ask_runs(rows, mode, INPUT, (reads, &slow), [Writes(all), Writes(&at_end)]);
        }
        ask_runs(rows, mode, INPUT, (&slow, &WHOLE), [Writes(all), Writes(&at_end)]);
        for error in 0..ERRORS {
            for fails in 0..=INPUT.len() {
                let (reads, rest) = (Device { fails: fails as u64, error, ..slow }, output_of(number, &INPUT[fails..]));
                ask_runs(rows, mode, INPUT, (&reads, &WHOLE), [FailsToRead, Writes(&rest)]);
            }
            for fails in 0..=all.len() {
                let writes = Device { fails: fails as u64, error, ..slow };
                ask_runs(rows, mode, INPUT, (&WHOLE, &writes), [FailsToWrite(&all[..fails]), Writes(&at_end)]);
            }
        }
        for empty in 0..all.len() {
            let writes = Device { empty: empty as u64, ..slow };
            ask_runs(rows, mode, INPUT, (&WHOLE, &writes), [FailsToWrite(&all[..empty]), Writes(&at_end)]);
        }
        // A read of no byte is the end.
        for empty in 0..=INPUT.len() {
            let (now, later) = INPUT.split_at(empty);
            let (now, later) = (output_of(number, now), output_of(number, later));
            let reads = Device { empty: empty as u64, ..slow };
            ask_runs(rows, mode, INPUT, (&reads, &WHOLE), [Writes(&now), Writes(&later)]);
        }
    }
}

/// More than two of the chunks that are read at once.
const LONG: usize = 21_000;

fn far_calls(rows: &mut Rows) {
    let input = vec![b'a'; LONG];
    for (error, fails) in (0..8).flat_map(|fails| [(fails, fails), (35, fails)]) {
        let device = Device { most: 3_000, fails: u64::from(fails), error, ..WHOLE };
        let (now, later) = input.split_at(3_000 * usize::from(fails));
        for number in [COPY, CARET] {
            let mode: Mode<'_> = (number, &[], &Steps::default());
            ask_runs(rows, mode, &input, (&device, &WHOLE), [FailsToRead, Writes(later)]);
            ask_runs(rows, mode, &input, (&WHOLE, &device), [FailsToWrite(now), Writes(b"")]);
        }
    }
}

fn each_error(rows: &mut Rows) {
    let mode: Mode<'_> = (COPY, &[], &Steps::default());
    let slow = Device { most: 1, ..WHOLE };
    ask_runs(rows, mode, b"abcdef", (&slow, &WHOLE), [Writes(b"abcdef"), Writes(b"")]);
    ask_runs(rows, mode, b"abcdef", (&WHOLE, &slow), [Writes(b"abcdef"), Writes(b"")]);
    for (most, empty, written) in [(usize::MAX, 0, ""), (5, 1, "abcde")] {
        let writes = Device { most, empty, ..WHOLE };
        ask_runs(rows, mode, b"abcdef", (&WHOLE, &writes), [FailsToWrite(written.as_bytes()), Writes(b"")]);
    }
    for error in 0..ERRORS {
        for (fails, later) in [(0, "abcdef"), (1, "def")] {
            let reads = Device { most: 3, fails, error, ..WHOLE };
            ask_runs(rows, mode, b"abcdef", (&reads, &WHOLE), [FailsToRead, Writes(later.as_bytes())]);
        }
        for (most, fails, written) in [(usize::MAX, 0, ""), (2, 1, "ab"), (usize::MAX, 1, "abcdef")] {
            let writes = Device { most, fails, error, ..WHOLE };
            ask_runs(rows, mode, b"abcdef", (&WHOLE, &writes), [FailsToWrite(written.as_bytes()), Writes(b"")]);
        }
        let writes = Device { fails: 0, error, ..WHOLE };
        ask_runs(rows, mode, b"", (&WHOLE, &writes), [FailsToWrite(b""), Writes(b"")]);
    }
}

const BOUNDED_INPUT: &[u8] = b"a\t\r\nB\r\r\n\n\"c\r";

/// What each bounded mode writes of `BOUNDED_INPUT`, and of its first five bytes if an error comes after them.
static BOUNDED_OUTPUTS: [(&str, &str); BOUNDED] = [
    ("a\t\r\nB\r\r\n\n\"c\r", "a\t\r\nB"),
    ("a\t\nB\r\n\n\"c\r\n", "a\t\nB\n"),
    ("a^I^M\nB^M^M\n\n\"c^M", "a^I^M\nB"),
    ("\"a\\t\\r\\nB\\r\\r\\n\\n\\\"c\\r\"", "\"a\\t\\r\\nB"),
    ("A\t\r\nB\r\r\n\n\"C\r", "A\t\r\nB"),
    ("a\t\r\nb\r\r\n\n\"c\r", "a\t\r\nb"),
    ("a\\t\\r\\nB\\r\\r\\n\\n\\\"c\\r", "a\\t\\r\\nB"),
];

/// Asks a bounded mode. The expected answer is its result, how many reads and writes have failed, and what it wrote.
fn ask_bounded(rows: &mut Rows, mode: usize, input: &[u8], (reads, writes): (&Device, &Device), expected: impl Put) {
    rows.expect(expected, |asked| calls::ask_bounded_engine(asked, mode as u8, input, reads, writes));
}

fn bounded(rows: &mut Rows) {
    for (mode, (output, cut)) in BOUNDED_OUTPUTS.into_iter().enumerate() {
        assert_eq!(bounded_output(mode, BOUNDED_INPUT, true), output.as_bytes());
        assert_eq!(bounded_output(mode, &BOUNDED_INPUT[..5], false), cut.as_bytes());
        for most in 1..8 {
            ask_bounded(rows, mode, BOUNDED_INPUT, (&Device { most, ..WHOLE }, &WHOLE), ("done", 0, 0, output));
        }
        // A failed write leaves a prefix: the calls before it are a flush and writes of a byte.
        rows.ask(|asked| {
            let writes = Device { most: 1, fails: 2, ..WHOLE };
            calls::ask_bounded_engine(asked, mode as u8, BOUNDED_INPUT, &WHOLE, &writes);
            for length in 0..=2 {
                asked.want.clear();
                asked.want.put(("write", 0, 1, &output[..length]));
                if !asked.differs() {
                    return;
                }
            }
        });
    }
}

fn bounded_before_a_fault(rows: &mut Rows) {
    for (mode, (_, cut)) in BOUNDED_OUTPUTS.into_iter().enumerate() {
        for most in 1..8 {
            let reads = Device { most, ..WHOLE };
            let (result, written) = match mode {
                6 => (Fault("done", None), "a\\t\\r\\nB\\x80\\xff"),
                _ => (Fault("ascii", Some(5)), cut),
            };
            ask_bounded(rows, mode, b"a\t\r\nB\x80\xff", (&reads, &WHOLE), (result, 0, 0, written));
        }
        let reads = Device { most: 1, fails: 5, ..WHOLE };
        ask_bounded(rows, mode, BOUNDED_INPUT, (&reads, &WHOLE), ("read", 1, 0, cut));
    }
}

/// A last line is closed at an error only if it is open.
fn ended_lines(rows: &mut Rows) {
    let expected: [(&[u8], usize, &str); 5] =
        [(b"\x80", 0, ""), (b"a\x80b\n", 1, "a\n"), (b"a\n\x80", 2, "a\n"), (b"a\r\n\x80", 3, "a\n"), (b"a\r\x80", 2, "a\r\n")];
    for (input, position, output) in expected {
        ask_bounded(rows, LINES.into(), input, (&WHOLE, &WHOLE), (("ascii", position), 0, 0, output));
    }
    // A flush, the write of the line and a flush come before the write that closes the line.
    let writes = Device { most: 1, fails: 3, ..WHOLE };
    ask_bounded(rows, LINES.into(), b"a\x80", (&WHOLE, &writes), ("write", 0, 1, "a"));
    // After a failed read both devices have failed.
    let reads = Device { most: 1, fails: 1, ..WHOLE };
    ask_bounded(rows, LINES.into(), b"ab", (&reads, &writes), ("write", 1, 1, "a"));
}

fn every_byte(rows: &mut Rows) {
    for byte in 0..=255 {
        let input = [b'a', byte, b'b'];
        ask_bounded(rows, 6, &input, (&WHOLE, &WHOLE), expected_bounded(6, &input));
    }
}

fn about_the_chunk(rows: &mut Rows) {
    for length in [1, 131_071, 131_072, 131_073, 1_000_000] {
        let input = "a".repeat(length);
        let expected = [("a", ""), ("a", "\n"), ("a", ""), ("a", "\""), ("A", ""), ("a", ""), ("a", "")];
        for (mode, (code, after)) in expected.into_iter().enumerate() {
            let output = [if after == "\"" { after } else { "" }, &code.repeat(length), after].concat();
            ask_bounded(rows, mode, input.as_bytes(), (&WHOLE, &WHOLE), ("done", 0, 0, output));
        }
    }
}

/// The names of the bounded modes, in their order, and of the modes by their numbers.
const BOUNDED_NAMES: [&str; BOUNDED] = ["copy", "lines", "caret", "json", "upper", "lower", "escape"];
const NAMES: [&str; 8] = ["copy", "lines", "tac", "caret", "ends", "ends", "json", "edit"];

fn names(rows: &mut Rows) {
    for word in BOUNDED_NAMES.into_iter().chain(NAMES).chain(["", "cop", "copy ", "COPY", "Lines", "check", "spans", "usage"]) {
        rows.ask(|asked| {
            calls::ask_mode_names(asked, word.as_bytes());
            asked.want.all(BOUNDED_NAMES.iter().chain(&BOUNDED_NAMES).chain(&NAMES));
            asked.want.put(BOUNDED_NAMES.contains(&word).then_some(word));
            // A mode that takes a script or commands has no value of its own.
            asked.want.put(["copy", "lines", "tac", "caret", "json"].contains(&word).then_some(word));
        });
    }
    // So that `expected` and the modes have the same numbers.
    for mode in 0..7 {
        rows.expect(expected(mode.into(), INPUT, SCRIPT), |asked| calls::ask_engine(asked, mode, SCRIPT, INPUT, &WHOLE, &WHOLE));
    }
}
