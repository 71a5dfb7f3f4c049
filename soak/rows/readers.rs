//! Readers of lines: all short texts, and rows by hand. What a call answers is that of `line_model`.

use super::small_texts::texts_of;
use super::{Row, Rows};
use crate::asked::{Answer, Asked, Failed, Fault, NOTHING};
use crate::calls::{self, Device, Step, WHOLE};
use crate::kinds::lines::{ask_block, ask_collected, ask_lines, ask_steps};
use crate::line_model::{Model, Stop};

pub static ROWS: &[Row] = &[
    ("lines_of_every_short_text", |rows| {
        for text in texts_of(b"\n\ra", 6) {
            for (size, most) in (0..8).flat_map(|size| [(size, 1), (size, 100)]) {
                rows.ask(|asked| ask_collected(&mut Model::new(&text, size), &text, size, giving(most), asked));
            }
        }
    }),
    ("lines_of_every_short_text_by_endings", |rows| {
        for text in texts_of(b"\n\ra", 6) {
            for (endings, size) in (0..3).flat_map(|endings| (0..8).map(move |size| (endings, size))) {
                for (most, is_ascii) in [(1, true), (100, true), (1, false), (100, false)] {
                    rows.ask(|asked| ask_lines(&text, size, endings, giving(most), is_ascii, asked));
                }
            }
        }
    }),
    ("calls_over_every_short_text", calls_over_texts),
    ("texts_up_to_nul_of_every_short_text", |rows| {
        for (run, text) in texts_of(b"\0\r\na\xc8", 6).into_iter().enumerate() {
            for size in 0..5 {
                let fails = (run + size) % (text.len() + 3);
                let (steps, device) = ([Step { kind: 7, ..Step::default() }; 7], Device { fails: fails as u64, ..giving(1) });
                rows.ask(|asked| ask_steps(&mut Model::failing(&text, size, fails), &text, size, device, &steps, asked));
            }
        }
    }),
    ("collected_lines", collected),
    ("lines_of_20_000_characters", |rows| {
        let text = ("ab".repeat(10_000) + "\r\n").repeat(3);
        rows.ask(|asked| ask_lines(text.as_bytes(), 20_002, ANY, WHOLE, true, asked));
    }),
    ("blocks_of_every_short_text", |rows| {
        for text in texts_of(b"\r\na\x80", 5) {
            for (size, most) in (0..5).flat_map(|size| (0..5).map(move |most| (size, most))) {
                rows.ask(|asked| ask_block(&mut Model::new(&text, size), &text, size, giving(1), most, asked));
            }
        }
    }),
    ("lines_that_just_fit", just_fit),
    ("a_byte_above_127_at_each_position_of_lines", other_bytes),
    ("a_read_fails_at_each_call", |rows| {
        rows.each(ENDED.into_iter().chain([4]).enumerate(), |(fails, lines), asked| {
            let model = Model::failing(LINES, 4, fails);
            let device = Device { fails: fails as u64, ..giving(1) };
            ask_until(asked, model, LINES, 4, device, lines, Some(Fault("read", None)));
        })
    }),
    ("an_answer_for_good", for_good),
    ("lines_parts_and_faults", lines_parts_and_faults),
    ("a_source_is_not_read_after_its_end", not_read_after_its_end),
    ("no_memory_for_the_buffer_of_a_reader", |rows| {
        rows.ask(|asked| {
            calls::ask_reader(asked, b"abc", usize::MAX, &WHOLE, &[]);
            asked.want.put(Failed);
            // Of a size that there is memory for, a line.
            ask_lines(b"abc", 3, ANY, WHOLE, true, asked);
        });
    }),
];

/// Endings by their numbers.
const ANY: u8 = 0;
const CR_LF: u8 = 1;
const STRICT: u8 = 2;

/// A source that gives at most `most` bytes a call.
fn giving(most: usize) -> Device {
    Device { most, ..WHOLE }
}

/// The calls of a run, by its number: a line, a line as bytes, a part, a line that is skipped, or a text up to a code.
const CALLS: [(u8, usize); 11] = [(0, 0), (5, 0), (4, 1), (6, 100), (0, 0), (6, 2), (4, 3), (6, 1), (7, 97), (7, 10), (7, 13)];

/// Each call over all texts of CR, LF, `a` and 0x80 up to six bytes, by each kind of ending, in buffers of 0 to 9
/// bytes. The source gives one byte a call, and fails at each call or at none.
fn calls_over_texts(rows: &mut Rows) {
    let mut run = 0;
    for text in texts_of(b"\r\na\x80", 6) {
        for (size, endings) in (0..10).flat_map(|size| [(size, ANY), (size, CR_LF), (size, STRICT)]) {
            run += 1;
            let fails = run % (text.len() + 3);
            let mut steps = vec![Step { kind: 1 + endings, ..Step::default() }];
            for number in 0..5 {
                let (kind, at) = CALLS[(5 * run + 3 * number) % CALLS.len()];
                steps.push(Step { kind, at, code: at as u8, ..Step::default() });
            }
            let device = Device { fails: fails as u64, ..giving(1) };
            rows.ask(|asked| {
                ask_steps(&mut Model::failing(&text, size, fails), &text, size, device, &steps, asked);
            });
        }
    }
}

/// Lines with the start and the ending of each, and the error after them or none.
fn ask_expected(rows: &mut Rows, text: &[u8], (size, most): (usize, usize), lines: &[(usize, &str, &'static str)], error: Stop) {
    rows.ask(|asked| {
        ask_collected(&mut Model::new(text, size), text, size, giving(most), asked);
        let modelled = std::mem::take(&mut asked.want.bytes);
        asked.want.all(lines);
        asked.want.put(error);
        assert!(asked.want.bytes == modelled, "the model differs from the row");
    });
}

fn collected(rows: &mut Rows) {
    let lines = [(0, "y", "lf"), (2, "abc", "crlf"), (7, "\rz\r", "none")];
    ask_expected(rows, b"y\nabc\r\n\rz\r", (6, 100), &lines, None);
    let lines = [(0, "GET / ", "crlf"), (8, "", "crlf"), (10, "body", "none")];
    ask_expected(rows, b"GET / \r\n\r\nbody", (16, 100), &lines, None);
    let many = b"0123456789\n".repeat(2_000);
    rows.ask(|asked| {
        ask_collected(&mut Model::new(&many, 64), &many, 64, giving(100), asked);
        // Each allocation fails in shorter texts.
        asked.want.has_other_failures = true;
    });
}

fn just_fit(rows: &mut Rows) {
    let long = |start| Some(Fault("long", Some(start)));
    let expected = [("abc\r\n", (0, "abc", "crlf")), ("abcd\n", (0, "abcd", "lf")), ("abcde", (0, "abcde", "none"))];
    for (text, line) in expected {
        for most in [1, 5] {
            ask_expected(rows, text.as_bytes(), (5, most), &[line], None);
            ask_expected(rows, text.as_bytes(), (4, most), &[], long(0));
        }
    }
    ask_expected(rows, b"x\nabcdef", (5, 100), &[(0, "x", "lf")], long(2));
    ask_expected(rows, b"", (0, 100), &[], None);
    ask_expected(rows, b"\n", (0, 100), &[], long(0));
}

const LINES: &[u8] = b"ab\r\ncd\n\nefg\nh";

/// How many of these lines end before each position.
static ENDED: [usize; 13] = [0, 0, 0, 0, 1, 1, 1, 2, 3, 3, 3, 3, 4];

/// Asks for the lines, of which as many are returned before the error.
fn ask_until(asked: &mut Asked, model: Model<'_>, text: &[u8], size: usize, device: Device, lines: usize, error: Stop) {
    let mut counted = model;
    assert_eq!((0..).find(|_| counted.next_line().is_err()), Some(lines));
    assert_eq!(counted.next_line(), Err(error));
    ask_collected(&mut model.clone(), text, size, device, asked);
}

fn other_bytes(rows: &mut Rows) {
    for (place, lines) in ENDED.into_iter().enumerate() {
        for other in [128, 255] {
            let mut text = LINES.to_vec();
            text[place] = other;
            for (size, most) in [(4, 1), (4, 100), (5, 2), (64, 100)] {
                rows.ask(|asked| {
                    let (model, error) = (Model::new(&text, size), Some(Fault("ascii", Some(place))));
                    ask_until(asked, model, &text, size, giving(most), lines, error);
                });
            }
        }
    }
}

/// After the end or an error the source is not called again, and the position stays.
fn for_good(rows: &mut Rows) {
    let fails = usize::MAX;
    let expected: [(&[u8], usize, (usize, usize), Stop); 6] = [
        (b"a\nb", fails, (4, 3), None),
        (b"a\n", fails, (3, 2), None),
        (b"a\nb\xffc", fails, (4, 2), Some(Fault("ascii", Some(3)))),
        (b"a\nbcdef", fails, (6, 2), Some(Fault("long", Some(2)))),
        (b"a\nb", 2, (3, 2), Some(Fault("read", None))),
        (b"abcdef", 3, (4, 0), Some(Fault("read", None))),
    ];
    for (text, fails, (calls, position), error) in expected {
        let steps = [0, 0, 0, 0, 5, 4, 0, 5, 4, 0, 5, 4].map(|kind| Step { kind, at: 1, ..Step::default() });
        rows.ask(|asked| {
            let mut model = Model::failing(text, 3, fails);
            let device = Device { fails: if fails == usize::MAX { u64::MAX } else { fails as u64 }, ..giving(1) };
            ask_steps(&mut model, text, 3, device, &steps, asked);
            assert_eq!((model.calls, model.start, model.next_line()), (calls, position, Err(error)));
        });
    }
}

/// What a reader is asked for.
#[derive(Clone, Copy)]
enum Call {
    Line,
    Bytes,
    Part(usize),
    Until(u8),
    /// The endings from now on.
    By(u8),
}

/// What a reader returns: a line or a part with its start, or an error.
#[derive(Clone, Copy)]
enum Got {
    /// A line with its ending.
    Of(usize, &'static str, &'static str),
    /// A line of bytes, with the position of the first that is not ASCII, and its ending.
    Other(usize, &'static [u8], usize, &'static str),
    Text(usize, &'static str),
    /// A text with the character after it.
    Cut(usize, &'static str),
    Fails(&'static str, usize),
    FailsToRead,
    Ends,
    Nothing,
}

use Call::{By, Bytes, Line, Part, Until};
use Got::{Cut, Ends, Fails, FailsToRead, Nothing, Of, Other, Text};

/// A text, the sizes of the buffer, and the calls with what they return.
type Session = (&'static [u8], &'static [usize], &'static [(Call, Got)]);

static SESSIONS: [Session; 26] = [
    // An LF that comes with the next read.
    (b"ab\r\nc\nd", &[64, 4], &[(By(CR_LF), Nothing), (Line, Of(0, "ab", "crlf")), (Line, Of(4, "c\nd", "none")), (Line, Ends)]),
    (
        b"ab\r\nc\nd",
        &[64, 4],
        &[(By(STRICT), Nothing), (Line, Of(0, "ab", "crlf")), (Line, Fails("lone", 5)), (Line, Fails("lone", 5))],
    ),
    // A CR at the end.
    (b"a\r", &[64, 2], &[(By(STRICT), Nothing), (Line, Fails("lone", 1)), (Line, Fails("lone", 1))]),
    (b"a\r", &[64, 2], &[(By(CR_LF), Nothing), (Line, Of(0, "a\r", "none")), (Line, Ends)]),
    // The first fault by its byte.
    (b"a\nb\xff", &[9], &[(By(STRICT), Nothing), (Line, Fails("lone", 1)), (Line, Fails("lone", 1))]),
    (b"a\xff\n", &[9], &[(By(STRICT), Nothing), (Line, Fails("ascii", 1)), (Line, Fails("ascii", 1))]),
    (b"a\rb\xff", &[9], &[(By(STRICT), Nothing), (Line, Fails("lone", 1)), (Line, Fails("lone", 1))]),
    (b"a\r\xff", &[9], &[(By(STRICT), Nothing), (Line, Fails("ascii", 2)), (Line, Fails("ascii", 2))]),
    (b"a\rbc", &[3], &[(By(STRICT), Nothing), (Line, Fails("lone", 1)), (Line, Fails("lone", 1))]),
    (b"a\rbc", &[2], &[(By(STRICT), Nothing), (Line, Fails("long", 0)), (Line, Fails("long", 0))]),
    (b"a\r\n", &[2], &[(By(STRICT), Nothing), (Line, Fails("long", 0)), (Line, Fails("long", 0))]),
    (b"a\r\r\n", &[9], &[(By(STRICT), Nothing), (Line, Fails("lone", 1)), (Line, Fails("lone", 1))]),
    // Parts, and a change of endings.
    (
        b"3\r\n\r\nx\r\ny\nz\r",
        &[9],
        &[
            (By(STRICT), Nothing),
            (Line, Of(0, "3", "crlf")),
            (Part(3), Text(3, "\r\nx")),
            (Line, Of(6, "", "crlf")),
            (By(ANY), Nothing),
            (Line, Of(8, "y", "lf")),
            (By(STRICT), Nothing),
            (Line, Fails("lone", 11)),
            (By(ANY), Nothing),
            (Line, Fails("lone", 11)),
        ],
    ),
    (b"$5\r\na\nb\rc\r\nxyz", &[5, 6, 64], &PARTS),
    (b"a\nbc\xffd", &[4], &[(Part(4), Text(0, "a\nbc")), (Part(2), Fails("ascii", 4))]),
    (b"abcdef", &[4], &[(Part(1), Text(0, "a")), (Part(5), Fails("long", 1))]),
    (b"ab", &[4], &[(Line, Of(0, "ab", "none")), (Part(1), Fails("incomplete", 0)), (Line, Ends)]),
    // Texts up to a character.
    (
        b"a\0b\r\nc\n\0\0\r:d",
        &[3],
        &[
            (Until(0), Cut(0, "a")),
            (Line, Of(2, "b", "crlf")),
            (Until(0), Cut(5, "c\n")),
            (Until(0), Cut(8, "")),
            (Until(b':'), Cut(9, "\r")),
            (Until(b':'), Text(11, "d")),
            (Until(0), Ends),
        ],
    ),
    (b"ab\0\xff\0", &[3], &[(Until(0), Cut(0, "ab")), (Until(0), Fails("ascii", 3)), (Until(0), Fails("ascii", 3))]),
    // Lines of bytes.
    (
        b"a\xff\r\n\x80\nz",
        &[4],
        &[
            (Bytes, Other(0, b"a\xff", 1, "crlf")),
            (Bytes, Other(4, b"\x80", 4, "lf")),
            (Bytes, Of(6, "z", "none")),
            (Bytes, Ends),
        ],
    ),
    (b"a\xff\r\n", &[3], &[(Bytes, Fails("long", 0)), (Bytes, Fails("long", 0))]),
    (b"\xff\n\x80\r\n", &[9], &[(By(CR_LF), Nothing), (Bytes, Other(0, b"\xff\n\x80", 0, "crlf")), (Bytes, Ends)]),
    (
        b"\r\na\xff\nb",
        &[9],
        &[(By(STRICT), Nothing), (Bytes, Of(0, "", "crlf")), (Bytes, Fails("lone", 4)), (Bytes, Fails("lone", 4))],
    ),
    (b"\xff\r\x80", &[3], &[(By(STRICT), Nothing), (Bytes, Fails("lone", 1))]),
    (b"\xff\r", &[2], &[(By(STRICT), Nothing), (Bytes, Fails("lone", 1))]),
    (
        b"\xff\nab\xffc\xff\n",
        &[9],
        &[(Bytes, Other(0, b"\xff", 0, "lf")), (Part(2), Text(2, "ab")), (Line, Fails("ascii", 4)), (Bytes, Fails("ascii", 4))],
    ),
];

/// Parts and lines in turn.
static PARTS: [(Call, Got); 8] = [
    (Line, Of(0, "$5", "crlf")),
    (Part(0), Text(4, "")),
    (Part(5), Text(4, "a\nb\rc")),
    (Line, Of(9, "", "crlf")),
    (Part(2), Text(11, "xy")),
    (Part(3), Fails("incomplete", 1)),
    (Part(0), Fails("incomplete", 1)),
    (Line, Fails("incomplete", 1)),
];

/// Sessions over a source that fails at a call, and gives one byte at each.
static FAILING: [(Session, usize); 3] = [
    ((b"abc", &[4], &[(Part(3), FailsToRead), (Part(1), FailsToRead)]), 2),
    ((b"a\rb", &[9], &[(By(STRICT), Nothing), (Line, FailsToRead), (Line, FailsToRead)]), 2),
    ((b"\xff\n\xff\xff", &[9], &[(Bytes, Other(0, b"\xff", 0, "lf")), (Bytes, FailsToRead), (Bytes, FailsToRead)]), 3),
];

/// Writes what a reader returns, and its position after it.
fn put_got(call: Call, got: Got, position: &mut usize, want: &mut Answer) {
    let end = |start: usize, body: &[u8], ending: &str| match ending {
        "none" => start + body.len(),
        "lf" => start + body.len() + 1,
        _ => start + body.len() + 2,
    };
    match got {
        Of(start, body, ending) => {
            want.put((start, body));
            want.all(matches!(call, Bytes).then_some(body));
            want.put(ending);
            *position = end(start, body.as_bytes(), ending);
        }
        Other(start, body, place, ending) => {
            want.put(((start, body), ("ascii", place), ending));
            *position = end(start, body, ending);
        }
        Text(start, part) => {
            want.put((start, part));
            *position = start + part.len();
        }
        Cut(start, text) => {
            want.put((start, text));
            *position = start + text.len() + 1;
        }
        Fails(name, place) => want.put((name, place)),
        FailsToRead => want.put("read"),
        Ends => want.put(NOTHING),
        Nothing => (),
    }
    want.put(*position);
}

/// Asks for a session through a buffer of a size.
fn ask_session(rows: &mut Rows, (text, _, calls): Session, size: usize, device: Device) {
    let steps = calls.iter().map(|(call, _)| match *call {
        Line => Step::default(),
        Bytes => Step { kind: 5, ..Step::default() },
        Part(at) => Step { kind: 4, at, ..Step::default() },
        Until(code) => Step { kind: 7, code, ..Step::default() },
        By(endings) => Step { kind: 1 + endings, ..Step::default() },
    });
    let steps: Vec<Step> = steps.collect();
    let fails = usize::try_from(device.fails).unwrap_or(usize::MAX);
    rows.ask(|asked| {
        let mut model = Model::failing(text, size, fails);
        ask_steps(&mut model, text, size, device, &steps, asked);
        // The model answers as the row says.
        let calls_of_source = asked.want.bytes.split_off(asked.want.bytes.len() - 9);
        let modelled = std::mem::take(&mut asked.want.bytes);
        let mut position = 0;
        for (call, got) in calls {
            put_got(*call, *got, &mut position, &mut asked.want);
        }
        assert!(asked.is_planted || modelled == asked.want.bytes, "the model differs from the row {}", text.escape_ascii());
        asked.want.bytes.extend(calls_of_source);
    });
}

fn lines_parts_and_faults(rows: &mut Rows) {
    for (session, size) in SESSIONS.iter().flat_map(|session| session.1.iter().map(move |size| (*session, *size))) {
        [1, 2, 3, 100].into_iter().for_each(|most| ask_session(rows, session, size, giving(most)));
    }
    for (session, fails) in FAILING {
        ask_session(rows, session, session.1[0], Device { fails: fails as u64, ..giving(1) });
    }
}

/// A line that ends in a CR at the end of the input, after which the source would give more.
fn not_read_after_its_end(rows: &mut Rows) {
    let steps = [(3, 0), (0, 0), (6, 2), (6, 100), (0, 0)].map(|(kind, at)| Step { kind, at, ..Step::default() });
    rows.ask(|asked| {
        calls::ask_reader(asked, b"ab\r\ncd\r\n", 16, &Device { most: 3, empty: 1, ..WHOLE }, &steps);
        let want = &mut asked.want;
        want.put((0, "lone", 2, 0));
        // The CR may belong to the ending, so it is not skipped.
        want.put(("long", 0, 2, 2));
        want.put((1, NOTHING, 3, NOTHING));
        want.put((3, 2));
    });
}
