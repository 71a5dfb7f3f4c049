//! A server over inputs of lines and parts, with bad input, and over sinks that fail. `Words` in
//! `crates/exports/src/serving.rt` says what it replies.

use super::{Row, Rows};
use crate::asked::{Asked, Failed, Fault, Needs};
use crate::calls::{self, Device, WHOLE};
use crate::line_model::Stop;
use crate::random::Random;

pub static ROWS: &[Row] = &[
    ("replies_to_all_inputs_are_sent", |rows| {
        for (input, endings, why, written) in SESSIONS {
            for most in [1, 100] {
                let expected = Expected { why, count: None, reads: None, writes: None, written };
                ask(rows, input, endings, 8, (WHOLE, Device { most, ..WHOLE }), &expected);
            }
        }
    }),
    // A sink that fails has taken nothing, or what went out of the buffer before; then the handler is not asked again.
    ("a_server_whose_sink_fails", |rows| {
        for (size, fails, count, written) in [(8, 0, 0, ""), (8, 1, 2, ""), (100, 0, 0, ""), (100, 1, 3, "")] {
            let expected = Expected { why: Writer, count: Some(count), reads: None, writes: Some(fails + 1), written };
            ask(rows, TOGETHER, ANY, size, (WHOLE, Device { most: 100, fails: fails as u64, ..WHOLE }), &expected);
        }
    }),
    ("replies_that_come_together_are_one_write", |rows| {
        // A flush before the only read, and then a write with its flush.
        let written = "ok\r\none\r\ntwo\r\nbye\r\n";
        let expected = Expected { why: Closed, count: Some(3), reads: Some(1), writes: Some(3), written };
        ask(rows, TOGETHER, ANY, 100, (WHOLE, WHOLE), &expected);
    }),
    ("replies_that_are_sent_first_are_writes_of_their_own", |rows| {
        // A flush before the only read, and then each time a write with its flush.
        let written = "ok\r\nok\r\nok\r\nbye\r\n";
        let expected = Expected { why: Closed, count: Some(4), reads: Some(1), writes: Some(7), written };
        ask(rows, b"a\nhold\nhold\nquit\n", ANY, 100, (WHOLE, WHOLE), &expected);
        // The sink fails at the first of these writes: then the handler is not asked again.
        let expected = Expected { why: Writer, count: Some(2), reads: Some(1), writes: Some(2), written: "" };
        ask(rows, b"a\nhold\nhold\nquit\n", ANY, 100, (WHOLE, Device { most: 100, fails: 1, ..WHOLE }), &expected);
    }),
    ("a_device_is_not_read_after_its_end", |rows| {
        // A line that ends in a CR at the end of the input, after which the source would give more.
        let reads = Device { most: 3, empty: 1, ..WHOLE };
        let expected = Expected { why: END, count: Some(0), reads: Some(2), writes: None, written: "bad break\n" };
        ask(rows, b"ab\r\ncd\r\n", STRICT, 16, (reads, WHOLE), &expected);
        // From a source without such an end these are two lines.
        let expected = Expected { why: END, count: Some(2), reads: Some(2), writes: None, written: "ok\r\nok\r\n" };
        ask(rows, b"ab\r\ncd\r\n", STRICT, 16, (WHOLE, WHOLE), &expected);
    }),
    ("each_start_of_a_session_is_answered", each_start),
    ("each_cutting_of_an_input_is_answered_as_the_whole", each_cutting),
    ("a_handler_is_not_asked_before_its_replies_were_sent", each_sending),
    ("a_greeting_comes_first", greetings),
];

/// Endings by their numbers.
const ANY: u8 = 0;
const STRICT: u8 = 2;

/// Why a conversation stops.
#[derive(Clone, Copy)]
enum Why {
    Closed,
    Writer,
    /// The end of the input, or an error of the reader.
    Stops(Stop),
}

use Why::{Closed, Stops, Writer};

const END: Why = Stops(None);

const fn fault(name: &'static str, position: usize) -> Why {
    Stops(Some(Fault(name, Some(position))))
}

/// An input, which endings end its lines, why the conversation stops, and what is written.
static SESSIONS: [(&[u8], u8, Why, &str); 28] = [
    (b"", ANY, END, ""),
    (b"a\nb", ANY, END, "ok\r\nok\r\n"),
    (b"two\r\nquit\nz\n", ANY, Closed, "one\r\ntwo\r\nbye\r\n"),
    (b"part\na\nb\nc\nquit\n", ANY, Closed, "ok\r\nok\r\nbye\r\n"),
    (b"\r\n\n", ANY, END, "ok\r\nok\r\n"),
    (b"a\ncut", ANY, Closed, "ok\r\ncut off"),
    // A fault in a part, and one that no line can be skipped after, end the conversation.
    (b"a\npart\nbc", ANY, fault("incomplete", 2), "ok\r\nclosed\n"),
    (b"part", ANY, fault("incomplete", 0), "closed\n"),
    (b"a\npart\nbc\xffd\na\n", ANY, fault("ascii", 9), "ok\r\nbad byte\n"),
    // A part that may have any bytes: the four of two letters of UTF-8, a text, and one that is cut off.
    (b"bytes\n\xc3\xbc\xc3\xbca\n", ANY, END, "\u{fc}\u{fc}\r\nok\r\n"),
    (b"bytes\na\nbcd\n", ANY, END, "ok\r\nok\r\n"),
    (b"bytes\n\xc3\xbc\xc3", ANY, fault("incomplete", 3), "closed\n"),
    (b"bytes", ANY, fault("incomplete", 0), "closed\n"),
    // A line that is rejected is skipped, and the conversation goes on.
    (b"a\nb\xff\nc\n", ANY, END, "ok\r\nbad byte\nok\r\n"),
    (b"\xff\nquit\n\xff\n", ANY, Closed, "bad byte\nbye\r\n"),
    (b"\xff", ANY, END, "bad byte\n"),
    (b"a\nabcdefgh\nxyquit\n", ANY, Closed, "ok\r\ntoo long\nok\r\nbye\r\n"),
    (b"abcdefghijklmnopqrstuvwxyz\nxyquit\n", ANY, Closed, "too long\nok\r\nbye\r\n"),
    (b"abcdefghijkl", ANY, END, "too long\n"),
    (b"abcdefgh\nx", ANY, fault("incomplete", 1), "too long\nclosed\n"),
    (b"a\nb\r\nquit\r\n", STRICT, Closed, "bad break\nbye\r\n"),
    (b"a\nquit\r\nb\r\n", STRICT, END, "bad break\nok\r\n"),
    (b"a\rb\r\nquit\r\n", STRICT, Closed, "bad break\nbye\r\n"),
    (b"a\r", STRICT, END, "bad break\n"),
    // A reply that is sent before the next line is taken.
    (b"hold\nhold\na", ANY, END, "ok\r\nok\r\nok\r\n"),
    (b"hold\nquit\n\n", ANY, Closed, "ok\r\nbye\r\n"),
    (b"a\nhold", ANY, END, "ok\r\nok\r\n"),
    (b"a\nb\r\nhold\r\nc\r\n", STRICT, END, "bad break\nok\r\nok\r\n"),
];

/// What a row knows of a conversation. `None` is what it does not say.
struct Expected<'a> {
    why: Why,
    count: Option<usize>,
    reads: Option<usize>,
    writes: Option<usize>,
    written: &'a str,
}

/// Serves an input through buffers of a size. The calls of the devices and the texts that the handler was handed are
/// expected if the row says how many they are.
fn ask(rows: &mut Rows, input: &[u8], endings: u8, size: usize, (reads, writes): (Device, Device), expected: &Expected<'_>) {
    rows.ask(|asked| {
        calls::ask_served(asked, endings, size, input, &reads, &writes);
        expect(asked, expected.why, &[expected.count, expected.reads, expected.writes], expected.written);
    });
}

/// Expects why a conversation stops, some numbers, each if it is known, and what is written.
fn expect(asked: &mut Asked, why: Why, numbers: &[Option<usize>], written: &str) {
    match why {
        Closed => asked.want.put("closed"),
        Writer => asked.want.put("write"),
        Stops(stop) => asked.want.put(stop),
    }
    for number in numbers {
        let got = asked.got().get(asked.want.bytes.len() + 1..).and_then(|rest| rest.first_chunk());
        let got = got.map_or(0, |number| u64::from_le_bytes(*number) as usize);
        asked.want.put(number.unwrap_or(got));
    }
    asked.want.put(written);
}

/// The lengths of the pieces of an input of `length` bytes, of which one ends after each byte whose bit is set.
fn lengths(length: usize, cuts: u32) -> Vec<u8> {
    let mut start = 0;
    let ends = (0..length).filter(|i| cuts >> i & 1 == 1).map(|i| i + 1);
    ends.map(|end| (end - std::mem::replace(&mut start, end)) as u8).collect()
}

/// What is answered if there is no memory for a buffer, or for the replies: they go out at once, at the end.
fn fails_to_send(asked: &mut Asked, written: &str) {
    let start = asked.want.bytes.len() - (1 + 8 + written.len());
    asked.want.fails(Needs::Memory, 0, Failed);
    asked.want.fails(Needs::memory_if(!written.is_empty()), start, "");
}

/// A conversation that is fed with an input of up to twelve bytes, in every cutting; and one whose source fails.
fn each_cutting(rows: &mut Rows) {
    for (input, endings, why, written) in SESSIONS.into_iter().filter(|(input, ..)| input.len() <= 12) {
        for cuts in 0..1 << input.len() {
            rows.ask(|asked| {
                calls::ask_fed(asked, endings, 8, input, &lengths(input.len(), cuts), 0);
                expect(asked, why, &[None, None], written);
                fails_to_send(asked, written);
            });
        }
    }
    // A line, a part, and the end of a line that was rejected are awaited.
    let inputs: [(&[u8], &str); 3] = [(b"a\nb", "ok\r\nclosed\n"), (b"part\na", "closed\n"), (b"\xe9", "bad byte\n")];
    for (input, written) in inputs {
        rows.ask(|asked| {
            calls::ask_fed(asked, ANY, 8, input, &[], 1);
            expect(asked, Stops(Some(Fault("read", None))), &[None, None], written);
            fails_to_send(asked, written);
        });
    }
}

/// A conversation of lines in a plain loop. Its handler asks after `hold` for the next line once its replies were sent.
#[derive(Default)]
struct Talk {
    held: Vec<u8>,
    start: usize,
    count: usize,
    is_sending: bool,
    why: Option<Why>,
    written: String,
    /// The steps, and what is expected after each of them.
    steps: Vec<u8>,
    after: Vec<(usize, usize, bool)>,
}

impl Talk {
    /// Answers the lines that are held, up to one after which the replies are to be sent.
    fn answer(&mut self, is_ended: bool) {
        while !self.is_sending && self.why.is_none() {
            let line_end = self.held.iter().position(|byte| *byte == b'\n').map(|i| i + 1);
            let last = (is_ended && !self.held.is_empty()).then_some(self.held.len());
            let Some(end) = line_end.or(last) else {
                self.why = is_ended.then_some(END);
                return;
            };
            let line: Vec<u8> = self.held.drain(..end).collect();
            self.start += end;
            self.count += 1;
            let text = line.strip_suffix(b"\n").unwrap_or(&line);
            self.written.push_str(if text == b"quit" { "bye\r\n" } else { "ok\r\n" });
            self.is_sending = text == b"hold";
            self.why = (text == b"quit").then_some(Closed);
        }
    }

    /// Takes a step with the bytes that came and were not taken.
    fn step(&mut self, step: u8, left: &mut &[u8]) {
        match step {
            255 => self.is_sending = false,
            254 => {}
            length => {
                let (taken, others) = left.split_at((length as usize).min(SIZE + 1 - self.held.len()));
                self.held.extend(taken);
                *left = others;
            }
        }
        self.answer(step == 254);
        self.steps.push(step);
        self.after.push((left.len(), self.count, self.is_sending));
    }
}

/// The size of the buffer of these conversations, which has room for a byte more.
const SIZE: usize = 8;

/// An event loop whose input comes in pieces of these lengths, and then the rest. In each round the client takes some bytes of
/// the replies, `most` at most. If none are left, they were sent.
fn loop_over(input: &[u8], lengths: &[u8], most: usize) -> Talk {
    let (mut talk, mut left, mut taken) = (Talk::default(), input, 0);
    let (mut pieces, mut came) = (lengths.iter(), 0);
    while talk.why.is_none() {
        let is_ended = came == input.len();
        came = pieces.next().map_or(input.len(), |length| input.len().min(came + *length as usize));
        let waits = came - (input.len() - left.len());
        talk.step(if waits == 0 && is_ended { 254 } else { waits as u8 }, &mut left);
        taken += most.min(talk.written.len() - taken);
        if taken == talk.written.len() {
            talk.step(255, &mut left);
        }
    }
    talk
}

/// An input, whose lines are shorter than the buffer, in every cutting if it is short, and in some others.
fn each_sending(rows: &mut Rows) {
    let inputs = ["hold\nhold\na", "hold\n\nhold", "a\nhold\n\nb\n", "hold\nquit\na", "\n\nhold\n", ""];
    let long = "hold\na\n\nhold\nhold\nbc\nhold\na\nhold";
    let short = inputs.iter().flat_map(|input| (0..1 << input.len()).map(move |cuts| (*input, lengths(input.len(), cuts))));
    let mut random = Random::new(1);
    let others: Vec<_> = (0..500).map(|_| (long, (0..20).map(|_| random.below(9) as u8).collect())).collect();
    for (input, lengths) in short.chain(others) {
        for most in [1, 3, 100] {
            let talk = loop_over(input.as_bytes(), &lengths, most);
            rows.ask(|asked| {
                calls::ask_sent(asked, SIZE, input.as_bytes(), &talk.steps);
                asked.want.all(&talk.after);
                match talk.why {
                    Some(Closed) => asked.want.put("closed"),
                    _ => asked.want.put(None::<usize>),
                }
                asked.want.put((talk.start, &talk.written));
                fails_to_send(asked, &talk.written);
            });
        }
    }
}

/// A greeting, the position of its first line break, an input, the position after the conversation, and what is
/// written.
static GREETINGS: [(&str, Option<usize>, &str, usize, &str); 6] = [
    ("hi", None, "two\nquit\nz\n", 9, "hi\r\none\r\ntwo\r\nbye\r\n"),
    ("", None, "", 0, "\r\n"),
    ("a greeting longer than the buffer", None, "a\nb", 3, "a greeting longer than the buffer\r\nok\r\nok\r\n"),
    ("a\nb", Some(1), "a\n", 0, ""),
    ("\r", Some(0), "quit\r\n", 0, ""),
    ("hi\r\n", Some(2), "", 0, ""),
];

/// A greeting with a line break is an error, and nothing of it is written.
fn greetings(rows: &mut Rows) {
    for (greeting, line_break, input, end, written) in GREETINGS {
        for (size, most) in [(8, 1), (8, 100), (100, 1), (100, 100)] {
            rows.ask(|asked| {
                let device = Device { most, ..WHOLE };
                calls::ask_greeted(asked, size, greeting.as_bytes(), input.as_bytes(), &device, &device);
                match line_break {
                    Some(at) => asked.want.put(("break", at)),
                    None => asked.want.put(0),
                }
                asked.want.put((end, written));
            });
        }
    }
}

/// A session of which all lines come in one read, whose replies are 19 bytes.
const TOGETHER: &[u8] = b"a\ntwo\nquit\n";

/// Each start of a session of 200 bytes.
fn each_start(rows: &mut Rows) {
    let session = ["two\nab\r\ntwo\n\n".repeat(15), "two\na".to_string()].concat();
    for end in 0..=session.len() {
        let text = &session[..end];
        let mut written = String::new();
        for (count, line) in (1..).zip(text.lines()) {
            written.push_str(match line {
                "two" => "one\r\ntwo\r\n",
                _ if count > 9 => "many\r\n",
                _ => "ok\r\n",
            });
        }
        let expected = Expected { why: END, count: Some(text.lines().count()), reads: None, writes: None, written: &written };
        ask(rows, text.as_bytes(), ANY, 8, (WHOLE, WHOLE), &expected);
    }
}
