//! Devices that follow a plan, and a buffer before one. Each call of a device takes the next step of its plan.

use super::{Row, Rows};
use crate::asked::Needs;
use crate::calls::{self, Step, Steps};

pub static ROWS: &[Row] = &[
    ("a_full_buffer_is_written_first", full_buffer),
    ("a_buffer_writes_nothing_after_a_failure", after_a_failure),
    ("a_buffer_takes_a_prefix", prefixes),
    ("a_buffer_takes_a_line", |rows| {
        let steps = pieces(2, &["ab"]);
        for (size, calls) in [(0, "ab|\n|!"), (2, "ab|\n|!"), (3, "ab\n|!"), (9, "ab\n|!")] {
            ask_buffer(rows, size, &steps, &[], (false, true, 0, calls));
        }
    }),
    ("a_buffer_that_gave_up_writes_nothing", gave_up),
    ("a_device_keeps_its_last_error", last_errors),
    ("both_directions_of_a_device", both_directions),
];

/// The numbers of the errors that the rows name.
const NOT_FOUND: u8 = 0;
const BROKEN_PIPE: u8 = 11;
const TIMED_OUT: u8 = 22;
const WRITE_ZERO: u8 = 23;
const INTERRUPTED: u8 = 35;

/// A step of a plan that moves at most `at` bytes, and lets a flush succeed.
fn moves(at: usize) -> Step {
    Step { at, ..Step::default() }
}

/// A step of a plan that fails with an error.
fn fails(code: u8) -> Step {
    Step { kind: 1, code, ..Step::default() }
}

/// Steps of a kind, each with the next piece of the texts.
fn pieces(kind: u8, pieces: &[&'static str]) -> Steps {
    Steps::of(pieces.iter().map(|piece| (kind, 0, *piece)))
}

/// What a buffer answers besides its zeros: whether a write has failed before the end, whether the end succeeds, how many
/// calls have failed, and the calls of the writer.
type Buffered<'a> = (bool, bool, usize, &'a str);

/// Asks for steps over a buffer of a size before a writer that follows a plan.
fn ask_buffer(rows: &mut Rows, size: usize, steps: &Steps, plan: &[Step], expected: Buffered<'_>) {
    rows.ask(|asked| {
        calls::ask_buffered(asked, size, &steps.texts, &steps.steps, plan);
        asked.want.copy(vec![0; size]);
        asked.want.allocated(Needs::memory_if(size > 0), expected);
    });
}

/// The pieces that most rows append.
const PIECES: [&str; 5] = ["ab", "c", "de", "fghijk", "l"];

fn full_buffer(rows: &mut Rows) {
    let steps = pieces(0, &PIECES);
    let expected = [
        (0, "ab|c|de|fghijk|l|!"),
        (1, "ab|c|de|fghijk|l|!"),
        (4, "abc|de|fghijk|l|!"),
        (6, "abcde|fghijk|l|!"),
        (12, "abcdefghijkl|!"),
        (1_023, "abcdefghijkl|!"),
        (1_024, "abcdefghijkl|!"),
        (1_025, "abcdefghijkl|!"),
        (3_000, "abcdefghijkl|!"),
    ];
    for (size, calls) in expected {
        ask_buffer(rows, size, &steps, &[], (false, true, 0, calls));
    }
    ask_buffer(rows, 6, &steps, &[moves(2); 7], (false, true, 0, "ab|cd|e|fg|hi|jk|l|!"));
}

fn after_a_failure(rows: &mut Rows) {
    let steps = pieces(0, &PIECES);
    let (all, fails) = (moves(usize::MAX), fails(INTERRUPTED));
    let expected: [(&[Step], &str, bool); 6] = [
        (&[fails], "", true),
        (&[moves(0)], "|", true),
        (&[all, fails], "abc|", true),
        (&[all, moves(1), fails], "abc|d|", true),
        (&[all, all, all, fails], "abc|de|fghijk|", false),
        (&[all, all, all, all, fails], "abc|de|fghijk|l|", false),
    ];
    for (plan, calls, is_broken) in expected {
        ask_buffer(rows, 4, &steps, plan, (is_broken, false, 1, calls));
    }
}

fn prefixes(rows: &mut Rows) {
    let text = "0123456789abcdefghijklmnopqrstuvwxyzABCD".repeat(2);
    for size in [0, 31, 32, 33, 64, 65, 128] {
        for most in 0..=text.len() {
            let steps = Steps::of([(1, most, text.as_str())]);
            let calls = if most == 0 { "!".to_string() } else { format!("{}|!", &text[..most]) };
            ask_buffer(rows, size, &steps, &[], (false, true, 0, &calls));
        }
    }
}

fn gave_up(rows: &mut Rows) {
    let mut steps = pieces(0, &["ab", "cd"]);
    ask_buffer(rows, 2, &steps, &[], (false, true, 0, "ab|cd|!"));
    steps.steps.insert(1, Step { kind: 3, ..Step::default() });
    ask_buffer(rows, 2, &steps, &[], (true, false, 0, ""));
}

/// A call of a device: a read of at most a number of bytes, a write of a text, or a flush.
#[derive(Clone, Copy)]
enum Call {
    Read(usize),
    Write(&'static str),
    Flush,
}

/// What a call returns: the bytes of a read, the number of bytes of a write, or an error.
#[derive(Clone, Copy)]
enum Got {
    Bytes(&'static str),
    Count(usize),
    Fails,
}

use Call::{Flush, Read, Write};
use Got::{Bytes, Count, Fails};

/// Asks a device for calls. With each answer come the numbers of reads and of writes that have failed.
fn ask(
    rows: &mut Rows,
    source: &str,
    (reads, writes): (&[Step], &[Step]),
    calls: &[(Call, Got, (usize, usize))],
    errors: (Option<u8>, Option<u8>),
    written: &str,
) {
    let Steps { texts, steps } = Steps::of(calls.iter().map(|(call, _, _)| match *call {
        Read(most) => (0, most, ""),
        Write(text) => (1, 0, text),
        Flush => (2, 0, ""),
    }));
    for tells_errors in [true, false] {
        rows.ask(|asked| {
            calls::ask_device_calls(asked, tells_errors, source.as_bytes(), &texts, &steps, reads, writes);
            let want = &mut asked.want;
            for (call, got, (reads, writes)) in calls {
                match (call, got) {
                    (_, Bytes(bytes)) => want.put(bytes),
                    (_, Count(count)) => want.put(*count),
                    (Read(_), Fails) => want.put("read"),
                    (_, Fails) => want.put("write"),
                }
                want.put((*reads, *writes));
            }
            if tells_errors {
                want.put((errors.0, errors.1));
            } else {
                want.put(written);
            }
        });
    }
}

fn last_errors(rows: &mut Rows) {
    let (missing, closed) = (fails(NOT_FOUND), fails(BROKEN_PIPE));
    let none = (0, 0);
    let reads = [
        ([moves(1), moves(0)], [(Bytes("a"), none), (Bytes(""), none)], None),
        ([moves(1), missing], [(Bytes("a"), none), (Fails, (1, 0))], Some(NOT_FOUND)),
        ([missing, moves(1)], [(Fails, (1, 0)), (Bytes("a"), (1, 0))], Some(NOT_FOUND)),
        ([missing, closed], [(Fails, (1, 0)), (Fails, (2, 0))], Some(BROKEN_PIPE)),
    ];
    for (plan, [first, second], error) in reads {
        let calls = [(Read(2), first.0, first.1), (Read(2), second.0, second.1)];
        ask(rows, "abc", (&plan, &[]), &calls, (error, None), "");
    }
    let writes = [
        ([moves(1), moves(1)], [(Count(1), none), (Count(0), none)], None, "a|!"),
        ([moves(0), moves(1)], [(Fails, (0, 1)), (Count(0), (0, 1))], Some(WRITE_ZERO), "|!"),
        ([missing, moves(1)], [(Fails, (0, 1)), (Count(0), (0, 1))], Some(NOT_FOUND), "!"),
        ([moves(1), closed], [(Count(1), none), (Fails, (0, 1))], Some(BROKEN_PIPE), "a|"),
        ([missing, closed], [(Fails, (0, 1)), (Fails, (0, 2))], Some(BROKEN_PIPE), ""),
        ([missing, moves(0)], [(Fails, (0, 1)), (Count(0), (0, 1))], Some(NOT_FOUND), "!"),
    ];
    for (plan, [first, second], error, written) in writes {
        let calls = [(Write("ab"), first.0, first.1), (Flush, second.0, second.1)];
        ask(rows, "", (&[], &plan), &calls, (None, error), written);
    }
}

fn both_directions(rows: &mut Rows) {
    let late = fails(TIMED_OUT);
    let calls = [
        (Write("xy"), Count(1), (0, 0)),
        (Read(4), Bytes("ab"), (0, 0)),
        (Read(4), Fails, (1, 0)),
        (Write("y"), Fails, (1, 1)),
        (Flush, Fails, (1, 2)),
        (Flush, Count(0), (1, 2)),
    ];
    let plan: (&[Step], &[Step]) = (&[moves(2), late], &[moves(1), late, late]);
    ask(rows, "abcd", plan, &calls, (Some(TIMED_OUT), Some(TIMED_OUT)), "x|!");
    let calls = [(Read(3), Bytes("abc"), (0, 0)), (Read(8), Bytes("de"), (0, 0)), (Read(8), Bytes(""), (0, 0))];
    ask(rows, "abcde", (&[], &[]), &calls, (None, None), "");
    let calls = [(Write("xyz"), Count(2), (0, 0)), (Write("z"), Fails, (0, 1)), (Flush, Count(0), (0, 1))];
    ask(rows, "", (&[], &[moves(2), fails(40)]), &calls, (None, Some(40)), "xy|!");
}
