//! Writers of lines, through buffers of many sizes, to sinks that take little at a call or fail.

use super::{Row, Rows};
use crate::asked::{Asked, Failed};
use crate::calls::{self, Device, Steps, WHOLE};

pub static ROWS: &[Row] = &[
    ("all_lines_are_written_through_any_buffer", any_buffer),
    ("a_failed_write_leaves_a_prefix", failed_writes),
    ("a_line_break_in_a_body_changes_nothing", line_break),
    ("no_memory_for_the_buffer_of_a_writer", no_memory),
];

/// Endings by their numbers, a flush, and a text as it is.
const LF: u8 = 0;
const CR_LF: u8 = 1;
const ABSENT: u8 = 2;
const FLUSH: u8 = 3;
const PART: u8 = 4;

/// Steps with their texts, and the bytes that they write.
type Session = (&'static [(u8, &'static str)], &'static str);

static SESSIONS: [Session; 2] = [
    (&[(LF, ""), (CR_LF, "ab"), (LF, "abcdefgh"), (LF, "c"), (ABSENT, "d"), (FLUSH, "")], "\nab\r\nabcdefgh\nc\nd"),
    (&[(CR_LF, "$5"), (PART, "a\nb\r\n"), (CR_LF, ""), (FLUSH, "")], "$5\r\na\nb\r\n\r\n"),
];

/// Asks a writer for steps.
fn ask_steps(asked: &mut Asked, all: &[(u8, &str)], size: usize, device: &Device) {
    let Steps { texts, steps } = Steps::of(all.iter().map(|(kind, text)| (*kind, 0, *text)));
    calls::ask_writer(asked, &texts, size, device, &steps);
}

fn any_buffer(rows: &mut Rows) {
    for (steps, written) in SESSIONS {
        for (size, most) in (0..20).flat_map(|size| [(size, 1), (size, 3), (size, 100)]) {
            rows.ask(|asked| {
                ask_steps(asked, steps, size, &Device { most, ..WHOLE });
                asked.want.times(steps.len(), "done");
                let calls = asked.got().len().saturating_sub(written.len() + 17);
                let calls = asked.got()[calls..].first_chunk().map_or(0, |calls| u64::from_le_bytes(*calls) as usize);
                // With a byte a call, a call for each byte and for the flush.
                asked.want.put((if most == 1 { written.len() + 1 } else { calls }, written));
            });
        }
    }
}

/// From the step that fails on, each step answers with the error. The sink has taken a byte at each call before.
fn failed_writes(rows: &mut Rows) {
    for (steps, written) in SESSIONS {
        for (size, fails) in [0, 1, 4, 64].into_iter().flat_map(|size| (0..=written.len()).map(move |at| (size, at))) {
            rows.ask(|asked| {
                let after: Vec<(u8, &str)> = [steps, &[(LF, "x\n"), (PART, "x"), (FLUSH, "")]].concat();
                ask_steps(asked, &after, size, &Device { most: 1, fails: fails as u64, ..WHOLE });
                // At the latest the flush fails.
                for done in 0..steps.len() {
                    asked.want.bytes.clear();
                    asked.want.times(done, "done");
                    asked.want.times(after.len() - done, "write");
                    asked.want.put((fails + 1, &written[..fails]));
                    if !asked.differs() {
                        return;
                    }
                }
            });
        }
    }
}

fn line_break(rows: &mut Rows) {
    let steps = [(LF, "ab"), (ABSENT, "\n"), (ABSENT, "a\r"), (ABSENT, "abcdefgh\r\n"), (ABSENT, "a\nb\r"), (FLUSH, "")];
    rows.ask(|asked| {
        ask_steps(asked, &steps, 4, &WHOLE);
        asked.want.put("done");
        asked.want.all([0, 1, 8, 1].map(|place| ("break", place)));
        asked.want.put(("done", 2, "ab\n"));
    });
}

fn no_memory(rows: &mut Rows) {
    rows.ask(|asked| {
        ask_steps(asked, &[], usize::MAX, &WHOLE);
        asked.want.put(Failed);
        // Of a size that there is memory for, a line.
        ask_steps(asked, &[(LF, "a"), (FLUSH, "")], 2, &WHOLE);
        asked.want.times(2, "done");
        asked.want.put((2, "a\n"));
    });
}
