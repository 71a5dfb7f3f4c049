//! Calls whose allocations fail, one after the other, two in a row, and more; and calls that do not allocate.

use super::commands::{commands_of, Cmd, Cmd::*, Range};
use super::{Row, Rows};
use crate::asked::{Failed, Needs};
use crate::calls::{self, Steps};
use crate::heap::{Fails, ALL, EVERY_SECOND, ONE, TWO};
use crate::kinds::conversions::{ask_all, ask_character_written, ask_collected, ask_split_off, ask_written};
use crate::kinds::copies::{ask_both_runs, ask_copies, ask_extended, ask_formatted, ask_growths, ask_turned, CAPACITY};
use crate::kinds::edits::{ask_capacities, expect};
use crate::kinds::json_values::ask_json;
use crate::kinds::rewrites::{ask_joined, ask_repeated, ask_unescaped};
use crate::kinds::searches::ask_replace;
use crate::kinds::texts::ask_cases;
use crate::kinds::walks::ask_walks;

pub static ROWS: &[Row] = &[
    ("nothing_is_allocated_for_nothing", nothing),
    ("sources_stay_if_a_copy_fails", copies),
    ("sources_are_returned_if_a_conversion_fails", |rows| {
        for text in ["abc", FULL, LONG] {
            rows.ask(|asked| ask_turned(text.as_bytes(), asked));
            rows.ask(|asked| ask_all(text.as_bytes(), asked));
            rows.ask(|asked| ask_json(text.as_bytes(), asked));
            (0..=text.len()).for_each(|at| rows.ask(|asked| ask_split_off(at, text.as_bytes(), asked)));
        }
    }),
    ("pieces_before_a_failure_stay", pieces),
    // With one failure, characters are appended one by one; with two in a row, those are there that fitted.
    ("characters_before_two_failures_stay", |rows| {
        let text = "abcdefghijklmnopqrstuvwxyz".repeat(3);
        for fails in [ONE, TWO, ALL] {
            for (capacity, text) in [(10, text.as_str()), (0, &text), (0, "aB,c"), (4, "aB,c")] {
                rows.ask_failing(fails, |asked| ask_extended(fails, capacity, text.as_bytes(), asked));
            }
        }
    }),
    // Each edit of texts that have room for it inline, that just fit there, that are in an allocation, and that have little room
    // or none in a fixed capacity.
    ("edits_without_memory_leave_the_text", |rows| {
        rows.each((0..=CAPACITY).flat_map(|length| [0, 1, 2].map(|form| (length, form))), |(length, form), asked| {
            ask_growths(form, &LONG.repeat(3).as_bytes()[..length], asked)
        })
    }),
    ("commands_go_on_after_a_failure", commands_go_on),
    ("commands_go_on_after_several_failures", after_several_failures),
    ("runs_over_both_strings_go_on", both_runs),
];

/// Texts that are just short enough to be inline, and a longer one.
const A24: &str = "aaaaaaaaaaaaaaaaaaaaaaaa";
const FULL: &str = "abcdefghijklmnopqrstuvwx";
const LONG: &str = "abcdefghijklmnopqrstuvwxabcdefghijklmnopqrstuvwx";

/// Only a shared text is in an allocation also if it is empty.
fn nothing(rows: &mut Rows) {
    let none = Steps::default();
    let mut empty = commands_of(&[PushStr(""), InsertStr(0, "")]);
    [11, 19, 12].iter().for_each(|kind| empty.add(*kind, 0, 0));
    rows.ask(|asked| ask_copies(b"", asked));
    rows.ask(|asked| ask_repeated(2, b"", asked));
    rows.ask(|asked| ask_unescaped(b"", Ok(""), asked));
    rows.ask(|asked| ask_joined(b',', "", "--", asked));
    rows.ask(|asked| ask_turned(b"", asked));
    rows.ask(|asked| ask_walks(b'a', b"", &[], asked));
    rows.ask(|asked| ask_extended(ONE, 0, b"", asked));
    rows.ask(|asked| ask_formatted(b"", b"", b"", asked));
    rows.ask(|asked| ask_collected(b'a', b"", b"", asked));
    rows.ask(|asked| ask_capacities(0, &empty, asked));
    rows.ask(|asked| ask_both_runs(b"", &none, asked));
    for is_small in [false, true] {
        rows.ask(|asked| {
            calls::ask_edits(asked, is_small, b"", &[], &[]);
            expect(is_small, b"", &none, asked);
        });
    }
    for source in ["", "b\u{f8}!"] {
        rows.ask(|asked| ask_all(source.as_bytes(), asked));
        rows.ask(|asked| ask_written(b"", source.as_bytes(), asked));
    }
    rows.ask(|asked| ask_character_written('\u{f8}', b"", asked));
}

fn copies(rows: &mut Rows) {
    for text in ["aB,c", "a\\tB", "abc", FULL, LONG] {
        rows.ask(|asked| ask_copies(text.as_bytes(), asked));
        rows.ask(|asked| ask_cases(text.as_bytes(), asked));
        rows.ask(|asked| ask_repeated(2, text.as_bytes(), asked));
        rows.ask(|asked| ask_joined(b',', text, "--", asked));
        rows.ask(|asked| ask_replace(text, ",", "--", asked));
    }
    rows.ask(|asked| ask_unescaped(b"a\\tB", Ok("a\tB"), asked));
    rows.ask(|asked| ask_walks(b'b', b"a\r\nb\n", &[1, 0, 0], asked));
}

fn pieces(rows: &mut Rows) {
    rows.ask(|asked| ask_formatted(b"x", b"yy", &[b'a'; 20], asked));
    let lines = ["a".repeat(1), "b".repeat(20), "c".repeat(48), "d".repeat(300), "e".repeat(1_000)].join("\n");
    rows.ask(|asked| ask_collected(b'x', lines.as_bytes(), b"", asked));
    let commands = commands_of(&[Push(b'x'), Reserve(100), Shrink, Push(b'z')]);
    rows.ask(|asked| ask_capacities(1, &commands, asked));
}

/// Steps that grow a string, shrink it and copy it.
static GROWING: [&[Cmd]; 3] = [
    &[PushStr("bcdefgh"), Len, Copy(Range::To(1)), Reserve(100), Shrink, Len],
    &[Insert(1, b'a'), Shrink, Push(b'b'), Shrink, InsertStr(0, "cc"), Pop],
    &[Push(b'b'), Len, Pop, Push(b'c'), Len],
];

fn commands_go_on(rows: &mut Rows) {
    for commands in GROWING.map(commands_of) {
        for (is_small, text) in [(false, "x"), (false, ""), (false, LONG), (true, "x"), (true, FULL), (true, LONG), (true, A24)] {
            rows.ask(|asked| {
                calls::ask_edits(asked, is_small, text.as_bytes(), &commands.texts, &commands.steps);
                expect(is_small, text.as_bytes(), &commands, asked);
            });
        }
    }
}

/// Steps over an inline string that is full, of which the first three need memory. The allocations before those are
/// for the commands and for the replies.
fn after_several_failures(rows: &mut Rows) {
    let text = A24;
    let commands = [InsertStr(0, "b"), Copy(Range::To(1)), Reserve(100), Shrink, Truncate(2), PushStr("c")];
    let commands = commands_of(&commands);
    let (no, done) = ("memory", "done");
    // The first three replies to commands, three more that are `done`, and the text after them.
    let answer = |[first, second, third]: [_; 3], text| ((first, second, third), (done, done, done), text);
    let expected: [(Fails, [[&str; 3]; 3]); 4] = [
        (ONE, [[no, "a", done], [done, no, done], [done, "b", no]]),
        (TWO, [[no, no, done], [done, no, no], [done, "b", no]]),
        (ALL, [[no, no, no], [done, no, no], [done, "b", no]]),
        (EVERY_SECOND, [[no, "a", no], [done, no, done], [done, "b", no]]),
    ];
    for (fails, replies) in expected {
        rows.ask_failing(fails, |asked| {
            calls::ask_edits(asked, true, text.as_bytes(), &commands.texts, &commands.steps);
            let want = &mut asked.want;
            want.put(answer([done, "b", done], "bac"));
            want.fails(Needs::Memory, 0, Failed);
            want.fails(Needs::Memory, 0, (Failed, &text));
            for replies in replies {
                let text = if replies[0] == no { "aac" } else { "bac" };
                want.fails(Needs::Memory, 0, answer(replies, text));
            }
        });
    }
}

/// The allocations are those for the commands, for the string, for its replies and its reservation, and for the replies
/// and the reservation of the inline string.
fn both_runs(rows: &mut Rows) {
    let (source, text) = ("a".repeat(24), format!("{}b", "a".repeat(23)));
    let commands = commands_of(&[Reserve(2_000), Pop, Push(b'b'), Len]);
    // The replies to these commands, and the text after them.
    let run = |reservation| ((reservation, b'a', "done", 24), &text);
    let both = |string, small| (run(string), run(small));
    rows.ask(|asked| ask_both_runs(source.as_bytes(), &commands, asked));
    rows.ask_failing(EVERY_SECOND, |asked| {
        calls::ask_both_runs(asked, source.as_bytes(), &commands.texts, &commands.steps);
        let want = &mut asked.want;
        want.put(both("done", "done"));
        want.fails(Needs::Memory, 0, Failed);
        want.fails(Needs::Memory, 0, both("memory", "memory"));
        want.fails(Needs::Memory, 0, Failed);
        want.fails(Needs::Memory, 0, both("done", "memory"));
    });
}
