//! Steps over a string and an inline string: their replies, and the text after them.

use super::strings::LENGTHS;
use super::{Row, Rows};
use crate::asked::{Answer, Put};
use crate::calls::{self, Step, Steps, WHOLE};
use crate::kinds::edits::{ask_capacities, ask_edits, expect_failures};
use crate::kinds::engines::{ask_runs, Run};
use crate::random::Random;

pub static ROWS: &[Row] = &[
    ("commands_by_position", |rows| {
        for (cmd, expected) in BY_POSITION.iter().zip(OVER_ABC) {
            for (n, (reply, text)) in POSITIONS.into_iter().zip(expected) {
                ask(rows, "abc", &[cmd(n)], &[reply], text);
            }
        }
    }),
    ("commands_by_position_over_no_text", |rows| {
        for (cmd, expected) in BY_POSITION.iter().zip(OVER_NOTHING) {
            for (n, (reply, text)) in [0, 1, usize::MAX].into_iter().zip(expected) {
                ask(rows, "", &[cmd(n)], &[reply], text);
            }
        }
    }),
    ("other_commands", |rows| {
        ask(rows, "abc", &[], &[], "abc");
        for (cmd, (reply, text), (reply_over_nothing, nothing)) in OTHER_COMMANDS {
            ask(rows, "aBc", &[cmd], &[reply], text);
            ask(rows, "", &[cmd], &[reply_over_nothing], nothing);
        }
    }),
    ("copies_of_a_range", |rows| {
        for (range, reply) in COPIES {
            ask(rows, "abc", &[Copy(range)], &[reply], "abc");
        }
    }),
    ("lists_of_commands", lists),
    ("long_lists_of_commands_of_every_kind", of_every_kind),
    ("many_commands", many_commands),
    ("capacity_is_reserved_and_returned", reserved_and_shrunk),
    ("edits_of_the_engine", edits_of_the_engine),
];

/// A command, as in `ascii_run`. A range has its form and its bounds.
#[derive(Clone, Copy)]
pub enum Cmd {
    Push(u8),
    PushStr(&'static str),
    Insert(usize, u8),
    InsertStr(usize, &'static str),
    Remove(usize),
    Pop,
    Truncate(usize),
    Clear,
    Set(usize, u8),
    Upper,
    Lower,
    Reserve(usize),
    Shrink,
    Len,
    First,
    Last,
    Get(usize),
    Copy(Range),
    EqIgnoreCase(&'static str),
}

/// A range by its form, as in `AsciiRange`.
#[derive(Clone, Copy)]
pub enum Range {
    Full,
    From(usize),
    To(usize),
    Range(usize, usize),
    Inclusive(usize, usize),
    ToInclusive(usize),
}

/// A reply.
#[derive(Clone, Copy)]
pub enum Reply {
    Done,
    Char(Option<u8>),
    Number(usize),
    Truth(bool),
    Text(&'static str),
    BadPosition,
    Refused(usize),
    NoMemory,
    TooMany,
}

use Cmd::*;
use Reply::{BadPosition, Char, Done, NoMemory, Number, Refused, Text, TooMany, Truth};

/// The commands as they are passed.
pub fn commands_of(cmds: &[Cmd]) -> Steps {
    let mut all = Steps::default();
    for cmd in cmds {
        match *cmd {
            Push(code) => all.add(0, 0, code),
            PushStr(text) => all.add_text(1, 0, text.as_bytes()),
            Insert(at, code) => all.add(2, at, code),
            InsertStr(at, text) => all.add_text(3, at, text.as_bytes()),
            Remove(at) => all.add(4, at, 0),
            Pop => all.add(5, 0, 0),
            Truncate(at) => all.add(6, at, 0),
            Clear => all.add(7, 0, 0),
            Set(at, code) => all.add(8, at, code),
            Upper => all.add(9, 0, 0),
            Lower => all.add(10, 0, 0),
            Reserve(n) => all.add(11, n, 0),
            Shrink => all.add(12, 0, 0),
            Len => all.add(13, 0, 0),
            First => all.add(14, 0, 0),
            Last => all.add(15, 0, 0),
            Get(at) => all.add(16, at, 0),
            Copy(range) => all.steps.push(copy_of(range)),
            EqIgnoreCase(text) => all.add_text(18, 0, text.as_bytes()),
        }
    }
    all
}

fn copy_of(range: Range) -> Step {
    let (code, start, end) = match range {
        Range::Full => (0, 0, 0),
        Range::From(start) => (1, start, 0),
        Range::To(end) => (2, 0, end),
        Range::Range(start, end) => (3, start, end),
        Range::Inclusive(start, end) => (4, start, end),
        Range::ToInclusive(end) => (5, 0, end),
    };
    Step { kind: 17, code, start, end, ..Step::default() }
}

impl Put for Reply {
    fn put(&self, answer: &mut Answer) {
        match self {
            Done => answer.put("done"),
            Char(ch) => answer.put(ch),
            Number(number) => answer.put(number),
            Truth(holds) => answer.put(holds),
            Text(text) => answer.put(text),
            BadPosition => answer.put("position"),
            Refused(position) => answer.put(("ascii", position)),
            NoMemory => answer.put("memory"),
            TooMany => answer.put("many"),
        }
    }
}

/// Asks both types of string for the replies to commands, and for the text after them.
pub fn ask(rows: &mut Rows, source: &str, cmds: &[Cmd], replies: &[Reply], text: &str) {
    let all = commands_of(cmds);
    for is_small in [false, true] {
        rows.ask(|asked| {
            calls::ask_edits(asked, is_small, source.as_bytes(), &all.texts, &all.steps);
            asked.want.all(replies);
            asked.want.put(text);
            expect_failures(is_small, source.as_bytes(), &all, asked);
        });
    }
}

/// The commands that take a position or a number.
static BY_POSITION: [fn(usize) -> Cmd; 7] =
    [|n| Insert(n, b'x'), |n| InsertStr(n, "de"), Remove, |n| Set(n, b'x'), Truncate, Get, Reserve];

/// The reply to each command by position over `abc`, and the text after it, at these positions.
static POSITIONS: [usize; 5] = [0, 2, 3, 4, usize::MAX];
static OVER_ABC: [[(Reply, &str); 5]; 7] = [
    [(Done, "xabc"), (Done, "abxc"), (Done, "abcx"), (BadPosition, "abc"), (BadPosition, "abc")],
    [(Done, "deabc"), (Done, "abdec"), (Done, "abcde"), (BadPosition, "abc"), (BadPosition, "abc")],
    [(Char(Some(b'a')), "bc"), (Char(Some(b'c')), "ab"), (BadPosition, "abc"), (BadPosition, "abc"), (BadPosition, "abc")],
    [(Done, "xbc"), (Done, "abx"), (BadPosition, "abc"), (BadPosition, "abc"), (BadPosition, "abc")],
    [(Done, ""), (Done, "ab"), (Done, "abc"), (Done, "abc"), (Done, "abc")],
    [(Char(Some(b'a')), "abc"), (Char(Some(b'c')), "abc"), (Char(None), "abc"), (Char(None), "abc"), (Char(None), "abc")],
    [(Done, "abc"), (Done, "abc"), (Done, "abc"), (Done, "abc"), (TooMany, "abc")],
];

/// The reply to each command by position over the empty text, and the text after it, at 0, 1 and the largest position.
static OVER_NOTHING: [[(Reply, &str); 3]; 7] = [
    [(Done, "x"), (BadPosition, ""), (BadPosition, "")],
    [(Done, "de"), (BadPosition, ""), (BadPosition, "")],
    [(BadPosition, ""), (BadPosition, ""), (BadPosition, "")],
    [(BadPosition, ""), (BadPosition, ""), (BadPosition, "")],
    [(Done, ""), (Done, ""), (Done, "")],
    [(Char(None), ""), (Char(None), ""), (Char(None), "")],
    [(Done, ""), (Done, ""), (NoMemory, "")],
];

/// A command, and its reply and the text after it: over `aBc`, and over the empty text.
type OtherCommand = (Cmd, (Reply, &'static str), (Reply, &'static str));

static OTHER_COMMANDS: [OtherCommand; 17] = [
    (Push(b'x'), (Done, "aBcx"), (Done, "x")),
    (PushStr("de"), (Done, "aBcde"), (Done, "de")),
    (PushStr(""), (Done, "aBc"), (Done, "")),
    (InsertStr(0, ""), (Done, "aBc"), (Done, "")),
    (Pop, (Char(Some(b'c')), "aB"), (Char(None), "")),
    (Clear, (Done, ""), (Done, "")),
    (Upper, (Done, "ABC"), (Done, "")),
    (Lower, (Done, "abc"), (Done, "")),
    (Reserve(usize::MAX - 2), (TooMany, "aBc"), (NoMemory, "")),
    (Reserve(usize::MAX - 3), (NoMemory, "aBc"), (NoMemory, "")),
    (Shrink, (Done, "aBc"), (Done, "")),
    (Len, (Number(3), "aBc"), (Number(0), "")),
    (First, (Char(Some(b'a')), "aBc"), (Char(None), "")),
    (Last, (Char(Some(b'c')), "aBc"), (Char(None), "")),
    (EqIgnoreCase("AbC"), (Truth(true), "aBc"), (Truth(false), "")),
    (EqIgnoreCase("abd"), (Truth(false), "aBc"), (Truth(false), "")),
    (EqIgnoreCase(""), (Truth(false), "aBc"), (Truth(true), "")),
];

/// A range, and the copy of it from `abc`.
static COPIES: [(Range, Reply); 21] = [
    (Range::Full, Text("abc")),
    (Range::From(0), Text("abc")),
    (Range::From(3), Text("")),
    (Range::From(4), Refused(3)),
    (Range::From(usize::MAX), Refused(3)),
    (Range::To(0), Text("")),
    (Range::To(3), Text("abc")),
    (Range::To(4), Refused(3)),
    (Range::To(usize::MAX), Refused(3)),
    (Range::Range(1, 2), Text("b")),
    (Range::Range(3, 3), Text("")),
    (Range::Range(3, 0), Refused(3)),
    (Range::Range(4, 4), Refused(3)),
    (Range::Inclusive(0, 2), Text("abc")),
    (Range::Inclusive(3, 2), Text("")),
    (Range::Inclusive(0, 3), Refused(3)),
    (Range::Inclusive(0, usize::MAX), Refused(3)),
    (Range::ToInclusive(0), Text("a")),
    (Range::ToInclusive(2), Text("abc")),
    (Range::ToInclusive(3), Refused(3)),
    (Range::ToInclusive(usize::MAX), Refused(3)),
];

/// A text that is just short enough to be inline.
const FULL: &str = "aaaaaaaaaaaaaaaaaaaaaaaa";

fn lists(rows: &mut Rows) {
    let longer = [Insert(0, b'b'), Len, Truncate(3), Shrink, Len];
    ask(rows, FULL, &longer, &[Done, Number(25), Done, Done, Number(3)], "baa");
    ask(rows, "", &[Reserve(usize::MAX)], &[NoMemory], "");
    ask(rows, "a", &[Reserve(usize::MAX)], &[TooMany], "a");
    ask(rows, "", &[Reserve(24), Push(b'a'), Copy(Range::Full)], &[Done, Done, Text("a")], "a");
    ask(rows, "", &[Push(b'a'); 25], &[Done; 25], &format!("{FULL}a"));
    let each_reply = [
        (Insert(4, b'x'), BadPosition),
        (Insert(3, b'x'), Done),
        (Remove(4), BadPosition),
        (Remove(0), Char(Some(b'a'))),
        (Set(3, b'z'), BadPosition),
        (Truncate(1), Done),
        (Upper, Done),
        (EqIgnoreCase("b"), Truth(true)),
        (Copy(Range::From(2)), Refused(1)),
        (Copy(Range::Inclusive(1, 0)), Text("")),
        (Reserve(usize::MAX), TooMany),
        (Len, Number(1)),
        (Pop, Char(Some(b'B'))),
        (Pop, Char(None)),
    ];
    let (cmds, replies): (Vec<Cmd>, Vec<Reply>) = each_reply.into_iter().unzip();
    ask(rows, "abc", &cmds, &replies, "");
    let each_edit = [
        (PushStr("abc"), Done),
        (InsertStr(1, "def"), Done),
        (Insert(6, b'x'), Done),
        (Truncate(9), Done),
        (PushStr(""), Done),
        (Upper, Done),
        (Copy(Range::Full), Text("ADEFBCX")),
        (Lower, Done),
        (Remove(1), Char(Some(b'd'))),
        (Set(1, b'Z'), Done),
        (Copy(Range::Full), Text("aZfbcx")),
        (Clear, Done),
        (Push(b'y'), Done),
        (Reserve(30), Done),
        (Shrink, Done),
        (Pop, Char(Some(b'y'))),
        (Pop, Char(None)),
    ];
    let (cmds, replies): (Vec<Cmd>, Vec<Reply>) = each_edit.into_iter().unzip();
    ask(rows, "", &cmds, &replies, "");
}

/// Lists of 19 to 218 commands at random, against std's `Vec`.
fn of_every_kind(rows: &mut Rows) {
    for number in 0..200 {
        for is_small in [false, true] {
            rows.ask(|asked| {
                let count = 19 + number as usize;
                ask_edits(is_small, b"Some".to_vec(), count, &mut Random::new(number), asked);
            });
        }
    }
}

fn many_commands(rows: &mut Rows) {
    let (long, cmds) = ("a".repeat(5_000), commands_of(&[Push(b'a'); 5_000]));
    rows.ask(|asked| {
        calls::ask_edits(asked, false, b"", &cmds.texts, &cmds.steps);
        asked.want.times(5_000, "done");
        asked.want.put(&long);
        expect_failures(false, b"", &cmds, asked);
    });
    let mut cmds = Steps::default();
    cmds.add_text(3, 1, long.as_bytes());
    cmds.steps.push(copy_of(Range::Full));
    rows.ask(|asked| {
        calls::ask_edits(asked, false, long.as_bytes(), &cmds.texts, &cmds.steps);
        asked.want.put("done");
        asked.want.times(2, long.repeat(2));
        expect_failures(false, long.as_bytes(), &cmds, asked);
    });
}

/// Commands over an empty string with a capacity, and the capacity after each; and a text of each length that has just room,
/// twice the room, just room again and twice the room again.
fn reserved_and_shrunk(rows: &mut Rows) {
    let grown = commands_of(&[Push(b'x'), Reserve(10_000), Shrink]);
    let mut cleared = commands_of(&[&[Push(b'a'); 10][..], &[Clear, PushStr("ab"), Reserve(100), Shrink]].concat());
    // An exact reservation.
    cleared.add(19, 3, 0);
    for (capacity, cmds, after) in [(1, &grown, &[1, 10_001, 1][..]), (10, &cleared, &[10, 10, 10, 10, 10, 10, 10, 10, 10, 10, 10, 10, 102, 2, 5])] {
        rows.ask(|asked| {
            ask_capacities(capacity, cmds, asked);
            let modelled = std::mem::take(&mut asked.want.bytes);
            asked.want.put(capacity);
            asked.want.all(after.iter().map(|capacity| ("done", capacity)));
            assert!(asked.want.bytes == modelled, "the model differs from the row");
        });
    }
    for text in LENGTHS.map(|length| "a".repeat(length)) {
        let cmds = Steps::of([(1, 0, text.as_str()), (11, text.len(), ""), (12, 0, ""), (19, text.len(), "")]);
        rows.ask(|asked| ask_capacities(text.len(), &cmds, asked));
    }
}

/// What the mode `Edit` answers over a text and over the end of it.
fn ask_mode(rows: &mut Rows, source: &str, cmds: &Steps, runs: [Run<'_>; 2]) {
    rows.ask(|asked| ask_runs((7, &[], cmds), source.as_bytes(), (&WHOLE, &WHOLE), runs, asked));
}

fn edits_of_the_engine(rows: &mut Rows) {
    let (stops, writes) = (Run::Rejects("position", 1), |text: &'static str| Run::Writes(text.as_bytes()));
    ask_mode(rows, "abc", &commands_of(&[Pop, Remove(2), Set(9, b'x')]), [stops, stops]);
    ask_mode(rows, "ab", &commands_of(&[Reserve(usize::MAX - 2), Remove(2)]), [Run::Memory, Run::Memory]);
    ask_mode(rows, "ab", &commands_of(&[Push(b'x'), Truncate(9), Upper]), [writes("ABX"), writes("X")]);
    ask_mode(rows, "ab", &Steps::default(), [writes("ab"), writes("")]);
    for count in [1_000, 100_000] {
        let mut cmds = commands_of(&vec![Push(b'b'); count]);
        let text = "b".repeat(count);
        ask_mode(rows, "", &cmds, [Run::Writes(text.as_bytes()); 2]);
        cmds.add(4, count, 0);
        let stops = Run::Rejects("position", count);
        ask_mode(rows, "", &cmds, [stops, stops]);
    }
}
