//! Copies, conversions and growths, by std and by plain loops.

use super::edits::{random_commands, Edited, INLINE};
use super::{allocating, Kind};
use crate::asked::{Answer, Asked, Failed, Needs};
use crate::calls::{self, Steps};
use crate::heap::{Fails, ONE};

pub static KINDS: &[Kind] = &[
    allocating("copies", |random, asked| ask_copies(&random.text(), asked)),
    allocating("conversions that return the source", |random, asked| ask_turned(&random.text(), asked)),
    allocating("strings extended by characters", |random, asked| ask_extended(ONE, random.room(), &random.text(), asked)),
    allocating("edits by which a string grows", |random, asked| ask_growths(random.below(3) as u8, &random.text(), asked)),
    allocating("texts formatted into a string", |random, asked| {
        ask_formatted(&random.text(), &random.short_text(), &random.short_text(), asked)
    }),
    allocating("runs over both strings", |random, asked| {
        let source = random.text();
        let count = random.count(12);
        let commands = random_commands(&source, count, random);
        ask_both_runs(&source, &commands, asked);
    }),
];

pub fn ask_copies(text: &[u8], asked: &mut Asked) {
    calls::ask_copies(asked, text);
    let want = &mut asked.want;
    want.put(text);
    // Characters are appended one by one if the allocation for all that were gathered fails.
    want.absorbs(Needs::memory_if(!text.is_empty()));
    (0..2).for_each(|_| want.copy(text));
    // A shared text is in an allocation also if it is empty.
    want.allocated(Needs::Memory, text);
    // The copy of an inline string, and the string.
    let (long, start) = (Needs::memory_if(text.len() > INLINE), want.bytes.len());
    want.put((text, text));
    want.fails(long, start, Failed);
    want.fails(long, start, (Failed, text));
}

/// A conversion of an owned text: if there is no memory for the text, it is not asked for, and otherwise the text is
/// returned.
fn expect_turned(text: &[u8], copy: Needs, conversion: Needs, want: &mut Answer, put: impl FnOnce(&mut Answer)) {
    let start = want.bytes.len();
    put(want);
    want.fails(copy, start, Failed);
    want.fails(conversion, start, (Failed, text));
}

pub fn ask_turned(text: &[u8], asked: &mut Asked) {
    calls::ask_turned(asked, text);
    let want = &mut asked.want;
    let (some, none) = (Needs::memory_if(!text.is_empty()), Needs::Nothing);
    let put = |want: &mut Answer| want.put(text);
    expect_turned(text, some, some, want, |want| want.all(text));
    expect_turned(text, some, Needs::Memory, want, put);
    expect_turned(text, none, some, want, put);
    expect_turned(text, some, none, want, put);
    expect_turned(text, some, none, want, put);
    // An inline text that is not in an allocation has to be copied.
    let (long, short) = (text.len() > INLINE, (1..=INLINE).contains(&text.len()));
    expect_turned(text, Needs::memory_if(long), Needs::memory_if(short), want, put);
}

/// Allocations that are counted, and of which some fail.
struct Memory {
    count: u64,
    fails: Fails,
    first: u64,
}

/// A string that is extended by characters.
struct Extended {
    bytes: Vec<u8>,
    memory: Memory,
}

/// How many characters are gathered before they are appended at once.
const GATHERED: usize = 64;

impl Extended {
    /// Makes room for some more bytes, or returns `false`.
    fn reserve(&mut self, additional: usize, reserve: fn(&mut Vec<u8>, usize)) -> bool {
        if self.bytes.capacity() - self.bytes.len() >= additional {
            return true;
        }
        let memory = &mut self.memory;
        memory.count += 1;
        let is_there = !memory.fails.has(memory.first, memory.count - 1);
        if is_there {
            reserve(&mut self.bytes, additional);
        }
        is_there
    }

    fn push(&mut self, byte: u8) -> bool {
        let is_first = self.bytes.capacity() == 0;
        let is_there = if is_first { self.reserve(24, Vec::reserve_exact) } else { self.reserve(1, Vec::reserve) };
        if is_there {
            self.bytes.push(byte);
        }
        is_there
    }

    /// Appends the characters of a text. Those that were gathered are appended one by one if there is no memory for
    /// all.
    fn extend(&mut self, text: &[u8]) -> bool {
        text.chunks(GATHERED).all(|codes| {
            if self.reserve(codes.len(), Vec::reserve) {
                self.bytes.extend(codes);
                return true;
            }
            codes.iter().all(|code| self.push(*code))
        })
    }
}

/// Asks for a string with a capacity that is extended by a text, while some allocations fail.
pub fn ask_extended(fails: Fails, capacity: usize, text: &[u8], asked: &mut Asked) {
    calls::ask_extended(asked, capacity, text);
    let run = |first: u64, want: &mut Answer| put_extended(capacity, text, Memory { count: 0, fails, first }, want);
    let want = &mut asked.want;
    for first in 0..run(u64::MAX, want) {
        want.fails_by(Needs::Memory, 0, |want| {
            run(first, want);
        });
    }
}

/// Writes what a string with a capacity and one without are extended to, and returns the number of allocations.
fn put_extended(capacity: usize, text: &[u8], memory: Memory, want: &mut Answer) -> u64 {
    let mut string = Extended { bytes: Vec::new(), memory };
    if string.reserve(capacity, Vec::reserve_exact) {
        want.put((string.extend(text), &string.bytes, string.bytes.len() == string.bytes.capacity()));
    } else {
        want.put(Failed);
    }
    string.bytes = Vec::new();
    match string.extend(text) {
        true => want.put(&string.bytes),
        false => want.put(Failed),
    }
    string.memory.count
}

/// The edits by which a string grows: what each puts before a text and after it, and the room that it asks for.
static GROWTHS: [(&str, &str, usize); 13] = [
    ("", "y", 0),
    ("", "ww", 0),
    ("", "42", 0),
    ("", "xy", 0),
    ("", "0a", 0),
    ("w", "", 0),
    ("ww", "", 0),
    ("ww", "", 0),
    ("", "ww", 0),
    ("", "yy", 0),
    ("", "y", 0),
    ("", "", 100),
    ("", "", 100),
];

/// The capacity of a string that does not allocate.
pub const CAPACITY: usize = 100;

/// Asks for each edit of a text of at most 100 characters, and for a character that is then appended. Of a string for form 0, an
/// inline string for form 1, and otherwise of one that has `CAPACITY`.
pub fn ask_growths(form: u8, text: &[u8], asked: &mut Asked) {
    let text = &text[..text.len().min(CAPACITY)];
    calls::ask_growths(asked, form, text);
    let is_small = form == 1;
    for (before, after, room) in GROWTHS {
        let edited = [before.as_bytes(), text, after.as_bytes()].concat();
        let (needed, want) = (edited.len() + room, &mut asked.want);
        if form > 1 {
            let is_edited = needed <= CAPACITY;
            let edited = if is_edited { &edited } else { text };
            put_growth(is_edited, edited, edited.len() < CAPACITY, want);
            continue;
        }
        let start = want.bytes.len();
        put_growth(true, &edited, true, want);
        want.fails(Needs::memory_if(text.len() > if is_small { INLINE } else { 0 }), start, Failed);
        // The capacity of a string that has grown is not known.
        let (growth, last) = match is_small {
            false => (Needs::Memory, Needs::Perhaps),
            true if needed <= INLINE => (Needs::Nothing, Needs::memory_if(edited.len() >= INLINE)),
            true if text.len() <= INLINE => (Needs::Memory, Needs::Perhaps),
            true => (Needs::Perhaps, Needs::Perhaps),
        };
        want.fails_by(growth, start, |want| put_growth(false, text, true, want));
        want.fails_by(last, start, |want| put_growth(true, &edited, false, want));
    }
}

/// Whether a string was edited, its text then, and whether a character is appended.
fn put_growth(is_edited: bool, text: &[u8], is_appended: bool, want: &mut Answer) {
    want.put((is_edited, text, is_appended, [text, if is_appended { &b"z"[..] } else { b"" }].concat()));
}

/// The pieces before the one that there is no memory for have been written.
pub fn ask_formatted(text: &[u8], first: &[u8], second: &[u8], asked: &mut Asked) {
    calls::ask_formatted(asked, text, first, second);
    let (mut string, mut growths) = (text.to_vec(), Vec::new());
    for piece in [first, b"-", second] {
        if string.capacity() - string.len() < piece.len() {
            growths.push(string.len());
        }
        string.extend(piece);
    }
    let want = &mut asked.want;
    want.put((true, &string));
    want.fails(Needs::memory_if(!text.is_empty()), 0, Failed);
    for length in growths {
        want.fails(Needs::Memory, 0, (false, &string[..length]));
    }
}

/// Asks for a run over a string and over an inline one. If there is no memory for a string or for a list of replies,
/// nothing else is answered.
pub fn ask_both_runs(source: &[u8], commands: &Steps, asked: &mut Asked) {
    calls::ask_both_runs(asked, source, &commands.texts, &commands.steps);
    let (string, small) = (Edited::new(source, false), Edited::new(source, true));
    let (lets_fail, want) = (asked.lets_fail, &mut asked.want);
    let run = |number: usize, of_small: usize, want: &mut Answer| {
        (string.clone().run(commands, number, want), small.clone().run(commands, of_small, want))
    };
    let (needs, of_small) = run(usize::MAX, usize::MAX, want);
    let list = Needs::memory_if(!commands.steps.is_empty());
    let long = Needs::memory_if(source.len() > INLINE);
    for needs in [list, Needs::memory_if(!source.is_empty()), long, list] {
        want.fails(needs, 0, Failed);
    }
    if lets_fail {
        for (number, needs) in needs.iter().enumerate() {
            want.fails_by(*needs, 0, |want| drop(run(number, usize::MAX, want)));
        }
        want.fails(list, 0, Failed);
        for (number, needs) in of_small.iter().enumerate() {
            want.fails_by(*needs, 0, |want| drop(run(usize::MAX, number, want)));
        }
    }
}
