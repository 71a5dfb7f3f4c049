//! The modes of both engines, by plain loops.

use super::json_values::{json_codes, quoted};
use super::lines::{long_source, slow};
use super::slices::non_ascii;
use super::walks::{lines_of, take};
use super::{allocating, long, Kind};
use crate::asked::{items_of, Answer, Asked, Failed, Fault, Item, Needs};
use crate::calls::{self, Device, Steps, WHOLE};
use crate::random::Random;

pub static KINDS: &[Kind] = &[
    allocating("modes of the engine", |random, asked| {
        let (source, devices) = (random.bytes(), (slow(random), slow(random)));
        ask_mode(&source, devices, random, asked);
    }),
    long("modes of the bounded engine", 8, |random, asked| {
        let (source, devices) = (random.bytes(), (slow(random), slow(random)));
        ask_bounded_mode(&source, devices, random, asked);
    })
    .allocating(),
    long("engines that fail", 8, failing).allocating(),
    long("the engine over long inputs", 16_384, |random, asked| {
        let (source, devices) = (long_source(random), long_devices(random));
        ask_mode(&source, devices, random, asked);
    })
    .allocating(),
    long("the bounded engine over long inputs", 65_536, |random, asked| {
        let (source, devices) = (long_source(random), long_devices(random));
        ask_bounded_mode(&source, devices, random, asked);
    })
    .allocating(),
];

/// Asks for any mode of the engine.
fn ask_mode(source: &[u8], (reads, writes): (Device, Device), random: &mut Random, asked: &mut Asked) {
    let (mode, script) = (random.below(7), random.script(2));
    calls::ask_engine(asked, mode as u8, &script, source, &reads, &writes);
    asked.want.put(expected(mode, source, &script));
}

/// Asks for any mode of the bounded engine.
fn ask_bounded_mode(source: &[u8], (reads, writes): (Device, Device), random: &mut Random, asked: &mut Asked) {
    let mode = random.below(BOUNDED);
    calls::ask_bounded_engine(asked, mode as u8, source, &reads, &writes);
    asked.want.put(expected_bounded(mode, source));
}

fn caret(bytes: &[u8]) -> Vec<u8> {
    let mut out = Vec::new();
    for byte in bytes {
        match byte {
            b'\n' | 32..=126 => out.push(*byte),
            127 => out.extend(b"^?"),
            _ => out.extend([b'^', byte + 64]),
        }
    }
    out
}

/// The bodies of the lines, each with LF.
fn bodies(text: &[u8], is_backward: bool) -> Vec<u8> {
    let mut lines: Vec<_> = lines_of(text).into();
    if is_backward {
        lines.reverse();
    }
    lines.iter().flat_map(|line| [line.text, b"\n"].concat()).collect()
}

fn ends(text: &[u8], script: &[u8], with_starts: bool) -> Vec<u8> {
    let mut lines = lines_of(text);
    let mut out = Vec::new();
    for number in script {
        match take(&mut lines, *number) {
            Some(line) => {
                out.push(b'+');
                if with_starts {
                    out.extend(format!("{} {} ", line.start, line.ending()).bytes());
                }
                out.extend(line.text);
            }
            None => out.push(b'-'),
        }
        out.push(b'\n');
    }
    out
}

/// The output of a mode of the engine, by its number, over a text.
pub fn output(mode: usize, text: &[u8], script: &[u8]) -> Vec<u8> {
    match mode {
        0 => text.to_vec(),
        1 => bodies(text, false),
        2 => bodies(text, true),
        3 => caret(text),
        4 => ends(text, script, false),
        5 => ends(text, script, true),
        _ => quoted(text),
    }
}

/// What the engine is expected to return, and to write.
pub fn expected(mode: usize, source: &[u8], script: &[u8]) -> (Fault, Vec<u8>) {
    match non_ascii(source) {
        Some(at) => (Fault("ascii", Some(at)), Vec::new()),
        None => (Fault("done", None), output(mode, source, script)),
    }
}

/// The number of modes of the bounded engine. The last one takes all bytes.
pub const BOUNDED: usize = 7;

fn takes_all(mode: usize) -> bool {
    mode == BOUNDED - 1
}

/// What a mode of the bounded engine has written when an error ends its input, or at the end.
pub fn bounded_output(mode: usize, text: &[u8], is_whole: bool) -> Vec<u8> {
    match mode {
        0 => text.to_vec(),
        2 => caret(text),
        3 if is_whole => quoted(text),
        3 => [b"\"".as_slice(), &json_codes(text)].concat(),
        4 => text.to_ascii_uppercase(),
        5 => text.to_ascii_lowercase(),
        6 => text.escape_ascii().to_string().into_bytes(),
        // An open line is closed.
        _ => bodies(text, false),
    }
}

/// What the bounded engine is expected to return, how many reads and writes have failed, and what it writes.
pub fn expected_bounded(mode: usize, source: &[u8]) -> (Fault, usize, usize, Vec<u8>) {
    let at = non_ascii(source).filter(|_| !takes_all(mode));
    let result = at.map_or(Fault("done", None), |at| Fault("ascii", Some(at)));
    (result, 0, 0, bounded_output(mode, &source[..at.unwrap_or(source.len())], at.is_none()))
}

/// A run of the engine: what it writes, or why it stops and what was written before.
#[derive(Clone, Copy)]
pub enum Run<'a> {
    Writes(&'a [u8]),
    /// An error of the text or of a command, and its position.
    Rejects(&'static str, usize),
    Memory,
    FailsToRead,
    FailsToWrite(&'a [u8]),
}

/// What two runs over the same devices are answered. Each write moves `most` bytes, or all that are left.
fn put_runs(runs: [Run<'_>; 2], most: usize, want: &mut Answer) {
    let (mut failures, mut calls, mut written) = ((0, 0), 0, Vec::new());
    for run in runs {
        // The writes, and after them the flush or the call that fails.
        let mut write = |part: &[u8]| {
            calls += part.len().div_ceil(most) + 1;
            written.extend(part);
        };
        match run {
            Run::Writes(part) => {
                write(part);
                want.put("done");
            }
            Run::FailsToWrite(part) => {
                write(part);
                want.put("write");
                failures.1 += 1;
            }
            Run::FailsToRead => {
                want.put("read");
                failures.0 += 1;
            }
            Run::Rejects(name, position) => want.put((name, position)),
            Run::Memory => want.put(Failed),
        }
        want.put(failures);
    }
    want.put((calls, written));
}

/// A mode by its number, and the script or the commands that it takes.
pub type Mode<'a> = (u8, &'a [u8], &'a Steps);

/// Asks for two runs over the same devices. With the mode 7 it carries out commands.
pub fn ask_runs(
    mode @ (number, script, commands): Mode<'_>,
    source: &[u8],
    (reads, writes): (&Device, &Device),
    runs: [Run<'_>; 2],
    asked: &mut Asked,
) {
    calls::ask_engine_runs(asked, number, script, &commands.texts, &commands.steps, source, reads, writes);
    put_runs(runs, writes.most, &mut asked.want);
    runs_fail(mode, source, (reads, writes), runs, &mut asked.want);
}

/// How much the engine reads at once.
const CHUNK: usize = 32_768;

/// If an allocation fails, that run writes nothing. The other one is over all of the text if nothing was read, and
/// otherwise over its end, if one read moves the text.
pub fn runs_fail(
    (_, script, commands): Mode<'_>,
    source: &[u8],
    (reads, writes): (&Device, &Device),
    [first, second]: [Run<'_>; 2],
    want: &mut Answer,
) {
    let moves_all = |device: &Device| device.fails == u64::MAX && device.empty == u64::MAX;
    if source.len() > CHUNK || reads.most < usize::MAX || !moves_all(reads) || !moves_all(writes) {
        want.has_other_failures = true;
        return;
    }
    want.fails(Needs::memory_if(!script.is_empty() || !commands.steps.is_empty()), 0, Failed);
    want.fails_by(Needs::Memory, 0, |want| put_runs([Run::Memory, first], writes.most, want));
    want.fails_by(Needs::Perhaps, 0, |want| put_runs([Run::Memory, second], writes.most, want));
    want.fails_by(Needs::Memory, 0, |want| put_runs([first, Run::Memory], writes.most, want));
}

/// Devices of which one fails: the answer is its error and a prefix of the output, which is empty if `engine` could
/// not read; if the bounded engine could not, it is what is written of exactly the bytes before. If the call that fails
/// is never made, all is as if none failed.
pub fn failing(random: &mut Random, asked: &mut Asked) {
    let is_bounded = random.below(2) == 0;
    let mode = random.below(if is_bounded { BOUNDED } else { 7 });
    let source = if is_bounded && takes_all(mode) { random.bytes() } else { random.text() };
    let is_read = random.below(2) == 0;
    let device = Device { most: 1 + random.below(8), fails: random.below(source.len() + 4) as u64, ..WHOLE };
    let (reads, writes) = if is_read { (device, WHOLE) } else { (WHOLE, device) };
    if is_bounded {
        calls::ask_bounded_engine(asked, mode as u8, &source, &reads, &writes);
        asked.want.put(expected_bounded(mode, &source));
    } else {
        calls::ask_engine(asked, mode as u8, &[0, 1, 1], &source, &reads, &writes);
        asked.want.put(expected(mode, &source, &[0, 1, 1]));
    }
    let whole = items_of(&asked.want.bytes);
    let (Some(Item::Text(all)), Some(Item::Text(out))) = (whole.last(), items_of(asked.got()).pop()) else { return };
    // The number of the call that reads the end, or of the flush at the end, if each call before moves `most` bytes.
    let calls = if is_read { source.len() } else { all.len() }.div_ceil(device.most) as u64;
    // The bounded engine flushes more than once.
    if device.fails > calls && !(is_bounded && !is_read && asked.differs()) {
        return;
    }
    asked.want = Answer::default();
    asked.want.put(if is_read { "read" } else { "write" });
    if is_bounded {
        asked.want.put((usize::from(is_read), usize::from(!is_read)));
    }
    if is_read && is_bounded {
        let given = source.len().min(device.most.saturating_mul(device.fails as usize));
        asked.want.put(bounded_output(mode, &source[..given], false));
        return;
    }
    let may_write = if is_read { out.is_empty() } else { all.starts_with(&out) };
    asked.want.put(if may_write { &out } else { &b"another prefix"[..] });
}

fn long_devices(random: &mut Random) -> (Device, Device) {
    let device = |random: &mut Random| Device { most: *random.pick(&[4093, 65_536, usize::MAX]), ..WHOLE };
    (device(random), device(random))
}
