//! The calls of the library for C, with the signatures of `ascii.h`, by std and plain loops.

use super::slices::{non_ascii, source};
use super::{kind, Kind};
use crate::asked::{passed, passed_mut, Asked, Put, Shown};

extern "C" {
    fn ascii_first_other(bytes: *const u8, length: usize) -> usize;
    fn ascii_accepts_part(source: *const u8, length: usize, start: usize, end: usize, place: *mut usize) -> bool;
    fn ascii_to_upper(bytes: *mut u8, length: usize);
    fn ascii_to_lower(bytes: *mut u8, length: usize);
    fn ascii_equal_ignoring_case(first: *const u8, first_length: usize, second: *const u8, second_length: usize) -> bool;
    fn ascii_find(text: *const u8, length: usize, needle: *const u8, needle_length: usize) -> usize;
    fn ascii_find_ignoring_case(text: *const u8, length: usize, needle: *const u8, needle_length: usize) -> usize;
    fn ascii_trim_start(bytes: *const u8, length: usize) -> usize;
    fn ascii_trim_end(bytes: *const u8, length: usize) -> usize;
    fn ascii_next_line(text: *const u8, length: usize, next: *mut usize) -> usize;
}

pub static KINDS: &[Kind] = &[
    kind("C: texts", |random, asked| ask_text(source(random), asked)),
    kind("C: two texts", |random, asked| {
        let text = source(random);
        let needle = random.needle(&text);
        let needle = if random.below(2) == 0 { random.other(&needle) } else { needle };
        ask_two(&text, &needle, asked);
    }),
    kind("C: parts", |random, asked| {
        let source = source(random);
        let (start, end) = random.places(source.len());
        ask_part(&source, start, end, asked);
    }),
];

/// The answer of a call, and what is expected.
fn answered(asked: &mut Asked, call: &str, arguments: &[&[u8]], got: impl Put, want: impl Put) {
    if let Some(calls) = &mut asked.calls {
        let arguments: Vec<String> = arguments.iter().map(|it| it.shown()).collect();
        calls.push(format!("{call}({})", arguments.join(", ")));
    }
    asked.compare(&got, &want);
}

fn is_whitespace(byte: &u8) -> bool {
    b" \t\n\x0b\x0c\r".contains(byte)
}

/// What is asked of one text; the last two calls change it.
fn ask_text(mut text: Vec<u8>, asked: &mut Asked) {
    let length = text.len();
    let first = text.iter().position(|it| !is_whitespace(it)).unwrap_or(length);
    let end = text.iter().rposition(|it| !is_whitespace(it)).map_or(0, |last| last + 1);
    let wants = [non_ascii(&text).unwrap_or(length), first, end];
    let (lines, upper, lower) = (lines_of(&text), text.to_ascii_uppercase(), text.to_ascii_lowercase());
    let given = passed(&text, asked.is_planted);
    let (at, size) = (given.as_ptr(), given.len());
    let gots = unsafe { [ascii_first_other(at, size), ascii_trim_start(at, size), ascii_trim_end(at, size)] };
    for ((call, got), want) in ["ascii_first_other", "ascii_trim_start", "ascii_trim_end"].iter().zip(gots).zip(wants) {
        answered(asked, call, &[&given], got, want);
    }
    let walked = walked(&given);
    asked.compare(&walked.len(), &lines.len());
    for (got, want) in walked.into_iter().zip(lines) {
        answered(asked, "ascii_next_line", &[&given], got, want);
    }
    let changed = passed_mut(&mut text, asked.is_planted);
    unsafe { ascii_to_upper(changed.as_mut_ptr(), changed.len()) };
    answered(asked, "ascii_to_upper", &[], &text, upper);
    let changed = passed_mut(&mut text, asked.is_planted);
    unsafe { ascii_to_lower(changed.as_mut_ptr(), changed.len()) };
    answered(asked, "ascii_to_lower", &[], &text, lower);
}

/// The lines of a text, each as the length of its body and where the next one starts, by the call.
fn walked(text: &[u8]) -> Vec<(usize, usize)> {
    let (mut lines, mut at) = (Vec::new(), 0);
    while at < text.len() {
        let mut next = 0;
        let body = unsafe { ascii_next_line(text[at..].as_ptr(), text.len() - at, &mut next) };
        lines.push((body, at + next));
        if next == 0 {
            break;
        }
        at += next;
    }
    lines
}

/// The same, by std.
fn lines_of(text: &[u8]) -> Vec<(usize, usize)> {
    let mut at = 0;
    let each = text.split_inclusive(|byte| *byte == b'\n').map(|line| {
        at += line.len();
        let body = line.strip_suffix(b"\n").map_or(line, |body| body.strip_suffix(b"\r").unwrap_or(body));
        (body.len(), at)
    });
    each.collect()
}

/// What is asked of a text and a needle.
fn ask_two(text: &[u8], needle: &[u8], asked: &mut Asked) {
    let (low, lower) = (text.to_ascii_lowercase(), needle.to_ascii_lowercase());
    let wants = [found(text, needle), found(&low, &lower)];
    let given = passed(text, asked.is_planted);
    let (at, size, part, part_size) = (given.as_ptr(), given.len(), needle.as_ptr(), needle.len());
    let gots = unsafe { [ascii_find(at, size, part, part_size), ascii_find_ignoring_case(at, size, part, part_size)] };
    for ((call, got), want) in ["ascii_find", "ascii_find_ignoring_case"].iter().zip(gots).zip(wants) {
        answered(asked, call, &[&given, needle], got, want);
    }
    let equal = unsafe { ascii_equal_ignoring_case(at, size, part, part_size) };
    answered(asked, "ascii_equal_ignoring_case", &[&given, needle], equal, low == lower);
}

/// The first position of a needle in a text, or the length of the text.
fn found(text: &[u8], needle: &[u8]) -> usize {
    (0..=text.len()).find(|at| text[*at..].starts_with(needle)).unwrap_or(text.len())
}

/// Whether a part of a source is accepted, and the position that is set if not.
fn ask_part(source: &[u8], start: usize, end: usize, asked: &mut Asked) {
    let unset = usize::MAX;
    let want = match source.get(start..end) {
        Some(part) => non_ascii(part).map_or((true, unset), |at| (false, start + at)),
        None => (false, source.len()),
    };
    let (given, mut place) = (passed(source, asked.is_planted), unset);
    let accepted = unsafe { ascii_accepts_part(given.as_ptr(), given.len(), start, end, &mut place) };
    answered(asked, &format!("ascii_accepts_part {start} {end}"), &[&given], (accepted, place), want);
}
