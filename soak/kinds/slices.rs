//! Parts of bytes, texts and views, by std's `get`.

use super::{kind, Kind};
use crate::asked::Asked;
use crate::calls::{self, Step};
use crate::random::Random;

pub static KINDS: &[Kind] = &[
    // The view of a source, or the position of the error.
    kind("views", |random, asked| ask_views(&mut source(random), asked)),
    kind("slices", |random, asked| {
        let (form, source) = (random.below(6), source(random));
        let (a, b) = random.places(source.len());
        ask_parts(form, a, b, &source, asked);
    }),
    kind("mutable slices", |random, asked| {
        let (form, source) = (random.below(6), random.bytes());
        let (a, b) = random.places(source.len());
        ask_part_mut(form, a, b, random.code_of(b""), source, asked);
    }),
    kind("positions", |random, asked| {
        let source = source(random);
        ask_position(random.place(source.len()), &source, asked);
    }),
    kind("views that are not checked", |random, asked| ask_unchecked(random.text(), asked)),
    kind("sources equal to a text", |random, asked| {
        let text = random.text();
        let other = if random.below(2) == 0 { random.unicode() } else { random.other(&text) };
        ask_equal_sources(&text, &other, asked);
    }),
    kind("ranges", |random, asked| {
        let (form, length) = (random.below(6), random.length());
        let (a, b) = random.places(length);
        ask_range(form, a, b, length, bounds(form, a, b, length), asked);
    }),
];

/// The bounds of a range in one of the six forms, if it fits.
pub fn bounds(form: usize, a: usize, b: usize, length: usize) -> Option<(usize, usize)> {
    let (start, end) = match form {
        0 => (0, length),
        1 => (a, length),
        2 => (0, b),
        3 => (a, b),
        4 => (a, b.checked_add(1)?),
        _ => (0, b.checked_add(1)?),
    };
    (start <= end && end <= length).then_some((start, end))
}

pub fn non_ascii(bytes: &[u8]) -> Option<usize> {
    bytes.iter().position(|byte| !byte.is_ascii())
}

pub fn source(random: &mut Random) -> Vec<u8> {
    if random.below(3) == 0 {
        random.unicode()
    } else {
        random.bytes()
    }
}

pub fn ask_views(source: &mut [u8], asked: &mut Asked) {
    calls::ask_views(asked, source);
    let times = if std::str::from_utf8(source).is_ok() { 4 } else { 2 };
    asked.want.times(times, part_of(source, Some((0, source.len()))));
    let mut want = source.to_vec();
    if source.is_ascii() {
        want.make_ascii_uppercase();
    }
    calls::ask_view_mut(asked, source);
    asked.want.put(part_of(&want, Some((0, want.len()))));
    asked.compare(source, &want);
}

/// The part of a source with these bounds, if they fit, or the position of the error.
fn part_of(source: &[u8], bounds: Option<(usize, usize)>) -> Result<&[u8], usize> {
    let (start, end) = bounds.ok_or(source.len())?;
    let part = &source[start..end];
    non_ascii(part).map_or(Ok(part), |at| Err(start + at))
}

/// The part in a range of one of the six forms.
pub fn ask_parts(form: usize, a: usize, b: usize, source: &[u8], asked: &mut Asked) {
    calls::ask_slices(asked, form as u8, a, b, source);
    let bounds = bounds(form, a, b, source.len());
    // As bytes, as a `str`, as a view, and as a view that is known to have the part.
    let ascii = source.is_ascii();
    let times = 1 + usize::from(std::str::from_utf8(source).is_ok()) + usize::from(ascii);
    asked.want.times(times + usize::from(ascii && bounds.is_some()), part_of(source, bounds));
}

/// A part that is changed to lower case, and whose first character is set, in a source whose other bytes are unchanged.
pub fn ask_part_mut(form: usize, a: usize, b: usize, code: u8, mut source: Vec<u8>, asked: &mut Asked) {
    let mut want = source.clone();
    calls::ask_slice_mut(asked, form as u8, a, b, code, &mut source);
    let bounds = bounds(form, a, b, want.len());
    if let (Ok(_), Some((start, end))) = (part_of(&want, bounds), bounds) {
        want[start..end].make_ascii_lowercase();
        want[start..end].iter_mut().take(1).for_each(|first| *first = code);
    }
    asked.want.put(part_of(&want, bounds));
    asked.compare(&source, &want);
}

/// The character at a position.
pub fn ask_position(at: usize, source: &[u8], asked: &mut Asked) {
    calls::ask_position(asked, at, source);
    let (code, want) = (source.get(at).filter(|byte| byte.is_ascii()), &mut asked.want);
    want.times(1 + usize::from(std::str::from_utf8(source).is_ok()), code);
    if source.is_ascii() {
        want.put((code, source.first(), source.last()));
        want.all(code);
    }
}

/// Views of a text that are not checked; the last one makes it lower case.
pub fn ask_unchecked(mut text: Vec<u8>, asked: &mut Asked) {
    calls::ask_unchecked_views(asked, &text);
    asked.want.times(6, &text);
    asked.want.put((text.len(), text.is_empty()));
    let want = text.to_ascii_lowercase();
    calls::ask_unchecked_view_mut(asked, &mut text);
    asked.want.put(&want);
    asked.compare(&text, &want);
}

/// Whether bytes, and a `str` if they are UTF-8, are those of a text.
pub fn ask_equal_sources(text: &[u8], other: &[u8], asked: &mut Asked) {
    calls::ask_equal_sources(asked, text, other);
    let times = 1 + usize::from(std::str::from_utf8(other).is_ok());
    asked.want.times(times, text == other);
}

/// Whether a range fits a length, and its bounds if it does.
pub fn ask_range(form: usize, a: usize, b: usize, length: usize, expected: Option<(usize, usize)>, asked: &mut Asked) {
    calls::ask_ranges(asked, &[Step { kind: 0, code: form as u8, at: length, start: a, end: b }]);
    asked.want.put(expected.is_some());
    asked.want.all(expected);
}
