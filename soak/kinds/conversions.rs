//! Texts made out of other values and turned into them, by std.

use super::edits::INLINE;
use super::slices::{non_ascii, source};
use super::{allocating, Kind};
use crate::asked::{Answer, Asked, Failed, Needs};
use crate::calls;
use crate::random::Random;

pub static KINDS: &[Kind] = &[
    allocating("conversions", |random, asked| ask_all(&source(random), asked)),
    allocating("round trips", |random, asked| ask_round_trips(&random.text(), asked)),
    allocating("pieces written", |random, asked| ask_written(&random.text(), &random.unicode(), asked)),
    allocating("characters written", |random, asked| {
        let (text, ch) = (random.text(), any_character(random));
        ask_character_written(ch, &text, asked);
    }),
    allocating("collected texts", |random, asked| {
        let text = random.text();
        ask_collected(random.code_of(&text), &text, &random.text(), asked);
    }),
    allocating("strings cut in two", |random, asked| {
        let text = random.text();
        ask_split_off(random.place(text.len()), &text, asked);
    }),
];

/// A copy and an owned source are each the text, or the position of the error and the source that is returned.
pub fn ask_all(source: &[u8], asked: &mut Asked) {
    calls::ask_conversions(asked, source);
    let times = if std::str::from_utf8(source).is_ok() { 2 } else { 1 };
    let text = non_ascii(source).map_or(Ok(source), |at| Err((at, source)));
    let is_copied = text.is_ok() && !source.is_empty();
    for _ in 0..times {
        // A source is tested before it is copied.
        asked.want.allocated(Needs::memory_if(is_copied), text);
        asked.want.allocated(Needs::memory_if(!source.is_empty()), text);
    }
}

pub fn ask_round_trips(text: &[u8], asked: &mut Asked) {
    calls::ask_round_trips(asked, text);
    let (want, some) = (&mut asked.want, Needs::memory_if(!text.is_empty()));
    (0..3).for_each(|_| want.copy(text));
    let start = want.bytes.len();
    want.put((text, text));
    want.fails(some, start, Failed);
    // The copy of the string fails, and the string is printed.
    want.fails(some, start, (Failed, text));
    text.iter().take(1).for_each(|code| want.copy([*code]));
}

/// Whether a piece is appended to a text, and the text after that. What the text and the piece need of memory depends
/// on the type of the string.
fn appended(text: &[u8], piece: &[u8], copy: Needs, growth: Needs, want: &mut Answer) {
    let start = want.bytes.len();
    let (is_ascii, piece) = (piece.is_ascii(), if piece.is_ascii() { piece } else { b"" });
    want.put((is_ascii, [text, piece].concat()));
    want.fails(copy, start, Failed);
    let growth = if piece.is_empty() { Needs::Nothing } else { growth };
    want.fails(growth, start, (false, text));
}

pub fn ask_written(text: &[u8], piece: &[u8], asked: &mut Asked) {
    calls::ask_written(asked, text, piece);
    let (some, long) = (Needs::memory_if(!text.is_empty()), Needs::memory_if(text.len() > INLINE));
    appended(text, piece, some, Needs::Memory, &mut asked.want);
    // The capacity of an inline string that is in an allocation is not known.
    let growth = match text.len() + piece.len() {
        ..=INLINE => Needs::Nothing,
        _ if text.len() > INLINE => Needs::Perhaps,
        _ => Needs::Memory,
    };
    appended(text, piece, long, growth, &mut asked.want);
}

/// A character of ASCII or of a length of 1 to 4 bytes.
pub fn any_character(random: &mut Random) -> char {
    let most = *random.pick(&[128, 256, 0x2000, 0x11_0000]);
    let near = *random.pick(&[126, 127, 128, 129]);
    let number = if random.below(4) == 0 { near } else { random.below(most) as u32 };
    char::from_u32(number).unwrap_or('x')
}

pub fn ask_character_written(ch: char, text: &[u8], asked: &mut Asked) {
    calls::ask_character_written(asked, ch as u32, text);
    let some = Needs::memory_if(!text.is_empty());
    appended(text, ch.to_string().as_bytes(), some, Needs::Memory, &mut asked.want);
}

/// The pieces at a character collected, and then the lines appended.
pub fn ask_collected(code: u8, text: &[u8], first: &[u8], asked: &mut Asked) {
    calls::ask_collected(asked, code, text, first);
    let want = &mut asked.want;
    let pieces: Vec<&[u8]> = text.split(|other| *other == code).collect();
    let lines = super::walks::lines_of(text).into_iter().map(|line| line.text);
    let (mut collected, mut string) = (Vec::new(), first.to_vec());
    let growths = extend(&mut collected, pieces);
    want.put(&collected);
    growths.iter().for_each(|_| want.fails(Needs::Memory, 0, Failed));
    let start = want.bytes.len();
    let growths = extend(&mut string, lines);
    want.put((true, &string));
    want.fails(Needs::memory_if(!first.is_empty()), start, Failed);
    // The lines before the one that does not fit have been appended.
    for length in growths {
        want.fails(Needs::Memory, start, (false, &string[..length]));
    }
}

/// Appends texts, each with room for it alone, as a string does; and returns the lengths at which it grew.
fn extend<'a>(string: &mut Vec<u8>, texts: impl IntoIterator<Item = &'a [u8]>) -> Vec<usize> {
    let mut growths = Vec::new();
    for text in texts {
        if string.capacity() - string.len() < text.len() {
            growths.push(string.len());
        }
        string.extend_from_slice(text);
    }
    growths
}

pub fn ask_split_off(at: usize, text: &[u8], asked: &mut Asked) {
    calls::ask_split_off(asked, at, text);
    let (want, some) = (&mut asked.want, Needs::memory_if(!text.is_empty()));
    let (before, after) = text.split_at(at.min(text.len()));
    if at <= text.len() {
        want.all([after, before, before, after]);
    }
    want.fails(some, 0, Failed);
    if at < text.len() {
        want.fails(Needs::Memory, 0, (Failed, text, before, after));
    }
}
