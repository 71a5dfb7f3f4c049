//! Classes, and characters that are kept, by std or by plain loops.

use super::characters::is_white;
use super::walks::{pieces_by, put_both, walk, walk_words, words_of};
use super::{allocating, kind, long, Kind};
use crate::asked::{Answer, Asked, Needs};
use crate::calls;
use crate::random::Random;

pub static KINDS: &[Kind] = &[
    long("classes, their runs and words", 2, class),
    kind("marks of several bytes", |random, asked| ask_marks(&random.bytes(), asked)),
    allocating("characters kept", |random, asked| {
        let text = random.text();
        ask_retain(random.code_of(&text), &text, asked);
    }),
];

/// The classes, in the order of `ask_class`.
pub const CLASSES: [fn(u8) -> bool; 20] = [
    |byte| byte.is_ascii(),
    is_white,
    |byte| byte.is_ascii_uppercase(),
    |byte| byte.is_ascii_lowercase(),
    |byte| byte.is_ascii_alphabetic(),
    |byte| byte.is_ascii_digit(),
    |byte| byte.is_ascii_alphanumeric(),
    |byte| byte.is_ascii_hexdigit(),
    |byte| matches!(byte, 9 | 32),
    |byte| byte.is_ascii_whitespace(),
    |byte| byte.is_ascii_control(),
    |byte| byte.is_ascii_graphic(),
    |byte| matches!(byte, 32..=126),
    |byte| byte.is_ascii_punctuation(),
    is_token,
    |byte| byte.is_ascii_alphanumeric() || byte == b'-',
    |byte| byte.is_ascii_alphanumeric() || byte == b'_',
    |byte| byte == 9 || matches!(byte, 32..=126),
    |byte| (byte == 9 || matches!(byte, 32..=126)) && !matches!(byte, b'"' | b'\\'),
    |byte| byte.is_ascii_alphanumeric() || b"!#$%&'*+-/=?^_`{|}~".contains(&byte),
];

pub fn is_token(byte: u8) -> bool {
    byte.is_ascii_alphanumeric() || b"!#$%&'*+-.^_`|~".contains(&byte)
}

pub fn class(random: &mut Random, asked: &mut Asked) {
    let class = random.below(CLASSES.len()) as u8;
    let mut source = match random.below(4) {
        0 => (0..=255).collect(),
        1 => random.bytes(),
        _ => random.text(),
    };
    if random.once_in(2) {
        // A long run in the class, so that a search goes on.
        let of_class: Vec<u8> = (0..=255).filter(|byte| CLASSES[usize::from(class)](*byte)).collect();
        let length = random.length();
        let at = random.place(source.len()).min(source.len());
        source.splice(at..at, (0..length).map(|_| *random.pick(&of_class)));
    }
    // So that the small cases have every class.
    let script = if random.is_small() { vec![0, 2, 1, 3] } else { random.script(4) };
    ask_class(class, &source, &script, asked);
}

pub fn ask_class(class: u8, source: &[u8], script: &[u8], asked: &mut Asked) {
    calls::ask_class(asked, class, source, script);
    class_answers(class, source, script, &mut asked.want);
}

/// The number of the class of digits.
pub const DIGIT: u8 = 5;

pub fn class_answers(class: u8, source: &[u8], script: &[u8], want: &mut Answer) {
    let is_in = CLASSES[usize::from(class)];
    source.iter().for_each(|byte| want.put(is_in(*byte)));
    let first = source.iter().position(|byte| !is_in(*byte));
    let last = source.iter().rposition(|byte| !is_in(*byte));
    want.put((first, last));
    let member = source.iter().position(|byte| is_in(*byte));
    let last_member = source.iter().rposition(|byte| is_in(*byte));
    want.put((member, last_member, member.unwrap_or(source.len()), last_member.map_or(0, |at| at + 1)));
    if source.is_ascii() {
        text_answers(is_in, source, script, want);
    }
}

/// What a text of ASCII codes has of a class.
fn text_answers(is_in: fn(u8) -> bool, text: &[u8], script: &[u8], want: &mut Answer) {
    let first = text.iter().position(|byte| !is_in(*byte));
    want.put((first, first.is_none()));
    let start = first.unwrap_or(text.len());
    let end = text.iter().rposition(|byte| !is_in(*byte)).map_or(0, |last| last + 1);
    want.put((&text[..start], &text[start..]));
    let member = text.iter().position(|byte| is_in(*byte));
    want.put((member, member.map(|at| (&text[..at], &text[at + 1..]))));
    want.put((&text[start.min(end)..end], &text[start..], &text[..end]));
    put_both(walk_words(text, words_of(text, is_in), script), want);
    put_both(walk_words(text, words_of(text, |byte| !is_in(byte)), script), want);
    put_both(walk(text, pieces_by(text, is_in), script), want);
}

/// For each position, the marks of digits, of the codes of a token and of whitespace: a bit for each byte that is none.
pub fn ask_marks(source: &[u8], asked: &mut Asked) {
    calls::ask_marks(asked, source);
    let tests: [fn(u8) -> bool; 3] = [|byte| byte.is_ascii_digit(), is_token, is_white];
    for (at, is_in) in (0..source.len()).flat_map(|at| tests.map(|test| (at, test))) {
        for width in [4, 8] {
            if let Some(bytes) = source.get(at..at + width) {
                let marked = |mark: usize, lane: usize| mark | usize::from(!is_in(bytes[lane])) << lane;
                asked.want.put((0..width).fold(0, marked));
            }
        }
    }
}

pub fn ask_retain(code: u8, text: &[u8], asked: &mut Asked) {
    calls::ask_retain(asked, code, text);
    let kept: Vec<u8> = text.iter().copied().filter(|other| *other != code).collect();
    asked.want.allocated(Needs::memory_if(!text.is_empty()), (kept.is_empty(), kept));
}
