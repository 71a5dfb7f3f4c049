//! Texts in another form, joined, repeated and filled-up texts, and edits of a range, by std or by plain loops.

use super::numbers::put_unchanged;
use super::slices::bounds;
use super::string;
use super::walks::take;
use super::{allocating, kind, Kind};
use crate::asked::{Answer, Asked, Failed, Needs, Put};
use crate::calls;
use crate::random::Random;
use std::collections::VecDeque;

pub static KINDS: &[Kind] = &[
    allocating("texts in another notation", |random, asked| {
        let (form, text, script) = (random.below(2) as u8, random.text(), random.script(4));
        let codes = text.iter().flat_map(|code| written(form, *code)).collect();
        ask_notation(form, &text, codes, &script, asked);
    }),
    allocating("texts with escapes", unescaped),
    kind("quoted texts", quoted),
    allocating("texts that are quoted", requoted),
    allocating("joined pieces", |random, asked| {
        let (text, separator) = (random.text(), random.short_text());
        ask_joined(random.code_of(&text), &string(text), &string(separator), asked);
    }),
    allocating("repeated texts", |random, asked| {
        let (text, times) = (random.text(), random.count(9));
        ask_repeated(times, &text, asked);
    }),
    allocating("texts filled up to a width", padded),
    allocating("edits of a range", |random, asked| {
        let (form, text, piece) = (random.below(6), random.text(), random.short_text());
        let (start, end) = random.places(text.len());
        ask_range_edits(form, start, end, &text, &piece, asked);
    }),
];

/// What represents a code in a notation: for form 0 as std's `escape_ascii` writes it, otherwise in caret notation.
fn written(form: u8, code: u8) -> Vec<u8> {
    match (form, code) {
        (0, _) => code.escape_ascii().collect(),
        (_, b'\n' | 32..=126) => vec![code],
        _ => vec![b'^', code ^ 64],
    }
}

/// The codes that represent a text by a script, and then the others: printed, and in reverse.
pub fn ask_notation(form: u8, text: &[u8], mut codes: VecDeque<u8>, script: &[u8], asked: &mut Asked) {
    calls::ask_notation(asked, form, text, script);
    for number in script {
        asked.want.put(take(&mut codes, *number));
    }
    let some = Needs::memory_if(!codes.is_empty());
    asked.want.copy(codes.iter().copied().collect::<Vec<u8>>());
    asked.want.put(codes.into_iter().rev().collect::<Vec<u8>>());
    // Characters are appended one by one if the allocation for all fails.
    asked.want.absorbs(some);
}

/// Why a text with escapes represents none.
#[derive(Clone, Copy)]
pub enum Escaped {
    Invalid(usize),
    NotAscii(usize),
}

impl Put for Escaped {
    fn put(&self, answer: &mut Answer) {
        match self {
            Escaped::Invalid(at) => answer.put(("invalid", at)),
            Escaped::NotAscii(at) => answer.put(("ascii", at)),
        }
    }
}

/// The code that an escape represents, and the length of the escape.
fn escape_at(text: &[u8]) -> Option<(u8, usize)> {
    let code = match text.get(1)? {
        b't' => b'\t',
        b'r' => b'\r',
        b'n' => b'\n',
        quoted @ (b'\'' | b'"' | b'\\') => *quoted,
        b'x' => {
            let digits = [*text.get(2)?, *text.get(3)?].map(|digit| (digit as char).to_digit(16));
            return Some(((digits[0]? * 16 + digits[1]?) as u8, 4));
        }
        _ => return None,
    };
    Some((code, 2))
}

/// The text that a text with escapes represents.
fn unescaped_of(text: &[u8]) -> Result<Vec<u8>, Escaped> {
    let (mut codes, mut at) = (Vec::new(), 0);
    while at < text.len() {
        let (code, length) = match text[at] {
            b'\\' => escape_at(&text[at..]).ok_or(Escaped::Invalid(at))?,
            code => (code, 1),
        };
        if code > 127 {
            return Err(Escaped::NotAscii(at));
        }
        codes.push(code);
        at += length;
    }
    Ok(codes)
}

pub fn unescaped(random: &mut Random, asked: &mut Asked) {
    let text = match random.below(3) {
        0 => random.text().escape_ascii().collect(),
        1 => random.joined(&[b"\\", b"x", b"4", b"f", b"\\x41", b"\\n", b"\\\"", b"a", b"\\xff"]),
        _ => random.text(),
    };
    let expected = unescaped_of(&text);
    ask_unescaped(&text, expected, asked);
}

pub fn ask_unescaped(text: &[u8], expected: Result<impl Put, Escaped>, asked: &mut Asked) {
    calls::ask_unescaped(asked, text);
    asked.want.allocated(Needs::memory_if(!text.is_empty()), expected);
}

/// Where a text ends whose quote is not closed, or `None` if there is no quote at its start.
pub type Unquoted = Option<usize>;

/// The text between the quotes at the start of a text, and what comes after it.
pub fn quoted_in(text: &[u8], quote: u8, escape: u8) -> Result<(&[u8], &[u8]), Unquoted> {
    if text.first() != Some(&quote) {
        return Err(None);
    }
    let mut at = 1;
    while at < text.len() {
        let is_doubled = text[at] == quote && escape == quote && text.get(at + 1) == Some(&quote);
        if is_doubled || text[at] == escape && escape != quote {
            at += 2;
        } else if text[at] == quote {
            return Ok((&text[1..at], &text[at + 1..]));
        } else {
            at += 1;
        }
    }
    Err(Some(text.len()))
}

pub fn quoted(random: &mut Random, asked: &mut Asked) {
    let (quote, escape) = (*random.pick(b"\"\'A"), *random.pick(b"\"\\\'"));
    let text = match random.below(2) {
        0 => random.text(),
        _ => random.joined(&[&[quote], &[escape], b"a", b"b c", &[quote, b'a']]),
    };
    ask_quoted(quote, escape, &text, quoted_in(&text, quote, escape), asked);
}

pub fn ask_quoted(quote: u8, escape: u8, text: &[u8], expected: Result<impl Put, Unquoted>, asked: &mut Asked) {
    calls::ask_quoted(asked, quote, escape, text);
    asked.want.put(expected);
}

pub fn requoted(random: &mut Random, asked: &mut Asked) {
    let (quote, escape) = (*random.pick(b"\"\'A"), *random.pick(b"\"\\\'"));
    let piece = match random.below(2) {
        0 => random.short_text(),
        _ => random.joined(&[&[quote], &[escape], b"a", &[escape, escape], &[escape, b'b']]),
    };
    let (mut read, mut codes) = (Vec::new(), piece.iter());
    while let Some(code) = codes.next() {
        let next = if *code == escape { codes.next() } else { None };
        read.push(*next.unwrap_or(code));
    }
    let mut quoted = vec![quote];
    for code in &piece {
        if [quote, escape].contains(code) {
            quoted.push(escape);
        }
        quoted.push(*code);
    }
    quoted.push(quote);
    ask_requoted((quote, escape), &random.text(), &piece, &quoted, &read, asked);
}

/// A text with a piece appended in quotes, and what the piece represents between quotes.
pub fn ask_requoted(by: (u8, u8), text: &[u8], piece: &[u8], quoted: &[u8], read: &[u8], asked: &mut Asked) {
    calls::ask_requoted(asked, by.0, by.1, text, piece);
    let want = &mut asked.want;
    want.copy(read);
    let start = want.bytes.len();
    want.put((true, [text, quoted].concat()));
    want.fails(Needs::memory_if(!text.is_empty()), start, Failed);
    want.fails_by(Needs::Memory, start, |want| put_unchanged(text, want));
}

pub fn ask_joined(code: u8, text: &str, separator: &str, asked: &mut Asked) {
    calls::ask_joined(asked, code, text.as_bytes(), separator.as_bytes());
    asked.want.copy(text.split(code as char).collect::<Vec<&str>>().join(separator));
}

pub fn ask_repeated(times: usize, text: &[u8], asked: &mut Asked) {
    calls::ask_repeated(asked, times, text);
    asked.want.copy(text.repeat(times));
}

pub fn padded(random: &mut Random, asked: &mut Asked) {
    let (form, text, piece) = (random.below(3) as u8, random.text(), random.short_text());
    let (code, width) = (random.code_of(b""), random.count(80));
    let fill = width.saturating_sub(piece.len());
    let before = [0, fill, fill / 2][usize::from(form)];
    let filled = [vec![code; before], piece.clone(), vec![code; fill - before]].concat();
    ask_padded(form, code, width, &text, &piece, &filled, asked);
}

pub fn ask_padded(form: u8, code: u8, width: usize, text: &[u8], piece: &[u8], filled: &[u8], asked: &mut Asked) {
    calls::ask_padded(asked, form, code, width, text, piece);
    let want = &mut asked.want;
    want.put((true, [text, filled].concat()));
    want.fails(Needs::memory_if(!text.is_empty()), 0, Failed);
    want.fails_by(Needs::memory_if(!filled.is_empty()), 0, |want| put_unchanged(text, want));
}

/// A text without the part in a range, and with another text in its place; nothing if the range does not fit.
pub fn ask_range_edits(form: usize, start: usize, end: usize, text: &[u8], piece: &[u8], asked: &mut Asked) {
    calls::ask_range_edits(asked, form as u8, start, end, text, piece);
    let (want, bounds) = (&mut asked.want, bounds(form, start, end, text.len()));
    if let Some((start, end)) = bounds {
        want.put((true, [&text[..start], piece, &text[end..]].concat()));
    }
    want.fails(Needs::memory_if(!text.is_empty()), 0, Failed);
    if let Some((start, end)) = bounds {
        want.fails_by(Needs::memory_if(piece.len() > end - start), 0, |want| put_unchanged(text, want));
    }
}
