//! Parts of a text with their places, and lines and columns, by plain loops.

use super::characters::is_white;
use super::numbers::{number_of, TYPES};
use super::rewrites::quoted_in;
use super::{allocating, kind, Kind};
use crate::asked::{Answer, Asked, NOTHING};
use crate::calls::{self, Step};
use crate::random::Random;

pub static KINDS: &[Kind] = &[
    kind("parts with places", parts),
    allocating("lines and columns", |random, asked| {
        let text = random.text();
        ask_place(random.place(text.len()), &text, asked);
    }),
];

/// A part of a text: where it starts and where it ends.
type Part = (usize, usize);

/// The part without what is of a class at its start and at its end.
fn trimmed(text: &[u8], (start, end): Part, is: fn(u8) -> bool) -> Part {
    let start = text[start..end].iter().position(|byte| !is(*byte)).map_or(end, |at| start + at);
    let end = text[start..end].iter().rposition(|byte| !is(*byte)).map_or(start, |at| start + at + 1);
    (start, end)
}

/// Where the n-th of some pieces of a text is, counted from 0.
fn nth_of<'a>(text: &[u8], mut pieces: impl Iterator<Item = &'a [u8]>, n: usize) -> Option<Part> {
    let piece = pieces.nth(n)?;
    let start = piece.as_ptr() as usize - text.as_ptr() as usize;
    Some((start, start + piece.len()))
}

/// What is between quotes at the start of a part, and what comes after it.
fn quoted_parts(text: &[u8], (start, end): Part, quote: u8, escape: u8) -> Result<(Part, Part), Option<usize>> {
    match quoted_in(&text[start..end], quote, escape) {
        Ok((inside, rest)) => Ok(((start + 1, start + 1 + inside.len()), (end - rest.len(), end))),
        Err(position) => Err(position.map(|at| start + at)),
    }
}

/// The part that a step takes: `part_by` in `crates/exports/src/places.rt` says which.
fn part_by(text: &[u8], part: Part, step: Step, prefix: &[u8]) -> Result<Part, Option<usize>> {
    let (start, end) = part;
    let own = &text[start..end];
    let lines = std::str::from_utf8(own).expect("ASCII").lines();
    let found = own.iter().position(|byte| *byte == step.code).map(|at| start + at);
    let digit = own.iter().position(u8::is_ascii_digit).map(|at| start + at);
    let mid = (step.at <= end - start).then(|| start + step.at);
    let counted = mid.filter(|mid| text[start..*mid].iter().all(u8::is_ascii_digit));
    let digits = own.iter().position(|byte| !byte.is_ascii_digit()).map_or(end, |at| start + at);
    match step.kind {
        0 => Ok(trimmed(text, part, is_white)),
        1 => Ok((start, found.ok_or(NOTHING)?)),
        2 => Ok((found.ok_or(NOTHING)? + 1, end)),
        3 => Ok((start, mid.ok_or(NOTHING)?)),
        4 => Ok((mid.ok_or(NOTHING)?, end)),
        5 => own.starts_with(prefix).then(|| (start + prefix.len(), end)).ok_or(NOTHING),
        6 => Ok((start, digits)),
        7 => Ok((digits, end)),
        8 => Ok(quoted_parts(text, part, step.code, b'\\')?.0),
        9 => Ok(quoted_parts(text, part, step.code, b'\\')?.1),
        10 | 23 => (found == Some(start)).then_some((start + 1, end)).ok_or(NOTHING),
        11 => (start < digits).then_some((start, digits)).ok_or(NOTHING),
        12 => (start < digits).then_some((digits, end)).ok_or(NOTHING),
        13 => Ok((start, counted.ok_or(NOTHING)?)),
        14 => Ok((counted.ok_or(NOTHING)?, end)),
        15 => Ok(quoted_parts(text, part, step.code, step.code).map_err(|_| NOTHING)?.1),
        16 => nth_of(text, own.split(u8::is_ascii_digit).filter(|word| !word.is_empty()), step.at).ok_or(NOTHING),
        17 => Ok(trimmed(text, part, |byte| byte.is_ascii_digit())),
        19 => Ok((start, digit.ok_or(NOTHING)?)),
        20 => Ok((digit.ok_or(NOTHING)? + 1, end)),
        21 => nth_of(text, lines.map(str::as_bytes), step.at).ok_or(NOTHING),
        22 => nth_of(text, own.split(|byte| *byte == step.code), step.at).ok_or(NOTHING),
        _ => (start < digits && digits - start <= step.at).then_some((digits, end)).ok_or(NOTHING),
    }
}

pub fn parts(random: &mut Random, asked: &mut Asked) {
    let text = random.text();
    let (mut texts, mut steps) = (Vec::new(), Vec::new());
    for kind in random.script(24) {
        let (code, at) = (random.code_of(&text), random.place(text.len() / 2));
        let start = texts.len();
        texts.extend(random.needle(&text));
        steps.push(Step { kind, code, at, start, end: texts.len() });
    }
    ask_parts(&text, &texts, &steps, asked);
}

/// The parts that steps take, each of the part before it.
pub fn ask_parts(text: &[u8], texts: &[u8], steps: &[Step], asked: &mut Asked) {
    calls::ask_parts(asked, text, texts, steps);
    let mut part = (0, text.len());
    for step in steps {
        match part_by(text, part, *step, &texts[step.start..step.end]) {
            Ok(next) => {
                part = next;
                put_part(text, part, &mut asked.want);
            }
            Err(position) => asked.want.put(position),
        }
    }
}

/// A part with its start and its end, its length, its line and column, and the number that it writes as a `u8`. The
/// position of an error is in the text.
fn put_part(text: &[u8], (start, end): Part, want: &mut Answer) {
    want.put((start, &text[start..end], end));
    want.put((end - start, start == end));
    want.put(line_and_column(&text[..start]));
    let number = number_of(&text[start..end], 10, TYPES[0]);
    want.put(number.map(|n| n.parse::<u8>().expect("a number")).map_err(|fault| fault.after(start)));
}

/// The line and the column after a text, which both count from 1.
fn line_and_column(before: &[u8]) -> (usize, usize) {
    let line = 1 + before.iter().filter(|byte| **byte == b'\n').count();
    let column = 1 + before.iter().rev().take_while(|byte| **byte != b'\n').count();
    (line, column)
}

/// The line and the column of a position, and what prints them with a fault there and with the part from there on.
pub fn ask_place(at: usize, text: &[u8], asked: &mut Asked) {
    calls::ask_place(asked, at, text);
    if let Some(before) = text.get(..at) {
        let (line, column) = line_and_column(before);
        asked.want.put((line, column));
        asked.want.copy(format!("{line}:{column}: no '='"));
        let rest = String::from_utf8_lossy(&text[at..]);
        asked.want.copy(format!("{rest} {at}..{} {rest:?} {line}:{column}: no '='", text.len()));
    }
}
