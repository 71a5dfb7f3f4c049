//! Numbers that are read and appended, by std or by plain loops.

use super::{allocating, kind, long, Kind};
use crate::asked::{Answer, Asked, Failed, Needs, Put};
use crate::calls::{self, Step};
use crate::random::Random;

pub static KINDS: &[Kind] = &[
    long("numbers read", 2, |random, asked| ask_numbers(&digits(random), asked)).allocating(),
    allocating("numbers of a radix read", of_radix),
    allocating("numbers appended", |random, asked| ask_decimals(random.number(), &random.text(), asked)),
    kind("decimal numbers read", decimal),
    allocating("decimal numbers written", decimal_written),
    allocating("hexadecimal digits appended", |random, asked| {
        ask_hex(random.number() as u64, random.count(40), &random.text(), asked)
    }),
];

/// A type of number: its largest number, and how far its least one is below zero, if it has a sign.
#[derive(Clone, Copy)]
pub struct Type {
    most: u128,
    below: Option<u128>,
}

const fn unsigned(bits: u32) -> Type {
    Type { most: u128::MAX >> (128 - bits), below: None }
}

const fn signed(bits: u32) -> Type {
    Type { most: u128::MAX >> (129 - bits), below: Some(1 << (bits - 1)) }
}

/// The types of numbers, in the order of `ask_numbers`.
pub const TYPES: [Type; 12] = [
    unsigned(8),
    unsigned(16),
    unsigned(32),
    unsigned(64),
    unsigned(128),
    unsigned(64),
    signed(8),
    signed(16),
    signed(32),
    signed(64),
    signed(128),
    signed(64),
];

/// Why a text does not write a number.
#[derive(Clone, Copy, Debug, PartialEq)]
pub enum Fault {
    Empty,
    NotDigit(usize),
    TooLarge(usize),
}

impl Fault {
    /// The fault of a part that starts at a position of the text.
    pub fn after(self, start: usize) -> Fault {
        match self {
            Fault::Empty => Fault::Empty,
            Fault::NotDigit(at) => Fault::NotDigit(start + at),
            Fault::TooLarge(at) => Fault::TooLarge(start + at),
        }
    }
}

/// A number with one digit more, if it is not above the largest one.
fn with_digit(n: u128, digit: u32, radix: u32, most: u128) -> Option<u128> {
    n.checked_mul(radix.into())?.checked_add(digit.into()).filter(|n| *n <= most)
}

/// The number at the start of a text as std prints it, and where it ends.
fn number_at(text: &[u8], radix: u32, kind: Type) -> Result<(String, usize), Fault> {
    let is_negative = kind.below.is_some() && text.first() == Some(&b'-');
    let most = if is_negative { kind.below.unwrap_or(0) } else { kind.most };
    let start = usize::from(is_negative);
    if text.len() == start {
        return Err(Fault::Empty);
    }
    let (mut n, mut end) = (0, text.len());
    for (at, byte) in text.iter().enumerate().skip(start) {
        let Some(digit) = (*byte as char).to_digit(radix) else {
            end = at;
            break;
        };
        n = with_digit(n, digit, radix, most).ok_or(Fault::TooLarge(at))?;
    }
    let sign = if is_negative && n > 0 { "-" } else { "" };
    if end == start {
        return Err(Fault::NotDigit(start));
    }
    Ok((format!("{sign}{n}"), end))
}

/// The number that a text writes as a whole.
pub fn number_of(text: &[u8], radix: u32, kind: Type) -> Result<String, Fault> {
    match number_at(text, radix, kind)? {
        (_, end) if end < text.len() => Err(Fault::NotDigit(end)),
        (n, _) => Ok(n),
    }
}

/// The number at the start of a text, and what comes after it.
pub fn taken_of(text: &[u8], kind: Type) -> Result<(String, &[u8]), Fault> {
    number_at(text, 10, kind).map(|(n, end)| (n, &text[end..]))
}

impl Put for Fault {
    fn put(&self, answer: &mut Answer) {
        match self {
            Fault::Empty => answer.put("empty"),
            Fault::NotDigit(at) => answer.put(("digit", at)),
            Fault::TooLarge(at) => answer.put(("large", at)),
        }
    }
}

fn put_number(number: Result<String, Fault>, want: &mut Answer) {
    match number {
        Ok(n) => want.copy(n),
        Err(fault) => want.put(fault),
    }
}

/// A text that writes a number, often next to the largest or the least one of a type, or any text.
fn digits(random: &mut Random) -> Vec<u8> {
    let mut text = match random.below(4) {
        0 => random.number().to_string().into_bytes(),
        1 => {
            // On both sides of the largest number, which may have leading zeros and one digit more.
            let most = random.pick(&TYPES).most;
            let near = random.below(12) as u128;
            let number = if random.below(2) == 0 { most - near } else { most.wrapping_add(near) };
            format!("{}{number}", "0".repeat(random.count(3))).into_bytes()
        }
        2 => {
            let length = random.count(44);
            (0..length).map(|_| b'0' + random.below(10) as u8).collect()
        }
        _ => random.text(),
    };
    if random.below(3) == 0 {
        text.insert(0, b'-');
    }
    if random.below(3) == 0 {
        text.extend(random.short_text());
    }
    text
}

pub fn ask_numbers(text: &[u8], asked: &mut Asked) {
    calls::ask_numbers(asked, text);
    for kind in TYPES {
        put_number(number_of(text, 10, kind), &mut asked.want);
        match taken_of(text, kind) {
            Ok((n, rest)) => {
                asked.want.copy(n);
                asked.want.put(rest);
            }
            Err(fault) => asked.want.put(fault),
        }
    }
}

pub fn of_radix(random: &mut Random, asked: &mut Asked) {
    let (radix, mut text) = (2 + random.below(35) as u32, digits(random));
    for byte in &mut text {
        if byte.is_ascii_digit() && random.below(2) == 0 {
            *byte = *random.pick(b"01aAfFzZ");
        }
    }
    ask_numbers_of_radix(radix, &text, asked);
}

pub fn ask_numbers_of_radix(radix: u32, text: &[u8], asked: &mut Asked) {
    calls::ask_numbers_of_radix(asked, radix, text);
    for kind in [unsigned(8), signed(8), unsigned(64), signed(64)] {
        put_number(number_of(text, radix, kind), &mut asked.want);
    }
}

/// A text with the digits of a number appended, as each of the types of `ask_decimals` that it fits.
pub fn ask_decimals(number: u128, text: &[u8], asked: &mut Asked) {
    let (low, signed) = (number as u64, number as i64);
    calls::ask_decimals(asked, (number >> 64) as u64, low, text);
    let digits = [
        Some(number.to_string()),
        Some((number as i128).to_string()),
        Some(low.to_string()),
        Some(signed.to_string()),
        i32::try_from(signed).ok().map(|number| number.to_string()),
        u16::try_from(low).ok().map(|number| number.to_string()),
        i8::try_from(signed).ok().map(|number| number.to_string()),
    ];
    let (want, some) = (&mut asked.want, Needs::memory_if(!text.is_empty()));
    for digits in digits.into_iter().flatten() {
        let start = want.bytes.len();
        put_appended(text, digits.as_bytes(), want);
        want.fails(some, start, Failed);
        want.fails_by(Needs::Memory, start, |want| put_unchanged(text, want));
    }
}

/// A text with a piece appended.
fn put_appended(text: &[u8], piece: &[u8], want: &mut Answer) {
    want.put((true, [text, piece].concat()));
}

/// A text that there is no memory for to grow.
pub fn put_unchanged(text: &[u8], want: &mut Answer) {
    want.put((false, text));
}

/// A decimal number: whether it is negative, its digits, and how many of them are after the point.
pub type Decimal = (bool, u64, usize);

/// The decimal number that a text writes.
fn decimal_of(text: &[u8]) -> Result<Decimal, Fault> {
    let is_negative = text.first() == Some(&b'-');
    let start = usize::from(is_negative);
    if text.len() == start {
        return Err(Fault::Empty);
    }
    let point = text.iter().position(|byte| *byte == b'.');
    let whole_end = point.unwrap_or(text.len());
    let digits = digits_after(0, text, start, whole_end)?;
    let Some(point) = point else { return Ok((is_negative, digits, 0)) };
    if point == start || point + 1 == text.len() {
        return Err(Fault::NotDigit(point));
    }
    // The zeros at the end of the fraction do not count.
    let end = text.iter().rposition(|byte| *byte != b'0').map_or(0, |last| last + 1);
    let end = end.max(point + 1);
    let digits = digits_after(u128::from(digits), text, point + 1, end)?;
    Ok((is_negative, digits, end - point - 1))
}

/// The number that the digits of a part of a text write after a number.
fn digits_after(before: u128, text: &[u8], start: usize, end: usize) -> Result<u64, Fault> {
    let mut n = before;
    for at in start..end {
        let digit = (text[at] as char).to_digit(10).ok_or(Fault::NotDigit(at))?;
        n = with_digit(n, digit, 10, u64::MAX.into()).ok_or(Fault::TooLarge(at))?;
    }
    Ok(n as u64)
}

pub fn decimal(random: &mut Random, asked: &mut Asked) {
    let mut text = digits(random);
    if random.below(3) > 0 {
        // The text of a small case can be another one at the next choice.
        let at = random.below(text.len() + 1).min(text.len());
        text.insert(at, b'.');
        text.resize(text.len() + random.count(3), b'0');
    }
    ask_decimal(&text, decimal_of(&text), asked);
}

pub fn ask_decimal(text: &[u8], decimal: Result<Decimal, Fault>, asked: &mut Asked) {
    calls::ask_decimal(asked, text);
    asked.want.put(decimal);
}

pub fn decimal_written(random: &mut Random, asked: &mut Asked) {
    let (is_negative, digits, places) = (random.below(2) == 0, random.number() as u64, random.count(40));
    let mut text = format!("{digits:0width$}", width = places + 1);
    if places > 0 {
        text.insert(text.len() - places, '.');
    }
    let sign = if is_negative { "-" } else { "" };
    ask_decimal_written((is_negative, digits, places), &format!("{sign}{text}"), asked);
}

pub fn ask_decimal_written((is_negative, digits, places): Decimal, text: &str, asked: &mut Asked) {
    let step = Step { kind: is_negative.into(), at: digits as usize, start: places, ..Step::default() };
    calls::ask_decimals_written(asked, &[step]);
    asked.want.copy(text);
}

pub fn ask_hex(number: u64, width: usize, text: &[u8], asked: &mut Asked) {
    calls::ask_hex(asked, number, width, text);
    let (want, digits) = (&mut asked.want, format!("{number:0width$x}"));
    put_appended(text, digits.as_bytes(), want);
    // Grows as a string does.
    let mut string = Vec::new();
    string.extend_from_slice(text);
    want.fails(Needs::memory_if(!text.is_empty()), 0, Failed);
    let is_full = string.capacity() - text.len() < digits.len();
    want.fails_by(Needs::memory_if(is_full), 0, |want| put_unchanged(text, want));
}
