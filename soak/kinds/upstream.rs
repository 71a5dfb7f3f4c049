//! Answers of the upstream crate `ascii` 1.1.0. Where one of its calls panics, a position is tested before.

use super::characters::{codes, numbers};
use super::conversions::any_character;
use super::edits::piece;
use super::prints::{printed as print, FORMS};
use super::slices::source;
use super::texts::pair;
use crate::asked::{items_of, Answer, Asked, Item, Put};
use crate::calls::{self, Step, Steps};
use crate::random::Random;
use ascii::{
    caret_decode, caret_encode, AsAsciiStr, AsAsciiStrError, AsMutAsciiStr, AsciiChar, AsciiStr, AsciiString, FromAsciiError,
    IntoAsciiString, ToAsciiChar,
};
use std::fmt::Write;

impl Put for AsciiChar {
    fn put(&self, answer: &mut Answer) {
        answer.put(self.as_byte());
    }
}

impl Put for AsciiStr {
    fn put(&self, answer: &mut Answer) {
        answer.put(self.as_bytes());
    }
}

impl Put for AsciiString {
    fn put(&self, answer: &mut Answer) {
        answer.put(self.as_bytes());
    }
}

impl Put for AsAsciiStrError {
    fn put(&self, answer: &mut Answer) {
        answer.put(self.valid_up_to());
    }
}

/// A source that is not ASCII is returned.
impl<O: Put + Clone> Put for FromAsciiError<O> {
    fn put(&self, answer: &mut Answer) {
        answer.put((self.ascii_error(), self.clone().into_source()));
    }
}

/// Slices a source by a range of a form: `..`, `a..`, `..b`, `a..b`, `a..=b` or `..=b`.
macro_rules! sliced {
    ($source:expr, $call:ident, $form:expr, $a:expr, $b:expr) => {
        match $form {
            0 => $source.$call(..),
            1 => $source.$call($a..),
            2 => $source.$call(..$b),
            3 => $source.$call($a..$b),
            4 => $source.$call($a..=$b),
            _ => $source.$call(..=$b),
        }
    };
}

fn view(text: &[u8]) -> &AsciiStr {
    text.as_ascii_str().expect("codes under 128")
}

fn char_of(code: u8) -> AsciiChar {
    code.to_ascii_char().expect("a code under 128")
}

/// The character of a number, if it is one.
fn char_from(number: impl ToAsciiChar) -> Option<AsciiChar> {
    number.to_ascii_char().ok()
}

pub fn slices(random: &mut Random, asked: &mut Asked) {
    let (form, source) = (random.below(6), source(random));
    let (a, b) = random.places(source.len());
    calls::ask_slices(asked, form as u8, a, b, &source);
    let want = &mut asked.want;
    want.put(sliced!(source[..], slice_ascii, form, a, b));
    if let Ok(text) = std::str::from_utf8(&source) {
        // The crate slices the bytes of a `str`, so a position may be inside a character.
        want.put(sliced!(text, slice_ascii, form, a, b));
    }
    if let Ok(view) = source.as_ascii_str() {
        let slice = sliced!(view, slice_ascii, form, a, b);
        want.put(slice);
        if slice.is_ok() {
            want.put(slice);
        }
    }
}

pub fn slice_mut(random: &mut Random, asked: &mut Asked) {
    let (form, mut source) = (random.below(6), random.bytes());
    let (a, b) = random.places(source.len());
    let code = random.code_of(b"");
    let mut want = source.clone();
    calls::ask_slice_mut(asked, form as u8, a, b, code, &mut source);
    match sliced!(want[..], slice_ascii_mut, form, a, b) {
        Ok(part) => {
            part.make_ascii_lowercase();
            if !part.is_empty() {
                part[0] = char_of(code);
            }
            asked.want.put(&*part);
        }
        Err(error) => asked.want.put(error),
    }
    asked.compare(&source, &want);
}

pub fn position(random: &mut Random, asked: &mut Asked) {
    let source = source(random);
    let at = random.place(source.len());
    calls::ask_position(asked, at, &source);
    let want = &mut asked.want;
    want.put(source[..].get_ascii(at));
    if let Ok(text) = std::str::from_utf8(&source) {
        want.put(text.get_ascii(at));
    }
    if let Ok(view) = source.as_ascii_str() {
        want.put((view.get_ascii(at), view.first(), view.last()));
        if at < view.len() {
            want.put(view[at]);
        }
    }
}

pub fn of_numbers(random: &mut Random, asked: &mut Asked) {
    let numbers = numbers(random);
    calls::ask_characters_of(asked, &numbers);
    for number in numbers {
        let (word, want) = (u32::try_from(number).ok(), &mut asked.want);
        want.put(u8::try_from(number).ok().and_then(char_from));
        want.put(i8::try_from(number).ok().and_then(char_from));
        want.put(u16::try_from(number).ok().and_then(char_from));
        want.put((word.and_then(char_from), word.and_then(char::from_u32).and_then(char_from)));
    }
}

/// The crate's `is_digit` panics at a radix under 2.
pub fn characters(random: &mut Random, asked: &mut Asked) {
    let (codes, radix) = (codes(random, 128), 2 + random.below(35) as u32);
    calls::ask_characters(asked, &codes, radix);
    for code in codes {
        let (ch, want) = (char_of(code), &mut asked.want);
        let tests = [
            ch.is_alphabetic(),
            ch.is_ascii_alphabetic(),
            ch.is_ascii_digit(),
            ch.is_alphanumeric(),
            ch.is_ascii_alphanumeric(),
            ch.is_lowercase(),
            ch.is_ascii_lowercase(),
            ch.is_uppercase(),
            ch.is_ascii_uppercase(),
            ch.is_ascii_blank(),
            ch.is_whitespace(),
            ch.is_ascii_whitespace(),
            ch.is_ascii_control(),
            ch.is_ascii_graphic(),
            ch.is_ascii_printable(),
            ch.is_ascii_punctuation(),
            ch.is_ascii_hexdigit(),
        ];
        want.all(tests);
        want.put((ch.to_ascii_uppercase(), ch.to_ascii_lowercase(), ch.as_printable_char() as u32));
        want.put((ch.is_digit(radix), ch.as_char().to_digit(radix).unwrap_or(radix)));
    }
}

pub fn carets(random: &mut Random, asked: &mut Asked) {
    let codes = codes(random, 256);
    calls::ask_carets(asked, &codes);
    for code in codes {
        asked.want.put((caret_encode(code), caret_decode(code)));
    }
}

pub fn texts(random: &mut Random, asked: &mut Asked) {
    let text = random.text();
    calls::ask_trims(asked, &text);
    calls::ask_cases(asked, &text);
    let (text, want) = (view(&text), &mut asked.want);
    want.put((text.trim(), text.trim_start(), text.trim_end()));
    want.put((text.to_ascii_uppercase(), text.to_ascii_lowercase()));
    let mut string = text.to_ascii_string();
    string.make_ascii_uppercase();
    want.put(&string);
    string.make_ascii_lowercase();
    want.put(string);
}

pub fn comparisons(random: &mut Random, asked: &mut Asked) {
    let (first, second) = pair(random);
    calls::ask_comparisons(asked, &first, &second);
    let (first, second, want) = (view(&first), view(&second), &mut asked.want);
    want.put((first == second, first == second.as_str(), first.as_bytes() == second.as_bytes()));
    want.put((first.eq_ignore_ascii_case(second), first.eq_ignore_ascii_case(second), first.cmp(second)));
    want.put((first.to_ascii_lowercase().cmp(&second.to_ascii_lowercase()), true));
    want.put(first.to_ascii_lowercase() < second.to_ascii_lowercase());
}

/// The items of an iterator of the crate by `next`, `next_back` and `nth(1)`, each with the remainder after it, as the
/// library writes them.
fn put_items<'a>(
    mut items: impl DoubleEndedIterator<Item = &'a AsciiStr>,
    script: &[u8],
    remainders: &[Item],
    want: &mut Answer,
) {
    for (number, remainder) in script.iter().zip(remainders.chunks(2)) {
        let item = match number {
            0 => items.next(),
            1 => items.next_back(),
            _ => items.nth(1),
        };
        // The crate's iterators have no remainder.
        let rest = if let [_, Item::Text(text)] = remainder { Some(text) } else { None };
        want.put((item, rest));
    }
}

pub fn split(random: &mut Random, asked: &mut Asked) {
    let (text, script) = (random.text(), random.script(3));
    let code = random.code_of(&text);
    calls::ask_split(asked, code, &text, &script);
    let answer = items_of(asked.got());
    put_items(view(&text).split(char_of(code)), &script, &answer, &mut asked.want);
}

pub fn lines(random: &mut Random, asked: &mut Asked) {
    let (text, script) = (random.text(), random.script(3));
    calls::ask_lines(asked, &text, &script);
    let answer = items_of(asked.got());
    put_items(view(&text).lines(), &script, &answer, &mut asked.want);
}

pub fn chars(random: &mut Random, asked: &mut Asked) {
    let (text, script) = (random.text(), random.script(2));
    calls::ask_chars_of_view(asked, &text, &script);
    let mut chars = view(&text).chars();
    for number in &script {
        let ch = if *number == 0 { chars.next() } else { chars.next_back() };
        asked.want.put((ch, chars.as_str(), chars.size_hint()));
    }
}

pub fn conversions(random: &mut Random, asked: &mut Asked) {
    let source = source(random);
    calls::ask_conversions(asked, &source);
    let want = &mut asked.want;
    want.put((source[..].into_ascii_string(), source.clone().into_ascii_string()));
    if let Ok(text) = std::str::from_utf8(&source) {
        want.put((text.into_ascii_string(), text.to_string().into_ascii_string()));
    }
}

pub fn written(random: &mut Random, asked: &mut Asked) {
    let (text, piece, ch) = (random.text(), random.unicode(), any_character(random));
    calls::ask_written(asked, &text, &piece);
    calls::ask_character_written(asked, ch as u32, &text);
    let piece = std::str::from_utf8(&piece).expect("UTF-8");
    let mut string = view(&text).to_ascii_string();
    let is_ok = string.write_str(piece).is_ok();
    asked.want.times(2, (is_ok, string));
    let mut string = view(&text).to_ascii_string();
    asked.want.put((string.write_char(ch).is_ok(), string));
}

pub fn printed(random: &mut Random, asked: &mut Asked) {
    let (form, text) = (random.below(FORMS), random.text());
    calls::ask_printed(asked, form as u8, &text);
    let (view, want) = (view(&text), &mut asked.want);
    want.put((print(form, view), print(form, view), print(form, &view.to_ascii_string())));
    want.times(4, print(form, view));
}

pub fn printed_characters(random: &mut Random, asked: &mut Asked) {
    let (form, codes) = (random.below(FORMS), codes(random, 128));
    calls::ask_printed_characters(asked, form as u8, &codes);
    asked.want.all(codes.iter().map(|code| print(form, &char_of(*code))));
}

/// Steps whose positions fit, done by the crate's string.
pub fn edits(random: &mut Random, asked: &mut Asked) {
    let source = random.text();
    let (is_small, mut string) = (random.below(2) == 0, view(&source).to_ascii_string());
    let (mut commands, mut want) = (Steps::default(), Answer::default());
    for _ in 0..random.count(24) {
        let (length, code) = (string.len(), random.code_of(b""));
        let kind = random.below(11) as u8;
        let at = random.below(length + usize::from(matches!(kind, 2 | 3) || length == 0));
        let (start, text) = (commands.texts.len(), piece(random));
        match kind {
            0 => string.push(char_of(code)),
            1 => string.push_str(view(&text)),
            2 => string.insert(at, char_of(code)),
            3 => string.insert_str(at, view(&text)),
            4 | 8 if length == 0 => continue,
            4 => want.put(Some(string.remove(at))),
            5 => want.put(string.pop()),
            6 => string.truncate(at),
            7 => string.clear(),
            8 => string[at] = char_of(code),
            9 => string.make_ascii_uppercase(),
            _ => string.make_ascii_lowercase(),
        }
        if !matches!(kind, 4 | 5) {
            want.put("done");
        }
        commands.texts.extend(&text);
        commands.steps.push(Step { kind, code, at, start, end: commands.texts.len() });
    }
    calls::ask_edits(asked, is_small, &source, &commands.texts, &commands.steps);
    want.put(string.as_bytes());
    asked.want = want;
}
