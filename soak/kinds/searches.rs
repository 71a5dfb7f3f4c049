//! Searches and cuts, by std's `str`.

use super::string;
use super::walks::{lines_of, take_forward};
use super::{allocating, kind, long, Kind};
use crate::asked::Asked;
use crate::calls;
use crate::random::Random;
use std::collections::VecDeque;

pub static KINDS: &[Kind] = &[
    kind("texts found", |random, asked| {
        let text = random.text();
        let needle = random.needle(&text);
        ask_find(&string(text), &string(needle), asked);
    }),
    long("texts found, ignoring case", 2, folded),
    kind("characters found", |random, asked| {
        let text = random.text();
        ask_find_character(random.code_of(&text), text, asked);
    }),
    // Texts of many lines, which are mostly longer than those that are searched by masks, and shorter ones. The needle may
    // be in another case.
    kind("lines with a text", |random, asked| {
        let text = if random.below(2) == 0 { random.text() } else { random.repeated(b"\r\n\nxyX", 800) };
        let (needle, script) = (random.needle(&text), random.script(3));
        let needle = if random.below(2) == 0 { random.other(&needle) } else { needle };
        ask_finder(&string(text), &string(needle), &script, asked);
    }),
    kind("at most n pieces", |random, asked| {
        let (text, script) = (random.text(), random.script(3));
        let code = random.code_of(&text);
        let n = if random.once_in(8) { random.place(text.len()) } else { random.below(6) };
        ask_splitn(n, code, &string(text), &script, asked);
    }),
    allocating("replaced texts", |random, asked| {
        let text = random.text();
        let (needle, text) = (string(random.needle(&text)), string(text));
        let to = string(random.short_text());
        ask_replace(&text, &needle, &to, asked);
    }),
];

/// Asks for a needle in a text.
pub fn ask_find(text: &str, needle: &str, asked: &mut Asked) {
    calls::ask_find(asked, text.as_bytes(), needle.as_bytes());
    let want = &mut asked.want;
    let (low, lower) = (text.to_ascii_lowercase(), needle.to_ascii_lowercase());
    let starts = low.starts_with(&lower);
    want.put((text.find(needle), text.rfind(needle), text.split_once(needle), text.rsplit_once(needle)));
    want.put((text.contains(needle), text.starts_with(needle), text.ends_with(needle)));
    want.put((text.strip_prefix(needle), text.strip_suffix(needle), starts.then(|| &text[needle.len()..])));
    want.put((low.find(&lower), low.contains(&lower)));
    // An empty text occurs nowhere.
    want.put(if needle.is_empty() { 0 } else { text.matches(needle).count() });
}

/// A needle that mostly is a prefix or a suffix of the text in another case.
pub fn folded(random: &mut Random, asked: &mut Asked) {
    let text = random.text();
    let at = random.count(text.len());
    let part = if random.below(2) == 0 { &text[at..] } else { &text[..at] };
    let needle = random.other(part);
    ask_find(&string(text), &string(needle), asked);
}

pub fn ask_find_character(code: u8, text: Vec<u8>, asked: &mut Asked) {
    calls::ask_find_character(asked, code, &text);
    let (text, on, want) = (string(text), code as char, &mut asked.want);
    want.put((text.find(on), text.rfind(on), text.split_once(on), text.rsplit_once(on)));
    want.put((text.starts_with(on), text.strip_prefix(on)));
    want.put(text.as_bytes().split_first().map(|(first, rest)| (*first, rest)));
}

/// Asks a finder, and one that ignores case, for its needle in a text, and for the lines that contain it, by a script from
/// the front.
pub fn ask_finder(text: &str, needle: &str, script: &[u8], asked: &mut Asked) {
    calls::ask_finder(asked, text.as_bytes(), needle.as_bytes(), script);
    let (low, lower) = (text.to_ascii_lowercase(), needle.to_ascii_lowercase());
    asked.want.put((needle, text.find(needle), text.contains(needle)));
    want_lines(text, |line| line.contains(needle), script, asked);
    asked.want.put((needle, low.find(&lower), low.contains(&lower)));
    want_lines(text, |line| line.to_ascii_lowercase().contains(&lower), script, asked);
}

/// Expects the lines of a text of which a test is true, by a script from the front.
fn want_lines(text: &str, is_kept: impl Fn(&str) -> bool, script: &[u8], asked: &mut Asked) {
    let mut lines = lines_of(text.as_bytes());
    lines.retain(|line| is_kept(&string(line.text.to_vec())));
    for number in script {
        let line = take_forward(&mut lines, *number);
        asked.want.put(line.map(|line| (line.ending(), line.start, line.text)));
    }
}

/// The first pieces by a script from the front, each with what remains, which begins where the next piece does.
pub fn ask_splitn(n: usize, code: u8, text: &str, script: &[u8], asked: &mut Asked) {
    calls::ask_splitn(asked, n, code, text.as_bytes(), script);
    let mut pieces: VecDeque<&str> = text.splitn(n, code as char).collect();
    let rest = |pieces: &VecDeque<&str>| {
        let left = pieces.iter().map(|piece| piece.len() + 1).sum::<usize>().checked_sub(1);
        left.map(|left| &text[text.len() - left..])
    };
    asked.want.put(rest(&pieces));
    for number in script {
        asked.want.put((take_forward(&mut pieces, *number), rest(&pieces)));
    }
}

pub fn ask_replace(text: &str, needle: &str, to: &str, asked: &mut Asked) {
    calls::ask_replace(asked, text.as_bytes(), needle.as_bytes(), to.as_bytes());
    if !needle.is_empty() {
        asked.want.copy(text.replace(needle, to));
    }
}
