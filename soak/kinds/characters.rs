//! Characters, by std's `u8`.

use super::{allocating, kind, long, Kind};
use crate::asked::{Answer, Asked, Failed, Needs};
use crate::calls;
use crate::random::Random;
use std::collections::HashSet;

pub static KINDS: &[Kind] = &[
    kind("characters of numbers", |random, asked| ask_characters_of(&numbers(random), asked)),
    long("characters", 4, |random, asked| ask_characters(&codes(random, 128), random.below(37) as u32, asked)),
    kind("pairs of characters", pairs),
    kind("caret notation", |random, asked| ask_carets(&codes(random, 256), asked)),
    allocating("conversions of characters", |random, asked| ask_conversions(&codes(random, 256), asked)),
    allocating("sets of characters", |random, asked| ask_set(&codes(random, 128), asked)),
];

/// Numbers next to the borders of ASCII, bytes and the types.
const NUMBERS: [i64; 12] = [-129, -128, -1, 0, 126, 127, 128, 255, 256, 0xd800, 0x10_ffff, 0x1_0000_0000];

/// Up to eight numbers.
pub fn numbers(random: &mut Random) -> Vec<i64> {
    let number = |random: &mut Random| match random.below(3) {
        0 => *random.pick(&NUMBERS) + random.below(3) as i64 - 1,
        1 => random.below(256) as i64,
        _ => random.next() as i64 >> random.below(64),
    };
    (0..1 + random.count(7)).map(|_| number(random)).collect()
}

pub fn ask_characters_of(numbers: &[i64], asked: &mut Asked) {
    calls::ask_characters_of(asked, numbers);
    for number in numbers {
        let code = (0..128).contains(number).then_some(*number as usize);
        asked.want.times(5, code);
    }
}

/// Up to sixteen codes.
pub fn codes(random: &mut Random, most: usize) -> Vec<u8> {
    let count = if random.is_small() { 2 } else { 1 + random.below(16) };
    (0..count).map(|_| random.below(most) as u8).collect()
}

/// What `is_ascii_digit` of another radix says.
fn digit(code: u8, radix: u32) -> Option<usize> {
    let value = match code {
        b'0'..=b'9' => code - b'0',
        _ if code.is_ascii_alphabetic() => code.to_ascii_lowercase() - b'a' + 10,
        _ => return None,
    };
    (u32::from(value) < radix).then_some(value.into())
}

/// The whitespace of `trim`, which has vertical tab.
pub fn is_white(byte: u8) -> bool {
    matches!(byte, 9..=13 | 32)
}

pub fn ask_characters(codes: &[u8], radix: u32, asked: &mut Asked) {
    calls::ask_characters(asked, codes, radix);
    for code in codes.iter().copied() {
        let want = &mut asked.want;
        want.put((code.is_ascii_alphabetic(), code.is_ascii_alphabetic(), code.is_ascii_digit()));
        want.put((code.is_ascii_alphanumeric(), code.is_ascii_alphanumeric(), code.is_ascii_lowercase()));
        want.put((code.is_ascii_lowercase(), code.is_ascii_uppercase(), code.is_ascii_uppercase()));
        want.put((matches!(code, 9 | 32), is_white(code), code.is_ascii_whitespace()));
        want.put((code.is_ascii_control(), code.is_ascii_graphic(), matches!(code, 32..=126)));
        want.put((code.is_ascii_punctuation(), code.is_ascii_hexdigit(), code.to_ascii_uppercase()));
        want.put(code.to_ascii_lowercase());
        want.put(match code {
            0..=31 => 0x2400 + usize::from(code),
            127 => 0x2421,
            _ => code.into(),
        });
        want.put((digit(code, radix).is_some(), digit(code, radix).unwrap_or(radix as usize)));
    }
}

pub fn pairs(random: &mut Random, asked: &mut Asked) {
    let mut codes = codes(random, 128);
    for at in (1..codes.len()).step_by(2) {
        if random.below(4) > 0 {
            codes[at] = codes[at - 1] ^ *random.pick(&[0, 0x20, 1, 0x40]);
        }
    }
    ask_pairs(&codes, asked);
}

pub fn ask_pairs(codes: &[u8], asked: &mut Asked) {
    calls::ask_character_pairs(asked, codes);
    for pair in codes.chunks_exact(2) {
        asked.want.put((pair[0].eq_ignore_ascii_case(&pair[1]), pair[0].cmp(&pair[1]), true));
    }
}

pub fn ask_carets(codes: &[u8], asked: &mut Asked) {
    calls::ask_carets(asked, codes);
    for code in codes.iter().copied() {
        asked.want.put(matches!(code, 0..=31 | 127).then_some(usize::from(code ^ 64)));
        asked.want.put(matches!(code, 63..=95).then_some(usize::from(code ^ 64)));
    }
}

/// The character of a code by nine calls, in upper and in lower case, and its code three times.
pub fn ask_conversions(codes: &[u8], asked: &mut Asked) {
    calls::ask_character_conversions(asked, codes);
    for code in codes {
        let want = &mut asked.want;
        if !code.is_ascii() {
            want.put("not an ASCII character");
            want.copy("not an ASCII character not an ASCII character");
            continue;
        }
        want.times(9, *code);
        want.put((code.to_ascii_uppercase(), code.to_ascii_lowercase()));
        want.times(3, *code);
    }
}

/// Whether each code is new in a set, and how many are in it.
pub fn ask_set(codes: &[u8], asked: &mut Asked) {
    calls::ask_character_set(asked, codes);
    put_set(codes, usize::MAX, &mut asked.want);
    if asked.lets_fail {
        for at in 0..codes.len() {
            // There may be room for all but the first one.
            let needs = if at == 0 { Needs::Memory } else { Needs::Perhaps };
            asked.want.fails_by(needs, 0, |want| put_set(codes, at, want));
        }
    }
}

/// Whether each code is new, if there is no memory for the one at a position.
fn put_set(codes: &[u8], failing: usize, want: &mut Answer) {
    let mut seen = HashSet::new();
    for (at, code) in codes.iter().enumerate() {
        if at == failing {
            want.put(Failed);
        } else {
            want.put(seen.insert(code));
        }
    }
    want.put(seen.len());
}
