//! Texts and characters as JSON values, by plain loops.

use super::characters::codes;
use super::{allocating, Kind};
use crate::asked::{Asked, Failed, Needs};
use crate::calls;

pub static KINDS: &[Kind] = &[
    allocating("JSON texts", |random, asked| ask_json(&random.text(), asked)),
    // A value that is a string, written as JSON, whose text may have a code above 127.
    allocating("JSON values", |random, asked| {
        let text = String::from_utf8(random.unicode()).expect("UTF-8");
        ask_json_value(&quoted(text.as_bytes()), Some(&text), asked);
    }),
    allocating("JSON characters", |random, asked| ask_json_characters(&codes(random, 128), asked)),
];

/// The codes of a JSON string, without its quotes.
pub fn json_codes(bytes: &[u8]) -> Vec<u8> {
    let mut out = Vec::new();
    for byte in bytes {
        match byte {
            b'"' => out.extend(b"\\\""),
            b'\\' => out.extend(b"\\\\"),
            8 => out.extend(b"\\b"),
            9 => out.extend(b"\\t"),
            10 => out.extend(b"\\n"),
            12 => out.extend(b"\\f"),
            13 => out.extend(b"\\r"),
            0..=31 => out.extend(format!("\\u{byte:04x}").bytes()),
            _ => out.push(*byte),
        }
    }
    out
}

pub fn quoted(bytes: &[u8]) -> Vec<u8> {
    [b"\"".as_slice(), &json_codes(bytes), b"\""].concat()
}

/// The JSON text of a view and the string read back, and a string that was a JSON value.
pub fn ask_json(text: &[u8], asked: &mut Asked) {
    calls::ask_json(asked, text);
    let (want, some) = (&mut asked.want, Needs::memory_if(!text.is_empty()));
    want.put(quoted(text));
    let after = want.bytes.len();
    want.put(text);
    want.fails(some, 0, Failed);
    want.fails_in(Needs::Memory, 0..after, |want| want.put(Failed));
    want.fails(some, after, Failed);
    want.copy(text);
}

/// The text, its copy and the character that a JSON value has: of a string its text, and otherwise `None`.
pub fn ask_json_value(source: &[u8], text: Option<&str>, asked: &mut Asked) {
    calls::ask_json_value(asked, source);
    let want = &mut asked.want;
    let Some(text) = text else {
        want.times(3, "text");
        // A list is in an allocation, and a number is not.
        return want.fails(Needs::Perhaps, 0, Failed);
    };
    let (non_ascii, mut ends) = (text.bytes().position(|byte| !byte.is_ascii()), [0; 2]);
    for end in &mut ends {
        match non_ascii {
            Some(at) => want.put(("ascii", at)),
            None => want.put(text),
        }
        *end = want.bytes.len();
    }
    match text.as_bytes() {
        [code] => want.put(*code),
        _ => want.put("byte"),
    }
    // The value, and the copy of its text.
    let some = Needs::memory_if(!text.is_empty());
    want.fails(some, 0, Failed);
    want.fails_in(if non_ascii.is_none() { some } else { Needs::Nothing }, ends[0]..ends[1], |want| want.put(Failed));
}

pub fn ask_json_characters(codes: &[u8], asked: &mut Asked) {
    calls::ask_json_characters(asked, codes);
    let want = &mut asked.want;
    for code in codes {
        let start = want.bytes.len();
        want.put(quoted(&[*code]));
        let printed = want.bytes.len();
        want.put(*code);
        want.fails(Needs::Memory, start, Failed);
        want.fails_in(Needs::Memory, start..printed, |want| want.put(Failed));
    }
}
