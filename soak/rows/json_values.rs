//! Texts and characters of JSON values.

use super::Row;
use crate::kinds::json_values::{ask_json, ask_json_characters, ask_json_value};

pub static ROWS: &[Row] = &[
    ("texts_of_json_values", |rows| rows.each(VALUES, |(source, text), asked| ask_json_value(source.as_bytes(), text, asked))),
    ("texts_as_json_values", |rows| {
        let long = "a?".repeat(10_000);
        rows.each(["Francais", "", "a\"b\n", "\0\x7f", long.as_str()], |text, asked| ask_json(text.as_bytes(), asked));
        let codes: Vec<u8> = (0..128).collect();
        rows.ask(|asked| ask_json_characters(&codes, asked));
    }),
];

/// A source, and its text if it is a string.
static VALUES: [(&str, Option<&str>); 10] = [
    ("\"e\"", Some("e")),
    ("\"\\u0000\"", Some("\0")),
    ("\"\u{e9}\"", Some("\u{e9}")),
    ("\"\"", Some("")),
    ("\"ab\"", Some("ab")),
    ("7", None),
    ("[\"e\"]", None),
    ("null", None),
    ("\"Fran\u{e7}ais\"", Some("Fran\u{e7}ais")),
    ("\"\\\"\"", Some("\"")),
];
