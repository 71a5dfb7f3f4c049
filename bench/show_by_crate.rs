//! The modes copy, lines, tac, caret and json of the program over the Rust crate, by plain use of its calls.
//! usage: show_by_crate MODE < TEXT

use ascii::{caret_encode, AsAsciiStr, AsciiChar, AsciiStr, AsciiString};
use std::io::{Read, Write};

fn lines<'a>(lines: impl Iterator<Item = &'a AsciiStr>) -> Vec<u8> {
    let mut output = AsciiString::new();
    for line in lines {
        output.push_str(line);
        output.push(AsciiChar::LineFeed);
    }
    output.into()
}

fn caret(text: &AsciiStr) -> Vec<u8> {
    let mut output = AsciiString::with_capacity(text.len());
    for ch in text.chars() {
        match caret_encode(ch.as_byte()) {
            Some(letter) if ch.is_ascii_control() && ch != AsciiChar::LineFeed => {
                output.push(AsciiChar::Caret);
                output.push(letter);
            }
            _ => output.push(ch),
        }
    }
    output.into()
}

fn json(text: &AsciiStr) -> Vec<u8> {
    let mut output = String::with_capacity(text.len() + 2);
    output.push('"');
    for ch in text.chars() {
        match ch.as_char() {
            '"' => output.push_str("\\\""),
            '\\' => output.push_str("\\\\"),
            '\n' => output.push_str("\\n"),
            '\r' => output.push_str("\\r"),
            '\t' => output.push_str("\\t"),
            '\x08' => output.push_str("\\b"),
            '\x0c' => output.push_str("\\f"),
            ch if ch < ' ' => output.push_str(&format!("\\u{:04x}", ch as u32)),
            ch => output.push(ch),
        }
    }
    output.push('"');
    output.into_bytes()
}

fn main() {
    let mode = std::env::args().nth(1).unwrap_or_default();
    let mut input = Vec::new();
    std::io::stdin()
        .read_to_end(&mut input)
        .expect("the input can be read");
    let text = input.as_ascii_str().expect("the input is ASCII");
    let output = match &mode[..] {
        "copy" => None,
        "lines" => Some(lines(text.lines())),
        "tac" => Some(lines(text.lines().rev())),
        "caret" => Some(caret(text)),
        "json" => Some(json(text)),
        _ => panic!("a mode: copy, lines, tac, caret or json"),
    };
    let output = output.as_deref().unwrap_or(text.as_bytes());
    std::io::stdout()
        .write_all(output)
        .expect("the output can be written");
}
