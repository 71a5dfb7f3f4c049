//! What the cookbook reads and shows, by plain loops.

use super::characters::is_white;
use super::edits::INLINE;
use super::rewrites::quoted_in;
use super::string;
use super::walks::{lines_of, pieces};
use super::words::is_token;
use super::{allocating, kind, long, Kind};
use crate::asked::{Asked, Failed, Fault, Needs, Put};
use crate::calls;
use crate::random::Random;
use std::cmp::Ordering;

pub static KINDS: &[Kind] = &[
    kind("headers", header),
    long("blocks of headers", 8, block).allocating(),
    allocating("host names", hosts),
    kind("settings", setting),
    allocating("settings files", settings),
    allocating("fields of CSV", field),
    allocating("rows", row),
    long("texts on a screen", 4, screen).allocating(),
    kind("identifiers", identifier),
    allocating("texts with marks", lossy),
    kind("last lines", last_lines),
];

/// The name and the value of a line.
fn header_of(line: &[u8]) -> Result<(&[u8], &[u8]), Fault> {
    let at = line.iter().position(|byte| *byte == b':').ok_or(Fault("colon", None))?;
    if at == 0 {
        return Err(Fault("name", None));
    }
    if let Some(bad) = line[..at].iter().position(|byte| !is_token(*byte)) {
        return Err(Fault("token", Some(bad)));
    }
    let value = std::str::from_utf8(&line[at + 1..]).expect("codes under 128");
    Ok((&line[..at], value.trim_matches([' ', '\t']).as_bytes()))
}

pub fn header(random: &mut Random, asked: &mut Asked) {
    let line = random.line(b"Ho-st: \t.x(");
    calls::ask_header(asked, &line);
    asked.want.put(header_of(&line));
}

/// A block of lines, of which most are headers.
fn headers(random: &mut Random) -> Vec<u8> {
    let mut block = random.joined(&[b"a:x\n", b"Bc: y\r\n", b"A:\tz \n", b"bC::\n", b"d-:\n"]);
    if random.below(2) == 0 {
        block.insert(random.below(block.len() + 1), *random.pick(b"\n: ("));
    }
    if random.below(4) == 0 {
        block.pop();
    }
    block
}

/// The number and the start of a line that is not a header, and why.
type NotHeader = ((&'static str, usize), usize, Fault);

fn headers_of(block: &[u8]) -> Result<Vec<(&[u8], &[u8])>, NotHeader> {
    let lines = lines_of(block).into_iter().enumerate();
    lines.map(|(number, line)| header_of(line.text).map_err(|fault| (("line", number), line.start, fault))).collect()
}

pub fn block(random: &mut Random, asked: &mut Asked) {
    let block = headers(random);
    let name: &[u8] = *random.pick(&[b"a".as_slice(), b"A", b"bc", b"BC", b"D-", b"-", b""]);
    match headers_of(&block) {
        Ok(headers) => {
            let is_named = |header: &(&[u8], &[u8])| header.0.eq_ignore_ascii_case(name);
            let named = headers.iter().position(is_named).zip(headers.iter().rposition(is_named));
            ask_headers(name, &block, &headers, named, asked);
        }
        Err(error) => {
            calls::ask_headers(asked, name, &block);
            asked.want.put(error);
        }
    }
}

/// Asks for the headers of a block, the value of a name in their map, and the first header with that name. `named` are
/// the indexes of the first and of the last header with it.
pub fn ask_headers<T: Put>(name: &[u8], block: &[u8], headers: &[(T, T)], named: Option<(usize, usize)>, asked: &mut Asked) {
    calls::ask_headers(asked, name, block);
    let want = &mut asked.want;
    want.all(headers);
    let start = want.bytes.len();
    want.put(named.map(|(_, last)| &headers[last].1));
    let in_map = start..want.bytes.len();
    want.put(named.map(|(first, _)| &headers[first]));
    let needs = Needs::memory_if(!headers.is_empty());
    want.fails(needs, 0, Failed);
    want.fails_in(needs, in_map, |want| want.put(Failed));
}

/// Why a label is not valid.
fn label_fault(start: usize, label: &[u8]) -> Option<Fault> {
    let other = label.iter().position(|byte| !byte.is_ascii_alphanumeric() && *byte != b'-');
    let (name, at) = match (label, other) {
        ([], _) => ("empty", 0),
        _ if label.len() > 63 => ("label", 0),
        (_, Some(bad)) => ("character", bad),
        ([b'-', ..], _) => ("hyphen", 0),
        ([.., b'-'], _) => ("hyphen", label.len() - 1),
        _ => return None,
    };
    Some(Fault(name, Some(start + at)))
}

/// Why a name is not that of a host.
fn host_fault(name: &[u8]) -> Option<Fault> {
    if name.len() > 253 {
        return Some(Fault("long", None));
    }
    pieces(name, b'.').iter().find_map(|label| label_fault(label.start, label.text))
}

fn host(random: &mut Random) -> Vec<u8> {
    match random.below(8) {
        0 => random.repeated(b"abcdefghij", 80),
        1 => random.repeated(b"a.bcdefgh", 300),
        2 => {
            // Labels about the longest length.
            let label = |random: &mut Random| vec![b'a'; 62 + random.below(3)];
            let labels: Vec<Vec<u8>> = (0..1 + random.count(4)).map(|_| label(random)).collect();
            labels.join(&b'.')
        }
        _ => random.line(b"aB-.1z"),
    }
}

pub fn hosts(random: &mut Random, asked: &mut Asked) {
    let first = host(random);
    let second = if random.below(2) == 0 { random.other(&first) } else { host(random) };
    let (low, lower) = (first.to_ascii_lowercase(), second.to_ascii_lowercase());
    let fault = host_fault(&first);
    let order = fault.or(host_fault(&second)).map_or(Ok(low.cmp(&lower)), Err);
    ask_hosts(&first, &second, fault.map_or(Ok(&low), Err), order, asked);
}

/// Asks for the first of two names as a host, whether both are the same host, and their order.
pub fn ask_hosts(first: &[u8], second: &[u8], host: Result<impl Put, Fault>, order: Result<Ordering, Fault>, asked: &mut Asked) {
    calls::ask_hosts(asked, first, second);
    let is_copied = host.is_ok() && first.len() > INLINE;
    asked.want.allocated(Needs::memory_if(is_copied), &host);
    // The first name is copied before the second one is looked at.
    let needs = Needs::memory_if(is_copied || order.is_ok() && second.len() > INLINE);
    asked.want.allocated(needs, order.map(Ordering::is_eq));
    asked.want.allocated(needs, order);
}

/// The key and the value of a line, or `None` if it says nothing.
fn setting_of(line: &str) -> Result<Option<(&str, &str)>, Fault> {
    let white = |c: char| is_white(c as u8);
    let body = line.split('#').next().unwrap_or("");
    let start = body.len() - body.trim_start_matches(white).len();
    match body.split_once('=') {
        _ if start == body.len() => Ok(None),
        None => Err(Fault("equals", Some(start))),
        Some((key, _)) if key.trim_matches(white).is_empty() => Err(Fault("key", Some(key.len()))),
        Some((key, value)) => Ok(Some((key.trim_matches(white), value.trim_matches(white)))),
    }
}

pub fn setting(random: &mut Random, asked: &mut Asked) {
    let line = string(random.line(b"k= #v\t"));
    calls::ask_setting(asked, line.as_bytes());
    asked.want.put(setting_of(&line));
}

pub fn settings(random: &mut Random, asked: &mut Asked) {
    let file = string(random.joined(&[b"k=v", b" a = b # c\r", b"\n", b"#", b" =", b"\tk"]));
    calls::ask_settings(asked, file.as_bytes());
    let mut settings = Vec::new();
    for (number, line) in file.lines().enumerate() {
        match setting_of(line) {
            Ok(setting) => settings.extend(setting),
            Err(Fault(name, at)) => {
                let what = if name == "key" { "no key before the '='" } else { "no '='" };
                return asked.want.put(format!("{}:{}: {what}", number + 1, at.unwrap_or(0) + 1));
            }
        }
    }
    asked.want.all(settings);
}

/// Whether a field without quotes cannot have the byte.
fn is_special(byte: &u8) -> bool {
    b",\"\r\n".contains(byte)
}

/// The text of the field at the start of a line, and what comes after the field; and whether the text needs memory.
type Taken = (Needs, Result<(String, String), Fault>);

fn field_of(line: &[u8]) -> Taken {
    let (text, rest) = match quoted_in(line, b'"', b'"') {
        Ok((inside, rest)) => (string(inside.to_vec()).replace("\"\"", "\""), rest),
        Err(Some(_)) => return (Needs::Nothing, Err(Fault("closed", None))),
        Err(None) => {
            let end = line.iter().position(is_special).unwrap_or(line.len());
            (string(line[..end].to_vec()), &line[end..])
        }
    };
    let needs = Needs::memory_if(!text.is_empty());
    match rest.first() {
        None | Some(b',') => (needs, Ok((text, string(rest.to_vec())))),
        Some(_) => (needs, Err(Fault("comma", Some(line.len() - rest.len())))),
    }
}

pub fn field(random: &mut Random, asked: &mut Asked) {
    let text = string(random.line(b",\"\n"));
    let line = random.joined(&[b"\"", b"a", b"\"\"", b"b,", b"\"a b\","]);
    let field = match text.as_bytes().iter().any(is_special) {
        true => format!("\"{}\"", text.replace('"', "\"\"")),
        false => text.clone(),
    };
    ask_field(&text, &field, &line, field_of(&line), asked);
}

/// A field for a text, and the text of the field at the start of a line.
pub fn ask_field(text: &str, field: &str, line: &[u8], (needs, taken): Taken, asked: &mut Asked) {
    calls::ask_field(asked, text.as_bytes(), line);
    let want = &mut asked.want;
    want.put((true, field));
    want.fails_by(Needs::memory_if(!field.is_empty()), 0, |want| want.put((false, "")));
    want.allocated(needs, taken);
}

pub fn row(random: &mut Random, asked: &mut Asked) {
    let text = random.joined(&[b"a\t", b"b c", b"D", b"\te", b"\n"]);
    let fields: Vec<&[u8]> = text.split(|byte| *byte == b'\t').collect();
    let columns = if random.below(2) == 0 { fields.len() } else { random.below(6) };
    calls::ask_row(asked, columns, &text);
    // Where the field with this index starts: after the fields and the tabs before it.
    let start = |index: usize| fields[..index].iter().map(|field| field.len() + 1).sum::<usize>();
    match fields.iter().position(|field| field.is_empty()) {
        Some(index) if index < columns => {
            asked.want.put(("empty", index, start(index)));
        }
        _ if fields.len() < columns => asked.want.put(("few", fields.len())),
        _ if fields.len() > columns => asked.want.put(("many", start(columns))),
        _ => asked.want.all(fields),
    }
    asked.want.fails(Needs::Perhaps, 0, Failed);
}

/// What a screen shows of a character other than LF at a column.
fn cell(byte: u8, column: usize, width: usize) -> Vec<u8> {
    match byte {
        b'\t' => (column..width).take(8 - column % 8).map(|_| b' ').collect(),
        0..=31 | 127 => vec![b'^', byte ^ 64],
        _ => vec![byte],
    }
}

pub fn screen(random: &mut Random, asked: &mut Asked) {
    let width = 2 + if random.below(4) == 0 { random.below(90) } else { random.below(14) };
    let text = random.joined(&[b"\t", b"a", b"\n", b"\x01", b"bcdefg", b"\x7f", b" ", b"\r"]);
    calls::ask_screen(asked, width, &text);
    let mut lines: Vec<Vec<u8>> = Vec::new();
    let mut line = Vec::new();
    for byte in text {
        let shown = cell(byte, line.len(), width);
        if byte == b'\n' {
            lines.push(std::mem::take(&mut line));
        } else if line.len() + shown.len() > width {
            lines.push(std::mem::replace(&mut line, cell(byte, 0, width)));
        } else {
            line.extend(shown);
        }
    }
    let column = line.len();
    lines.push(line);
    let shown = lines.join(&b'\n');
    asked.want.allocated(Needs::memory_if(!shown.is_empty()), (shown, column));
}

pub fn identifier(random: &mut Random, asked: &mut Asked) {
    let text = random.line(b"aZ_9-@`[/:{");
    calls::ask_identifier(asked, &text);
    let other = text.iter().position(|byte| !byte.is_ascii_alphanumeric() && *byte != b'_');
    asked.want.put(text.split_at(other.unwrap_or(text.len())));
}

pub fn lossy(random: &mut Random, asked: &mut Asked) {
    let source = random.bytes();
    calls::ask_lossy(asked, &source);
    let runs = source.chunk_by(|a, b| a.is_ascii() == b.is_ascii());
    let marked: Vec<&[u8]> = runs.map(|run| if run.is_ascii() { run } else { b"?" }).collect();
    asked.want.copy(marked.concat());
}

pub fn last_lines(random: &mut Random, asked: &mut Asked) {
    let text = random.text();
    let n = if random.below(2) == 0 { random.below(5) } else { random.place(text.len()) };
    calls::ask_last_lines(asked, n, &text);
    let lines = lines_of(&text);
    let at = lines.len().saturating_sub(n);
    let start = lines.get(at).map_or(text.len(), |line| line.start);
    asked.want.put((&text[start..], &text[..start], lines.back().map(|line| line.start + line.text.len())));
    asked.want.put(text.last().is_some_and(|last| *last != b'\n'));
}
