//! The everyday tasks by a Rust programmer who measures: over std and the crate `memchr`, with one walk over the bytes,
//! tables, exact sizes and a searcher that is made once, where that is faster than the idioms.

pub use crate::everyday::by_memchr::find;
use crate::everyday::REPLY;
use crate::everyday::by_memchr::{lines, lines_for, split_once, trim_blanks};
use crate::peers::{mark, mixed};
use memchr::{memchr, memchr_iter, memmem, memrchr};
use std::hint::black_box;

/// The bytes of a class, as a table.
const fn table_of(others: &[u8]) -> [bool; 256] {
    let mut table = [false; 256];
    let mut byte = 0;
    while byte < 256 {
        table[byte] = (byte as u8).is_ascii_alphanumeric();
        byte += 1;
    }
    let mut at = 0;
    while at < others.len() {
        table[others[at] as usize] = true;
        at += 1;
    }
    table
}

static TOKEN: [bool; 256] = table_of(b"!#$%&'*+-.^_`|~");
static IDENTIFIER: [bool; 256] = table_of(b"_");

/// Cuts a short text at a byte, without a call.
#[inline]
fn cut(source: &[u8], on: u8) -> Option<(&[u8], &[u8])> {
    let at = source.iter().position(|byte| *byte == on)?;
    Some((&source[..at], &source[at + 1..]))
}

#[inline]
fn number(digits: &[u8]) -> Option<u64> {
    if digits.is_empty() || digits.len() > 19 {
        return None;
    }
    digits.iter().try_fold(0, |number, byte| {
        let digit = byte.wrapping_sub(b'0');
        (digit < 10).then_some(10 * number + u64::from(digit))
    })
}

pub fn headers(source: &[u8], _: &[u8]) -> usize {
    let mut sum = 0;
    for line in lines(source) {
        let Some((name, value)) = cut(line, b':') else {
            return sum;
        };
        let value = value.trim_ascii();
        sum = mixed(mixed(sum, name.len()), value.len());
        if name.eq_ignore_ascii_case(b"content-length") {
            sum = mixed(sum, number(value).unwrap_or(0) as usize);
        }
    }
    sum
}

pub fn strict_headers(source: &[u8], _: &[u8]) -> usize {
    let mut sum = 0;
    for line in lines(source) {
        // The token ends at the colon.
        let end = line.iter().position(|byte| !TOKEN[*byte as usize]);
        let Some(end) = end.filter(|end| line[*end] == b':') else {
            return sum;
        };
        sum = mixed(mixed(sum, end), trim_blanks(&line[end + 1..]).len());
    }
    sum
}

fn request_parts(source: &[u8]) -> Option<usize> {
    let (method, rest) = cut(source, b' ').filter(|_| source.is_ascii())?;
    let (target, version) = split_once(rest, b' ')?;
    if !version.starts_with(b"HTTP/1.") {
        return None;
    }
    let sum = mixed(method.len(), version.len());
    Some(match split_once(target, b'?') {
        Some((path, query)) => mixed(mixed(sum, path.len()), query.len()),
        None => mixed(sum, target.len()),
    })
}

pub fn request(source: &[u8], _: &[u8]) -> usize {
    request_parts(source).unwrap_or(0)
}

/// The lines around the places of a needle, which are searched for in the whole text.
fn lines_around(source: &[u8], needle: &[u8]) -> usize {
    let finder = memmem::Finder::new(needle);
    let (mut sum, mut from) = (0, 0);
    while let Some(found) = source.get(from..).and_then(|rest| finder.find(rest)) {
        let at = from + found;
        let start = memrchr(b'\n', &source[from..at]).map_or(from, |feed| from + feed + 1);
        let end = memchr(b'\n', &source[at..]).map_or(source.len(), |feed| at + feed);
        let line = &source[start..end];
        sum = mixed(sum, line.strip_suffix(b"\r").unwrap_or(line).len());
        from = end + 1;
    }
    sum
}

pub fn grep(source: &[u8], needle: &[u8]) -> usize {
    if source.is_ascii() && needle.is_ascii() {
        lines_around(source, needle)
    } else {
        0
    }
}

/// Over a copy in lower case.
pub fn grep_ignoring_case(source: &[u8], needle: &[u8]) -> usize {
    grep(&source.to_ascii_lowercase(), &needle.to_ascii_lowercase())
}

pub fn lookup(source: &[u8], wanted: &[u8]) -> usize {
    let is_wanted = |line: &&[u8]| {
        // The colon of the wanted name has one place.
        line.get(wanted.len()) == Some(&b':') && line[..wanted.len()].eq_ignore_ascii_case(wanted)
    };
    let line = lines_for(source, wanted).find(is_wanted);
    line.map_or(0, |line| line[wanted.len() + 1..].trim_ascii().len())
}

fn push_number(reply: &mut String, mut number: usize) {
    let (mut digits, mut at) = ([0; 20], 20);
    loop {
        at -= 1;
        digits[at] = b'0' + (number % 10) as u8;
        number /= 10;
        if number == 0 {
            break;
        }
    }
    reply.push_str(std::str::from_utf8(&digits[at..]).expect("digits"));
}

pub fn replies(source: &[u8], _: &[u8]) -> usize {
    (0..10usize).fold(0, |sum, number| {
        let mut reply = String::with_capacity(REPLY);
        reply.push_str("HTTP/1.1 ");
        push_number(&mut reply, 200);
        reply.push_str(" OK\r\nContent-Length: ");
        push_number(&mut reply, number.wrapping_mul(source.len()));
        reply.push_str("\r\n\r\n");
        mixed(sum, black_box(&reply).len())
    })
}

pub fn written_replies(source: &[u8], _: &[u8]) -> usize {
    (0..10usize).fold(0, |sum, number| {
        let (status, length) = (200usize, number.wrapping_mul(source.len()));
        let reply = format!("HTTP/1.1 {status} OK\r\nContent-Length: {length}\r\n\r\n");
        mixed(sum, black_box(&reply).len())
    })
}

/// One walk over the digits and separators.
fn sum_of_table(source: &[u8]) -> Option<usize> {
    let (mut sum, mut number, mut length) = (0usize, 0u64, 0);
    for byte in source {
        let digit = byte.wrapping_sub(b'0');
        if digit < 10 && length < 10 {
            number = 10 * number + u64::from(digit);
            length += 1;
        } else if matches!(byte, b',' | b'\n') && length > 0 {
            sum = sum.wrapping_add(u32::try_from(number).ok()? as usize);
            (number, length) = (0, 0);
        } else {
            return None;
        }
    }
    (length == 0).then_some(sum)
}

pub fn table(source: &[u8], _: &[u8]) -> usize {
    sum_of_table(source).unwrap_or(0)
}

pub fn identifiers(source: &[u8], _: &[u8]) -> usize {
    let is_one = |line: &&[u8]| line.iter().all(|byte| IDENTIFIER[*byte as usize]);
    lines(source).filter(is_one).count()
}

/// Collected at its exact size.
pub fn slug(source: &[u8], _: &[u8]) -> usize {
    if !source.is_ascii() {
        return 0;
    }
    let of = |byte: &u8| if byte.is_ascii_alphanumeric() { byte.to_ascii_lowercase() } else { b'-' };
    mark(black_box(&source.iter().map(of).collect::<Vec<u8>>()))
}

fn sum_of_settings(source: &[u8]) -> Option<usize> {
    let mut sum = 0;
    for line in lines(source) {
        let line = line.trim_ascii();
        if line.is_empty() || line.starts_with(b"#") {
            continue;
        }
        let (name, value) = cut(line, b'=')?;
        sum = mixed(mixed(sum, name.trim_ascii().len()), value.trim_ascii().len());
    }
    Some(sum)
}

pub fn settings(source: &[u8], _: &[u8]) -> usize {
    sum_of_settings(source).unwrap_or(0)
}

/// A fold without a branch, over a length that is known.
fn is_digest(line: &[u8]) -> bool {
    let is_digit = |byte: &u8| byte.wrapping_sub(b'0') < 10 || (byte | 32).wrapping_sub(b'a') < 6;
    <&[u8; 32]>::try_from(line).is_ok_and(|digits| digits.iter().fold(true, |all, byte| all & is_digit(byte)))
}

pub fn digests(source: &[u8], _: &[u8]) -> usize {
    lines(source).filter(|line| is_digest(line)).count()
}

pub fn replace(source: &[u8], _: &[u8]) -> usize {
    if !source.is_ascii() {
        return 0;
    }
    let (mut replaced, mut start) = (Vec::with_capacity(2 * source.len()), 0);
    for at in memchr_iter(b' ', source) {
        replaced.extend_from_slice(&source[start..at]);
        replaced.extend_from_slice(b"%20");
        start = at + 1;
    }
    replaced.extend_from_slice(&source[start..]);
    mark(black_box(&replaced))
}

/// One walk, without a slice for each word.
pub fn longest_word(source: &[u8], _: &[u8]) -> usize {
    if !source.is_ascii() {
        return 0;
    }
    let (mut count, mut longest, mut length) = (0, 0, 0);
    for byte in source {
        if byte.is_ascii_whitespace() {
            length = 0;
        } else {
            count += usize::from(length == 0);
            length += 1;
            longest = longest.max(length);
        }
    }
    mixed(count, longest)
}

fn address_parts(source: &[u8]) -> Option<usize> {
    let (scheme, rest) = cut(source, b':').filter(|_| source.is_ascii())?;
    let (authority, path) = cut(rest.strip_prefix(b"//")?, b'/')?;
    let sum = mixed(scheme.len(), path.len());
    Some(match authority.iter().rposition(|byte| *byte == b':') {
        Some(end) => {
            let port = number(&authority[end + 1..]).and_then(|port| u16::try_from(port).ok());
            mixed(mixed(sum, end), port.unwrap_or(0) as usize)
        }
        None => mixed(sum, authority.len()),
    })
}

pub fn address(source: &[u8], _: &[u8]) -> usize {
    address_parts(source).unwrap_or(0)
}

pub fn lower_names(source: &[u8], _: &[u8]) -> usize {
    let mut sum = 0;
    for line in lines(source) {
        let Some((name, _)) = cut(line, b':') else {
            return sum;
        };
        sum = mixed(sum, mark(black_box(&name.to_ascii_lowercase())));
    }
    sum
}
