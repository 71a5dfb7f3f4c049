//! Tasks as a program has them every day, by the library of this repository, std, the crate memchr, the Rust crate, and the
//! best Rust over them (`best`).
//! A function of one name does the same work and gives the same answer on each side. Each begins with bytes that are
//! not checked, and gives 0 for a text that is not ASCII or not of the form that it reads.

use crate::best;
use crate::peers::{mark, mixed};
use crate::task_texts;

/// The room that a reply is given, in bytes: its head is shorter.
pub const REPLY: usize = 64;

/// A task: of a text and, if the task takes one, of another text.
type Task = fn(&[u8], &[u8]) -> usize;

/// A row of the page: its name, its texts, the other text, and the task by each side that has it.
pub struct Row {
    pub name: &'static str,
    pub texts: Vec<Vec<u8>>,
    pub other: &'static [u8],
    pub sides: Vec<(&'static str, Task)>,
}

mod ours {
    //! Exports of crates/measured.

    macro_rules! exported {
        ($($name:ident as $export:ident($source:ident)),*) => {
            mod one {
                extern "C" { $(pub fn $export(source: *const u8, length: usize) -> usize;)* }
            }
            $(pub fn $name($source: &[u8], _: &[u8]) -> usize {
                unsafe { one::$export($source.as_ptr(), $source.len()) }
            })*
        };
        ($($name:ident as $export:ident($source:ident, $other:ident)),*) => {
            mod two {
                extern "C" {
                    $(pub fn $export(
                        source: *const u8,
                        length: usize,
                        other: *const u8,
                        other_length: usize,
                    ) -> usize;)*
                }
            }
            $(pub fn $name($source: &[u8], $other: &[u8]) -> usize {
                unsafe { two::$export($source.as_ptr(), $source.len(), $other.as_ptr(), $other.len()) }
            })*
        };
    }

    exported! {
        headers as bench_headers(source),
        strict_headers as bench_strict_headers(source),
        request as bench_request(source),
        replies as bench_replies(source),
        written_replies as bench_written_replies(source),
        table as bench_table(source),
        identifiers as bench_identifiers(source),
        slug as bench_slug(source),
        settings as bench_settings(source),
        digests as bench_digests(source),
        replace as bench_replace(source),
        longest_word as bench_longest_word(source),
        address as bench_address(source),
        lower_names as bench_lower_names(source)
    }

    exported! {
        grep as bench_grep(source, needle),
        grep_ignoring_case as bench_grep_ignoring_case(source, needle),
        lookup as bench_lookup(source, name),
        find as bench_find(source, needle)
    }
}

mod by_std {
    //! std: `str` and `String`.

    use super::{mark, mixed};
    use std::fmt::Write;
    use std::hint::black_box;

    fn text(source: &[u8]) -> Option<&str> {
        source
            .is_ascii()
            .then(|| unsafe { std::str::from_utf8_unchecked(source) })
    }

    pub fn headers(source: &[u8], _: &[u8]) -> usize {
        let mut sum = 0;
        for line in text(source).unwrap_or_default().lines() {
            let Some((name, value)) = line.split_once(':') else {
                return sum;
            };
            let value = value.trim();
            sum = mixed(mixed(sum, name.len()), value.len());
            if name.eq_ignore_ascii_case("content-length") {
                sum = mixed(sum, value.parse().unwrap_or(0));
            }
        }
        sum
    }

    pub fn strict_headers(source: &[u8], _: &[u8]) -> usize {
        let mut sum = 0;
        for line in text(source).unwrap_or_default().lines() {
            let Some((name, value)) = line.split_once(':') else {
                return sum;
            };
            if !name.bytes().all(super::is_token) {
                return sum;
            }
            let value = value.trim_matches([' ', '\t']);
            sum = mixed(mixed(sum, name.len()), value.len());
        }
        sum
    }

    fn request_parts(source: &[u8]) -> Option<usize> {
        let (method, rest) = text(source)?.split_once(' ')?;
        let (target, version) = rest.split_once(' ')?;
        if !version.starts_with("HTTP/1.") {
            return None;
        }
        let sum = mixed(method.len(), version.len());
        Some(match target.split_once('?') {
            Some((path, query)) => mixed(mixed(sum, path.len()), query.len()),
            None => mixed(sum, target.len()),
        })
    }

    pub fn request(source: &[u8], _: &[u8]) -> usize {
        request_parts(source).unwrap_or(0)
    }

    pub fn grep(source: &[u8], needle: &[u8]) -> usize {
        let (Some(text), Some(needle)) = (text(source), text(needle)) else {
            return 0;
        };
        let lines = text.lines().filter(|line| line.contains(needle));
        lines.fold(0, |sum, line| mixed(sum, line.len()))
    }

    pub fn grep_ignoring_case(source: &[u8], needle: &[u8]) -> usize {
        let (Some(text), Some(needle)) = (text(source), text(needle)) else {
            return 0;
        };
        let needle = needle.to_ascii_lowercase();
        let lines = text.lines().filter(|line| line.to_ascii_lowercase().contains(&needle));
        lines.fold(0, |sum, line| mixed(sum, line.len()))
    }

    pub fn lookup(source: &[u8], name: &[u8]) -> usize {
        let (Some(text), Some(wanted)) = (text(source), text(name)) else {
            return 0;
        };
        let mut headers = text.lines().filter_map(|line| line.split_once(':'));
        headers
            .find(|(name, _)| name.eq_ignore_ascii_case(wanted))
            .map_or(0, |(_, value)| value.trim().len())
    }

    fn push_reply(reply: &mut String, length: usize) -> std::fmt::Result {
        let status: usize = 200;
        reply.push_str("HTTP/1.1 ");
        write!(reply, "{status}")?;
        reply.push_str(" OK\r\nContent-Length: ");
        write!(reply, "{length}")?;
        reply.push_str("\r\n\r\n");
        Ok(())
    }

    pub fn replies(source: &[u8], _: &[u8]) -> usize {
        (0..10usize).fold(0, |sum, number| {
            let mut reply = String::with_capacity(super::REPLY);
            let pushed = push_reply(&mut reply, number.wrapping_mul(source.len()));
            mixed(sum, pushed.map_or(0, |()| black_box(&reply).len()))
        })
    }

    pub fn written_replies(source: &[u8], _: &[u8]) -> usize {
        (0..10usize).fold(0, |sum, number| {
            let (mut reply, status, length) = (String::with_capacity(super::REPLY), 200usize, number.wrapping_mul(source.len()));
            let written = write!(reply, "HTTP/1.1 {status} OK\r\nContent-Length: {length}\r\n\r\n");
            mixed(sum, written.map_or(0, |()| black_box(&reply).len()))
        })
    }

    fn sum_of_table(source: &[u8]) -> Option<usize> {
        let fields = text(source)?.lines().flat_map(|line| line.split(','));
        fields.map(|field| Some(field.parse::<u32>().ok()? as usize)).sum()
    }

    pub fn table(source: &[u8], _: &[u8]) -> usize {
        sum_of_table(source).unwrap_or(0)
    }

    pub fn identifiers(source: &[u8], _: &[u8]) -> usize {
        let lines = text(source).unwrap_or_default().lines();
        lines
            .filter(|line| line.bytes().all(super::is_of_identifier))
            .count()
    }

    pub fn slug(source: &[u8], _: &[u8]) -> usize {
        let title = text(source).unwrap_or_default();
        let of = |ch: char| if ch.is_ascii_alphanumeric() { ch.to_ascii_lowercase() } else { '-' };
        let mut slug = String::with_capacity(title.len());
        slug.extend(title.chars().map(of));
        mark(black_box(&slug).as_bytes())
    }

    fn sum_of_settings(source: &[u8]) -> Option<usize> {
        let mut sum = 0;
        for line in text(source)?.lines() {
            let line = line.trim();
            if line.is_empty() || line.starts_with('#') {
                continue;
            }
            let (name, value) = line.split_once('=')?;
            sum = mixed(mixed(sum, name.trim().len()), value.trim().len());
        }
        Some(sum)
    }

    pub fn settings(source: &[u8], _: &[u8]) -> usize {
        sum_of_settings(source).unwrap_or(0)
    }

    pub fn digests(source: &[u8], _: &[u8]) -> usize {
        let lines = text(source).unwrap_or_default().lines();
        lines
            .filter(|line| line.len() == 32 && line.bytes().all(|byte| byte.is_ascii_hexdigit()))
            .count()
    }

    pub fn replace(source: &[u8], _: &[u8]) -> usize {
        let replaced = text(source).unwrap_or_default().replace(' ', "%20");
        mark(black_box(replaced).as_bytes())
    }

    pub fn longest_word(source: &[u8], _: &[u8]) -> usize {
        let words = text(source).unwrap_or_default().split_ascii_whitespace();
        let (count, longest) = words.fold((0, 0), |(count, longest): (usize, usize), word| {
            (count + 1, longest.max(word.len()))
        });
        mixed(count, longest)
    }

    fn address_parts(source: &[u8]) -> Option<usize> {
        let (scheme, rest) = text(source)?.split_once("://")?;
        let (authority, path) = rest.split_once('/')?;
        let sum = mixed(scheme.len(), path.len());
        Some(match authority.rsplit_once(':') {
            Some((host, port)) => {
                mixed(mixed(sum, host.len()), port.parse::<u16>().unwrap_or(0) as usize)
            }
            None => mixed(sum, authority.len()),
        })
    }

    pub fn address(source: &[u8], _: &[u8]) -> usize {
        address_parts(source).unwrap_or(0)
    }

    pub fn lower_names(source: &[u8], _: &[u8]) -> usize {
        let mut sum = 0;
        for line in text(source).unwrap_or_default().lines() {
            let Some((name, _)) = line.split_once(':') else {
                return sum;
            };
            sum = mixed(sum, mark(black_box(name.to_ascii_lowercase()).as_bytes()));
        }
        sum
    }

    pub fn find(source: &[u8], needle: &[u8]) -> usize {
        let (Some(text), Some(needle)) = (text(source), text(needle)) else {
            return 0;
        };
        text.find(needle).unwrap_or(source.len())
    }
}

pub mod by_memchr {
    //! Bare loops over the Rust crate `memchr`.

    use super::mixed;
    use memchr::{Memchr, memchr, memchr2_iter, memchr_iter, memmem, memrchr};

    /// The lines of a text, as a careful user of the crate writes them: one iterator over the whole text.
    pub struct Lines<'a> {
        feeds: Memchr<'a>,
        source: &'a [u8],
        start: usize,
    }

    impl<'a> Iterator for Lines<'a> {
        type Item = &'a [u8];

        #[inline]
        fn next(&mut self) -> Option<&'a [u8]> {
            match self.feeds.next() {
                Some(end) => {
                    let line = &self.source[self.start..end];
                    self.start = end + 1;
                    Some(line.strip_suffix(b"\r").unwrap_or(line))
                }
                None => {
                    let line = &self.source[self.start..];
                    self.start = self.source.len();
                    (!line.is_empty()).then_some(line)
                }
            }
        }
    }

    /// The lines of a text; none if it is not ASCII.
    pub fn lines(source: &[u8]) -> Lines<'_> {
        let source = if source.is_ascii() { source } else { &[] };
        Lines {
            feeds: memchr_iter(b'\n', source),
            source,
            start: 0,
        }
    }

    /// The lines of a text; none if it or the text that is asked for is not ASCII.
    pub fn lines_for<'a>(source: &'a [u8], needle: &[u8]) -> Lines<'a> {
        lines(if needle.is_ascii() { source } else { &[] })
    }

    pub fn split_once(source: &[u8], on: u8) -> Option<(&[u8], &[u8])> {
        let at = memchr(on, source)?;
        Some((&source[..at], &source[at + 1..]))
    }

    fn number<T: std::str::FromStr>(digits: &[u8]) -> Option<T> {
        std::str::from_utf8(digits).ok()?.parse().ok()
    }

    pub fn headers(source: &[u8], _: &[u8]) -> usize {
        let mut sum = 0;
        for line in lines(source) {
            let Some((name, value)) = split_once(line, b':') else {
                return sum;
            };
            let value = value.trim_ascii();
            sum = mixed(mixed(sum, name.len()), value.len());
            if name.eq_ignore_ascii_case(b"content-length") {
                sum = mixed(sum, number(value).unwrap_or(0));
            }
        }
        sum
    }

    pub fn trim_blanks(mut source: &[u8]) -> &[u8] {
        while let [b' ' | b'\t', rest @ ..] = source {
            source = rest;
        }
        while let [rest @ .., b' ' | b'\t'] = source {
            source = rest;
        }
        source
    }

    pub fn strict_headers(source: &[u8], _: &[u8]) -> usize {
        let mut sum = 0;
        for line in lines(source) {
            let Some((name, value)) = split_once(line, b':') else {
                return sum;
            };
            if !name.iter().all(|byte| super::is_token(*byte)) {
                return sum;
            }
            sum = mixed(mixed(sum, name.len()), trim_blanks(value).len());
        }
        sum
    }

    fn request_parts(source: &[u8]) -> Option<usize> {
        let (method, rest) = split_once(source, b' ').filter(|_| source.is_ascii())?;
        let (target, version) = split_once(rest, b' ')?;
        if !version.starts_with(b"HTTP/1.") {
            return None;
        }
        let sum = mixed(method.len(), version.len());
        Some(match split_once(target, b'?') {
            Some((path, query)) => mixed(mixed(sum, path.len()), query.len()),
            None => mixed(sum, target.len()),
        })
    }

    pub fn request(source: &[u8], _: &[u8]) -> usize {
        request_parts(source).unwrap_or(0)
    }

    pub fn grep(source: &[u8], needle: &[u8]) -> usize {
        let finder = memmem::Finder::new(needle);
        let lines = lines_for(source, needle).filter(|line| finder.find(line).is_some());
        lines.fold(0, |sum, line| mixed(sum, line.len()))
    }

    pub fn grep_ignoring_case(source: &[u8], needle: &[u8]) -> usize {
        let first = needle[0];
        let (lower, upper) = (first.to_ascii_lowercase(), first.to_ascii_uppercase());
        let is_at = |line: &[u8], at: usize| {
            let part = line.get(at..at + needle.len());
            part.is_some_and(|part| part.eq_ignore_ascii_case(needle))
        };
        let is_in = |line: &&[u8]| memchr2_iter(lower, upper, line).any(|at| is_at(line, at));
        lines_for(source, needle).filter(is_in).fold(0, |sum, line| mixed(sum, line.len()))
    }

    pub fn lookup(source: &[u8], wanted: &[u8]) -> usize {
        lines_for(source, wanted)
            .filter_map(|line| split_once(line, b':'))
            .find(|(name, _)| name.eq_ignore_ascii_case(wanted))
            .map_or(0, |(_, value)| value.trim_ascii().len())
    }

    fn sum_of_table(source: &[u8]) -> Option<usize> {
        let mut sum = 0usize;
        for line in lines(source) {
            for field in line.split(|byte| *byte == b',') {
                sum = sum.wrapping_add(number::<u32>(field)? as usize);
            }
        }
        Some(sum)
    }

    pub fn table(source: &[u8], _: &[u8]) -> usize {
        sum_of_table(source).unwrap_or(0)
    }

    pub fn identifiers(source: &[u8], _: &[u8]) -> usize {
        lines(source)
            .filter(|line| line.iter().all(|byte| super::is_of_identifier(*byte)))
            .count()
    }

    fn sum_of_settings(source: &[u8]) -> Option<usize> {
        let mut sum = 0;
        for line in lines(source) {
            let line = line.trim_ascii();
            if line.is_empty() || line.starts_with(b"#") {
                continue;
            }
            let (name, value) = split_once(line, b'=')?;
            sum = mixed(mixed(sum, name.trim_ascii().len()), value.trim_ascii().len());
        }
        Some(sum)
    }

    pub fn settings(source: &[u8], _: &[u8]) -> usize {
        sum_of_settings(source).unwrap_or(0)
    }

    pub fn digests(source: &[u8], _: &[u8]) -> usize {
        lines(source)
            .filter(|line| line.len() == 32 && line.iter().all(u8::is_ascii_hexdigit))
            .count()
    }

    fn address_parts(source: &[u8]) -> Option<usize> {
        let at = memmem::find(source, b"://").filter(|_| source.is_ascii())?;
        let (authority, path) = split_once(&source[at + 3..], b'/')?;
        let sum = mixed(at, path.len());
        Some(match memrchr(b':', authority) {
            Some(end) => {
                let port = number::<u16>(&authority[end + 1..]).unwrap_or(0);
                mixed(mixed(sum, end), port as usize)
            }
            None => mixed(sum, authority.len()),
        })
    }

    pub fn address(source: &[u8], _: &[u8]) -> usize {
        address_parts(source).unwrap_or(0)
    }

    pub fn find(source: &[u8], needle: &[u8]) -> usize {
        if !source.is_ascii() || !needle.is_ascii() {
            return 0;
        }
        memmem::find(source, needle).unwrap_or(source.len())
    }
}

mod by_crate {
    //! The Rust crate `ascii`.

    use super::{mark, mixed};
    use ascii::{AsAsciiStr, AsciiChar, AsciiStr, AsciiString};
    use std::hint::black_box;

    fn text(source: &[u8]) -> &AsciiStr {
        let none = source[..0].as_ascii_str();
        source.as_ascii_str().or(none).unwrap()
    }

    fn split_once(line: &AsciiStr, on: AsciiChar) -> Option<(&AsciiStr, &AsciiStr)> {
        let at = line.chars().position(|ch| ch == on)?;
        Some((&line[..at], &line[at + 1..]))
    }

    pub fn headers(source: &[u8], _: &[u8]) -> usize {
        let length = b"content-length".as_ascii_str().unwrap();
        let mut sum = 0;
        for line in text(source).lines() {
            let Some((name, value)) = split_once(line, AsciiChar::Colon) else {
                return sum;
            };
            let value = value.trim();
            sum = mixed(mixed(sum, name.len()), value.len());
            if name.eq_ignore_ascii_case(length) {
                sum = mixed(sum, value.as_str().parse().unwrap_or(0));
            }
        }
        sum
    }

    pub fn identifiers(source: &[u8], _: &[u8]) -> usize {
        text(source)
            .lines()
            .filter(|line| line.chars().all(|ch| super::is_of_identifier(ch.as_byte())))
            .count()
    }

    pub fn slug(source: &[u8], _: &[u8]) -> usize {
        let title = text(source);
        let mut slug = AsciiString::with_capacity(title.len());
        for ch in title.chars() {
            let is_kept = ch.is_ascii_alphanumeric();
            slug.push(if is_kept { ch.to_ascii_lowercase() } else { AsciiChar::Minus });
        }
        mark(black_box(&slug).as_bytes())
    }

    pub fn lower_names(source: &[u8], _: &[u8]) -> usize {
        let mut sum = 0;
        for line in text(source).lines() {
            let Some((name, _)) = split_once(line, AsciiChar::Colon) else {
                return sum;
            };
            sum = mixed(sum, mark(black_box(name.to_ascii_lowercase()).as_bytes()));
        }
        sum
    }
}

fn is_token(byte: u8) -> bool {
    byte.is_ascii_alphanumeric() || b"!#$%&'*+-.^_`|~".contains(&byte)
}

fn is_of_identifier(byte: u8) -> bool {
    byte.is_ascii_alphanumeric() || byte == b'_'
}

/// A row, by its name, its task, its texts, the other text, and the sides beside ours and the best Rust.
macro_rules! row {
    ($name:literal, $task:ident, $texts:ident$(($length:literal))?, $other:literal,
        [$($side:literal $peer:ident),*]) => {
        Row {
            name: $name,
            texts: task_texts::$texts($($length)?),
            other: $other,
            sides: vec![("ours", ours::$task), ("best", best::$task), $(($side, $peer::$task)),*],
        }
    };
}

/// The tasks, and the worst cases of a search for a text.
pub fn rows() -> Vec<Row> {
    [of_headers(), of_logs(), of_replies(), of_lists(), of_words(), of_runs()].into_iter().flatten().collect()
}

fn of_headers() -> Vec<Row> {
    vec![
        row!("headers", headers, headers, b"", ["std" by_std, "memchr" by_memchr, "crate" by_crate]),
        row!("strict headers", strict_headers, headers, b"", ["std" by_std, "memchr" by_memchr]),
        row!("header, the last", lookup, headers, b"ORIGIN", ["std" by_std, "memchr" by_memchr]),
        row!("header, none", lookup, headers, b"x-none", ["std" by_std, "memchr" by_memchr]),
        row!("names in lower case", lower_names, headers, b"", ["std" by_std, "crate" by_crate]),
        row!("request line", request, requests, b"", ["std" by_std, "memchr" by_memchr]),
        row!("address", address, addresses, b"", ["std" by_std, "memchr" by_memchr]),
    ]
}

fn of_logs() -> Vec<Row> {
    vec![
        row!("lines with `error`", grep, logs, b"error", ["std" by_std, "memchr" by_memchr]),
        row!("lines with `closed by`", grep, logs, b"closed by", ["std" by_std, "memchr" by_memchr]),
        row!("lines with `error` in any case", grep_ignoring_case, logs, b"Error", ["std" by_std, "memchr" by_memchr]),
        row!(
            "line of 60 KB, any case", grep_ignoring_case, long_lines, b"Closed Bye",
            ["std" by_std, "memchr" by_memchr]
        ),
        row!("words of a log", longest_word, logs, b"", ["std" by_std]),
    ]
}

fn of_replies() -> Vec<Row> {
    vec![
        row!("replies", replies, headers, b"", ["std" by_std]),
        row!("replies by `write!`", written_replies, headers, b"", ["std" by_std]),
    ]
}

fn of_lists() -> Vec<Row> {
    vec![
        row!("table of numbers", table, tables, b"", ["std" by_std, "memchr" by_memchr]),
        row!("identifiers", identifiers, identifiers, b"", ["std" by_std, "memchr" by_memchr, "crate" by_crate]),
        row!("settings", settings, settings, b"", ["std" by_std, "memchr" by_memchr]),
        row!("digests", digests, digests, b"", ["std" by_std, "memchr" by_memchr]),
    ]
}

fn of_words() -> Vec<Row> {
    vec![
        row!("slug", slug, titles, b"", ["std" by_std, "crate" by_crate]),
        row!("replace", replace, sentences, b"", ["std" by_std]),
        row!("words of a line", longest_word, sentences, b"", ["std" by_std]),
    ]
}

/// The worst cases of a search: runs of one letter.
fn of_runs() -> Vec<Row> {
    vec![
        row!("search, run of one letter", find, runs(1024), b"aaab", ["std" by_std, "memchr" by_memchr]),
        row!(
            "search, needle of 30 in a run", find, runs(256), b"aaaaaaaaaaaaaaaaaaaaaaaaaaaaab",
            ["std" by_std, "memchr" by_memchr]
        ),
    ]
}
