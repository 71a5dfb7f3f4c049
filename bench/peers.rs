//! What is measured, by the library of this repository, the Rust crate, std and the crate memchr. A function
//! of one name does the same work and gives the same answer on each side. Each is called as an export of a
//! library for C is, and goes through all of its bytes in one call. A text is taken as checked on every side.

/// A sum with one number more, in which the order counts.
pub fn mixed(sum: usize, number: usize) -> usize {
    sum.wrapping_mul(31).wrapping_add(number)
}

/// The length and the last byte of a text in one number.
pub fn mark(text: &[u8]) -> usize {
    text.len()
        .wrapping_mul(128)
        .wrapping_add(text.last().map_or(0, |byte| *byte as usize))
}

/// What C passes as a pointer and a length, tested for null as the exports of a Rattle library test it.
///
/// # Safety
/// The bytes are there, and nobody writes them meanwhile.
#[inline(always)]
unsafe fn passed<'a>(pointer: *const u8, length: usize) -> &'a [u8] {
    if pointer.is_null() {
        return &[];
    }
    std::slice::from_raw_parts(pointer, length)
}

/// As `passed`, for bytes that are written.
///
/// # Safety
/// The bytes are there, and nobody else reads or writes them meanwhile.
#[inline(always)]
unsafe fn passed_mut<'a>(pointer: *mut u8, length: usize) -> &'a mut [u8] {
    if pointer.is_null() {
        return &mut [];
    }
    std::slice::from_raw_parts_mut(pointer, length)
}

/// A function of a peer, called as an export of our library is: by the C calling convention, not inlined, with
/// the same test of each pointer.
macro_rules! called {
    ($export:literal: fn $name:ident($source:ident: &[u8]) -> usize $body:block) => {
        #[inline(always)]
        pub fn $name(source: &[u8]) -> usize {
            #[inline(never)]
            #[export_name = $export]
            unsafe extern "C" fn called(pointer: *const u8, length: usize) -> usize {
                let $source = super::passed(pointer, length);
                $body
            }
            unsafe { called(source.as_ptr(), source.len()) }
        }
    };
    ($export:literal: fn $name:ident($source:ident: &mut [u8]) $body:block) => {
        #[inline(always)]
        pub fn $name(source: &mut [u8]) {
            #[inline(never)]
            #[export_name = $export]
            unsafe extern "C" fn called(pointer: *mut u8, length: usize) {
                let $source = super::passed_mut(pointer, length);
                $body
            }
            unsafe { called(source.as_mut_ptr(), source.len()) }
        }
    };
    ($export:literal: fn $name:ident($first:ident: &[u8], $second:ident: &[u8]) -> usize $body:block) => {
        #[inline(always)]
        pub fn $name(first: &[u8], second: &[u8]) -> usize {
            #[inline(never)]
            #[export_name = $export]
            unsafe extern "C" fn called(
                first: *const u8,
                first_length: usize,
                second: *const u8,
                second_length: usize,
            ) -> usize {
                let $first = super::passed(first, first_length);
                let $second = super::passed(second, second_length);
                $body
            }
            unsafe { called(first.as_ptr(), first.len(), second.as_ptr(), second.len()) }
        }
    };
}

pub mod ours {
    //! Exports of crates/measured.

    /// A function that calls an export, which takes texts, and a flag if one is given.
    macro_rules! exported {
        ($($name:ident = $export:ident($($text:ident),+ $(; $flag:ident: $value:literal)?) -> $result:ty),*) => {$(
            #[inline(always)]
            pub fn $name($($text: &[u8]),+) -> usize {
                extern "C" {
                    fn $export($($text: *const u8, length: usize),+ $(, $flag: bool)?) -> $result;
                }
                unsafe { $export($($text.as_ptr(), $text.len()),+ $(, $value)?) as usize }
            }
        )*};
    }

    exported! {
        accept = bench_accept(source) -> bool,
        equal = bench_equal(first, second) -> bool,
        trim = bench_trim(source) -> usize,
        lines = bench_lines(source; from_back: false) -> usize,
        lines_back = bench_lines(source; from_back: true) -> usize,
        read_lines = bench_read_lines(source; is_strict: false) -> usize,
        read_strict_lines = bench_read_lines(source; is_strict: true) -> usize,
        echo_lines = bench_echo_lines(source) -> usize,
        split = bench_split(source) -> usize,
        find = bench_find(source, needle) -> usize,
        position = bench_position(source) -> usize,
        split_once = bench_split_once(source) -> usize,
        words = bench_words(source) -> usize,
        number = bench_number(source) -> usize,
        folded = bench_folded(first, second) -> bool,
        chars = bench_chars(source) -> usize,
        collect = bench_collect(source) -> usize,
        push = bench_push(source; inline: false) -> usize,
        push_inline = bench_push(source; inline: true) -> usize,
        build = bench_build(source; inline: false) -> usize,
        build_inline = bench_build(source; inline: true) -> usize,
        names = bench_names(source; inline: false) -> usize,
        names_inline = bench_names(source; inline: true) -> usize
    }

    #[inline(always)]
    pub fn upper(source: &mut [u8]) {
        extern "C" {
            fn bench_upper(source: *mut u8, length: usize);
        }
        unsafe { bench_upper(source.as_mut_ptr(), source.len()) }
    }
}

pub mod by_crate {
    //! The Rust crate `ascii`.

    use super::{mark, mixed};
    use ascii::{AsAsciiStr, AsMutAsciiStr, AsciiChar, AsciiStr, AsciiString};
    use std::hint::black_box;

    fn text(source: &[u8]) -> &AsciiStr {
        unsafe { AsciiStr::from_ascii_unchecked(source) }
    }

    called! { "by_crate_accept": fn accept(source: &[u8]) -> usize {
        source.as_ascii_str().is_ok() as usize
    } }

    called! { "by_crate_upper": fn upper(source: &mut [u8]) {
        unsafe { source.as_mut_ascii_str_unchecked() }.make_ascii_uppercase()
    } }

    called! { "by_crate_equal": fn equal(first: &[u8], second: &[u8]) -> usize {
        text(first).eq_ignore_ascii_case(text(second)) as usize
    } }

    called! { "by_crate_trim": fn trim(source: &[u8]) -> usize {
        text(source).trim().len()
    } }

    called! { "by_crate_lines": fn lines(source: &[u8]) -> usize {
        text(source)
            .lines()
            .fold(0, |sum, line| mixed(sum, line.len()))
    } }

    called! { "by_crate_lines_back": fn lines_back(source: &[u8]) -> usize {
        text(source)
            .lines()
            .rev()
            .fold(0, |sum, line| mixed(sum, line.len()))
    } }

    called! { "by_crate_split": fn split(source: &[u8]) -> usize {
        text(source)
            .split(AsciiChar::Comma)
            .fold(0, |sum, piece| mixed(sum, piece.len()))
    } }

    called! { "by_crate_chars": fn chars(source: &[u8]) -> usize {
        text(source)
            .chars()
            .fold(0, |sum, ch| sum.wrapping_add(ch.as_byte() as usize))
    } }

    called! { "by_crate_collect": fn collect(source: &[u8]) -> usize {
        let made: AsciiString = text(source)
            .chars()
            .map(|ch| ch.to_ascii_uppercase())
            .collect();
        mark(made.as_bytes())
    } }

    called! { "by_crate_push": fn push(source: &[u8]) -> usize {
        let mut made = AsciiString::new();
        for ch in text(source).chars() {
            made.push(ch);
        }
        mark(made.as_bytes())
    } }

    called! { "by_crate_build": fn build(source: &[u8]) -> usize {
        mark(black_box(text(source).to_ascii_string()).as_bytes())
    } }

    called! { "by_crate_names": fn names(source: &[u8]) -> usize {
        let pieces = text(source).split(AsciiChar::Comma);
        pieces.fold(0, |sum, piece| {
            mixed(sum, mark(piece.to_ascii_lowercase().as_bytes()))
        })
    } }
}

pub mod by_std {
    //! std: slices of bytes, `str` and `String`.

    use super::{mark, mixed};
    use std::hint::black_box;
    use std::io::{BufRead, BufReader, BufWriter, Write};

    fn text(source: &[u8]) -> &str {
        unsafe { std::str::from_utf8_unchecked(source) }
    }

    called! { "by_std_accept": fn accept(source: &[u8]) -> usize {
        source.is_ascii() as usize
    } }

    called! { "by_std_upper": fn upper(source: &mut [u8]) {
        source.make_ascii_uppercase()
    } }

    called! { "by_std_equal": fn equal(first: &[u8], second: &[u8]) -> usize {
        first.eq_ignore_ascii_case(second) as usize
    } }

    called! { "by_std_trim": fn trim(source: &[u8]) -> usize {
        text(source)
            .trim_matches([' ', '\t', '\n', '\x0b', '\x0c', '\r'])
            .len()
    } }

    called! { "by_std_lines": fn lines(source: &[u8]) -> usize {
        text(source)
            .lines()
            .fold(0, |sum, line| mixed(sum, line.len()))
    } }

    /// A line without its ending.
    fn body(line: &[u8]) -> &[u8] {
        match line {
            [body @ .., b'\r', b'\n'] | [body @ .., b'\n'] => body,
            _ => line,
        }
    }

    called! { "by_std_read_lines": fn read_lines(source: &[u8]) -> usize {
        let mut reader = BufReader::with_capacity(65_536, source);
        let mut line = Vec::new();
        let mut sum = 0;
        loop {
            line.clear();
            match reader.read_until(b'\n', &mut line) {
                Ok(0) => return sum,
                Ok(_) if line.is_ascii() => sum = mixed(sum, body(&line).len()),
                _ => return 0,
            }
        }
    } }

    called! { "by_std_echo_lines": fn echo_lines(source: &[u8]) -> usize {
        let mut reader = BufReader::with_capacity(65_536, source);
        let mut writer = BufWriter::with_capacity(65_536, std::io::sink());
        let mut line = Vec::new();
        let mut sum = 0;
        loop {
            line.clear();
            match reader.read_until(b'\n', &mut line) {
                Ok(0) => return if writer.flush().is_ok() { sum } else { 0 },
                Ok(_) if line.is_ascii() && writer.write_all(&line).is_ok() => {
                    sum = mixed(sum, body(&line).len())
                }
                _ => return 0,
            }
        }
    } }

    called! { "by_std_lines_back": fn lines_back(source: &[u8]) -> usize {
        text(source)
            .lines()
            .rev()
            .fold(0, |sum, line| mixed(sum, line.len()))
    } }

    called! { "by_std_split": fn split(source: &[u8]) -> usize {
        text(source)
            .split(',')
            .fold(0, |sum, piece| mixed(sum, piece.len()))
    } }

    called! { "by_std_find": fn find(source: &[u8], needle: &[u8]) -> usize {
        text(source).find(text(needle)).unwrap_or(source.len())
    } }

    called! { "by_std_position": fn position(source: &[u8]) -> usize {
        text(source).find('%').unwrap_or(source.len())
    } }

    called! { "by_std_split_once": fn split_once(source: &[u8]) -> usize {
        text(source)
            .split_once(':')
            .map_or(0, |(before, after)| mixed(before.len(), after.len()))
    } }

    called! { "by_std_words": fn words(source: &[u8]) -> usize {
        text(source)
            .split_ascii_whitespace()
            .fold(0, |sum, word| mixed(sum, word.len()))
    } }

    called! { "by_std_number": fn number(source: &[u8]) -> usize {
        text(source).parse().unwrap_or(0)
    } }

    called! { "by_std_chars": fn chars(source: &[u8]) -> usize {
        text(source)
            .bytes()
            .fold(0, |sum, byte| sum.wrapping_add(byte as usize))
    } }

    called! { "by_std_collect": fn collect(source: &[u8]) -> usize {
        let made: String = text(source)
            .chars()
            .map(|ch| ch.to_ascii_uppercase())
            .collect();
        mark(made.as_bytes())
    } }

    called! { "by_std_push": fn push(source: &[u8]) -> usize {
        let mut made = String::new();
        for ch in text(source).chars() {
            made.push(ch);
        }
        mark(made.as_bytes())
    } }

    called! { "by_std_build": fn build(source: &[u8]) -> usize {
        mark(black_box(text(source).to_owned()).as_bytes())
    } }

    called! { "by_std_names": fn names(source: &[u8]) -> usize {
        let pieces = text(source).split(',');
        pieces.fold(0, |sum, piece| {
            mixed(sum, mark(piece.to_ascii_lowercase().as_bytes()))
        })
    } }
}

pub mod by_memchr {
    //! Bare loops over the Rust crate `memchr`.

    use super::mixed;
    use memchr::{memchr, memmem, memrchr};

    called! { "by_memchr_lines": fn lines(source: &[u8]) -> usize {
        let (mut sum, mut rest) = (0, source);
        while !rest.is_empty() {
            let (line, others) = match memchr(b'\n', rest) {
                Some(place) => (&rest[..place], &rest[place + 1..]),
                None => (rest, &rest[rest.len()..]),
            };
            let has_cr = others.len() + line.len() < rest.len() && line.last() == Some(&b'\r');
            sum = mixed(sum, line.len() - has_cr as usize);
            rest = others;
        }
        sum
    } }

    called! { "by_memchr_lines_back": fn lines_back(source: &[u8]) -> usize {
        let (mut sum, mut rest) = (0, source);
        while let Some((last, front)) = rest.split_last() {
            let is_ended = *last == b'\n';
            let line = if is_ended { front } else { rest };
            let start = memrchr(b'\n', line).map_or(0, |place| place + 1);
            let has_cr = is_ended && line[start..].last() == Some(&b'\r');
            sum = mixed(sum, line.len() - start - has_cr as usize);
            rest = &rest[..start];
        }
        sum
    } }

    called! { "by_memchr_find": fn find(source: &[u8], needle: &[u8]) -> usize {
        memmem::find(source, needle).unwrap_or(source.len())
    } }

    called! { "by_memchr_position": fn position(source: &[u8]) -> usize {
        memchr(b'%', source).unwrap_or(source.len())
    } }

    called! { "by_memchr_split_once": fn split_once(source: &[u8]) -> usize {
        memchr(b':', source).map_or(0, |at| mixed(at, source.len() - at - 1))
    } }

    called! { "by_memchr_split": fn split(source: &[u8]) -> usize {
        let (mut sum, mut rest) = (0, source);
        while let Some(place) = memchr(b',', rest) {
            sum = mixed(sum, place);
            rest = &rest[place + 1..];
        }
        mixed(sum, rest.len())
    } }
}

pub mod memory {
    //! The C library's `memcpy`, as the limit of what goes through memory once.

    #[inline(never)]
    pub fn copy(source: &[u8], target: &mut [u8]) {
        target.copy_from_slice(source)
    }
}
