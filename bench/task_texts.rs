//! The texts of the everyday tasks: the same bytes at every run. Each kind has texts of different lengths, so that a
//! processor cannot learn the branches of a single one.

use crate::texts::Numbers;

/// How many texts a task has, and how many if a text has 60 KB: four of those fit into the cache of a core.
const TEXTS: usize = 128;
const LONG_TEXTS: usize = 4;

/// Names of headers, each with values that clients send.
const FIELDS: [(&str, [&str; 3]); 18] = [
    ("Host", ["www.example.org", "api.example.com:8443", "localhost"]),
    (
        "User-Agent",
        ["Mozilla/5.0 (X11; Linux x86_64; rv:128.0) Gecko/20100101 Firefox/128.0", "curl/8.5.0", "Go-http-client/2.0"],
    ),
    ("Accept", ["text/html,application/xhtml+xml", "*/*", "application/json"]),
    ("Accept-Language", ["en-US,en;q=0.5", "de", "fr-CH, fr;q=0.9, en;q=0.8, *;q=0.5"]),
    ("Accept-Encoding", ["gzip, deflate, br", "gzip", "identity"]),
    ("Connection", ["keep-alive", "close", "Upgrade"]),
    ("Referer", ["https://www.example.org/a/b", "https://example.com/", "https://example.net/?q=a+library&page=2"]),
    ("Cookie", ["session=0123456789abcdef; theme=dark", "id=42", "session=fedcba98; lang=en; seen=1,2,3,5,8"]),
    ("Upgrade-Insecure-Requests", ["1", "1", "0"]),
    ("Cache-Control", ["max-age=0", "no-cache", "no-store, must-revalidate"]),
    ("Content-Type", ["application/json", "text/plain; charset=utf-8", "multipart/form-data; boundary=7d4a6d158c9"]),
    ("X-Request-Id", ["6f9619ff-8b86-d011-b42d", "17", "01J9ZQ4X7N5W3Y8K2M6T0R1V4B"]),
    ("DNT", ["1", "0", "1"]),
    ("Pragma", ["no-cache", "no-cache", "token=1"]),
    ("If-None-Match", ["\"33a64df5\"", "W/\"0815\"", "*"]),
    ("X-Forwarded-For", ["203.0.113.7", "198.51.100.23, 10.0.0.1", "2001:db8::7"]),
    ("X-Forwarded-Proto", ["https", "http", "https"]),
    ("TE", ["trailers", "gzip", "trailers, deflate;q=0.5"]),
];

const WORDS: [&str; 16] = [
    "the", "server", "request", "connection", "closed", "by", "peer", "user", "took", "in", "ms", "cache", "for", "hit",
    "path", "index",
];

/// Texts of one kind.
fn texts(count: usize, seed: u64, one: impl Fn(&mut Numbers) -> String) -> Vec<Vec<u8>> {
    let mut numbers = Numbers::new(seed);
    (0..count).map(|_| one(&mut numbers).into_bytes()).collect()
}

/// Items of one kind, in one text.
fn several(numbers: &mut Numbers, least: u64, bound: u64, one: impl Fn(&mut Numbers) -> String) -> Vec<String> {
    (0..least + numbers.under(bound)).map(|_| one(numbers)).collect()
}

fn one_of<'a>(numbers: &mut Numbers, items: &[&'a str]) -> &'a str {
    items[numbers.under(items.len() as u64) as usize]
}

fn word(numbers: &mut Numbers) -> String {
    one_of(numbers, &WORDS).to_string()
}

/// A number of up to seven digits.
fn number(numbers: &mut Numbers) -> String {
    let bound = 10u64.pow(1 + numbers.under(7) as u32);
    numbers.under(bound).to_string()
}

/// Up to 20 headers. `Content-Length` is between the others, and `Origin` the last.
pub fn headers() -> Vec<Vec<u8>> {
    texts(TEXTS, 10, |numbers| {
        let (kept, place, is_lower) = (1 + numbers.under(4), numbers.under(18) as usize, numbers.under(3) == 0);
        let mut headers = String::new();
        for (at, (name, values)) in FIELDS.iter().enumerate() {
            if at == place {
                headers += &format!("Content-Length: {}\r\n", number(numbers));
            }
            if numbers.under(5) <= kept {
                headers += &format!("{name}: {}\r\n", one_of(numbers, values));
            }
        }
        headers += &format!("Origin: https://{}.example.org\r\n", word(numbers));
        if is_lower { headers.to_ascii_lowercase() } else { headers }
    })
}

/// A path with its slashes.
fn path(numbers: &mut Numbers) -> String {
    several(numbers, 1, 5, |numbers| format!("/{}", word(numbers))).concat()
}

pub fn requests() -> Vec<Vec<u8>> {
    texts(TEXTS, 16, |numbers| {
        let method = one_of(numbers, &["GET", "GET", "POST", "HEAD", "PUT", "DELETE"]);
        let target = path(numbers);
        let pairs = several(numbers, 0, 4, |numbers| format!("{}={}", word(numbers), number(numbers)));
        let mark = if pairs.is_empty() { "" } else { "?" };
        let version = one_of(numbers, &["1.1", "1.1", "1.0"]);
        format!("{method} {target}{mark}{} HTTP/{version}", pairs.join("&"))
    })
}

pub fn addresses() -> Vec<Vec<u8>> {
    texts(TEXTS, 17, |numbers| {
        let scheme = one_of(numbers, &["https", "https", "http", "ftp", "wss"]);
        let host = several(numbers, 1, 3, word).join(".");
        let port = one_of(numbers, &["", ":8443", ":80", ""]);
        format!("{scheme}://{host}.example.org{port}{}", path(numbers))
    })
}

/// Logs of 800 to 1,200 lines.
pub fn logs() -> Vec<Vec<u8>> {
    texts(LONG_TEXTS, 11, |numbers| {
        let line = |numbers: &mut Numbers| {
            let (minute, second) = (numbers.under(60), numbers.under(60));
            let words = several(numbers, 3, 8, word).join(" ");
            let end = if numbers.under(20) == 0 { " error: timeout" } else { "" };
            format!("2026-11-26 15:{minute:02}:{second:02} INFO {words}{end}\n")
        };
        several(numbers, 800, 401, line).concat()
    })
}

/// The same logs, each as one line.
pub fn long_lines() -> Vec<Vec<u8>> {
    let as_line = |log: Vec<u8>| log.iter().map(|byte| if *byte == b'\n' { b' ' } else { *byte }).collect();
    logs().into_iter().map(as_line).collect()
}

/// Tables of 60 to 140 lines of 4 to 12 numbers.
pub fn tables() -> Vec<Vec<u8>> {
    let line = |numbers: &mut Numbers| several(numbers, 4, 9, number).join(",") + "\n";
    texts(TEXTS, 12, |numbers| several(numbers, 60, 81, line).concat())
}

/// 60 to 140 names, some of which have a hyphen.
pub fn identifiers() -> Vec<Vec<u8>> {
    let part = |numbers: &mut Numbers| {
        let mark = ["-", "_", "_", "_"].get(numbers.under(60) as usize).unwrap_or(&"");
        format!("{}{mark}", (b'a' + numbers.under(26) as u8) as char)
    };
    let name = |numbers: &mut Numbers| several(numbers, 1, 20, part).concat() + "\n";
    texts(TEXTS, 13, |numbers| several(numbers, 60, 81, name).concat())
}

/// 20 to 60 settings, some of them after a comment and an empty line.
pub fn settings() -> Vec<Vec<u8>> {
    let setting = |numbers: &mut Numbers| {
        let comment = if numbers.under(5) == 0 { "# a comment about what follows\n\n" } else { "" };
        let name = several(numbers, 1, 3, word).join(".");
        format!("{comment}{name} = {} {}\n", several(numbers, 0, 6, word).join(" "), number(numbers))
    };
    texts(TEXTS, 14, |numbers| several(numbers, 20, 41, setting).concat())
}

/// 25 to 75 digests, of which some have one character too many.
pub fn digests() -> Vec<Vec<u8>> {
    let digest = |numbers: &mut Numbers| {
        let digits: String = (0..32).map(|_| format!("{:x}", numbers.under(16))).collect();
        digits + if numbers.under(7) == 0 { "x\n" } else { "\n" }
    };
    texts(TEXTS, 15, |numbers| several(numbers, 25, 51, digest).concat())
}

/// Titles of 3 to 12 words, with some punctuation.
pub fn titles() -> Vec<Vec<u8>> {
    texts(TEXTS, 18, |numbers| {
        let part = |numbers: &mut Numbers| {
            let (word, end) = (word(numbers), one_of(numbers, &["", "", "", ":", ",", " 12"]));
            format!("{}{}{end}", word[..1].to_uppercase(), &word[1..])
        };
        several(numbers, 3, 10, part).join(" ")
    })
}

/// Lines of 8 to 40 words.
pub fn sentences() -> Vec<Vec<u8>> {
    texts(TEXTS, 19, |numbers| several(numbers, 8, 33, word).join(" "))
}

/// Runs of one letter, each of another length from half of the given one to one and a half times that.
pub fn runs(length: usize) -> Vec<Vec<u8>> {
    let order = (0..TEXTS).map(|at| 7 * at % TEXTS);
    order.map(|at| vec![b'a'; length / 2 + at * length / (TEXTS - 1)]).collect()
}
