//! What the cookbook reads and shows, by tables.

use super::{Row, Rows};
use crate::asked::{Asked, Fault, Needs, Put};
use crate::calls;
use crate::kinds::recipes::{ask_field, ask_headers, ask_hosts};
use std::cmp::Ordering::{self, Equal, Greater, Less};

pub static ROWS: &[Row] = &[
    ("header_lines_have_a_name_and_a_value", |rows| ask_table(&HEADERS, calls::ask_header, rows)),
    ("the_last_header_with_a_name_is_in_the_map", |rows| {
        for (block, headers, named) in BLOCKS {
            for (indexes, names) in named {
                rows.each(*names, |name, asked| ask_headers(name.as_bytes(), block.as_bytes(), headers, *indexes, asked));
            }
        }
    }),
    ("a_block_and_a_map_of_2_000_headers", many_headers),
    ("a_block_is_rejected_at_its_first_line_that_is_not_a_header", |rows| {
        for (block, number, start, fault) in [
            ("Host: a\r\nAcc: b\nH(st: c\nx", 2, 16, Fault("token", Some(1))),
            ("Host: a\n\nbody", 1, 8, Fault("colon", None)),
            ("a:\n:", 1, 3, Fault("name", None)),
        ] {
            rows.expect(("line", number, start, fault), |asked| calls::ask_headers(asked, b"Host", block.as_bytes()));
        }
    }),
    ("media_types_have_a_type_a_subtype_and_parameters", |rows| {
        rows.each(MEDIA_TYPES, |(text, answer), asked| {
            calls::ask_media_type(asked, b"CHARSET", text.as_bytes());
            match answer {
                Ok((names, parameters)) => {
                    asked.want.put(names);
                    asked.want.all(parameters);
                }
                Err(position) => asked.want.put(("missing", position)),
            }
        });
        rows.ask(|asked| {
            calls::ask_media_type(asked, b"A", format!("a/b{}", "; a=b".repeat(1_000)).as_bytes());
            asked.want.put(("a", "b", Some("b")));
            asked.want.times(1_000, ("a", "b"));
        });
    }),
    ("hosts_are_kept_in_lower_case", |rows| rows.each(HOSTS, |(name, host), asked| ask_host(name, Ok(host), asked))),
    ("hosts_are_rejected_at_their_first_fault", |rows| {
        for (fault, names) in REJECTED_HOSTS {
            rows.each(names, |(name, position), asked| ask_host(name, Err(Fault(fault, Some(*position))), asked));
        }
    }),
    ("longest_hosts_and_labels", longest_hosts),
    ("hosts_are_compared_in_any_case", |rows| {
        rows.each(PAIRS, |(first, second, host, order), asked| ask_hosts(first.as_bytes(), second.as_bytes(), host, order, asked))
    }),
    ("settings_have_a_key_and_a_value", |rows| ask_table(&SETTINGS, calls::ask_setting, rows)),
    ("settings_files_print_their_first_fault", |rows| {
        rows.each(FILES, |(file, settings), asked| {
            calls::ask_settings(asked, file.as_bytes());
            match settings {
                Ok(settings) => asked.want.all(settings),
                Err(printed) => asked.want.put(printed),
            }
        });
        let file = "key = some value\n".repeat(2_000);
        rows.ask(|asked| {
            calls::ask_settings(asked, file.as_bytes());
            asked.want.times(2_000, ("key", "some value"));
        });
    }),
    ("fields_of_csv_are_written_and_read", |rows| {
        let long = ("a\"".repeat(5_000), format!("\"{}\"", "a\"\"".repeat(5_000)));
        let fields = FIELDS.iter().map(|(text, field)| (text.to_string(), field.to_string()));
        rows.each(fields.chain([long]), |(text, field), asked| {
            let needs = Needs::memory_if(!text.is_empty());
            let taken = Ok((text.clone(), ",x".to_string()));
            ask_field(&text, &field, format!("{field},x").as_bytes(), (needs, taken), asked);
        });
    }),
    ("fields_of_csv_are_rejected", |rows| {
        rows.each(NOT_FIELDS, |(line, has_text, fault), asked| {
            ask_field("", "", line.as_bytes(), (Needs::memory_if(has_text), Err(fault)), asked)
        });
    }),
    ("rows_have_a_field_for_each_column", table_rows),
    ("screens_show_controls_tabs_and_long_lines", |rows| {
        for (text, width, shown, column) in SCREENS {
            rows.expect((shown, column), |asked| calls::ask_screen(asked, width, text.as_bytes()));
        }
        let line = "0123456789".repeat(8);
        let shown = [line.as_str(); 250].join("\n");
        rows.expect((shown, 80), |asked| calls::ask_screen(asked, 80, line.repeat(250).as_bytes()));
    }),
    ("identifiers_at_the_start", |rows| {
        for (name, rest) in IDENTIFIERS {
            rows.expect((name, rest), |asked| calls::ask_identifier(asked, [name, rest].concat().as_bytes()));
        }
    }),
    ("a_run_of_other_bytes_becomes_one_mark", |rows| {
        ask_table(&COPIES, calls::ask_lossy, rows);
        rows.expect("a?".repeat(10_000), |asked| calls::ask_lossy(asked, &b"a\xff\xfe".repeat(10_000)));
    }),
    ("last_lines_with_each_ending", last_lines),
];

/// Asks a call for each source of a table, beside which is its answer.
fn ask_table<S: AsRef<[u8]>, T: Put>(table: &[(S, T)], call: fn(&mut Asked, &[u8]), rows: &mut Rows) {
    for (source, answer) in table {
        rows.expect(answer, |asked| call(asked, source.as_ref()));
    }
}

/// A line, and its name and its value, or why it is not a header.
static HEADERS: [(&str, Result<(&str, &str), Fault>); 15] = [
    ("Host: a.example", Ok(("Host", "a.example"))),
    ("Host:a", Ok(("Host", "a"))),
    ("X-Empty:", Ok(("X-Empty", ""))),
    ("X-Blank: \t ", Ok(("X-Blank", ""))),
    ("Time: \t12:30 \t", Ok(("Time", "12:30"))),
    ("!#$%&'*+-.^_`|~aZ09: b", Ok(("!#$%&'*+-.^_`|~aZ09", "b"))),
    ("", Err(Fault("colon", None))),
    ("Host", Err(Fault("colon", None))),
    (":", Err(Fault("name", None))),
    (": a", Err(Fault("name", None))),
    (" Host: a", Err(Fault("token", Some(0)))),
    ("Host : a", Err(Fault("token", Some(4)))),
    ("H(st: a", Err(Fault("token", Some(1)))),
    ("a/b@c: d", Err(Fault("token", Some(1)))),
    ("a\x7f: d", Err(Fault("token", Some(1)))),
];

/// A text, and its type, its subtype, its charset and its parameters, or the position at which something is missing.
type Media = (&'static str, Result<((&'static str, &'static str, Option<&'static str>), &'static [(&'static str, &'static str)]), usize>);
static MEDIA_TYPES: [Media; 8] = [
    ("text/html", Ok((("text", "html", None), &[]))),
    ("a/b ;\t;Charset=\"x; \\\"y\" ; charset=z;", Ok((("a", "b", Some("x; \\\"y")), &[("Charset", "x; \\\"y"), ("charset", "z")]))),
    ("text", Err(4)),
    ("text/", Err(5)),
    ("text/html charset", Err(10)),
    ("a/b;c", Err(5)),
    ("a/b;c= d", Err(6)),
    ("a/b; c=\"d", Err(7)),
];

/// The indexes of the first and of the last header with a name, and the name in some cases.
type Named = (Option<(usize, usize)>, &'static [&'static str]);

/// A block, its headers, and names with the indexes of those that have them.
static BLOCKS: [(&str, &[(&str, &str)], &[Named]); 3] = [
    ("", &[], &[(None, &["Host"])]),
    (
        "Host: a\r\nAccept: b\nHOST: c",
        &[("Host", "a"), ("Accept", "b"), ("HOST", "c")],
        &[(Some((0, 2)), &["hosT"]), (Some((1, 1)), &["ACCEPT"]), (None, &["Hos"])],
    ),
    (
        "Host: a.example\r\nAccept: b\r\nX-Empty:\r\nHOST: c.example",
        &[("Host", "a.example"), ("Accept", "b"), ("X-Empty", ""), ("HOST", "c.example")],
        &[
            (Some((0, 3)), &["Host", "hosT"]),
            (Some((1, 1)), &["ACCEPT"]),
            (Some((2, 2)), &["x-empty", "X-Empty"]),
            (None, &["", "Hos", "Hosts", "X_Empty"]),
        ],
    ),
];

fn many_headers(rows: &mut Rows) {
    let names: Vec<String> = (0..2_000).map(|number| format!("X-{number}")).collect();
    let headers: Vec<(&str, &str)> = names.iter().map(|name| (name.as_str(), "some value")).collect();
    let block: String = names.iter().map(|name| format!("{name}: some value\r\n")).collect();
    for number in 0..2_001 {
        let (name, named) = (format!("x-{number}"), (number < 2_000).then_some((number, number)));
        rows.ask(|asked| {
            ask_headers(name.as_bytes(), block.as_bytes(), &headers, named, asked);
            // Each allocation fails in shorter blocks.
            asked.want.has_other_failures = true;
        });
    }
}

/// A name, and its host in lower case.
static HOSTS: [(&str, &str); 6] = [
    ("a", "a"),
    ("Example.ORG", "example.org"),
    ("xn--a.b-c.9", "xn--a.b-c.9"),
    ("1.2.3.4", "1.2.3.4"),
    ("A-name-of-a-HOST.with-more-than.24-characters", "a-name-of-a-host.with-more-than.24-characters"),
    ("Z0", "z0"),
];

/// An error, and names with the position that it has in them.
static REJECTED_HOSTS: [(&str, &[(&str, usize)]); 3] = [
    ("empty", &[("", 0), (".", 0), ("a.", 2), ("ab..c", 3)]),
    ("character", &[("ab.c_d", 4), ("ab.c d", 4), ("@", 0), ("a.b[", 3), ("a_.b..c", 1), ("-_-", 1)]),
    ("hyphen", &[("-a", 0), ("a-", 1), ("ab.-", 3), ("ab.cd-.e", 5), ("ab.-c-", 3)]),
];

/// Asks for the host of a name, and compares the name with itself in lower case.
fn ask_host(name: &str, host: Result<&str, Fault>, asked: &mut Asked) {
    ask_hosts(name.as_bytes(), name.to_ascii_lowercase().as_bytes(), host, host.map(|_| Equal), asked);
}

/// A label of 62 characters.
const LABEL: &str = "abcdefghijklmnopqrstuvwxyz-0123456789-abcdefghijklmnopqrstuvwx";

/// Labels have up to 63 characters, and names up to 253: four labels of 62, each with its dot, and one of 1.
fn longest_hosts(rows: &mut Rows) {
    let four = [LABEL; 4].join(".");
    for (name, host) in [
        (format!("{LABEL}Z"), Ok(format!("{LABEL}z"))),
        (format!("{LABEL}ZZ"), Err(Fault("label", Some(0)))),
        (format!("{LABEL}ZZ_"), Err(Fault("label", Some(0)))),
        (format!("{four}.Z"), Ok(format!("{four}.z"))),
        (format!("{four}.Z-"), Err(Fault("long", None))),
    ] {
        rows.ask(|asked| ask_host(&name, host.as_deref().map_err(|fault| *fault), asked));
    }
}

/// Two names, the host of the first one, and the order of both.
static PAIRS: [(&str, &str, Result<&str, Fault>, Result<Ordering, Fault>); 6] = [
    ("WWW.EXAMPLE.ORG", "www.example.org", Ok("www.example.org"), Ok(Equal)),
    ("WWW.EXAMPLE.ORG", "www.example.net", Ok("www.example.org"), Ok(Greater)),
    ("www.example.net", "WWW.EXAMPLE.ORG", Ok("www.example.net"), Ok(Less)),
    ("www.example.org", "WWW.EXAMPLE.ORG", Ok("www.example.org"), Ok(Equal)),
    ("www.example.org", "a..b", Ok("www.example.org"), Err(Fault("empty", Some(2)))),
    ("a..b", "www.example.org", Err(Fault("empty", Some(2))), Err(Fault("empty", Some(2)))),
];

/// A line, and its key and its value, `None` if it says nothing, or why it is rejected.
static SETTINGS: [(&str, Result<Option<(&str, &str)>, Fault>); 18] = [
    ("mode=fast", Ok(Some(("mode", "fast")))),
    (" mode = fast # or slow", Ok(Some(("mode", "fast")))),
    ("\tmax size\t=\t12 kB\t", Ok(Some(("max size", "12 kB")))),
    ("a=b=c", Ok(Some(("a", "b=c")))),
    ("a=", Ok(Some(("a", "")))),
    ("a = # none", Ok(Some(("a", "")))),
    ("a=b # c=d", Ok(Some(("a", "b")))),
    ("", Ok(None)),
    ("  \t", Ok(None)),
    ("#", Ok(None)),
    (" # mode = fast", Ok(None)),
    ("\r", Ok(None)),
    ("mode", Err(Fault("equals", Some(0)))),
    ("  mode fast  # =", Err(Fault("equals", Some(2)))),
    ("=", Err(Fault("key", Some(0)))),
    ("  = fast", Err(Fault("key", Some(2)))),
    ("==", Err(Fault("key", Some(0)))),
    ("\t=# a=b", Err(Fault("key", Some(1)))),
];

/// A file, and its settings or what its error prints.
static FILES: [(&str, Result<&[(&str, &str)], &str>); 7] = [
    ("# a file\n\n mode = fast # or slow\r\nsize=12 kB\n\t\na=b=c", Ok(&[("mode", "fast"), ("size", "12 kB"), ("a", "b=c")])),
    ("", Ok(&[])),
    ("mode", Err("1:1: no '='")),
    ("a=1\n# b\n  mode fast  # =\nc", Err("3:3: no '='")),
    ("a=1\r\n\r\n = fast", Err("3:2: no key before the '='")),
    ("=", Err("1:1: no key before the '='")),
    ("a=1\n\n\nb=2\n\t=# a=b\n", Err("5:2: no key before the '='")),
];

/// A text, and its field, as in RFC 4180.
static FIELDS: [(&str, &str); 9] = [
    ("", ""),
    ("aaa", "aaa"),
    (" a b ", " a b "),
    ("b\r\nbb", "\"b\r\nbb\""),
    ("b\"bb", "\"b\"\"bb\""),
    ("a,b", "\"a,b\""),
    ("\"", "\"\"\"\""),
    (",", "\",\""),
    ("'\\;\t", "'\\;\t"),
];

/// A line that does not begin with a field, whether a text is read from it, and why.
static NOT_FIELDS: [(&str, bool, Fault); 6] = [
    ("\"", false, Fault("closed", None)),
    ("\"a\"\"", false, Fault("closed", None)),
    ("\"a\"b", true, Fault("comma", Some(3))),
    ("\"a,\"\"b\" ,c", true, Fault("comma", Some(7))),
    ("ab\"c", true, Fault("comma", Some(2))),
    ("\r\n", false, Fault("comma", Some(0))),
];

fn table_rows(rows: &mut Rows) {
    rows.expect(("ab", "c d", "e"), |asked| calls::ask_row(asked, 3, b"ab\tc d\te"));
    rows.ask(|asked| {
        calls::ask_row(asked, 300, ["field"; 300].join("\t").as_bytes());
        asked.want.times(300, "field");
    });
    for (row, field, start) in [("", 0, 0), ("\tb\tc", 0, 0), ("ab\t\tc", 1, 3), ("ab\tcd\t", 2, 6), ("\t\t\t\t", 0, 0)] {
        rows.expect(("empty", field, start), |asked| calls::ask_row(asked, 3, row.as_bytes()));
    }
    for (row, fault, number) in [("ab", "few", 1), ("ab\tcd", "few", 2), ("ab\tcd\te\tf", "many", 8), ("ab\tcd\te\t", "many", 8)]
    {
        rows.expect((fault, number), |asked| calls::ask_row(asked, 3, row.as_bytes()));
    }
    rows.expect(("many", 0), |asked| calls::ask_row(asked, 0, b"ab"));
}

/// A text, a width, the output, and the column after it.
static SCREENS: [(&str, usize, &str, usize); 13] = [
    ("", 2, "", 0),
    ("ab", 2, "ab", 2),
    ("abc", 2, "ab\nc", 1),
    ("ab\n", 2, "ab\n", 0),
    ("ab\ncd", 2, "ab\ncd", 2),
    ("\x7f\0", 4, "^?^@", 4),
    ("a\x7f\0", 4, "a^?\n^@", 2),
    ("\r\n", 2, "^M\n", 0),
    ("a\tb\x01", 10, "a       b\n^A", 2),
    ("a\tb\x01", 11, "a       b^A", 11),
    ("\t\tx", 10, "          \nx", 1),
    ("a\tb", 4, "a   \nb", 1),
    ("1234567\t9\t", 80, "1234567 9       ", 16),
];

/// An identifier, and what comes after it.
static IDENTIFIERS: [(&str, &str); 4] =
    [("a_max", " = 3"), ("_x9", ""), ("", "-a"), ("a_name_of_more_than_sixty_four_characters_so_that_a_loop_is_taken_x9", "@")];

/// Bytes, and the text with a mark for each run of other bytes.
static COPIES: [(&[u8], &str); 6] = [
    (b"", ""),
    (b"ab", "ab"),
    (b"na\xc3\xafve", "na?ve"),
    (b"\x80", "?"),
    (b"\xff\xfe\xfd a\x80\x81", "? a?"),
    (b"a\x7f\x80\x7f", "a\x7f?\x7f"),
];

/// A text, the position after the body of its last line, whether that line has no ending, and numbers of lines, each
/// with the start of as many at the end.
static LAST_LINES: [(&str, Option<usize>, bool, &[(usize, usize)]); 10] = [
    ("", None, false, &[(3, 0)]),
    ("a", Some(1), true, &[(0, 1), (1, 0)]),
    ("a\nb\r\nc", Some(6), true, &[(0, 6), (1, 5), (2, 2), (3, 0), (usize::MAX, 0)]),
    ("a\nb\n", Some(3), false, &[(1, 2)]),
    ("a\n\n", Some(2), false, &[(1, 2)]),
    ("\r\n\r\n", Some(2), false, &[(1, 2)]),
    ("a\rb\nc\r", Some(6), true, &[(1, 4)]),
    ("a\nbc\n", Some(4), false, &[(1, 2)]),
    ("a\r\nbc\r\n", Some(5), false, &[(1, 3)]),
    ("a\nb\r", Some(4), true, &[(1, 2)]),
];

fn last_lines(rows: &mut Rows) {
    for (text, end, is_open, lines) in LAST_LINES {
        for (n, start) in lines {
            let (before, last) = text.split_at(*start);
            rows.expect((last, before, end, is_open), |asked| calls::ask_last_lines(asked, *n, text.as_bytes()));
        }
    }
}
