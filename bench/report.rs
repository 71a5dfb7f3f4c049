//! Writes PERFORMANCE.md, performance.svg and sizes.svg out of what was measured.
//! usage: report FOLDER PAGES REASONS
//!
//! FOLDER has facts, tasks.tsv, calls.tsv, finds.tsv, programs.tsv and servers.tsv, and tasks_avx2.tsv and finds_avx2.tsv, for
//! which the crate `memchr` chose AVX2; REASONS is a file that says why rows are slower.

use std::collections::HashMap;
use std::fmt::Write;

/// The rows of a file, cut at tabs.
fn rows(path: String) -> Vec<Vec<String>> {
    let text = std::fs::read_to_string(&path).unwrap_or_else(|error| panic!("{path}: {error}"));
    text.lines()
        .map(|line| line.split('\t').map(str::to_string).collect())
        .collect()
}

/// Each item once, in the order in which it comes first.
fn each_once<T: PartialEq>(items: impl Iterator<Item = T>) -> Vec<T> {
    let mut once = Vec::new();
    for item in items {
        if !once.contains(&item) {
            once.push(item);
        }
    }
    once
}

/// The items of all lists, each once. An item that the lists before lack comes after the one before it in its list.
fn in_order<T: PartialEq>(lists: impl Iterator<Item = Vec<T>>) -> Vec<T> {
    let mut all: Vec<T> = Vec::new();
    for list in lists {
        let mut place = 0;
        for item in list {
            place = match all.iter().position(|it| *it == item) {
                Some(found) => found + 1,
                None => {
                    all.insert(place, item);
                    place + 1
                }
            };
        }
    }
    all
}

/// How many times as long as ours a peer takes: the median, the smallest and the largest of the rounds.
#[derive(Clone, Copy)]
struct Ratio {
    median: f64,
    smallest: f64,
    largest: f64,
}

impl Ratio {
    /// The ratio in the last cells of a row, if it has them.
    fn read(row: &[String]) -> Option<Ratio> {
        let cell = |at: usize| row.get(at)?.parse().ok();
        Some(Ratio { median: cell(4)?, smallest: cell(5)?, largest: cell(6)? })
    }

    fn with_spread(self) -> String {
        format!("{} ({}–{})", as_ratio(self.median), as_ratio(self.smallest), as_ratio(self.largest))
    }
}

/// The calls that were measured: nanoseconds and the ratio by call, size and side.
struct Calls {
    calls: Vec<String>,
    sizes: Vec<usize>,
    measured: HashMap<(String, usize, String), (f64, Option<Ratio>)>,
}

impl Calls {
    fn read(rows: &[Vec<String>]) -> Calls {
        let size = |row: &Vec<String>| row[1].parse().expect("a size");
        let sizes: Vec<usize> = each_once(rows.iter().map(size));
        Calls {
            calls: in_order(sizes.iter().rev().map(|n| {
                let of_size = rows.iter().filter(|row| size(row) == *n);
                each_once(of_size.map(|row| row[0].clone()))
            })),
            measured: rows
                .iter()
                .map(|row| {
                    let of = (row[0].clone(), size(row), row[2].clone());
                    (of, (row[3].parse().expect("a time"), Ratio::read(row)))
                })
                .collect(),
            sizes,
        }
    }

    fn of(&self, call: &str, size: usize, side: &str) -> Option<(f64, Option<Ratio>)> {
        self.measured.get(&(call.to_string(), size, side.to_string())).copied()
    }

    fn time(&self, call: &str, size: usize, side: &str) -> Option<f64> {
        Some(self.of(call, size, side)?.0)
    }

    /// How many times as fast as a peer ours is.
    fn ratio(&self, call: &str, size: usize, peer: &str) -> Option<f64> {
        Some(self.of(call, size, peer)?.1?.median)
    }

    /// How many times as fast as the fastest peer ours is.
    fn best(&self, call: &str, size: usize) -> Option<Ratio> {
        let ratios = PEERS.iter().filter_map(|peer| self.of(call, size, peer)?.1);
        ratios.min_by(|one, other| one.median.total_cmp(&other.median))
    }

    /// A table of the sizes at which each call is faster than the fastest peer, level with it, or slower.
    fn standings(&self) -> String {
        let mut table = String::from("| Call | faster | level | slower |\n|---|---|---|---|\n");
        for call in &self.calls {
            let mut cells = [const { Vec::new() }; 3];
            for size in &self.sizes {
                if let Some(Ratio { median: ratio, .. }) = self.best(call, *size) {
                    let cell = if ratio > 1.05 {
                        0
                    } else {
                        1 + (ratio < 0.95) as usize
                    };
                    let size = bytes(*size);
                    cells[cell].push(match cell {
                        2 => format!("{size} ({})", as_ratio(ratio)),
                        _ => size,
                    });
                }
            }
            if cells.iter().any(|cell| !cell.is_empty()) {
                writeln!(
                    table,
                    "| {call} | {} |",
                    cells.map(|cell| cell.join(", ")).join(" | ")
                )
                .unwrap();
            }
        }
        table
    }

    /// A table with a row for each call that has a cell at any size.
    fn table(&self, cell: impl Fn(&str, usize) -> Option<String>) -> String {
        let mut table = String::from("| Bytes |");
        for size in &self.sizes {
            write!(table, " {} |", bytes(*size)).unwrap();
        }
        write!(table, "\n|---|{}\n", "--:|".repeat(self.sizes.len())).unwrap();
        for call in &self.calls {
            let cells: Vec<Option<String>> =
                self.sizes.iter().map(|size| cell(call, *size)).collect();
            if cells.iter().any(Option::is_some) {
                let cells: Vec<String> = cells.into_iter().map(Option::unwrap_or_default).collect();
                writeln!(table, "| {call} | {} |", cells.join(" | ")).unwrap();
            }
        }
        table
    }
}

/// A table of the everyday tasks: for each the mean length of its texts, our time for one, and how many times as fast
/// as each peer ours is, the last one where the crate `memchr` chose AVX2.
fn tasks(calls: &Calls, avx2: &Calls, rows: &[Vec<String>]) -> String {
    let mut table = String::from(
        "| Task | Bytes | Ours | Fastest peer | best Rust | std | `memchr` | Rust crate | best, AVX2 |\n|---|--:|--:|--:|--:|--:|--:|--:|--:|\n",
    );
    for (call, size) in each_once(rows.iter().map(|row| (&row[0], row[1].parse().expect("a size")))) {
        let ours = calls.time(call, size, "ours").map(as_time).unwrap_or_default();
        write!(table, "| {call} | {size} | {ours} |").unwrap();
        write!(table, " {} |", calls.best(call, size).map(Ratio::with_spread).unwrap_or_default()).unwrap();
        let ratios = ["best", "std", "memchr", "crate"].map(|peer| calls.ratio(call, size, peer));
        for ratio in ratios.into_iter().chain([avx2.ratio(call, size, "best")]) {
            write!(table, " {} |", ratio.map(as_ratio).unwrap_or_default()).unwrap();
        }
        table.push('\n');
    }
    table
}

/// A text in lines of at most 120 characters.
fn wrapped(text: &str) -> String {
    let (mut all, mut length) = (String::new(), 0);
    for word in text.split_whitespace() {
        let is_full = length + word.chars().count() >= 120;
        all.push_str(if length == 0 { "" } else if is_full { "\n" } else { " " });
        length = word.chars().count() + if is_full { 0 } else { length + 1 };
        all.push_str(word);
    }
    all
}

/// The tasks at which a peer is more than 5 % faster, each with the ratio.
fn tasks_behind(calls: &Calls, rows: &[Vec<String>]) -> String {
    let tasks = each_once(rows.iter().map(|row| (&row[0], row[1].parse().expect("a size"))));
    let found = tasks.into_iter().filter_map(|(call, size)| {
        let ratio = calls.best(call, size)?.median;
        (ratio < 0.95).then(|| format!("{call} ({})", as_ratio(ratio)))
    });
    found.collect::<Vec<_>>().join(", ")
}

/// Where a peer is faster, compiled for the same processor, and where the crate `memchr` chose AVX2.
fn behind(calls: &Calls, avx2: &Calls, rows: &[Vec<String>]) -> String {
    wrapped(&format!(
        "**Where a Rust programmer is faster** by more than 5 %, of the everyday tasks: {}. Where the crate `memchr` chooses \
         vectors of AVX2 at run time, which no library of this toolchain can: {}.",
        tasks_behind(calls, rows),
        tasks_behind(avx2, rows)
    ))
}

/// The table of the README: each task and the fastest peer's time divided by ours, three tasks to a row.
fn short_tasks(calls: &Calls, rows: &[Vec<String>]) -> String {
    let cells: Vec<String> = each_once(rows.iter().map(|row| (&row[0], row[1].parse().expect("a size"))))
        .into_iter()
        .map(|(call, size)| format!("{call} | {} |", calls.best(call, size).map(Ratio::with_spread).unwrap_or_default()))
        .collect();
    let third = cells.len().div_ceil(3);
    let mut table = String::from("| Task | | Task | | Task | |\n|---|--:|---|--:|---|--:|\n");
    for at in 0..third {
        let row = (0..3).map(|column| cells.get(at + column * third).map_or(" | |", String::as_str));
        writeln!(table, "| {}", row.collect::<Vec<_>>().join(" ")).unwrap();
    }
    table
}

/// What a call is compared with.
const PEERS: [&str; 4] = ["crate", "std", "memchr", "best"];

fn bytes(size: usize) -> String {
    match size {
        0..=1023 => size.to_string(),
        1024..=1048575 => format!("{} KiB", size >> 10),
        _ => format!("{} MiB", size >> 20),
    }
}

fn as_ratio(ratio: f64) -> String {
    match ratio {
        ..9.995 => format!("{ratio:.2}"),
        ..99.95 => format!("{ratio:.1}"),
        _ => format!("{ratio:.0}"),
    }
}

fn as_time(nanoseconds: f64) -> String {
    match nanoseconds {
        ..999.5 => format!("{} ns", as_ratio(nanoseconds)),
        ..999.5e3 => format!("{} µs", as_ratio(nanoseconds / 1e3)),
        _ => format!("{} ms", as_ratio(nanoseconds / 1e6)),
    }
}

/// A table of the searches by length: our time, and how many times as fast as std and `memchr` ours is, the last one with
/// AVX2.
fn finds(calls: &Calls, avx2: &Calls) -> String {
    calls.table(|call, size| {
        let ratio = |calls: &Calls, peer| calls.ratio(call, size, peer).map(as_ratio);
        let time = calls.time(call, size, "ours").map(as_time)?;
        Some(format!("{time} ({}, {}, {})", ratio(calls, "std")?, ratio(calls, "memchr")?, ratio(avx2, "memchr")?))
    })
}

/// A table of whole programs: milliseconds and MiB for each text.
fn programs(rows: &[Vec<String>]) -> String {
    let means = each_once(rows.iter().map(|row| &row[1]));
    let mut table = String::from("| Mode | Program |");
    for mean in &means {
        write!(table, " lines of {mean}: ms | MiB |").unwrap();
    }
    write!(table, "\n|---|---|{}\n", "--:|--:|".repeat(means.len())).unwrap();
    for (mode, name) in each_once(rows.iter().map(|row| (&row[0], &row[2]))) {
        write!(table, "| {mode} | {name} |").unwrap();
        for row in rows.iter().filter(|row| (&row[0], &row[2]) == (mode, name)) {
            let peak: f64 = row[4].parse().expect("kilobytes");
            write!(table, " {} | {:.1} |", row[3], peak / 1024.0).unwrap();
        }
        table.push('\n');
    }
    table
}

/// A table of programs over texts of several lengths: milliseconds, and MiB of memory at the peak.
fn sizes(rows: &[Vec<String>]) -> String {
    let mut table = String::from("| Program | Input: MiB | ms | memory: MiB |\n|---|--:|--:|--:|\n");
    for row in rows {
        let (size, peak): (usize, f64) = (row[1].parse().expect("a size"), row[4].parse().expect("kilobytes"));
        let size = size >> 20;
        writeln!(table, "| {} | {size} | {} | {:.1} |", row[2], row[3], peak / 1024.0).unwrap();
    }
    table
}

/// A table of the example servers, each row beside redis-server if it has the row.
fn servers(rows: &[Vec<String>]) -> String {
    let mut table = String::from("| What | Ours | redis-server | Ratio |\n|---|--:|--:|--:|\n");
    for row in rows {
        let ratio = match (row[1].parse::<f64>(), row[2].parse::<f64>()) {
            (Ok(ours), Ok(theirs)) => as_ratio(ours / theirs),
            _ => String::new(),
        };
        writeln!(table, "| {} | {} | {} | {ratio} |", row[0], row[1], row[2]).unwrap();
    }
    table
}

/// A chart of time by the length of the input, both on a scale of powers of ten, with a line for each program.
fn sizes_chart(rows: &[Vec<String>]) -> String {
    const COLOURS: [&str; 6] = ["#2563a8", "#8fb8de", "#b4532a", "#f2c48d", "#3f7d3a", "#a9d3a4"];
    let points: Vec<(&str, f64, f64)> = rows
        .iter()
        .filter(|row| !row[2].contains("pipe") && !row[2].contains("Cyrillic"))
        .map(|row| (row[2].as_str(), row[1].parse::<f64>().unwrap() / 1048576.0, row[3].parse::<f64>().unwrap().max(1.0)))
        .collect();
    let x = |mib: f64| 70.0 + 250.0 * (mib.log10() - 1.0);
    let y = |ms: f64| 330.0 - 70.0 * ms.log10();
    let mut marks = String::new();
    for power in 0..=4 {
        let ms = 10f64.powi(power);
        writeln!(
            marks,
            r##"<line x1="70" y1="{0}" x2="590" y2="{0}" stroke="#e1e5ea"/>
<text x="62" y="{1}" text-anchor="end" font-size="11" fill="#5b6470">{ms} ms</text>"##,
            y(ms),
            y(ms) + 4.0
        )
        .unwrap();
    }
    for (mib, name) in [(10.0, "10 MiB"), (100.0, "100 MiB"), (1024.0, "1 GiB")] {
        let at = x(mib);
        writeln!(marks, r##"<text x="{at:.1}" y="350" text-anchor="middle" font-size="11" fill="#5b6470">{name}</text>"##).unwrap();
    }
    let mut lines = String::new();
    for (at, name) in each_once(points.iter().map(|point| point.0)).into_iter().enumerate() {
        let colour = COLOURS[at % COLOURS.len()];
        let path: Vec<String> =
            points.iter().filter(|point| point.0 == name).map(|point| format!("{:.1},{:.1}", x(point.1), y(point.2))).collect();
        let key = 60.0 + 20.0 * at as f64;
        writeln!(
            lines,
            r##"<polyline points="{}" fill="none" stroke="{colour}" stroke-width="2"/>
<line x1="604" y1="{key}" x2="624" y2="{key}" stroke="{colour}" stroke-width="3"/>
<text x="630" y="{}">{name}</text>"##,
            path.join(" "),
            key + 4.0
        )
        .unwrap();
    }
    format!(
        r##"<!-- Made by `bin/bench`. -->
<svg xmlns="http://www.w3.org/2000/svg" width="760" height="364" viewBox="0 0 760 364"
 font-family="system-ui, sans-serif" font-size="12.5" fill="#2b323b" role="img"
 aria-label="CPU time of programs by the length of their input">
{DARK}
<rect width="760" height="364" rx="8" fill="#fafbfc"/>
<text x="20" y="24" font-size="15" font-weight="600">CPU time by the length of the input, lines of 60 bytes</text>
{marks}{lines}</svg>
"##
    )
}

const CHART_SIZE: usize = 1024;

/// The colors of a chart on dark.
const DARK: &str = r##"<style>@media (prefers-color-scheme: dark) {
svg { fill: #e4e7eb } rect[fill="#fafbfc"] { fill: #16191d } text[fill="#5b6470"] { fill: #9aa5b1 }
line[stroke="#e1e5ea"] { stroke: #30363d } line[stroke="#5b6470"] { stroke: #9aa5b1 } }</style>"##;

/// What is before and after the table of the README.
const BEFORE_TASKS: &str = "<!-- Made by `bin/bench`. -->\n\n";
const AFTER_TASKS: &str = "<!-- end of the table -->";

/// The calls of the chart, with how it names them.
const CHART: [(&str, &str); 7] = [
    ("accept", "accept"),
    ("upper", "upper case"),
    ("equal", "equal without case"),
    ("lines of 60", "lines of 60 bytes"),
    ("split", "split, 1 in 9"),
    ("names, inline", "short texts, inline"),
    ("chars", "characters"),
];

/// A chart of bars from 1, on a scale of powers of two: to the right where ours is faster.
fn chart(calls: &Calls, ascii: &str) -> String {
    let (one, octave, left, right) = (230.0, 88.0, 142.0, 684.0);
    let mut bars = String::new();
    let mut y = 64.0;
    for (call, name) in CHART {
        writeln!(
            bars,
            r##"<text x="134" y="{}" text-anchor="end">{name}</text>"##,
            y + 19.0
        )
        .unwrap();
        for (peer, colour) in [("crate", "#8fb8de"), ("std", "#f2c48d")] {
            let Some(ratio) = calls.ratio(call, CHART_SIZE, peer) else {
                continue;
            };
            let end = (one + octave * ratio.log2()).clamp(left, right);
            let (x, width) = (end.min(one), (end - one).abs().max(1.0));
            writeln!(
                bars,
                r##"<rect x="{x:.1}" y="{y}" width="{width:.1}" height="13" rx="2" fill="{colour}"/>
<text x="{:.1}" y="{}" font-size="11">{}</text>"##,
                end.max(one) + 5.0,
                y + 10.5,
                as_ratio(ratio)
            )
            .unwrap();
            y += 15.0;
        }
        y += 9.0;
    }
    let mut lines = String::new();
    for (power, name) in [
        (-1.0, "½"),
        (0.0, "1"),
        (1.0, "2"),
        (2.0, "4"),
        (3.0, "8"),
        (4.0, "16"),
        (5.0, "32"),
    ] {
        let x = one + octave * power;
        let colour = if power == 0.0 { "#5b6470" } else { "#e1e5ea" };
        writeln!(
            lines,
            r##"<line x1="{x}" y1="56" x2="{x}" y2="{y}" stroke="{colour}"/>
<text x="{x}" y="{}" text-anchor="middle" font-size="11" fill="#5b6470">{name}</text>"##,
            y + 14.0
        )
        .unwrap();
    }
    let height = y + 26.0;
    format!(
        r##"<!-- Made by `bin/bench`. -->
<svg xmlns="http://www.w3.org/2000/svg" width="740" height="{height}" viewBox="0 0 740 {height}"
 font-family="system-ui, sans-serif" font-size="12.5" fill="#2b323b" role="img"
 aria-label="Times as fast as the Rust crate and as std">
{DARK}
<rect width="740" height="{height}" rx="8" fill="#fafbfc"/>
<text x="20" y="24" font-size="15" font-weight="600">Times as fast, over 1 KiB (right: ours is faster)</text>
<rect x="20" y="35" width="11" height="11" rx="2" fill="#8fb8de"/>
<text x="36" y="45">as the Rust crate ascii {ascii}</text>
<rect x="230" y="35" width="11" height="11" rx="2" fill="#f2c48d"/>
<text x="246" y="45">as std</text>
{lines}{bars}</svg>
"##
    )
}

fn page(
    facts: &HashMap<String, String>,
    calls: &Calls,
    finds: &str,
    (tasks, behind): (&str, &str),
    programs: &str,
    servers: &str,
    sizes: &str,
    reasons: &str,
) -> String {
    let fact = |name: &str| facts.get(name).map_or("", String::as_str);
    let beside = |peer| calls.table(|call, size| calls.ratio(call, size, peer).map(as_ratio));
    let times = calls.table(|call, size| {
        calls
            .time(call, size, "ours")
            .or(calls.time(call, size, "memcpy"))
            .map(as_time)
    });
    let missing = match fact("missing") {
        "" => String::new(),
        names => format!("\nNot on this machine, and left out: {names}.\n"),
    };
    format!(
        "<!-- Made by `bin/bench`. -->
# Performance

From one run. [bench/README.md](../bench/README.md) says how the calls are measured and what each
name means. A number in a comparison is the median over the rounds of the peer's time divided by ours: above 1, this
library is faster. Beside the fastest peer of a task stand the smallest and the largest of the rounds.

{behind}

`bench/best.rs` finds lines with a text by one search over the whole, and in any case over a copy in lower case. It
compares a header's name only where its colon is, and walks strict headers once, with a table. Replies write numbers
without a format, or all by `format!`; `replace` reserves twice the text, the table of numbers is one walk, and digests are
a fold without a branch. It collects a slug at its exact size. `extend_chars` of this library does not ask an iterator how
many characters it has left, and appends 64 at a time; no other call of it makes a slug in less time. What each of these
gives by itself was not measured.

![Times as fast as the Rust crate and as std](performance.svg)

| | |
|---|---|
| Command | `{command}`, {rounds} rounds |
| Commit | {commit} |
| Date | {date} |
| Machine | {machine}, with a load of {load} before the run |
| Ours | {rattle}, for {cpu} |
| Peers | {rustc}, for {cpu}, its std for x86-64 where it is not inlined; ascii {ascii}, memchr {memchr} |
| Programs | {tools} |
{missing}
## Everyday tasks

What programs do with text, from bytes that are not checked yet: each side tests that they are ASCII. A task has 128
texts of different lengths (logs: 4), which each side takes in the same order; bytes and time are the mean of a text.
Ours and *best Rust* are the task by a programmer who measures: best Rust over std and `memchr`, with one walk over the
bytes, tables, exact sizes, and one search over the whole text. std, `memchr` and the Rust crate have the idioms of their
side. These are the same code as ours, except where they do more: they cut each header at its colon before they compare
its name or test its characters, cut a table into fields before they read the numbers, trim both ends of a setting's
name and value, and find the lines with a text, also in any case, line by line. A slug is pushed character by character
by the Rust crate, which has no other call for it. The last two rows are the worst cases of a search for a text. The
last column is best Rust where the crate `memchr` chooses AVX2 at run time, measured after the others.

The code is for x86-64-v2. If each machine that runs it has AVX2, give `--cpu x86-64-v3` to `rt run`, to `rt lib` of a
static library, to `bin/install` or to `bin/bench`: nothing is proved again below. A program checks its processor as it
starts, and ends with status 127 if that lacks a feature. A static library does not check it.

{tasks}
## Faster, level, slower

Each call against the fastest of its peers: the Rust crate, std, and a bare loop over the Rust crate
`memchr`. *Level* is a ratio of 0.95 to 1.05; if another is faster, the ratio is given.

{standings}
{reasons}
## Searches by length

The position of a needle of 1, 4 or 16 characters at the end of a text: our time, and in parentheses the time of std,
of the Rust crate `memchr` for {cpu}, and of `memchr` with AVX2, each divided by ours.

{finds}
## Compared with the Rust crate

{by_crate}
## Compared with std

{by_std}
## Compared with a bare loop over the Rust crate `memchr`

{by_memchr}
## Time of a call

Ours, and `memcpy` as the limit of what goes through memory once.

{times}
## Whole programs

Over {text} of text: CPU time, user and system together, and memory at the peak.

{programs}
With `GLIBC_TUNABLES=glibc.malloc.hugetlb=1` in the caller's environment, the C library asks the kernel for huge pages:
`ascii_show copy` over 64 MiB at lines of 60 then takes 37 ms of CPU time instead of 55 (the minimum of 15 runs each,
where the kernel gives huge pages on request).

## Servers

The store of `example_resp` beside redis-server. One client in Python sets random keys over one connection, and then asks
for the same keys; its own time is part of each number. The mail server of `example_smtp` gets one mail of 16 MiB in
lines of 72 bytes.

{servers}
## Inputs of any length

`ascii_filter` holds one chunk of its input. Lines of 60 bytes, CPU time, the minimum of three runs. Of Cyrillic text
`check` names 12 bytes of 13, each in a line of its own. The last row is one run over a pipe.

![CPU time by the length of the input](sizes.svg)

{sizes}",
        command = fact("command"),
        rounds = fact("rounds"),
        commit = fact("commit"),
        date = fact("date"),
        machine = fact("machine"),
        load = fact("load"),
        rattle = fact("rattle"),
        cpu = fact("cpu"),
        rustc = fact("rustc"),
        ascii = fact("ascii"),
        memchr = fact("memchr"),
        tools = fact("programs").replace(';', "; "),
        standings = calls.standings(),
        by_crate = beside("crate"),
        by_std = beside("std"),
        by_memchr = beside("memchr"),
        text = bytes(fact("bytes").parse().unwrap_or(0)),
    )
}

fn main() {
    let words: Vec<String> = std::env::args().collect();
    let [_, folder, pages, reasons] = &words[..] else {
        eprintln!("usage: report FOLDER PAGES REASONS");
        std::process::exit(2);
    };
    let facts: HashMap<String, String> = rows(format!("{folder}/facts"))
        .into_iter()
        .map(|row| (row[0].clone(), row[1].clone()))
        .collect();
    let calls = Calls::read(&rows(format!("{folder}/calls.tsv")));
    let task_rows = rows(format!("{folder}/tasks.tsv"));
    let of_tasks = Calls::read(&task_rows);
    let avx2 = Calls::read(&rows(format!("{folder}/tasks_avx2.tsv")));
    let tasks = (&tasks(&of_tasks, &avx2, &task_rows)[..], &behind(&of_tasks, &avx2, &task_rows)[..]);
    let (sized, timed): (Vec<_>, Vec<_>) =
        rows(format!("{folder}/programs.tsv")).into_iter().partition(|row| row[0] == "size");
    let programs = programs(&timed);
    let write = |name: &str, text: String| {
        let path = format!("{pages}/{name}");
        std::fs::write(&path, text).unwrap_or_else(|error| panic!("{path}: {error}"));
    };
    let reasons =
        std::fs::read_to_string(reasons).unwrap_or_else(|error| panic!("{reasons}: {error}"));
    let servers = servers(&rows(format!("{folder}/servers.tsv")));
    let [found, by_avx2] = ["finds", "finds_avx2"].map(|name| Calls::read(&rows(format!("{folder}/{name}.tsv"))));
    let finds = finds(&found, &by_avx2);
    let page = page(&facts, &calls, &finds, tasks, &programs, &servers, &sizes(&sized), &reasons);
    write("PERFORMANCE.md", page);
    if pages == "docs" {
        let readme = std::fs::read_to_string("README.md").expect("README.md");
        let (before, rest) = readme.split_once(BEFORE_TASKS).expect("the place of the table in README.md");
        let (_, after) = rest.split_once(AFTER_TASKS).expect("the end of the table in README.md");
        let table = short_tasks(&of_tasks, &task_rows);
        std::fs::write("README.md", [before, BEFORE_TASKS, &table, AFTER_TASKS, after].concat()).expect("README.md");
    }
    write("performance.svg", chart(&calls, &facts["ascii"]));
    write("sizes.svg", sizes_chart(&sized));
}
