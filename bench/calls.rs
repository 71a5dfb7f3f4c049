//! Measures single calls, and writes a line for each: what is called, the number of bytes, the
//! implementation, nanoseconds; and of a peer how many times as long as ours it takes: the median, the smallest and the
//! largest of the rounds.
//! usage: calls ROUNDS MICROSECONDS tasks, or calls ROUNDS MICROSECONDS calls|finds SIZE,..
//!
//! A round lasts at least the given number of microseconds. The minimum of the rounds counts; a ratio is of the times
//! in one round. `tasks` measures the everyday tasks, each over all of its texts in turn: bytes and nanoseconds are the
//! mean of a text. `calls` measures each call over texts of the given sizes, `finds` only the searches for a needle.

mod best;
mod everyday;
mod peers;
mod task_texts;
mod texts;

use peers::{by_crate, by_memchr, by_std, memory, ours};
use std::hint::black_box;
use std::time::{Duration, Instant};

/// One side of a comparison: its name, its answer for each text, and a loop that calls it so often for each text.
struct Side<'a> {
    name: &'static str,
    answers: Vec<usize>,
    repeat: Box<dyn FnMut(usize) + 'a>,
}

impl<'a> Side<'a> {
    /// A call that reads, and gives its answer each time.
    fn reads(name: &'static str, call: impl Fn() -> usize + 'a) -> Side<'a> {
        Side {
            name,
            answers: vec![call()],
            repeat: Box::new(move |times| {
                for _ in 0..times {
                    black_box(call());
                }
            }),
        }
    }

    /// A call that reads each of some texts in turn.
    fn reads_each(name: &'static str, texts: &'a [Vec<u8>], call: impl Fn(&[u8]) -> usize + 'a) -> Side<'a> {
        Side {
            name,
            answers: texts.iter().map(|text| call(text)).collect(),
            repeat: Box::new(move |times| {
                for _ in 0..times {
                    for text in texts {
                        black_box(call(black_box(text)));
                    }
                }
            }),
        }
    }

    /// A call that writes into a copy of a text of its own; the answer is the text there after the
    /// first time.
    fn writes(name: &'static str, text: &[u8], call: impl Fn(&mut [u8]) + 'a) -> Side<'a> {
        let mut target = text.to_vec();
        call(&mut target);
        Side {
            name,
            answers: vec![target.iter().fold(0, |sum, byte| peers::mixed(sum, *byte as usize))],
            repeat: Box::new(move |times| {
                for _ in 0..times {
                    call(black_box(&mut target));
                }
            }),
        }
    }
}

/// How the sides are measured.
struct Clock {
    rounds: usize,
    least: Duration,
}

impl Clock {
    /// How often the call is repeated, so that a round lasts long enough.
    fn times(&self, side: &mut Side) -> usize {
        let mut times = 1;
        loop {
            let start = Instant::now();
            (side.repeat)(times);
            if start.elapsed() >= self.least {
                return times;
            }
            times *= 2;
        }
    }

    /// Compares the answers, and measures the sides in turn, round by round.
    fn compare(&self, call: &str, size: usize, mut sides: Vec<Side>) {
        require_same_answers(call, size, &sides);
        let texts = sides[0].answers.len() as f64;
        let times: Vec<usize> = sides.iter_mut().map(|side| self.times(side)).collect();
        let mut took = vec![Vec::new(); sides.len()];
        for _ in 0..self.rounds {
            for (place, side) in sides.iter_mut().enumerate() {
                let start = Instant::now();
                (side.repeat)(times[place]);
                took[place].push(start.elapsed().as_nanos() as f64 / times[place] as f64 / texts);
            }
        }
        for (side, rounds) in sides.iter().zip(&took) {
            let nanoseconds = rounds.iter().copied().fold(f64::MAX, f64::min);
            let ratios = if side.name == "ours" { String::new() } else { spread(rounds, &took[0]) };
            println!("{call}\t{size}\t{}\t{nanoseconds:.2}{ratios}", side.name);
        }
    }
}

/// Ends the program if the sides have different answers for a text.
fn require_same_answers(call: &str, size: usize, sides: &[Side]) {
    let first = &sides[0];
    for side in sides {
        if side.answers != first.answers {
            let at = side.answers.iter().zip(&first.answers).position(|(one, other)| one != other);
            let names = format!("{} answers otherwise than {}", side.name, first.name);
            eprintln!("calls: {call}, {size} bytes: {names}, for text {}", at.unwrap_or(0));
            std::process::exit(1);
        }
    }
}

/// How many times as long as ours a peer takes: the median, the smallest and the largest of the rounds.
fn spread(peer: &[f64], ours: &[f64]) -> String {
    let mut ratios: Vec<f64> = peer.iter().zip(ours).map(|(peer, ours)| peer / ours).collect();
    ratios.sort_by(f64::total_cmp);
    let last = ratios.len() - 1;
    format!("\t{:.4}\t{:.4}\t{:.4}", ratios[last / 2], ratios[0], ratios[last])
}

/// The same function of several sides over one text, or over two, as a list.
macro_rules! sides {
    ($text:ident: $($name:literal $side:ident::$call:ident),*) => {
        vec![$(Side::reads($name, || $side::$call(black_box($text)))),*]
    };
    ($text:ident, $other:ident: $($name:literal $side:ident::$call:ident),*) => {
        vec![$(Side::reads($name, || $side::$call(black_box($text), black_box($other)))),*]
    };
}

fn checks(clock: &Clock, size: usize) {
    let text = &texts::letters(size)[..];
    clock.compare(
        "accept",
        size,
        sides![text: "ours" ours::accept, "crate" by_crate::accept, "std" by_std::accept],
    );
    let mut refused = text.to_vec();
    refused[size - 1] = 200;
    let text = &refused[..];
    clock.compare(
        "accept, last byte rejected",
        size,
        sides![text:
        "ours" ours::accept, "crate" by_crate::accept, "std" by_std::accept],
    );
}

fn cases(clock: &Clock, size: usize) {
    let text = &texts::letters(size)[..];
    clock.compare(
        "upper",
        size,
        vec![
            Side::writes("ours", text, ours::upper),
            Side::writes("crate", text, by_crate::upper),
            Side::writes("std", text, by_std::upper),
        ],
    );
    clock.compare(
        "memcpy",
        size,
        vec![Side::writes("memcpy", text, |target| {
            memory::copy(black_box(text), target)
        })],
    );
    let raised = &text.to_ascii_uppercase()[..];
    clock.compare(
        "equal",
        size,
        sides![text, raised: "ours" ours::equal, "crate" by_crate::equal, "std" by_std::equal],
    );
    let mut other = raised.to_vec();
    other[0] = b'%';
    let other = &other[..];
    clock.compare(
        "equal, first byte differs",
        size,
        sides![text, other: "ours" ours::equal, "crate" by_crate::equal, "std" by_std::equal],
    );
    let text = &texts::blank_but_the_middle(size)[..];
    clock.compare(
        "trim",
        size,
        sides![text: "ours" ours::trim, "crate" by_crate::trim, "std" by_std::trim],
    );
}

fn walks(clock: &Clock, size: usize) {
    for mean in [10, 60, 1000] {
        if size < mean {
            continue;
        }
        let text = &texts::marked(size, mean as u64, b'\n')[..];
        clock.compare(&format!("lines of {mean}"), size, sides![text:
            "ours" ours::lines, "crate" by_crate::lines, "std" by_std::lines, "memchr" by_memchr::lines]);
        clock.compare(
            &format!("lines of {mean}, from the back"),
            size,
            sides![text:
            "ours" ours::lines_back, "crate" by_crate::lines_back, "std" by_std::lines_back,
            "memchr" by_memchr::lines_back],
        );
        // Through a buffer of 64 KiB, which shorter texts do not fill again.
        if size >= 1 << 20 {
            clock.compare(
                &format!("reader, lines of {mean}"),
                size,
                sides![text: "ours" ours::read_lines, "std" by_std::read_lines],
            );
            let strict = &texts::with_cr(text)[..];
            clock.compare(
                &format!("strict reader, lines of {mean}"),
                size,
                sides![strict: "ours" ours::read_strict_lines, "std" by_std::read_lines],
            );
            clock.compare(
                &format!("echo, lines of {mean}"),
                size,
                sides![text: "ours" ours::echo_lines, "std" by_std::echo_lines],
            );
        }
    }
    let text = &texts::marked(size, 9, b',')[..];
    clock.compare("split", size, sides![text:
        "ours" ours::split, "crate" by_crate::split, "std" by_std::split, "memchr" by_memchr::split]);
    clock.compare(
        "chars",
        size,
        sides![text: "ours" ours::chars, "crate" by_crate::chars, "std" by_std::chars],
    );
}

/// Searches for a needle at the end, whose last character is nowhere else.
fn finds(clock: &Clock, size: usize) {
    for length in [1, 4, 16] {
        if size < length {
            continue;
        }
        let mut needle = texts::letters(length);
        needle[length - 1] = b'%';
        let mut text = texts::letters(size);
        text[size - length..].copy_from_slice(&needle);
        let (text, needle) = (&text[..], &needle[..]);
        clock.compare(
            &format!("find {length}"),
            size,
            sides![text, needle: "ours" ours::find, "std" by_std::find, "memchr" by_memchr::find],
        );
    }
}

fn searches(clock: &Clock, size: usize) {
    finds(clock, size);
    let mut text = texts::letters(size);
    text[size - 1] = b'%';
    let text = &text[..];
    clock.compare("position", size, sides![text:
        "ours" ours::position, "std" by_std::position, "memchr" by_memchr::position]);
    let mut text = texts::letters(size);
    text[size / 2] = b':';
    let text = &text[..];
    clock.compare("split once", size, sides![text:
        "ours" ours::split_once, "std" by_std::split_once, "memchr" by_memchr::split_once]);
    let text = &texts::marked(size, 9, b' ')[..];
    clock.compare(
        "words",
        size,
        sides![text: "ours" ours::words, "std" by_std::words],
    );
    // No number of more digits fits.
    if size <= 16 {
        let text = &texts::digits(size)[..];
        clock.compare(
            "number",
            size,
            sides![text: "ours" ours::number, "std" by_std::number],
        );
    }
    let text = &texts::letters(size)[..];
    let raised = &text.to_ascii_uppercase()[..];
    clock.compare(
        "folded",
        size,
        sides![text, raised: "ours" ours::folded, "std" by_std::equal],
    );
}

fn owned(clock: &Clock, size: usize) {
    let text = &texts::marked(size, 9, b',')[..];
    clock.compare(
        "collect",
        size,
        sides![text:
        "ours" ours::collect, "crate" by_crate::collect, "std" by_std::collect],
    );
    clock.compare(
        "push",
        size,
        sides![text: "ours" ours::push, "crate" by_crate::push, "std" by_std::push],
    );
    clock.compare(
        "push, inline",
        size,
        sides![text:
        "ours" ours::push_inline, "crate" by_crate::push, "std" by_std::push],
    );
    clock.compare(
        "build",
        size,
        sides![text: "ours" ours::build, "crate" by_crate::build, "std" by_std::build],
    );
    clock.compare(
        "build, inline",
        size,
        sides![text:
        "ours" ours::build_inline, "crate" by_crate::build, "std" by_std::build],
    );
    clock.compare(
        "names",
        size,
        sides![text: "ours" ours::names, "crate" by_crate::names, "std" by_std::names],
    );
    clock.compare(
        "names, inline",
        size,
        sides![text:
        "ours" ours::names_inline, "crate" by_crate::names, "std" by_std::names],
    );
}

/// The everyday tasks and the worst cases of a search.
fn tasks(clock: &Clock) {
    for everyday::Row { name, texts, other, sides } in everyday::rows() {
        let mean = texts.iter().map(Vec::len).sum::<usize>() / texts.len();
        let sides = sides.into_iter().map(|(side, task)| {
            Side::reads_each(side, &texts, move |text| task(text, black_box(other)))
        });
        clock.compare(name, mean, sides.collect());
    }
}

fn calls(clock: &Clock, size: usize) {
    eprintln!("calls over {size} bytes");
    checks(clock, size);
    cases(clock, size);
    walks(clock, size);
    searches(clock, size);
    owned(clock, size);
}

fn main() {
    let words: Vec<String> = std::env::args().collect();
    let number = |word: &str| word.parse::<usize>().expect("a number");
    let clock = |rounds: &str, microseconds: &str| Clock {
        rounds: number(rounds),
        least: Duration::from_micros(number(microseconds) as u64),
    };
    let words: Vec<&str> = words.iter().map(String::as_str).collect();
    match words[..] {
        [_, rounds, least, "tasks"] => tasks(&clock(rounds, least)),
        [_, rounds, least, what @ ("calls" | "finds"), sizes] => {
            let (clock, measure) = (clock(rounds, least), if what == "calls" { calls } else { finds });
            sizes.split(',').for_each(|size| measure(&clock, number(size)));
        }
        _ => {
            eprintln!("usage: calls ROUNDS MICROSECONDS tasks, or calls ROUNDS MICROSECONDS calls|finds SIZE,..");
            std::process::exit(2);
        }
    }
}
