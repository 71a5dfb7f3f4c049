//! Measures whole programs over a text on standard input, and writes a line for each: the mode, the mean
//! length of a line, the program, milliseconds of processor time (user and system), kilobytes of memory at
//! the peak.
//! usage: programs ROUNDS BYTES FOLDER SHOW FILTER BY_CRATE [cat] [tac] [iconv] [jq] [tr] [grep]
//!
//! Lines that begin with `size` are of texts of other lengths, with lines of 60 bytes, each measured three times; then
//! `ascii_filter check` over Cyrillic text, of which it names nearly each byte; the last line is `ascii_filter copy` from a
//! pipe through which 80 times BYTES go.
//!
//! The memory of a program that is started counts from what its starter had, so this one goes through texts
//! and outputs by small parts.

#[allow(dead_code)] // the texts of calls.rs are whole, these are written as they are made
mod texts;

use std::fs::File;
use std::io::{BufReader, BufWriter, Read, Write};
use std::process::{exit, Command, Stdio};

/// What the C library tells of a process that has ended (`struct rusage`): times as seconds and microseconds.
#[repr(C)]
struct Usage {
    user: [i64; 2],
    system: [i64; 2],
    peak: i64,
    others: [i64; 13],
}

extern "C" {
    fn wait4(process: i32, status: *mut i32, options: i32, usage: *mut Usage) -> i32;
}

/// A program with its words.
struct Program {
    mode: &'static str,
    name: String,
    command: Vec<String>,
    best: f64,
    peak: i64,
}

impl Program {
    fn new(mode: &'static str, name: &str, command: &[&str]) -> Program {
        let command = command.iter().map(|word| word.to_string()).collect();
        Program {
            mode,
            name: name.to_string(),
            command,
            best: f64::MAX,
            peak: 0,
        }
    }

    /// Runs the program over the text: milliseconds of processor time, and kilobytes at the peak.
    fn run(&self, text: &str, output: Stdio) -> (f64, i64) {
        let input = File::open(text).expect("the text is there");
        self.run_over(input.into(), output)
    }

    /// Runs the program over an input.
    fn run_over(&self, input: Stdio, output: Stdio) -> (f64, i64) {
        let mut command = Command::new(&self.command[0]);
        let child = command
            .args(&self.command[1..])
            .stdin(input)
            .stdout(output)
            .spawn();
        let child = child.unwrap_or_else(|error| self.give_up(&error.to_string()));
        let mut usage = Usage {
            user: [0; 2],
            system: [0; 2],
            peak: 0,
            others: [0; 13],
        };
        let mut status = 0;
        let waited = unsafe { wait4(child.id() as i32, &mut status, 0, &mut usage) };
        if waited < 0 || status != 0 {
            self.give_up("it did not end well");
        }
        let seconds = (usage.user[0] + usage.system[0]) as f64;
        (
            seconds * 1e3 + (usage.user[1] + usage.system[1]) as f64 / 1e3,
            usage.peak,
        )
    }

    fn give_up(&self, why: &str) -> ! {
        eprintln!("programs: {}: {why}", self.command.join(" "));
        exit(1)
    }
}

/// A text of lines: letters, a LF for one in `mean`, an escape character for one in 1,000, and a LF at the
/// end.
fn write_text(path: &str, bytes: usize, mean: u64) -> std::io::Result<()> {
    let mut numbers = texts::Numbers::new(mean);
    let mut file = BufWriter::new(File::create(path)?);
    let mut left = numbers.under(2 * mean - 1);
    for _ in 1..bytes {
        let byte = match left {
            0 => b'\n',
            _ if numbers.under(1000) == 0 => 27,
            _ => numbers.letter(),
        };
        left = if left == 0 {
            numbers.under(2 * mean - 1)
        } else {
            left - 1
        };
        file.write_all(&[byte])?;
    }
    file.write_all(b"\n")?;
    file.flush()
}

/// Whether two files are equal, except for one LF that may be at the end of the second.
fn agree(first: &str, second: &str) -> std::io::Result<bool> {
    let (mut first, mut second) = (
        BufReader::new(File::open(first)?),
        BufReader::new(File::open(second)?),
    );
    let (mut mine, mut theirs) = ([0; 4096], [0; 4096]);
    loop {
        let length = first.read(&mut mine)?;
        if length == 0 {
            let rest = second.read(&mut theirs)?;
            return Ok(rest == 0 || theirs[..rest] == *b"\n");
        }
        if second.read_exact(&mut theirs[..length]).is_err() || mine[..length] != theirs[..length] {
            return Ok(false);
        }
    }
}

/// What `check` is compared with. `grep` ends with status 1 if it finds nothing, which is expected here.
const GREP: &str = r"LC_ALL=C grep -nP '[^\x00-\x7F]' || :";

/// The modes, and which programs have each: ascii_show, ascii_filter, the program over the Rust crate.
const MODES: [(&str, bool, bool, bool); 7] = [
    ("copy", true, true, true),
    ("lines", true, true, true),
    ("tac", true, false, true),
    ("caret", true, true, true),
    ("json", true, true, true),
    ("upper", false, true, false),
    ("check", false, true, false),
];

/// The tools of the system that are compared, by mode: the tool, and its command.
const TOOLS: [(&str, &str, &[&str]); 8] = [
    ("copy", "cat", &["cat"]),
    ("copy", "iconv", &["iconv", "-f", "ascii", "-t", "utf-8"]),
    ("lines", "tr", &["tr", "-d", r"\r"]),
    ("tac", "tac", &["tac"]),
    ("caret", "cat", &["cat", "-v"]),
    ("json", "jq", &["jq", "-Rs", "."]),
    ("upper", "tr", &["tr", "a-z", "A-Z"]),
    ("check", "grep", &["sh", "-c", GREP]),
];

/// The programs that are compared, by mode; one of ours is the first in each.
fn programs(show: &str, filter: &str, by_crate: &str, tools: &[String]) -> Vec<Program> {
    let mut programs = Vec::new();
    for (mode, of_show, of_filter, of_crate) in MODES {
        let ours = [
            (of_show, "ascii_show", show),
            (of_filter, "ascii_filter", filter),
        ];
        for (has, name, path) in ours {
            if has {
                programs.push(Program::new(mode, &format!("{name} {mode}"), &[path, mode]));
            }
        }
        if of_crate {
            programs.push(Program::new(mode, "by the Rust crate", &[by_crate, mode]));
        }
        for (of, tool, command) in TOOLS {
            if of == mode && tools.iter().any(|it| it == tool) {
                let name = if tool == "grep" {
                    GREP.trim_end_matches(" || :").to_string()
                } else {
                    in_shell(command)
                };
                programs.push(Program::new(mode, &name, command));
            }
        }
    }
    programs
}

/// Runs each program once into a file, and ends where an output is not that of ours in the same mode.
fn compare_outputs(programs: &[Program], text: &str, folder: &str) {
    let (ours, theirs) = (
        format!("{folder}/output_of_ours"),
        format!("{folder}/output_of_peer"),
    );
    let mut mode = "";
    for program in programs {
        let path = if program.mode == mode { &theirs } else { &ours };
        mode = program.mode;
        program.run(
            text,
            File::create(path)
                .expect("the folder can be written")
                .into(),
        );
        if path == &theirs && !agree(&ours, &theirs).expect("the outputs can be read") {
            program.give_up(&format!("its output over {text} is not that of our {mode}"));
        }
    }
}

/// The programs that are measured over texts of several lengths: the mode, and the tool beside it.
const SIZED: [(&str, usize); 3] = [("copy", 0), ("caret", 4), ("check", 7)];

/// A command as it is written in a shell.
fn in_shell(command: &[&str]) -> String {
    let quoted = |word: &&str| if word.contains('\\') { format!("'{word}'") } else { word.to_string() };
    command.iter().map(quoted).collect::<Vec<String>>().join(" ")
}

/// Measures the programs over texts from a sixth of `bytes` to 16 times as many.
fn measure_sizes(bytes: usize, folder: &str, filter: &str, tools: &[String]) {
    let text = format!("{folder}/lines_of_60");
    for size in [bytes / 6, bytes / 2, bytes * 3 / 2, bytes * 5, bytes * 16] {
        eprintln!("programs over {} MiB", size >> 20);
        write_text(&text, size, 60).expect("the folder can be written");
        for (mode, at) in SIZED {
            let (_, tool, command) = TOOLS[at];
            let mut sized = vec![Program::new(mode, &format!("ascii_filter {mode}"), &[filter, mode])];
            if tools.iter().any(|it| it == tool) {
                let name = if tool == "grep" { "grep" } else { &in_shell(command) };
                sized.push(Program::new(mode, name, command));
            }
            for program in &mut sized {
                for _ in 0..3 {
                    let (milliseconds, peak) = program.run(&text, Stdio::null());
                    program.best = program.best.min(milliseconds);
                    program.peak = program.peak.max(peak);
                }
                println!("size\t{size}\t{}\t{:.1}\t{}", program.name, program.best, program.peak);
            }
        }
    }
    std::fs::remove_file(&text).expect("the text can be removed");
}

/// A text of lines of Cyrillic letters: a space for one character in eight, and a LF for one in 64.
fn write_cyrillic(path: &str, bytes: usize) -> std::io::Result<()> {
    let mut numbers = texts::Numbers::new(64);
    let mut file = BufWriter::new(File::create(path)?);
    let mut left = bytes;
    while left > 1 {
        let character = match numbers.under(64) {
            0 => '\n',
            1..=8 => ' ',
            _ => char::from_u32(0x430 + numbers.under(32) as u32).expect("a letter"),
        };
        write!(file, "{character}")?;
        left -= character.len_utf8().min(left);
    }
    file.flush()
}

/// Measures `check` over a text of which nearly each byte is named. It ends with status 1, as is expected here.
fn measure_named(bytes: usize, folder: &str, filter: &str) {
    let size = bytes / 2;
    eprintln!("ascii_filter check over {} MiB of Cyrillic text", size >> 20);
    let text = format!("{folder}/cyrillic");
    write_cyrillic(&text, size).expect("the folder can be written");
    let command = format!("'{filter}' check || :");
    let name = "ascii_filter check, Cyrillic text";
    let mut program = Program::new("check", name, &["sh", "-c", &command]);
    for _ in 0..3 {
        let (milliseconds, peak) = program.run(&text, Stdio::null());
        program.best = program.best.min(milliseconds);
        program.peak = program.peak.max(peak);
    }
    println!("size\t{size}\t{name}\t{:.1}\t{}", program.best, program.peak);
    std::fs::remove_file(&text).expect("the text can be removed");
}

/// Passes many bytes through a pipe to `ascii_filter copy`.
fn measure_pipe(bytes: usize, filter: &str) {
    eprintln!("ascii_filter over {} MiB from a pipe", bytes >> 20);
    let program = Program::new("copy", "ascii_filter copy, from a pipe", &[filter, "copy"]);
    let (input, mut feed) = std::io::pipe().expect("a pipe");
    let feeder = std::thread::spawn(move || {
        let block = [b'a'; 1 << 16];
        let mut left = bytes;
        while left > 0 {
            let part = left.min(block.len());
            feed.write_all(&block[..part])?;
            left -= part;
        }
        Ok::<(), std::io::Error>(())
    });
    let (milliseconds, peak) = program.run_over(input.into(), Stdio::null());
    feeder.join().expect("the feeder ends").expect("the pipe takes all bytes");
    println!("size\t{bytes}\t{}\t{milliseconds:.1}\t{peak}", program.name);
}

fn main() {
    let words: Vec<String> = std::env::args().collect();
    let [_, rounds, bytes, folder, show, filter, by_crate, tools @ ..] = &words[..] else {
        eprintln!("usage: programs ROUNDS BYTES FOLDER SHOW FILTER BY_CRATE [cat] [tac] [iconv] [jq] [tr] [grep]");
        exit(2);
    };
    let rounds: usize = rounds.parse().expect("a number of rounds");
    for mean in [10, 60, 1000] {
        eprintln!("programs over lines of {mean} bytes");
        let text = format!("{folder}/lines_of_{mean}");
        write_text(&text, bytes.parse().expect("a number of bytes"), mean)
            .expect("the folder can be written");
        let mut programs = programs(show, filter, by_crate, tools);
        compare_outputs(&programs, &text, folder);
        for _ in 0..rounds {
            for program in &mut programs {
                let (milliseconds, peak) = program.run(&text, Stdio::null());
                program.best = program.best.min(milliseconds);
                program.peak = program.peak.max(peak);
            }
        }
        for program in &programs {
            println!(
                "{}\t{mean}\t{}\t{:.1}\t{}",
                program.mode, program.name, program.best, program.peak
            );
        }
        std::fs::remove_file(&text).expect("the text can be removed");
    }
    let bytes = bytes.parse().expect("a number of bytes");
    measure_sizes(bytes, folder, filter, tools);
    measure_named(bytes, folder, filter);
    measure_pipe(80 * bytes, filter);
    for name in ["output_of_ours", "output_of_peer"] {
        std::fs::remove_file(format!("{folder}/{name}")).expect("the outputs can be removed");
    }
}
