//! Compares the answers of crates/exports, which is linked into this program, with those of std, of
//! plain loops, and, if it was compiled with `--cfg upstream`, of the upstream crate `ascii` 1.1.0.
//!
//!     soak SECONDS SEED THREADS [planted]
//!     soak row NAME [planted]
//!
//! It first asks the rows: calls whose answers are known from a table, from std or from a plain loop. Then it asks
//! small cases of each kind of question: all of them up to the length at which there are not too many, and the first
//! ones of longer texts. Then it asks at random for that time; the seed decides those questions. Many of the questions
//! whose calls allocate are asked again with each of their allocations failing in turn.
//! With `row` it asks the row of that name alone. With `planted` it asks each row and each kind while the library is
//! passed wrong arguments, until an answer differs; and each kind that allocates while the library gets the memory that
//! it is not to have. `bin/soak` says what is printed. The status is 1 if an answer differs, if this program panics or
//! crashes, or if a planted answer is not seen, and 2 for bad arguments.

/// Declares modules, and `all`, which goes through the list that each of them has, and then through others.
macro_rules! lists {
    ($(#[$about:meta])* $list:ident: $of:ty $(, $other:expr)*; $($name:ident)*) => {
        $(pub mod $name;)*

        $(#[$about])*
        pub fn all() -> impl Iterator<Item = &'static $of> {
            [$($name::$list,)* $($other),*].into_iter().flatten()
        }
    };
}

mod asked;
mod calls;
mod crash;
mod failing;
mod heap;
mod kinds;
mod line_model;
mod random;
mod rows;

use asked::Asked;
use kinds::{Allocates, Ask, Kind};
use random::Random;
use std::any::Any;
use std::collections::HashSet;
use std::ffi::{c_char, CStr};
use std::panic::{catch_unwind, AssertUnwindSafe};
use std::process::ExitCode;
use std::sync::atomic::{AtomicU64, Ordering};
use std::time::{Duration, Instant};

/// Questions of each kind between two looks at the clock.
const TURNS: u32 = 64;

/// A small case is asked with failing allocations if it allocates in sizes that were not seen before; and once in this
/// number of questions also if it does not.
const FAILING: u64 = 8;

/// Differences that are printed whole.
const SHOWN: u64 = 20;

/// The most questions of a kind with a wrong argument.
const PLANTED: u64 = 20_000;

/// How many answers differ.
static DIFFER: AtomicU64 = AtomicU64::new(0);

/// The kinds that are asked.
fn kinds() -> impl Iterator<Item = (usize, &'static Kind, Ask)> {
    kinds::all().enumerate().filter_map(|(at, kind)| kind.ask.map(|ask| (at, kind, ask)))
}

/// Counts a difference, and prints the first ones.
fn differ(what: &str) {
    if DIFFER.fetch_add(1, Ordering::Relaxed) < SHOWN {
        println!("{what}");
    }
}

/// Asks a question of a kind, and returns whether the answer differs. A panic is a difference: its text is returned.
fn asks(ask: Ask, random: &mut Random, asked: &mut Asked) -> Result<bool, String> {
    asked.clear();
    let outcome = catch_unwind(AssertUnwindSafe(|| ask(random, asked)));
    outcome.map(|()| asked.differs()).map_err(|panic| panic_text(&*panic))
}

/// The text of a panic.
fn panic_text(panic: &(dyn Any + Send)) -> String {
    let text = panic.downcast_ref::<String>().map(String::as_str);
    text.or_else(|| panic.downcast_ref::<&str>().copied()).unwrap_or("").into()
}

/// Asks a question of a kind. If its answer differs, asks it again to show it.
fn ask(kind: &Kind, ask: Ask, random: &mut Random, asked: &mut Asked) {
    let mark = random.mark();
    crash::note(kind.name);
    heap::begin();
    match asks(ask, random, asked) {
        Ok(false) => return,
        outcome if DIFFER.load(Ordering::Relaxed) < SHOWN => {
            asked.calls = Some(Vec::new());
            random.back(mark);
            let _ = asks(ask, random, asked);
            let panic = outcome.err().map(|text| format!("\n  the driver panicked: {text}")).unwrap_or_default();
            differ(&format!("{}: {}{panic}", kind.name, asked.report()));
            asked.calls = None;
        }
        _ => differ(""),
    }
}

/// Asks the last question of a kind again, with each of its allocations failing in turn. Returns the number of these
/// questions, or when an answer differs.
fn ask_failing(make: Ask, mark: u64, random: &mut Random, asked: &mut Asked) -> Result<u64, String> {
    let question = |asked: &mut Asked| {
        random.back(mark);
        make(random, asked);
    };
    match catch_unwind(AssertUnwindSafe(|| failing::each(asked, heap::ONE, question))) {
        Ok(outcome) => outcome.map_err(|number| format!("with the allocation {number} failing")),
        Err(panic) => Err(format!("the driver panicked: {}", panic_text(&*panic))),
    }
}

/// If the last question of a kind has allocated, asks it again with each of its allocations failing in turn. Returns
/// how many questions these are.
fn ask_each_allocation(kind: &Kind, make: Ask, mark: u64, random: &mut Random, asked: &mut Asked) -> u64 {
    match kind.allocates {
        _ if heap::count() == 0 => return 0,
        Allocates::Undeclared => return 0,
        Allocates::Never => {
            differ(&format!("{}: a call allocates", kind.name));
            return 0;
        }
        Allocates::Declared => (),
    }
    match ask_failing(make, mark, random, asked) {
        Ok(count) => count,
        Err(when) if DIFFER.load(Ordering::Relaxed) < SHOWN => {
            asked.calls = Some(Vec::new());
            let _ = ask_failing(make, mark, random, asked);
            differ(&format!("{}: {when}: {}", kind.name, asked.report()));
            asked.calls = None;
            0
        }
        Err(_) => {
            differ("");
            0
        }
    }
}

/// The first small cases of a kind with texts up to 6, 5 .. codes, until all of a length were asked. Returns how many.
fn small_cases(kind: &Kind, make: Ask, asked: &mut Asked) -> u64 {
    let (mut count, mut sizes) = (0, HashSet::new());
    for longest in (0..=6).rev() {
        let mut random = Random::small(longest);
        for _ in 0..kind.small {
            let mark = random.mark();
            ask(kind, make, &mut random, asked);
            count += 1;
            if sizes.insert((heap::count(), heap::sizes())) || count % FAILING == 0 {
                count += ask_each_allocation(kind, make, mark, &mut random, asked);
            }
            if !random.advance() {
                return count;
            }
        }
    }
    count
}

/// The small cases of the kinds that are a thread's.
fn small_share(share: usize, threads: usize) -> Vec<u64> {
    let (mut asked, mut counts) = (Asked::new(), vec![0; kinds::all().count()]);
    for (at, kind, make) in kinds().skip(share).step_by(threads) {
        counts[at] = small_cases(kind, make, &mut asked);
    }
    counts
}

/// Questions at random until the time is over.
fn random_share(seed: u64, time: Duration) -> Vec<u64> {
    let (mut asked, mut counts) = (Asked::new(), vec![0; kinds::all().count()]);
    let (begin, mut random) = (Instant::now(), Random::new(seed));
    while begin.elapsed() < time {
        for (at, kind, make) in kinds() {
            let turns = TURNS / kind.turns + u32::from(random.below(kind.turns as usize) < (TURNS % kind.turns) as usize);
            for turn in 0..turns {
                let mark = random.mark();
                ask(kind, make, &mut random, &mut asked);
                if turn == 0 {
                    counts[at] += ask_each_allocation(kind, make, mark, &mut random, &mut asked);
                }
            }
            counts[at] += u64::from(turns);
        }
    }
    counts
}

/// The rows that are a thread's: the number of the questions of each.
fn row_share(share: usize, threads: usize) -> Vec<u64> {
    let mut counts = vec![0; rows::all().count()];
    for (at, row) in rows::all().enumerate().skip(share).step_by(threads) {
        let (count, differ) = rows::run(row, false);
        counts[at] = count;
        DIFFER.fetch_add(differ, Ordering::Relaxed);
    }
    counts
}

/// Asks the row of a name alone, and returns whether all is as expected, or `None` if there is no such row.
fn one_row(name: &str, is_planted: bool) -> Option<bool> {
    let row = rows::all().find(|row| row.0 == name)?;
    let (count, differ) = rows::run(row, is_planted);
    println!("{count} answers of the row {name}: {differ} differ");
    Some((differ > 0) == is_planted)
}

/// How many answers of a row differ, for a program that `tools/mutants` links with this one; the largest number if there
/// is no row of that name.
#[no_mangle]
pub extern "C" fn soak_row(name: *const c_char) -> u64 {
    let name = unsafe { CStr::from_ptr(name) };
    let row = rows::all().find(|row| row.0.as_bytes() == name.to_bytes());
    row.map_or(u64::MAX, |row| rows::run(row, false).1)
}

/// Runs a share on each thread, and adds up what they count.
fn on_threads(threads: usize, length: usize, share: impl Fn(usize) -> Vec<u64> + Sync) -> Vec<u64> {
    let mut all = vec![0; length];
    std::thread::scope(|scope| {
        let share = &share;
        let running: Vec<_> = (0..threads).map(|number| scope.spawn(move || share(number))).collect();
        for thread in running {
            let counts = thread.join().unwrap_or_else(|_| {
                differ("a thread of the driver panicked");
                Vec::new()
            });
            all.iter_mut().zip(counts).for_each(|(sum, count)| *sum += count);
        }
    });
    all
}

/// Asks each row and each kind with wrong arguments, and returns whether each has seen one.
fn planted(seed: u64) -> bool {
    let (mut seen, mut all) = (0, 0);
    let mut tell = |number: Option<u64>, what: &str| {
        match number {
            Some(number) => println!("{number:>10} questions until a wrong answer is seen: {what}"),
            None => println!("{:>10} wrong answer is seen: {what}", "no"),
        }
        seen += u32::from(number.is_some());
        all += 1;
    };
    for row in rows::all() {
        let (count, differ) = rows::run(row, true);
        tell((differ > 0).then_some(count), &format!("row {}", row.0));
    }
    let mut asked = Asked::new();
    asked.is_planted = true;
    for (_, kind, make) in kinds() {
        let mut random = Random::new(seed);
        tell((1..=PLANTED).find(|_| asks(make, &mut random, &mut asked) != Ok(false)), kind.name);
    }
    asked.is_planted = false;
    heap::plant(true);
    for (_, kind, make) in kinds().filter(|(_, kind, _)| kind.allocates == Allocates::Declared) {
        let mut random = Random::new(seed);
        let mut differs = |_: &u64| {
            let mark = random.mark();
            ask_failing(make, mark, &mut random, &mut asked).is_err()
        };
        tell((1..=PLANTED).find(|number| differs(number)), &format!("{}, an allocation failing", kind.name));
    }
    heap::plant(false);
    println!("{seen} of {all} planted answers seen");
    seen == all
}

/// Prints the number of questions of each row and each kind.
fn print_counts(rows: &[u64], small: &[u64], random: &[u64]) {
    for (count, (name, _)) in rows.iter().zip(rows::all()) {
        println!("{count:>10} of the row {name}");
    }
    for (at, kind, _) in kinds() {
        println!("{:>10} small {:>12} at random: {}", small[at], random[at], kind.name);
    }
}

/// Prints how many kinds have no question.
fn print_left_out() {
    let left_out = kinds::all().count() - kinds().count();
    if left_out > 0 {
        println!("{left_out} kinds left out for want of the upstream crate");
    }
}

fn main() -> ExitCode {
    let words: Vec<String> = std::env::args().skip(1).collect();
    // A position outside the text makes the upstream crate panic, which is an answer here.
    std::panic::set_hook(Box::new(|_| ()));
    crash::tell();
    crash::watch();
    if words.first().is_some_and(|word| word == "row") && words.len() > 1 {
        return match one_row(&words[1], words.len() > 2) {
            Some(as_expected) => ExitCode::from(u8::from(!as_expected)),
            None => {
                eprintln!("there is no row {}", words[1]);
                ExitCode::from(2)
            }
        };
    }
    let numbers: Vec<u64> = words.iter().filter_map(|word| word.parse().ok()).collect();
    let (&[seconds, seed, threads], is_planted) = (&numbers[..], words.len() == 4 && words[3] == "planted") else {
        eprintln!("usage: soak SECONDS SEED THREADS [planted]\n       soak row NAME [planted]");
        return ExitCode::from(2);
    };
    if is_planted {
        let all_seen = planted(seed);
        print_left_out();
        return ExitCode::from(u8::from(!all_seen));
    }
    let (threads, time) = (threads.max(1) as usize, Duration::from_secs(seconds));
    let rows = on_threads(threads, rows::all().count(), |share| row_share(share, threads));
    let begin = Instant::now();
    let small = on_threads(threads, kinds::all().count(), |share| small_share(share, threads));
    let random = on_threads(threads, kinds::all().count(), |share| random_share(seed.wrapping_add(share as u64), time));
    let took = begin.elapsed().as_secs_f64();
    // The differences are to be the last lines but a few.
    if DIFFER.load(Ordering::Relaxed) == 0 {
        print_counts(&rows, &small, &random);
    }
    println!("{} answers of {} rows", rows.iter().sum::<u64>(), rows.len());
    let all: u64 = small.iter().chain(&random).sum();
    println!("{:.1} million answers a second on {threads} threads", all as f64 / took / 1e6);
    let differ = DIFFER.load(Ordering::Relaxed);
    println!("{all} answers of {} kinds, seed {seed}: {differ} differ", kinds().count());
    print_left_out();
    ExitCode::from(u8::from(differ > 0))
}
