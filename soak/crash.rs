//! What the library was asked when it crashed or did not return: a wrong body can read outside its text, which ends the
//! program, or go on for ever.

use std::cell::Cell;
use std::sync::atomic::{AtomicU64, Ordering};
use std::sync::{Arc, Mutex};
use std::thread;
use std::time::Duration;

/// What a thread asks, and how many questions it has begun.
struct Asking {
    name: Mutex<&'static str>,
    count: AtomicU64,
}

/// What each thread asks.
static THREADS: Mutex<Vec<Arc<Asking>>> = Mutex::new(Vec::new());

thread_local! {
    static ASKED: Cell<&'static str> = const { Cell::new("nothing") };
    static ASKING: Arc<Asking> = {
        let asking = Arc::new(Asking { name: Mutex::new("nothing"), count: AtomicU64::new(0) });
        THREADS.lock().expect("no panic").push(Arc::clone(&asking));
        asking
    };
}

/// Notes the row or the kind that this thread asks from now on.
pub fn note(name: &'static str) {
    ASKED.set(name);
    ASKING.with(|asking| *asking.name.lock().expect("no panic") = name);
}

/// Notes that a question begins.
pub fn begin() {
    ASKING.with(|asking| asking.count.fetch_add(1, Ordering::Relaxed));
}

/// For how many seconds a question may be asked.
const PATIENCE: u32 = 20;

/// Prints, if a thread waits too long for an answer, what was asked, and ends the program with status 1.
pub fn watch() {
    thread::spawn(|| {
        let mut waits: Vec<(u64, u32)> = Vec::new();
        loop {
            thread::sleep(Duration::from_secs(1));
            let threads = THREADS.lock().expect("no panic");
            waits.resize(threads.len(), (0, 0));
            for (asking, (last, seconds)) in threads.iter().zip(&mut waits) {
                let count = asking.count.load(Ordering::Relaxed);
                // A thread that has ended does not hold it.
                *seconds = if count == *last && Arc::strong_count(asking) > 1 { *seconds + 1 } else { 0 };
                *last = count;
                if *seconds == PATIENCE {
                    println!("the library does not return when it is asked: {}", asking.name.lock().expect("no panic"));
                    std::process::exit(1);
                }
            }
        }
    });
}

extern "C" {
    fn signal(number: i32, handler: extern "C" fn(i32)) -> usize;
    fn write(file: i32, bytes: *const u8, length: usize) -> isize;
    fn _exit(status: i32) -> !;
}

/// The signals of an illegal instruction, a bad address, a division by zero and a bad access, as Linux numbers them.
const CRASHES: [i32; 4] = [4, 7, 8, 11];

/// Prints, if the program crashes, what was asked, and ends it with status 1.
pub fn tell() {
    for number in CRASHES {
        unsafe { signal(number, end) };
    }
}

/// Calls only what a handler of a signal may.
extern "C" fn end(_: i32) {
    for text in ["the library crashed when it was asked: ", ASKED.get(), "\n"] {
        unsafe { write(1, text.as_ptr(), text.len()) };
    }
    unsafe { _exit(1) }
}
