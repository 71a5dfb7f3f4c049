//! The kernels, and texts that are changed, compared and hashed, by std.

use super::characters::is_white;
use super::edits::INLINE;
use super::slices::non_ascii;
use super::{allocating, kind, long, Kind};
use crate::asked::{Answer, Asked, Needs};
use crate::calls;
use crate::random::Random;
use std::cell::OnceCell;
use std::cmp::Ordering;
use std::hash::{DefaultHasher, Hash, Hasher};
use std::ptr::null_mut;

pub static KINDS: &[Kind] = &[
    kind("kernels", |random, asked| ask_kernels(&blanks(random), asked)),
    kind("kernels that change case", |random, asked| {
        let to_upper = random.below(2) == 0;
        ask_case_in_place(to_upper, &mut random.bytes(), asked);
    }),
    kind("kernels that compare", |random, asked| {
        let first = random.bytes();
        let second = random.other(&first);
        ask_equal_bytes(&first, &second, asked);
    }),
    // Every length up to 300, and every position in it.
    Kind { small: 301 * 302 / 2, ..long("kernels at the end of a page", 64, at_page_end) },
    kind("trimmed texts", trims),
    allocating("upper and lower case", |random, asked| ask_cases(&random.text(), asked)),
    kind("compared texts", |random, asked| {
        let (first, second) = pair(random);
        ask_comparisons(&first, &second, asked);
    }),
    allocating("compared strings", |random, asked| {
        let (first, second) = pair(random);
        ask_owned_comparisons(&first, &second, first.cmp(&second), asked);
    }),
    allocating("hashes", |random, asked| {
        let text = random.text();
        ask_hashes(&text, hash_of(&text), asked);
    }),
];

extern "C" {
    fn mmap(at: *mut u8, length: usize, protection: i32, flags: i32, file: i32, offset: i64) -> *mut u8;
    fn mprotect(at: *mut u8, length: usize, protection: i32) -> i32;
}

const PAGE: usize = 4096;

fn kernel_answers(source: &[u8], want: &mut Answer) {
    want.put((non_ascii(source), source.iter().position(|byte| !is_white(*byte))));
    want.put(source.iter().rposition(|byte| !is_white(*byte)));
}

/// Bytes, of which many are whitespace.
fn blanks(random: &mut Random) -> Vec<u8> {
    let mut source = random.bytes();
    if random.below(2) == 0 {
        let most = random.place(source.len());
        source.iter_mut().take(most).for_each(|byte| *byte = b' ');
    }
    source
}

pub fn ask_kernels(source: &[u8], asked: &mut Asked) {
    calls::ask_kernels(asked, source);
    kernel_answers(source, &mut asked.want);
}

pub fn ask_case_in_place(to_upper: bool, source: &mut [u8], asked: &mut Asked) {
    let want = if to_upper { source.to_ascii_uppercase() } else { source.to_ascii_lowercase() };
    calls::ask_case_in_place(asked, to_upper, source);
    asked.want.put(&want);
    asked.compare(source, &want);
}

pub fn ask_equal_bytes(first: &[u8], second: &[u8], asked: &mut Asked) {
    calls::ask_equal_bytes(asked, first, second);
    asked.want.put(first.eq_ignore_ascii_case(second));
}

/// The end of a page after which memory may not be read or written.
fn page_end() -> *mut u8 {
    thread_local!(static END: OnceCell<*mut u8> = const { OnceCell::new() });
    END.with(|end| {
        *end.get_or_init(|| {
            let both = unsafe { mmap(null_mut(), 2 * PAGE, 3, 0x22, -1, 0) };
            assert!(both as isize != -1, "two pages of memory");
            let end = unsafe { both.add(PAGE) };
            let status = unsafe { mprotect(end, PAGE, 0) };
            assert_eq!(status, 0, "a page that may not be read");
            end
        })
    })
}

/// Each kernel over bytes that end where the memory after them may not be read or written, of a length up to 300,
/// with a non-ASCII byte at a position or none.
pub fn at_page_end(random: &mut Random, asked: &mut Asked) {
    let length = if random.is_small() { random.below(301) } else { random.length() };
    let mut want: Vec<u8> = (0..length).map(|at| b" aZ{\n9"[at % 6]).collect();
    if let Some(byte) = want.get_mut(random.below(length + 1)) {
        *byte = 0xe1;
    }
    let bytes = unsafe { std::slice::from_raw_parts_mut(page_end().sub(length), length) };
    bytes.copy_from_slice(&want);
    calls::ask_kernels(asked, bytes);
    kernel_answers(&want, &mut asked.want);
    for class in 0..super::words::CLASSES.len() as u8 {
        calls::ask_class(asked, class, bytes, &[0, 1]);
        super::words::class_answers(class, &want, &[0, 1], &mut asked.want);
    }
    calls::ask_equal_bytes(asked, bytes, &want);
    asked.want.put(true);
    calls::ask_case_in_place(asked, true, bytes);
    want.make_ascii_uppercase();
    asked.want.put(&want);
    calls::ask_case_in_place(asked, false, bytes);
    want.make_ascii_lowercase();
    asked.want.put(&want);
}

pub fn trims(random: &mut Random, asked: &mut Asked) {
    let mut text = random.text();
    if random.below(2) == 0 {
        text.splice(0..0, vec![b' '; random.count(40)]);
        text.resize(text.len() + random.count(40), b'\t');
    }
    ask_trims(&super::string(text), asked);
}

pub fn ask_trims(text: &str, asked: &mut Asked) {
    calls::ask_trims(asked, text.as_bytes());
    let white = |c: char| is_white(c as u8);
    asked.want.put((text.trim_matches(white), text.trim_start_matches(white), text.trim_end_matches(white)));
}

pub fn ask_cases(text: &[u8], asked: &mut Asked) {
    calls::ask_cases(asked, text);
    let (upper, lower) = (text.to_ascii_uppercase(), text.to_ascii_lowercase());
    asked.want.copy(&upper);
    asked.want.copy(&lower);
    asked.want.allocated(Needs::memory_if(!text.is_empty()), (&upper, &lower));
}

/// Two texts, of which the second is often like the first.
pub fn pair(random: &mut Random) -> (Vec<u8>, Vec<u8>) {
    let first = random.text();
    let second = random.other(&first);
    (first, second)
}

pub fn ask_comparisons(first: &[u8], second: &[u8], asked: &mut Asked) {
    calls::ask_comparisons(asked, first, second);
    let (low, lower) = (first.to_ascii_lowercase(), second.to_ascii_lowercase());
    asked.want.times(3, first == second);
    asked.want.times(2, low == lower);
    asked.want.put((first.cmp(second), low.cmp(&lower), true, low < lower));
}

pub fn ask_owned_comparisons(first: &[u8], second: &[u8], order: Ordering, asked: &mut Asked) {
    calls::ask_owned_comparisons(asked, first, second);
    let longest = first.len().max(second.len());
    // A shared text is in an allocation also if it is empty. Of the borrowed and the owned text the second is owned.
    for makes in [longest > 0, longest > INLINE, longest > 0, true, !second.is_empty()] {
        asked.want.allocated(Needs::memory_if(makes), (order == Ordering::Equal, order, true));
    }
}

fn hash_of(value: impl Hash) -> usize {
    let mut hasher = DefaultHasher::new();
    value.hash(&mut hasher);
    hasher.finish() as usize
}

/// A view and each type of owned text is hashed as its list of codes, a folded view as that list in lower case, and a
/// character as its code.
pub fn ask_hashes(text: &[u8], hash: usize, asked: &mut Asked) {
    calls::ask_hashes(asked, text);
    asked.want.put((hash, hash_of(text.to_ascii_lowercase())));
    let (is_some, is_long) = (Needs::memory_if(!text.is_empty()), Needs::memory_if(text.len() > INLINE));
    // A string, an inline one, a box, a shared text, a borrowed and an owned text.
    for needs in [is_some, is_long, is_some, Needs::Memory, Needs::Nothing, is_some] {
        asked.want.allocated(needs, hash);
    }
    // The array.
    (0..usize::from(text.len() <= 32)).for_each(|_| asked.want.put(hash));
    text.first().iter().for_each(|code| asked.want.put(hash_of(code)));
}
