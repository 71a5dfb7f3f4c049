//! The calls of crates/exports. A slice is passed as a pointer and a length, and each call writes
//! its answer into a buffer.

use crate::asked::{passed, passed_mut, Asked, Shown};

/// A step of a call that is asked for several. `crates/exports/src/steps.rt` says what it holds.
#[repr(C)]
#[derive(Clone, Copy, Debug, Default)]
pub struct Step {
    pub kind: u8,
    pub code: u8,
    pub at: usize,
    pub start: usize,
    pub end: usize,
}

/// Steps, and the texts that they take.
#[derive(Default)]
pub struct Steps {
    pub texts: Vec<u8>,
    pub steps: Vec<Step>,
}

impl Steps {
    /// Steps of some kinds, at positions, with texts.
    pub fn of<'a>(all: impl IntoIterator<Item = (u8, usize, &'a str)>) -> Steps {
        let mut steps = Steps::default();
        all.into_iter().for_each(|(kind, at, text)| steps.add_text(kind, at, text.as_bytes()));
        steps
    }

    /// Adds a step that takes a text.
    pub fn add_text(&mut self, kind: u8, at: usize, text: &[u8]) {
        let start = self.texts.len();
        self.texts.extend(text);
        self.steps.push(Step { kind, at, start, end: self.texts.len(), ..Step::default() });
    }

    pub fn add(&mut self, kind: u8, at: usize, code: u8) {
        self.steps.push(Step { kind, at, code, ..Step::default() });
    }

    /// Adds a copy of the characters before a position.
    pub fn copy_to(&mut self, end: usize) {
        self.steps.push(Step { kind: 17, code: 2, end, ..Step::default() });
    }
}

/// How a reader or a writer behaves: the most bytes that a call moves, the call that fails, the call that moves no
/// byte, and the number of the error.
#[repr(C)]
#[derive(Clone, Copy, Debug)]
pub struct Device {
    pub most: usize,
    pub fails: u64,
    pub empty: u64,
    pub error: u8,
}

/// A device that moves all that fits, and does not fail.
pub const WHOLE: Device = Device { most: usize::MAX, fails: u64::MAX, empty: u64::MAX, error: INTERRUPTED };

/// The number of the error that a device is most likely to pass over.
const INTERRUPTED: u8 = 35;

/// How many kinds of error a device can name.
pub const ERRORS: u8 = 41;

/// Declares calls, each as a function that asks a question.
macro_rules! calls {
    () => {};
    (fn $name:ident($($given:tt)*); $($others:tt)*) => {
        calls! { @one $name [] [] [] [] [] $($given)*, }
        calls! { $($others)* }
    };
    (@one $name:ident [$($parameter:tt)*] [$($foreign:tt)*] [$($before:tt)*] [$($argument:tt)*] [$($shown:ident)*]
        $given:ident: &mut [u8], $($rest:tt)*) => {
        calls! { @one $name
            [$($parameter)* $given: &mut [u8],]
            [$($foreign)* $given: *mut u8, _: usize,]
            [$($before)* ($given = passed_mut)]
            [$($argument)* $given.as_mut_ptr(), $given.len(),]
            [$($shown)* $given]
            $($rest)* }
    };
    (@one $name:ident [$($parameter:tt)*] [$($foreign:tt)*] [$($before:tt)*] [$($argument:tt)*] [$($shown:ident)*]
        $given:ident: &[$item:ty], $($rest:tt)*) => {
        calls! { @one $name
            [$($parameter)* $given: &[$item],]
            [$($foreign)* $given: *const $item, _: usize,]
            [$($before)* ($given = passed)]
            [$($argument)* $given.as_ptr(), $given.len(),]
            [$($shown)* $given]
            $($rest)* }
    };
    (@one $name:ident [$($parameter:tt)*] [$($foreign:tt)*] [$($before:tt)*] [$($argument:tt)*] [$($shown:ident)*]
        $given:ident: $kind:ty, $($rest:tt)*) => {
        calls! { @one $name
            [$($parameter)* $given: $kind,]
            [$($foreign)* $given: $kind,]
            [$($before)*]
            [$($argument)* $given,]
            [$($shown)* $given]
            $($rest)* }
    };
    (@one $name:ident [$($parameter:tt)*] [$($foreign:tt)*] [$(($passed:ident = $pass:ident))*] [$($argument:tt)*]
        [$($shown:ident)*]) => {
        pub fn $name(asked: &mut Asked, $($parameter)*) {
            extern "C" {
                fn $name($($foreign)* room: *mut u8, size: usize) -> usize;
            }
            if let Some(calls) = &mut asked.calls {
                let arguments: &[String] = &[$($shown.shown()),*];
                calls.push(format!("{}({})", stringify!($name), arguments.join(", ")));
            }
            let is_planted = asked.is_planted;
            $(let $passed = $pass($passed, is_planted);)*
            let (room, size) = asked.room();
            let length = unsafe { $name($($argument)* room, size) };
            asked.take(length);
        }
    };
}

calls! {
    fn ask_characters_of(numbers: &[i64]);
    fn ask_characters(codes: &[u8], radix: u32);
    fn ask_character_pairs(codes: &[u8]);
    fn ask_carets(codes: &[u8]);
    fn ask_character_conversions(codes: &[u8]);
    fn ask_character_set(codes: &[u8]);
    fn ask_slices(form: u8, start: usize, end: usize, source: &[u8]);
    fn ask_slice_mut(form: u8, start: usize, end: usize, code: u8, source: &mut [u8]);
    fn ask_views(source: &[u8]);
    fn ask_view_mut(source: &mut [u8]);
    fn ask_unchecked_views(source: &[u8]);
    fn ask_unchecked_view_mut(source: &mut [u8]);
    fn ask_equal_sources(source: &[u8], other: &[u8]);
    fn ask_ranges(steps: &[Step]);
    fn ask_position(at: usize, source: &[u8]);
    fn ask_kernels(source: &[u8]);
    fn ask_case_in_place(to_upper: bool, source: &mut [u8]);
    fn ask_equal_bytes(first: &[u8], second: &[u8]);
    fn ask_trims(source: &[u8]);
    fn ask_cases(source: &[u8]);
    fn ask_comparisons(first: &[u8], second: &[u8]);
    fn ask_owned_comparisons(first: &[u8], second: &[u8]);
    fn ask_hashes(source: &[u8]);
    fn ask_find(source: &[u8], needle: &[u8]);
    fn ask_find_character(code: u8, source: &[u8]);
    fn ask_finder(source: &[u8], needle: &[u8], script: &[u8]);
    fn ask_splitn(n: usize, code: u8, source: &[u8], script: &[u8]);
    fn ask_replace(source: &[u8], needle: &[u8], to: &[u8]);
    fn ask_split(code: u8, source: &[u8], script: &[u8]);
    fn ask_split_spans(from: usize, code: u8, source: &[u8], script: &[u8]);
    fn ask_lines(source: &[u8], script: &[u8]);
    fn ask_line_spans(from: usize, source: &[u8], script: &[u8]);
    fn ask_chars(source: &[u8], script: &[u8]);
    fn ask_chars_of_view(source: &[u8], script: &[u8]);
    fn ask_words(source: &[u8], script: &[u8]);
    fn ask_pieces(form: u8, code: u8, source: &[u8], script: &[u8]);
    fn ask_pieces_at(source: &[u8], needle: &[u8], script: &[u8]);
    fn ask_counts(code: u8, source: &[u8], script: &[u8]);
    fn ask_clones(code: u8, at: usize, source: &[u8], script: &[u8]);
    fn ask_walks(code: u8, source: &[u8], script: &[u8]);
    fn ask_chunks(source: &[u8], script: &[u8]);
    fn ask_class(class: u8, source: &[u8], script: &[u8]);
    fn ask_marks(source: &[u8]);
    fn ask_numbers(source: &[u8]);
    fn ask_numbers_of_radix(radix: u32, source: &[u8]);
    fn ask_decimals(high: u64, low: u64, source: &[u8]);
    fn ask_decimal(source: &[u8]);
    fn ask_decimals_written(steps: &[Step]);
    fn ask_hex(n: u64, width: usize, source: &[u8]);
    fn ask_retain(code: u8, source: &[u8]);
    fn ask_conversions(source: &[u8]);
    fn ask_round_trips(source: &[u8]);
    fn ask_written(source: &[u8], piece: &[u8]);
    fn ask_character_written(number: u32, source: &[u8]);
    fn ask_collected(code: u8, source: &[u8], first: &[u8]);
    fn ask_split_off(at: usize, source: &[u8]);
    fn ask_copies(source: &[u8]);
    fn ask_turned(source: &[u8]);
    fn ask_extended(capacity: usize, source: &[u8]);
    fn ask_growths(form: u8, source: &[u8]);
    fn ask_formatted(source: &[u8], first: &[u8], second: &[u8]);
    fn ask_both_runs(source: &[u8], texts: &[u8], steps: &[Step]);
    fn ask_printed(form: u8, source: &[u8]);
    fn ask_printed_characters(form: u8, codes: &[u8]);
    fn ask_json(source: &[u8]);
    fn ask_json_value(source: &[u8]);
    fn ask_json_characters(codes: &[u8]);
    fn ask_notation(form: u8, source: &[u8], script: &[u8]);
    fn ask_unescaped(source: &[u8]);
    fn ask_quoted(quote: u8, escape: u8, source: &[u8]);
    fn ask_requoted(quote: u8, escape: u8, source: &[u8], piece: &[u8]);
    fn ask_joined(code: u8, source: &[u8], separator: &[u8]);
    fn ask_repeated(times: usize, source: &[u8]);
    fn ask_padded(form: u8, code: u8, width: usize, source: &[u8], piece: &[u8]);
    fn ask_range_edits(form: u8, start: usize, end: usize, source: &[u8], piece: &[u8]);
    fn ask_parts(source: &[u8], texts: &[u8], steps: &[Step]);
    fn ask_place(at: usize, source: &[u8]);
    fn ask_maps(texts: &[u8], steps: &[Step]);
    fn ask_std_maps(source: &[u8], texts: &[u8], steps: &[Step]);
    fn ask_edits(is_small: bool, source: &[u8], texts: &[u8], steps: &[Step]);
    fn ask_capacities(capacity: usize, texts: &[u8], steps: &[Step]);
    fn ask_small_capacities(source: &[u8], texts: &[u8], steps: &[Step]);
    fn ask_reader(source: &[u8], size: usize, device: &Device, steps: &[Step]);
    fn ask_collected_lines(source: &[u8], size: usize, device: &Device);
    fn ask_folded_lines(source: &[u8], size: usize, device: &Device);
    fn ask_block(source: &[u8], size: usize, device: &Device, most: usize);
    fn ask_writer(texts: &[u8], size: usize, device: &Device, steps: &[Step]);
    fn ask_conversation(source: &[u8], size: usize, reads: &Device, writes: &Device);
    fn ask_engine(mode: u8, script: &[u8], source: &[u8], reads: &Device, writes: &Device);
    fn ask_bounded_engine(mode: u8, source: &[u8], reads: &Device, writes: &Device);
    fn ask_engine_runs(
        mode: u8,
        script: &[u8],
        texts: &[u8],
        edits: &[Step],
        source: &[u8],
        reads: &Device,
        writes: &Device
    );
    fn ask_mode_names(word: &[u8]);
    fn ask_device_calls(
        tells_errors: bool,
        source: &[u8],
        texts: &[u8],
        steps: &[Step],
        reads: &[Step],
        writes: &[Step]
    );
    fn ask_buffered(size: usize, texts: &[u8], steps: &[Step], plan: &[Step]);
    fn ask_served(endings: u8, size: usize, source: &[u8], reads: &Device, writes: &Device);
    fn ask_fed(endings: u8, size: usize, source: &[u8], lengths: &[u8], fails: u8);
    fn ask_sent(size: usize, source: &[u8], steps: &[u8]);
    fn ask_greeted(size: usize, greeting: &[u8], source: &[u8], reads: &Device, writes: &Device);
    fn ask_header(source: &[u8]);
    fn ask_headers(name: &[u8], block: &[u8]);
    fn ask_media_type(name: &[u8], source: &[u8]);
    fn ask_hosts(first: &[u8], second: &[u8]);
    fn ask_setting(source: &[u8]);
    fn ask_settings(source: &[u8]);
    fn ask_field(text: &[u8], line: &[u8]);
    fn ask_row(columns: usize, source: &[u8]);
    fn ask_screen(width: usize, source: &[u8]);
    fn ask_identifier(source: &[u8]);
    fn ask_lossy(source: &[u8]);
    fn ask_last_lines(n: usize, source: &[u8]);
}
