//! Iterators by scripts, by plain loops.

use super::characters::is_white;
use super::{allocating, kind, Kind};
use crate::asked::{Answer, Asked, Failed, Needs};
use crate::calls;
use std::collections::VecDeque;

pub static KINDS: &[Kind] = &[
    kind("pieces", |random, asked| {
        let (text, script) = (random.text(), random.script(4));
        ask_split(random.code_of(&text), &text, &script, asked);
    }),
    kind("pieces with starts", |random, asked| {
        let (text, script) = (random.text(), random.script(4));
        let (code, from) = (random.code_of(&text), random.offset(text.len()));
        ask_split_spans(from, code, &text, &script, asked);
    }),
    // The pieces at a character by a form that `ask_pieces` has.
    kind("pieces in other forms", |random, asked| {
        let (text, script) = (random.text(), random.script(4));
        let (code, form) = (random.code_of(&text), random.below(3) as u8);
        ask_pieces(form, code, &text, &script, asked);
    }),
    kind("pieces at a text", |random, asked| {
        let (text, script) = (random.text(), random.script(3));
        let needle = random.needle(&text);
        ask_pieces_at(&text, &needle, &script, asked);
    }),
    kind("numbers of pieces and lines", |random, asked| {
        let (text, script) = (random.text(), random.script(4));
        ask_counts(random.code_of(&text), &text, &script, asked);
    }),
    allocating("pieces and lines by lists of ends", |random, asked| {
        let (text, script) = (random.text(), random.script(2));
        ask_walks(random.code_of(&text), &text, &script, asked);
    }),
    kind("lines", |random, asked| ask_lines(&random.text(), &random.script(4), asked)),
    kind("lines with starts", |random, asked| {
        let (text, script) = (random.text(), random.script(4));
        ask_line_spans(random.offset(text.len()), &text, &script, asked);
    }),
    kind("characters by scripts", |random, asked| ask_chars(&random.text(), &random.script(4), asked)),
    kind("characters of a view", |random, asked| ask_chars_of_view(&random.text(), &random.script(4), asked)),
    kind("words", |random, asked| ask_words(&random.text(), &random.script(4), asked)),
    kind("chunks", |random, asked| ask_chunks(&random.bytes(), &random.script(4), asked)),
];

/// A piece, a line or a word: where it starts, its text, and that with what belongs to it.
#[derive(Clone, Copy, Debug)]
pub struct Item<'a> {
    pub start: usize,
    pub text: &'a [u8],
    pub whole: &'a [u8],
}

/// What remains of a text, with its start.
type Rest<'a> = Option<(usize, &'a [u8])>;

/// What a script yields: an item and what remains then, for each of its numbers.
pub type Walk<'a> = Vec<(Option<Item<'a>>, Rest<'a>)>;

impl<'a> Item<'a> {
    fn end(&self) -> usize {
        self.start + self.text.len()
    }

    /// The name of the ending of a line.
    pub fn ending(&self) -> &'static str {
        ["none", "lf", "crlf"][self.whole.len() - self.text.len()]
    }
}

/// Items that follow one another, each with what belongs to it, and with codes between them that belong to none.
fn in_turn<'a>(items: impl Iterator<Item = (&'a [u8], &'a [u8])>, between: usize) -> VecDeque<Item<'a>> {
    let mut next = 0;
    let item = |(text, whole): (_, &'a [u8])| {
        let start = next;
        next += whole.len() + between;
        Item { start, text, whole }
    };
    items.map(item).collect()
}

/// The pieces, each up to the next separator.
pub fn pieces(text: &[u8], on: u8) -> VecDeque<Item<'_>> {
    pieces_by(text, |byte| byte == on)
}

/// The pieces, each up to the next byte of a class.
pub fn pieces_by(text: &[u8], is_in: impl Fn(u8) -> bool) -> VecDeque<Item<'_>> {
    in_turn(text.split(|byte| is_in(*byte)).map(|piece| (piece, piece)), 1)
}

/// The lines, each with its LF or CR LF.
pub fn lines_of(text: &[u8]) -> VecDeque<Item<'_>> {
    let body = |line: &'_ [u8]| match line {
        [.., b'\r', b'\n'] => line.len() - 2,
        [.., b'\n'] => line.len() - 1,
        _ => line.len(),
    };
    in_turn(text.split_inclusive(|byte| *byte == b'\n').map(|line| (&line[..body(line)], line)), 0)
}

/// The words: the longest runs that are not in a class.
pub fn words_of(text: &[u8], is_in: impl Fn(u8) -> bool) -> VecDeque<Item<'_>> {
    let mut items = pieces_by(text, is_in);
    items.retain(|item| !item.text.is_empty());
    items
}

/// What a call of an iterator yields that has these items: `step` in `crates/exports/src/walks.rt` says which call.
pub fn take<T: Copy>(items: &mut VecDeque<T>, number: u8) -> Option<T> {
    match number {
        0 => items.pop_front(),
        1 => items.pop_back(),
        2 => {
            items.pop_front()?;
            items.pop_front()
        }
        _ => items.back().copied(),
    }
}

/// What a call of an iterator from the front yields: `step_forward` in `crates/exports/src/walks.rt` says which call.
pub fn take_forward<T: Copy>(items: &mut VecDeque<T>, number: u8) -> Option<T> {
    match number {
        0 => items.pop_front(),
        1 => take(items, 2),
        _ => items.front().copied(),
    }
}

/// What remains: where it starts, and its bytes. The items may be in reverse.
pub fn remainder<'a>(text: &'a [u8], items: &VecDeque<Item<'_>>) -> Rest<'a> {
    let (first, last) = (items.front()?, items.back()?);
    let start = first.start.min(last.start);
    Some((start, &text[start..(first.start + first.whole.len()).max(last.start + last.whole.len())]))
}

/// Items by a script, each with what remains.
pub fn walk<'a>(text: &'a [u8], mut items: VecDeque<Item<'a>>, script: &[u8]) -> Walk<'a> {
    script.iter().map(|number| (take(&mut items, *number), remainder(text, &items))).collect()
}

/// Words by a script, each with what remains after it or before it, if there are more words.
pub fn walk_words<'a>(text: &'a [u8], mut words: VecDeque<Item<'a>>, script: &[u8]) -> Walk<'a> {
    let (mut from, mut to) = (0, text.len());
    let taken = script.iter().map(|number| {
        let word = take(&mut words, *number);
        match (word, number) {
            (Some(word), 0 | 2) => from = word.end(),
            (Some(word), 1) => to = word.start,
            _ => (),
        }
        (word, (!words.is_empty()).then(|| (from, &text[from..to])))
    });
    taken.collect()
}

/// Items and what remains, all without their starts.
pub fn put_texts(walk: Walk<'_>, want: &mut Answer) {
    want.all(walk.iter().map(|(item, rest)| (item.map(|item| item.text), rest.map(|rest| rest.1))));
}

/// Items and what remains, all with their starts in a text that starts at `from`.
pub fn put_spans(from: usize, walk: Walk<'_>, want: &mut Answer) {
    let span = |(start, text): (usize, _)| (from + start, text);
    want.all(walk.iter().map(|(item, rest)| (item.map(|item| span((item.start, item.text))), rest.map(span))));
}

/// Lines with their endings and what remains, all with their starts in a text that starts at `from`.
pub fn put_lines(from: usize, walk: Walk<'_>, want: &mut Answer) {
    let ended = |line: Item<'_>| line.ending();
    for (line, rest) in walk {
        want.all(line.map(ended));
        put_spans(from, vec![(line, rest)], want);
    }
}

/// Items and what remains, each pair without and with its starts.
pub fn put_both(walk: Walk<'_>, want: &mut Answer) {
    for step in walk {
        put_texts(vec![step], want);
        put_spans(0, vec![step], want);
    }
}

pub fn ask_split(code: u8, text: &[u8], script: &[u8], asked: &mut Asked) {
    calls::ask_split(asked, code, text, script);
    put_texts(walk(text, pieces(text, code), script), &mut asked.want);
}

pub fn ask_pieces(form: u8, code: u8, text: &[u8], script: &[u8], asked: &mut Asked) {
    calls::ask_pieces(asked, form, code, text, script);
    let items = match form {
        0 => pieces(text, code).into_iter().rev().collect(),
        1 => terminated(text, code, 1),
        _ => terminated(text, code, 0),
    };
    put_both(walk(text, items, script), &mut asked.want);
}

/// The pieces that a character ends, each without the last `cut` of its codes if that is the character.
fn terminated(text: &[u8], code: u8, cut: usize) -> VecDeque<Item<'_>> {
    let pieces = text.split_inclusive(|byte| *byte == code).map(|piece| {
        let cut = if piece.last() == Some(&code) { cut } else { 0 };
        (&piece[..piece.len() - cut], piece)
    });
    in_turn(pieces, 0)
}

/// The pieces at a text, and where it occurs. An empty text occurs nowhere.
pub fn ask_pieces_at(text: &[u8], needle: &[u8], script: &[u8], asked: &mut Asked) {
    calls::ask_pieces_at(asked, text, needle, script);
    let found = as_str(text).match_indices(as_str(needle)).filter(|(_, found)| !found.is_empty());
    let starts: Vec<usize> = found.map(|(start, _)| start).collect();
    let item = |(start, end): (usize, usize)| Item { start, text: &text[start..end], whole: &text[start..end] };
    let mut found: VecDeque<Item<'_>> = starts.iter().map(|start| item((*start, start + needle.len()))).collect();
    let after = [0].into_iter().chain(starts.iter().map(|start| start + needle.len()));
    let mut pieces: VecDeque<Item<'_>> = after.zip(starts.iter().copied().chain([text.len()])).map(item).collect();
    let pieces = script.iter().map(|number| (take_forward(&mut pieces, *number), remainder(text, &pieces))).collect();
    put_both(pieces, &mut asked.want);
    let mut from = 0;
    for number in script {
        let all = found.clone();
        let item = take_forward(&mut found, *number);
        from = all.get((all.len() - found.len()).wrapping_sub(1)).map_or(from, Item::end);
        put_both(vec![(item, (!found.is_empty()).then(|| (from, &text[from..])))], &mut asked.want);
    }
}

/// What pieces and lines yield for a script of ends: without their starts, with them, and then the pieces again.
pub fn ask_walks(code: u8, text: &[u8], script: &[u8], asked: &mut Asked) {
    calls::ask_walks(asked, code, text, script);
    let yielded = |mut items: VecDeque<_>| -> Vec<Option<Item<'_>>> { script.iter().map(|end| take(&mut items, *end)).collect() };
    let (pieces, lines) = (yielded(pieces(text, code)), yielded(lines_of(text)));
    let texts = |items: &[Option<Item<'_>>], want: &mut Answer| want.all(items.iter().map(|it| it.map(|it| it.text.to_vec())));
    let want = &mut asked.want;
    let mut ends = vec![0];
    texts(&pieces, want);
    ends.push(want.bytes.len());
    want.all(pieces.iter().map(|piece| piece.map(|piece| (piece.start, piece.text))));
    ends.push(want.bytes.len());
    texts(&lines, want);
    ends.push(want.bytes.len());
    want.all(lines.iter().map(|line| line.map(|line| (line.ending(), line.start, line.text))));
    ends.push(want.bytes.len());
    texts(&pieces, want);
    // The script, and each of the lists.
    let some = Needs::memory_if(!script.is_empty());
    want.fails(some, 0, Failed);
    ends.windows(2).for_each(|ends| want.fails_in(some, ends[0]..ends[1], |want| want.put(Failed)));
}

/// After a script, how many pieces and how many lines remain, each with the last one.
pub fn ask_counts(code: u8, text: &[u8], script: &[u8], asked: &mut Asked) {
    calls::ask_counts(asked, code, text, script);
    for mut items in [pieces(text, code), lines_of(text)] {
        for number in script {
            take(&mut items, *number);
        }
        asked.want.put((items.len(), items.back().map(|item| item.text)));
    }
}

fn as_str(text: &[u8]) -> &str {
    std::str::from_utf8(text).expect("texts are ASCII")
}

pub fn ask_lines(text: &[u8], script: &[u8], asked: &mut Asked) {
    calls::ask_lines(asked, text, script);
    put_texts(walk(text, lines_of(text), script), &mut asked.want);
}

pub fn ask_split_spans(from: usize, code: u8, text: &[u8], script: &[u8], asked: &mut Asked) {
    calls::ask_split_spans(asked, from, code, text, script);
    put_spans(from, walk(text, pieces(text, code), script), &mut asked.want);
}

pub fn ask_line_spans(from: usize, text: &[u8], script: &[u8], asked: &mut Asked) {
    calls::ask_line_spans(asked, from, text, script);
    put_lines(from, walk(text, lines_of(text), script), &mut asked.want);
}

/// The codes by a script, each with what remains, and the length of that as many times as it is asked.
fn put_codes(text: &[u8], script: &[u8], lengths: usize, want: &mut Answer) {
    let mut codes: VecDeque<u8> = text.iter().copied().collect();
    for number in script {
        want.put((take(&mut codes, *number), codes.make_contiguous() as &[u8]));
        want.times(lengths, codes.len());
    }
}

pub fn ask_chars(text: &[u8], script: &[u8], asked: &mut Asked) {
    calls::ask_chars(asked, text, script);
    put_codes(text, script, 3, &mut asked.want);
}

pub fn ask_chars_of_view(text: &[u8], script: &[u8], asked: &mut Asked) {
    calls::ask_chars_of_view(asked, text, script);
    put_codes(text, script, 2, &mut asked.want);
}

pub fn ask_words(text: &[u8], script: &[u8], asked: &mut Asked) {
    calls::ask_words(asked, text, script);
    put_texts(walk_words(text, words_of(text, is_white), script), &mut asked.want);
}

/// The runs of ASCII bytes and of other bytes by a script, each with what remains.
pub fn ask_chunks(source: &[u8], script: &[u8], asked: &mut Asked) {
    calls::ask_chunks(asked, source, script);
    let chunks = source.chunk_by(|a, b| a.is_ascii() == b.is_ascii());
    for (chunk, rest) in walk(source, in_turn(chunks.map(|chunk| (chunk, chunk)), 0), script) {
        asked.want.all(chunk.map(|chunk| if chunk.text.is_ascii() { "ascii" } else { "other" }));
        put_spans(0, vec![(chunk, rest)], &mut asked.want);
    }
}
