//! Every small text: its pieces, lines, words and runs by scripts of ends, in which 0 is the front and 1 the back.

use super::{Row, Rows};
use crate::asked::Asked;
use crate::calls;
use crate::kinds::walks::{
    ask_line_spans, ask_lines, ask_pieces, ask_pieces_at, ask_split, ask_split_spans, ask_walks, ask_words, lines_of, pieces,
    put_lines, put_spans, put_texts, remainder, take, walk, Item,
};
use crate::kinds::words::ask_class;
use std::collections::VecDeque;

pub static ROWS: &[Row] = &[
    ("pieces_of_every_small_text_by_every_script", pieces_by_scripts),
    ("lines_of_every_small_text_by_every_script", |rows| {
        let scripts = scripts();
        for text in texts_of(b"\r\na", 6) {
            for script in &scripts {
                rows.ask(|asked| ask_lines(&text, script, asked));
                rows.ask(|asked| ask_line_spans(0, &text, script, asked));
            }
        }
    }),
    ("a_clone_goes_on_as_the_iterator_does", clones),
    ("pieces_of_a_remainder", pieces_of_a_remainder),
    ("lines_of_a_remainder", lines_of_a_remainder),
    ("pieces_of_every_small_text_in_each_form", |rows| {
        for text in texts_of(b" \x0ba,", 5) {
            for (form, script) in (0..3).flat_map(|form| SCRIPTS.map(|script| (form, script))) {
                rows.ask(|asked| ask_pieces(form, b',', &text, &script, asked));
            }
        }
    }),
    ("pieces_of_every_small_text_at_a_text", |rows| {
        for text in texts_of(b" \x0ba,", 5) {
            rows.each(["a", "aa", ",a", " ,"], |needle, asked| ask_pieces_at(&text, needle.as_bytes(), &[0; 7], asked));
        }
    }),
    ("words_and_trims_of_every_small_text", |rows| {
        for text in texts_of(b" \x0ba,", 5) {
            rows.each(SCRIPTS, |script, asked| ask_words_of(&text, &script, asked));
        }
    }),
    ("words_of_longer_texts", |rows| {
        for length in [63, 64, 65, 130] {
            let text: Vec<u8> = (0..length).map(|at| b"ab c,,d  ef,g h"[at % 15]).collect();
            rows.each([0, 1], |end, asked| ask_words_of(&text, &vec![end; 132], asked));
        }
    }),
];

/// Every text of these codes up to a length.
pub fn texts_of(codes: &[u8], longest: usize) -> Vec<Vec<u8>> {
    let mut all = vec![Vec::new()];
    let mut from = 0;
    for _ in 0..longest {
        let shorter = all[from..].to_vec();
        from = all.len();
        all.extend(shorter.iter().flat_map(|text| codes.iter().map(move |code| [text.as_slice(), &[*code]].concat())));
    }
    all
}

/// Every script of eight ends.
pub fn scripts() -> Vec<Vec<u8>> {
    (0..256).map(|bits| (0..8).map(|at| (bits >> at & 1) as u8).collect()).collect()
}

fn pieces_by_scripts(rows: &mut Rows) {
    let scripts = scripts();
    for text in texts_of(b"\r\na", 6) {
        for script in &scripts {
            rows.ask(|asked| ask_split(b'a', &text, script, asked));
            rows.ask(|asked| ask_split_spans(0, b'a', &text, script, asked));
            rows.ask(|asked| ask_walks(b'a', &text, script, asked));
        }
    }
}

/// Each script with each number of steps after which a walk stops.
fn stops(scripts: &[Vec<u8>]) -> impl Iterator<Item = (&[u8], &[u8])> {
    scripts.iter().flat_map(|script| (0..=script.len()).map(|stop| script.split_at(stop)))
}

/// The items that remain after a script.
fn after<'a>(mut items: VecDeque<Item<'a>>, script: &[u8]) -> VecDeque<Item<'a>> {
    for end in script {
        take(&mut items, *end);
    }
    items
}

/// After each number of steps the clone and the iterator yield the same.
fn clones(rows: &mut Rows) {
    let scripts = scripts();
    for text in ["", "\n", "a\r\nb\n\nc\r", " foo  bar baz ", "\r\r\n,a,"].map(str::as_bytes) {
        for (before, script) in stops(&scripts) {
            let (at, script) = (before.len(), &[before, script].concat());
            rows.each([b' ', b'a'], |code, asked| {
                calls::ask_clones(asked, code, at, text, script);
                let want = &mut asked.want;
                (0..4).for_each(|_| want.all(taken(text.iter().copied().collect(), script, at)));
                (0..2).for_each(|_| want.all(taken(lines_of(text), script, at).map(|it| it.map(|line| line.text))));
                let ended = |line: Item<'_>| (line.ending(), line.start, line.text.to_vec());
                (0..2).for_each(|_| want.all(taken(lines_of(text), script, at).map(|it| it.map(ended))));
                (0..2).for_each(|_| want.all(taken(pieces(text, code), script, at).map(|it| it.map(|piece| piece.text))));
                (0..2).for_each(|_| want.all(taken(pieces(text, code), script, at).map(|it| it.map(|it| (it.start, it.text)))));
            });
        }
    }
}

/// What a script yields from a position on.
fn taken<'a, T: Copy + 'a>(mut items: VecDeque<T>, script: &'a [u8], at: usize) -> impl Iterator<Item = Option<T>> + 'a {
    script.iter().map(move |end| take(&mut items, *end)).skip(at)
}

/// The pieces of what remains after each number of steps are the other pieces of an unbroken walk.
fn pieces_of_a_remainder(rows: &mut Rows) {
    let scripts = scripts();
    for (text, code) in [(" foo  bar baz ", b' '), ("", 21), ("|||", b'|')] {
        let text = text.as_bytes();
        for (before, script) in stops(&scripts) {
            let items = after(pieces(text, code), before);
            let Some((start, rest)) = remainder(text, &items) else { continue };
            rows.ask(|asked| {
                calls::ask_split(asked, code, rest, script);
                put_texts(walk(text, items.clone(), script), &mut asked.want);
                calls::ask_split_spans(asked, start, code, rest, script);
                put_spans(0, walk(text, items.clone(), script), &mut asked.want);
            });
        }
    }
}

/// The lines of what remains after each number of steps are the other lines of an unbroken walk.
fn lines_of_a_remainder(rows: &mut Rows) {
    let scripts = scripts();
    for text in ["foo\r\nbar\n\nbaz\n", "\r\r\n", "a\r", "\n\r\n\n\r\n", ""].map(str::as_bytes) {
        for (before, script) in stops(&scripts) {
            let items = after(lines_of(text), before);
            let Some((start, rest)) = remainder(text, &items) else { continue };
            rows.ask(|asked| {
                calls::ask_lines(asked, rest, script);
                put_texts(walk(text, items.clone(), script), &mut asked.want);
                calls::ask_line_spans(asked, start, rest, script);
                put_lines(0, walk(text, items.clone(), script), &mut asked.want);
            });
        }
    }
}

/// Scripts that take all items of a small text and ask once more: from the front, from the back, and from both ends.
const SCRIPTS: [[u8; 7]; 3] = [[0; 7], [1; 7], [0, 1, 0, 1, 0, 1, 0]];

/// The numbers of the classes of whitespace and of punctuation in `ask_class`.
const WHITESPACE: u8 = 1;
const PUNCTUATION: u8 = 13;

/// The words, the trims and the other answers by whitespace and by punctuation.
fn ask_words_of(text: &[u8], script: &[u8], asked: &mut Asked) {
    ask_words(text, script, asked);
    ask_class(WHITESPACE, text, script, asked);
    ask_class(PUNCTUATION, text, script, asked);
}
