//! Lists of edits, against a table that `soak/vectors/edit_lists.rs` made with the upstream crate.

use super::picks::Picks;
use super::{Row, Rows};
use crate::calls::{self, Steps};
use crate::kinds::edits::expect_failures;

pub static ROWS: &[Row] = &[("edits_as_the_upstream_crate", as_upstream)];

/// For each list the characters that were taken out, `.` if there was none, a colon, and the text at the end.
static EDITED: &str = include_str!("edit_lists.txt");

/// As many edits as the list has. Each position is in the text.
fn edits(number: usize) -> Steps {
    let (mut picks, mut all, mut length) = (Picks { state: number as u64 }, Steps::default(), 0_usize);
    for _ in 0..number {
        match picks.below(10) {
            0..=3 => {
                let piece = picks.piece().as_bytes();
                all.add_text(1, 0, piece);
                length += piece.len();
            }
            4 => {
                let (at, piece) = (picks.below(length + 1), picks.piece().as_bytes());
                all.add_text(3, at, piece);
                length += piece.len();
            }
            5 if length > 0 => {
                all.add(4, picks.below(length), 0);
                length -= 1;
            }
            6 => {
                let at = picks.below(40) + 8;
                all.add(6, at, 0);
                length = length.min(at);
            }
            7 => all.add(9, 0, 0),
            8 => all.add(10, 0, 0),
            _ => {
                all.add(5, 0, 0);
                length = length.saturating_sub(1);
            }
        }
    }
    all
}

fn as_upstream(rows: &mut Rows) {
    assert_eq!(EDITED.lines().count(), 200);
    for (number, line) in (1..).zip(EDITED.lines()) {
        let (taken, text) = line.split_once(':').expect("a colon");
        let cmds = edits(number);
        for is_small in [false, true] {
            rows.ask(|asked| {
                calls::ask_edits(asked, is_small, b"", &cmds.texts, &cmds.steps);
                let mut taken = taken.bytes();
                for step in &cmds.steps {
                    match step.kind {
                        4 | 5 => asked.want.put(taken.next().filter(|ch| *ch != b'.')),
                        _ => asked.want.put("done"),
                    }
                }
                assert_eq!(taken.next(), None, "the table has as many characters");
                asked.want.put(text);
                expect_failures(is_small, b"", &cmds, asked);
            });
        }
    }
}
