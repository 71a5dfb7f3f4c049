//! Rows: calls whose answers are known from a table, from std or from a plain loop.

mod picks;

use crate::asked::{Asked, Put};
use crate::{crash, failing};
use crate::heap::{self, Fails};
use std::collections::HashSet;
use std::panic::{catch_unwind, AssertUnwindSafe};

/// A row: its name, and what it asks.
pub type Row = (&'static str, fn(&mut Rows));

lists! {
    /// All rows, one subject after another.
    ROWS: Row;
    characters kernels sources views strings searches small_texts walks numbers rewrites places maps json_values
    commands edit_lists devices engines memory long_searches readers writers serving recipes
}

/// The differences of a row that are printed whole.
const SHOWN: u64 = 3;

/// The questions of a row, and how often an answer differs.
pub struct Rows {
    asked: Asked,
    name: &'static str,
    count: u64,
    differ: u64,
    /// The sizes of the allocations of the questions so far.
    sizes: HashSet<(u64, u64)>,
}

impl Rows {
    /// Asks a question. If its answer differs, asks it again to show it.
    pub fn ask(&mut self, question: impl Fn(&mut Asked)) {
        // With wrong arguments, one difference is enough.
        if self.asked.is_planted && self.differ > 0 {
            return;
        }
        self.asked.clear();
        self.count += 1;
        heap::begin();
        question(&mut self.asked);
        let sizes = (heap::count(), heap::sizes());
        if self.asked.differs() {
            self.differ("", question);
        } else if sizes.0 > 0 && !self.asked.is_planted && self.sizes.insert(sizes) {
            self.ask_failing(heap::ONE, question);
        }
    }

    /// Asks a call whose answer is a value.
    pub fn expect(&mut self, value: impl Put, call: impl Fn(&mut Asked)) {
        self.ask(|asked| {
            call(asked);
            asked.want.put(&value);
        });
    }

    /// Asks a question for each of some items.
    pub fn each<T: Clone>(&mut self, items: impl IntoIterator<Item = T>, question: impl Fn(T, &mut Asked)) {
        items.into_iter().for_each(|item| self.ask(|asked| question(item.clone(), asked)));
    }

    /// Asks a question again and again, with each of its allocations failing in turn, and with it others.
    pub fn ask_failing(&mut self, fails: Fails, question: impl Fn(&mut Asked)) {
        match failing::each(&mut self.asked, fails, &question) {
            Ok(count) => self.count += count,
            Err(number) => self.differ(&format!("with the allocation {number} failing: "), |asked| {
                let _ = failing::each(asked, fails, question);
            }),
        }
    }

    /// Counts a difference. Asks the question again to show it, in the way `again`.
    fn differ(&mut self, when: &str, again: impl FnOnce(&mut Asked)) {
        self.differ += 1;
        if !self.asked.is_planted && self.differ <= SHOWN {
            self.asked.clear();
            self.asked.calls = Some(Vec::new());
            again(&mut self.asked);
            self.show(&format!("{when}{}", self.asked.report()));
            self.asked.calls = None;
        }
    }

    /// Prints a difference, and the command that runs the row alone.
    fn show(&self, what: &str) {
        let name = self.name;
        println!("row {name}: {what}\n  alone:    bin/soak --row {name}");
    }
}

/// Runs a row, and returns the number of its questions and of the answers that differ. With `is_planted` the library is
/// passed wrong arguments, and the first answer that differs ends the row. A panic of the driver is a difference.
pub fn run(row: &Row, is_planted: bool) -> (u64, u64) {
    let mut rows = Rows { asked: Asked::new(), name: row.0, count: 0, differ: 0, sizes: HashSet::new() };
    rows.asked.is_planted = is_planted;
    crash::note(row.0);
    if let Err(panic) = catch_unwind(AssertUnwindSafe(|| row.1(&mut rows))) {
        rows.differ += 1;
        if !is_planted {
            rows.show(&format!("the driver panicked: {}", crate::panic_text(&*panic)));
        }
    }
    (rows.count, rows.differ)
}
