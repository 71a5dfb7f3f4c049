//! Maps whose keys are texts: what steps over them return, beside std's `BTreeMap`.

use super::{Row, Rows};
use crate::asked::NOTHING;
use crate::calls::{self, Steps};
use crate::kinds::maps::{ask_maps, ask_std_maps};

pub static ROWS: &[Row] = &[
    ("a_map_has_what_was_put_last", put_last),
    ("a_folded_map_is_the_map_of_std_with_keys_in_lower_case", |rows| {
        let inserted = NAMES.iter().map(|name| (INSERT, *name));
        let taken = NAMES.iter().enumerate().flat_map(|(at, name)| {
            let removed = (at % 2 == 0).then_some((REMOVE, *name));
            [(GET, *name)].into_iter().chain(removed)
        });
        ask(rows, &inserted.chain(taken).collect::<Vec<_>>());
    }),
    ("a_walk_yields_each_key_as_it_was_first_written", |rows| {
        let added = NAMES.iter().map(|name| (ADD, *name));
        let inserted = NAMES.iter().map(|name| (INSERT, *name));
        let walked = NAMES.iter().flat_map(|name| [(WALK, ""), (REMOVE, *name)]);
        ask(rows, &added.chain(inserted).chain(walked).collect::<Vec<_>>());
    }),
    ("many_keys_have_their_values", |rows| {
        let keys: Vec<String> = (0..5_000).map(|number| number.to_string()).collect();
        let added: Vec<String> = (0..10).map(|number| format!("key {number}")).collect();
        let steps = keys.iter().flat_map(|key| [(INSERT, key.as_str()), (GET, key), (ADD, key)]);
        let steps: Vec<(u8, &str)> = steps.chain(added.iter().map(|key| (ADD, key.as_str()))).collect();
        let Steps { texts, steps } = passed(&steps);
        rows.ask(|asked| {
            calls::ask_maps(asked, &texts, &steps);
            let want = &mut asked.want;
            for number in 0..keys.len() {
                want.times(2, (NOTHING, number + 1, false));
                want.times(4, true);
                want.times(2, (3 * number, number + 1, false));
                want.times(2, true);
                want.times(2, (6 * number + 2, number + 1, false));
                want.times(2, true);
            }
            // A key that is not there gets its value before the same is added.
            for number in 0..added.len() {
                want.put((NOTHING, keys.len(), false));
                want.put((2 * (3 * keys.len() + number), keys.len() + number + 1, false));
                want.times(2, false);
            }
            want.has_other_failures = true;
        });
    }),
    ("maps_of_std_find_a_name_in_any_case", |rows| {
        for names in [&["Content-Type"][..], &["Host", "HOST", "host", "Hosts", "Accept", "aCCEPT", ""]] {
            let steps: Vec<(u8, &str)> = names.iter().map(|name| (INSERT, *name)).collect();
            let Steps { texts, steps } = passed(&steps);
            for key in ["content-TYPE", "content_type", "hOST", "HOSTS", "hos", "ACCEPT", ""] {
                rows.ask(|asked| ask_std_maps(key.as_bytes(), &texts, &steps, asked));
            }
        }
    }),
];

/// The kinds of steps.
const INSERT: u8 = 0;
const GET: u8 = 1;
const REMOVE: u8 = 2;
const ADD: u8 = 3;
const WALK: u8 = 4;
const HAS: u8 = 5;
const CLEAR: u8 = 6;

/// Steps as they are passed: their keys, one after the other, and each with its number.
fn passed(steps: &[(u8, &str)]) -> Steps {
    Steps::of(steps.iter().enumerate().map(|(at, (kind, key))| (*kind, at, *key)))
}

/// Asks a map with keys as they are and a map that ignores their case.
fn ask(rows: &mut Rows, steps: &[(u8, &str)]) {
    let Steps { texts, steps } = passed(steps);
    rows.ask(|asked| ask_maps(&texts, &steps, asked));
}

fn put_last(rows: &mut Rows) {
    let inserted = [(INSERT, "a"), (INSERT, "A"), (INSERT, "a")];
    let taken = [(GET, "a"), (GET, ""), (HAS, "A"), (REMOVE, "a"), (REMOVE, "a"), (HAS, "A")];
    ask(rows, &[&inserted[..], &taken].concat());
    let cleared = [(INSERT, "b"), (CLEAR, "a"), (WALK, ""), (CLEAR, ""), (INSERT, "a"), (WALK, "")];
    ask(rows, &[&inserted[..], &cleared].concat());
    let inserted = [(INSERT, "Host"), (INSERT, "Accept"), (INSERT, "HOST")];
    let taken = [(GET, "host"), (GET, "hos"), (REMOVE, "hOST"), (REMOVE, "Host")];
    ask(rows, &[&inserted[..], &taken].concat());
}

/// Names of which some differ in case alone, and marks beside the letters.
static NAMES: [&str; 14] = ["Host", "HOST", "accept", "", "Via", "[", "a", "{", "A", "Hosts", "ACCEPT", "via", "@", "`"];
