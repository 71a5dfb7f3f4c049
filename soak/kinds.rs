//! The kinds of questions.

#[cfg(upstream)]
mod upstream;

use crate::asked::Asked;
use crate::random::Random;

/// Makes a question of a kind, asks it, and says what is expected.
pub type Ask = fn(&mut Random, &mut Asked);

/// A kind of questions.
pub struct Kind {
    pub name: &'static str,
    /// `None` if the upstream crate is needed and not there.
    pub ask: Option<Ask>,
    /// A question of this kind is asked once in this number of turns.
    pub turns: u32,
    /// The most small cases that are asked for each length.
    pub small: u64,
    /// Whether its calls may allocate.
    pub allocates: Allocates,
}

/// What is known of a kind whose calls allocate.
#[derive(Clone, Copy, PartialEq)]
pub enum Allocates {
    /// They do not.
    Never,
    /// What they answer if an allocation fails.
    Declared,
    /// Nothing: another kind asks the same calls, or capacities after a failure are not known.
    Undeclared,
}

impl Kind {
    /// A kind whose calls allocate.
    const fn allocating(self) -> Kind {
        Kind { allocates: Allocates::Declared, ..self }
    }
}

/// The most small cases of most kinds.
const SMALL: u64 = 20_000;

const fn kind(name: &'static str, ask: Ask) -> Kind {
    Kind { name, ask: Some(ask), turns: 1, small: SMALL, allocates: Allocates::Never }
}

/// A kind whose calls allocate.
const fn allocating(name: &'static str, ask: Ask) -> Kind {
    kind(name, ask).allocating()
}

/// A kind whose questions take long.
const fn long(name: &'static str, turns: u32, ask: Ask) -> Kind {
    Kind { turns, small: if turns < 1000 { SMALL } else { 500 }, ..kind(name, ask) }
}

/// A kind whose answers come from the upstream crate.
macro_rules! upstream {
    ($name:literal, $turns:literal, $ask:path) => {
        Kind {
            name: $name,
            #[cfg(upstream)]
            ask: Some($ask),
            #[cfg(not(upstream))]
            ask: None,
            turns: $turns,
            small: SMALL,
            allocates: Allocates::Undeclared,
        }
    };
}

/// The kinds whose answers come from the upstream crate.
static UPSTREAM: &[Kind] = &[
    upstream!("upstream: slices", 1, upstream::slices),
    upstream!("upstream: mutable slices", 1, upstream::slice_mut),
    upstream!("upstream: positions", 1, upstream::position),
    upstream!("upstream: characters of numbers", 1, upstream::of_numbers),
    upstream!("upstream: characters", 2, upstream::characters),
    upstream!("upstream: caret notation", 1, upstream::carets),
    upstream!("upstream: trimmed texts, cases", 1, upstream::texts),
    upstream!("upstream: compared texts", 1, upstream::comparisons),
    upstream!("upstream: pieces", 1, upstream::split),
    upstream!("upstream: lines", 1, upstream::lines),
    upstream!("upstream: characters by scripts", 1, upstream::chars),
    upstream!("upstream: conversions", 1, upstream::conversions),
    upstream!("upstream: pieces written", 1, upstream::written),
    upstream!("upstream: printed texts", 2, upstream::printed),
    upstream!("upstream: printed characters", 2, upstream::printed_characters),
    upstream!("upstream: edits", 4, upstream::edits),
];

lists! {
    /// All kinds, one subject after another.
    KINDS: Kind, UPSTREAM;
    characters words slices texts searches walks numbers rewrites places maps conversions copies prints json_values
    edits lines engines recipes for_c
}

/// A text of codes under 128.
fn string(text: Vec<u8>) -> String {
    String::from_utf8(text).expect("codes under 128")
}
