//! Maps whose keys are texts, and sets of texts, by std's `BTreeMap`.

use super::{allocating, Kind};
use crate::asked::{Answer, Asked, Failed, Needs};
use crate::calls::{self, Step, Steps};
use crate::random::Random;
use std::collections::BTreeMap;

pub static KINDS: &[Kind] = &[
    allocating("maps of texts", |random, asked| {
        let Steps { texts, steps } = steps(random);
        ask_maps(&texts, &steps, asked);
    }),
    allocating("maps of std", |random, asked| {
        let Steps { texts, steps } = steps(random);
        let key = random.other(&texts);
        ask_std_maps(&key, &texts, &steps, asked);
    }),
];

/// A map of std with texts as keys.
type Map = BTreeMap<Vec<u8>, usize>;

/// A map of std with texts in lower case as keys. It has each key as it was first written, and its value.
type FoldedMap = BTreeMap<Vec<u8>, (Vec<u8>, usize)>;

/// Steps with keys that often are those of other steps, in another case.
fn steps(random: &mut Random) -> Steps {
    let mut steps = Steps::default();
    let mut key = random.short_text();
    for (at, kind) in random.script(7).into_iter().enumerate() {
        match random.below(3) {
            0 => key = random.other(&key),
            1 => key = random.short_text(),
            _ => (),
        }
        steps.add_text(kind, at, &key);
    }
    steps
}

/// A map and a set with keys as they are, and ones that ignore their case.
pub fn ask_maps(texts: &[u8], steps: &[Step], asked: &mut Asked) {
    calls::ask_maps(asked, texts, steps);
    let needs = put_steps(texts, steps, usize::MAX, &mut asked.want);
    if asked.lets_fail {
        for (number, needs) in needs.into_iter().enumerate() {
            asked.want.fails_by(needs, 0, |want| drop(put_steps(texts, steps, number, want)));
        }
    }
}

/// What the steps over both maps return if the allocation for the insertion numbered `failing` fails. Returns what each
/// insertion needs.
fn put_steps(texts: &[u8], steps: &[Step], failing: usize, want: &mut Answer) -> Vec<Needs> {
    let (mut map, mut folded, mut needs) = (Map::new(), FoldedMap::new(), Vec::new());
    // A set has each text as it was first written.
    let mut sets = [BTreeMap::new(), BTreeMap::new()];
    for step in steps {
        let key = &texts[step.start..step.end];
        // Only a new key is copied. There may be room for a key that is empty.
        let copy = if key.is_empty() { Needs::Perhaps } else { Needs::Memory };
        let folded_copy = if folded.contains_key(&key.to_ascii_lowercase()) { Needs::Nothing } else { copy };
        let own_copy = if map.contains_key(key) { Needs::Nothing } else { copy };
        put_step(&mut map, *step, key.to_vec(), needs.len() == failing, want);
        if step.kind == 0 {
            needs.push(own_copy);
        }
        put_folded_step(&mut folded, *step, key, needs.len() == failing, want);
        if matches!(step.kind, 0 | 3) {
            needs.push(folded_copy);
        }
        let keys = [key.to_vec(), key.to_ascii_lowercase()];
        for (set, same) in sets.iter_mut().zip(&keys).filter(|_| step.kind == 0) {
            let (fails, is_there) = (needs.len() == failing, set.contains_key(same));
            needs.push(if is_there { Needs::Nothing } else { copy });
            if fails { want.put(Failed) } else { want.put(!is_there) }
            if !fails { set.entry(same.clone()).or_insert(key); }
        }
        sets.iter().filter(|_| step.kind == 4).for_each(|set| want.all(set.values()));
        if step.kind == 6 { sets[0].clear() }
        want.all(sets.iter().zip(&keys).map(|(set, key)| set.contains_key(key)));
    }
    needs
}

fn put_step(map: &mut Map, step: Step, key: Vec<u8>, fails: bool, want: &mut Answer) {
    match step.kind {
        0 if fails => want.put(Failed),
        0 => want.put(map.insert(key, step.at)),
        1 => want.put(map.get(&key).copied()),
        2 => want.put(map.remove(&key)),
        3 => want.put(map.get_mut(&key).map(|value| {
            *value = value.wrapping_add(step.at);
            *value
        })),
        4 => {
            want.all(&*map);
            want.all(map.values());
        }
        6 => map.clear(),
        _ => want.put(map.contains_key(&key)),
    }
    want.put((map.len(), map.is_empty()));
}

fn put_folded_step(map: &mut FoldedMap, step: Step, key: &[u8], fails: bool, want: &mut Answer) {
    let lower = key.to_ascii_lowercase();
    let old = map.get(&lower).map(|entry| entry.1);
    let mut put = |value| map.entry(lower.clone()).or_insert((key.to_vec(), 0)).1 = value;
    match step.kind {
        0 | 3 if fails => want.put(Failed),
        0 => {
            put(step.at);
            want.put(old);
        }
        1 => want.put(old),
        2 => want.put(map.remove(&lower).map(|entry| entry.1)),
        3 => {
            let value = old.unwrap_or(step.at).wrapping_add(step.at);
            put(value);
            want.put(value);
        }
        4 => {
            want.all(map.values());
            want.all(map.values().map(|entry| &entry.0));
        }
        _ => want.put(map.contains_key(&lower)),
    }
    want.put((map.len(), map.is_empty()));
}

/// What maps with folded keys have at a key after the numbers of all steps were inserted at their keys.
pub fn ask_std_maps(key: &[u8], texts: &[u8], steps: &[Step], asked: &mut Asked) {
    calls::ask_std_maps(asked, key, texts, steps);
    let keys = steps.iter().map(|step| (texts[step.start..step.end].to_ascii_lowercase(), step.at));
    let map: Map = keys.collect();
    for is_owned in [false, true] {
        let start = asked.want.bytes.len();
        asked.want.times(2, map.get(&key.to_ascii_lowercase()).copied());
        asked.want.times(2, map.len());
        if is_owned {
            asked.want.put((true, key));
        }
        asked.want.put(key);
        let is_some = !steps.is_empty() || is_owned && !key.is_empty();
        asked.want.fails(Needs::memory_if(is_some), start, Failed);
    }
}
