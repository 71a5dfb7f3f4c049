//! Runs of commands and capacities, by std's `Vec`.

use super::slices::{bounds, non_ascii};
use super::{long, Allocates, Kind};
use crate::asked::{items_of, Answer, Asked, Failed, Item, Needs, NOTHING};
use crate::calls::{self, Step, Steps};
use crate::random::Random;

pub static KINDS: &[Kind] = &[
    long("edits", 4, |random, asked| edits(false, random, asked)).allocating(),
    long("edits of inline strings", 4, |random, asked| edits(true, random, asked)).allocating(),
    long("capacities", 2, capacities).allocating(),
    Kind { allocates: Allocates::Undeclared, ..long("capacities of inline strings", 4, small_capacities) },
];

/// A text to put in, mostly short.
pub fn piece(random: &mut Random) -> Vec<u8> {
    let mut piece = random.text();
    if random.below(4) > 0 {
        piece.truncate(8);
    }
    piece
}

fn edits(is_small: bool, random: &mut Random, asked: &mut Asked) {
    let source = random.text();
    let count = random.count(24);
    ask_edits(is_small, source, count, random, asked);
}

/// Asks for a number of commands over a text.
pub fn ask_edits(is_small: bool, source: Vec<u8>, count: usize, random: &mut Random, asked: &mut Asked) {
    let commands = random_commands(&source, count, random);
    calls::ask_edits(asked, is_small, &source, &commands.texts, &commands.steps);
    expect(is_small, &source, &commands, asked);
}

/// A number of commands over a text.
pub fn random_commands(source: &[u8], count: usize, random: &mut Random) -> Steps {
    let (mut edited, mut commands) = (Edited::new(source, false), Steps::default());
    for _ in 0..count {
        match random.below(4) {
            0 => grow(random, &mut commands),
            1 => insert(random, &edited.text, &mut commands),
            2 => place(random, &edited.text, &mut commands),
            _ => ask(random, &edited.text, &mut commands),
        }
        let step = commands.steps.last().expect("a command");
        edited.answer(step, &commands.texts, false, &mut Answer::default());
    }
    commands
}

/// Writes what commands over a text are answered, also if an allocation fails.
pub fn expect(is_small: bool, source: &[u8], commands: &Steps, asked: &mut Asked) {
    let (new, start) = (Edited::new(source, is_small), asked.want.bytes.len());
    let needs = new.clone().run(commands, usize::MAX, &mut asked.want);
    if asked.lets_fail {
        edits_fail(&new, start, commands, &needs, &mut asked.want);
    }
}

/// Writes what is answered if an allocation fails, to a question whose other answer is from a table.
pub fn expect_failures(is_small: bool, source: &[u8], commands: &Steps, asked: &mut Asked) {
    if asked.lets_fail {
        let (new, mut modelled) = (Edited::new(source, is_small), Answer::default());
        let needs = new.clone().run(commands, usize::MAX, &mut modelled);
        assert!(modelled.bytes == asked.want.bytes, "the model differs from the row");
        edits_fail(&new, 0, commands, &needs, &mut asked.want);
    }
}

/// The allocations are that for the list of commands, for the string, for the replies, and for each of the commands.
fn edits_fail(new: &Edited, start: usize, commands: &Steps, needs: &[Needs], want: &mut Answer) {
    let list = Needs::memory_if(!commands.steps.is_empty());
    want.fails(list, start, Failed);
    let is_allocated = new.text.len() > if new.is_small { INLINE } else { 0 };
    want.fails(Needs::memory_if(is_allocated), start, Failed);
    want.fails(list, start, (Failed, &new.text));
    for (number, needs) in needs.iter().enumerate() {
        want.fails_by(*needs, start, |want| {
            new.clone().run(commands, number, want);
        });
    }
}

/// How many bytes an inline string has room for in itself.
pub const INLINE: usize = 24;

/// A string by std's `Vec`. It grows only if it has to, and an allocation that fails leaves it as it was.
pub struct Edited {
    pub text: Vec<u8>,
    is_small: bool,
    /// The capacity of a string, and the least that an inline string has.
    room: usize,
}

/// The capacity of a copy is the same.
impl Clone for Edited {
    fn clone(&self) -> Edited {
        let mut text = Vec::with_capacity(if self.is_small { 0 } else { self.room });
        text.extend(&self.text);
        Edited { text, ..*self }
    }
}

impl Edited {
    pub fn new(source: &[u8], is_small: bool) -> Edited {
        let room = if is_small { source.len().max(INLINE) } else { source.len() };
        Edited { text: source.to_vec(), is_small, room }
    }

    /// An empty string that is not inline, with a capacity.
    fn with_capacity(room: usize) -> Edited {
        Edited { text: Vec::with_capacity(room), is_small: false, room }
    }

    /// Carries out commands, of which the one with the number `fails` has no memory, and writes the replies and the
    /// text after them. Returns what each command needs.
    pub fn run(mut self, commands: &Steps, fails: usize, want: &mut Answer) -> Vec<Needs> {
        let answer = |(number, step): (usize, &Step)| self.answer(step, &commands.texts, number == fails, want);
        let needs = commands.steps.iter().enumerate().map(answer).collect();
        want.put(self.text);
        needs
    }

    /// Carries out a command, which may have no memory, and writes its reply.
    pub fn answer(&mut self, step: &Step, texts: &[u8], fails: bool, want: &mut Answer) -> Needs {
        let (at, length) = (step.at, self.text.len());
        let piece = texts.get(step.start..step.end).unwrap_or_default();
        match step.kind {
            2 | 3 if at > length => want.put("position"),
            0 => return self.insert(length, &[step.code], true, fails, want),
            1 => return self.insert(length, piece, false, fails, want),
            2 => return self.insert(at, &[step.code], false, fails, want),
            3 => return self.insert(at, piece, false, fails, want),
            11 | 19 => return self.reserve(at, step.kind == 19, fails, want),
            12 => return self.shrink(fails, want),
            17 => return self.copy(step, fails, want),
            _ => self.answer_in_place(step, piece, want),
        }
        Needs::Nothing
    }

    /// Carries out a command that never needs memory.
    fn answer_in_place(&mut self, step: &Step, piece: &[u8], want: &mut Answer) {
        let (at, text) = (step.at, &mut self.text);
        let code = |byte: Option<u8>| byte.map(usize::from);
        match step.kind {
            4 if at < text.len() => want.put(text.remove(at)),
            8 if at < text.len() => text[at] = step.code,
            4 | 8 => return want.put("position"),
            5 => want.put(code(text.pop())),
            6 => text.truncate(at),
            7 => text.clear(),
            9 => text.make_ascii_uppercase(),
            10 => text.make_ascii_lowercase(),
            13 => want.put(text.len()),
            14 => want.put(code(text.first().copied())),
            15 => want.put(code(text.last().copied())),
            16 => want.put(code(text.get(at).copied())),
            _ => want.put(text.eq_ignore_ascii_case(piece)),
        }
        if matches!(step.kind, 6..=10) {
            want.put("done");
        }
    }

    /// What room for some more bytes needs.
    fn needs_for(&self, additional: usize) -> Needs {
        match self.text.len().checked_add(additional) {
            Some(all) if all <= self.room => Needs::Nothing,
            // No allocation is asked for.
            Some(all) if all > isize::MAX as usize => Needs::Nothing,
            // An inline string may have more room than is known.
            Some(_) if self.is_small && self.room > INLINE => Needs::Perhaps,
            Some(_) => Needs::Memory,
            None => Needs::Nothing,
        }
    }

    fn insert(&mut self, at: usize, piece: &[u8], is_pushed: bool, fails: bool, want: &mut Answer) -> Needs {
        let needs = self.needs_for(piece.len());
        if fails {
            want.put("memory");
            return needs;
        }
        // A string that has no capacity asks for this one at its first character.
        if is_pushed && self.room == 0 {
            self.text.reserve_exact(24);
        }
        self.text.reserve(piece.len());
        self.text.splice(at..at, piece.iter().copied());
        self.keep_room(0);
        want.put("done");
        needs
    }

    /// Notes the capacity after a command that needs room for some more bytes.
    fn keep_room(&mut self, additional: usize) {
        let least = self.text.len() + additional;
        self.room = if self.is_small { self.room.max(least) } else { self.text.capacity() };
    }

    fn reserve(&mut self, additional: usize, is_exact: bool, fails: bool, want: &mut Answer) -> Needs {
        if self.text.len().checked_add(additional).is_none() {
            want.put("many");
            return Needs::Nothing;
        }
        let (needs, text) = (self.needs_for(additional), &mut self.text);
        let reserve = if is_exact { Vec::try_reserve_exact } else { Vec::try_reserve };
        let is_done = !fails && reserve(text, additional).is_ok();
        if is_done {
            self.keep_room(additional);
        }
        want.put(if is_done { "done" } else { "memory" });
        needs
    }

    fn shrink(&mut self, fails: bool, want: &mut Answer) -> Needs {
        // An inline string is not shrunk.
        let needs = Needs::memory_if(!self.is_small && !self.text.is_empty() && self.text.len() < self.room);
        want.put(if fails { "memory" } else { "done" });
        if !fails && !self.is_small {
            self.text.shrink_to_fit();
            self.keep_room(0);
        }
        needs
    }

    fn copy(&self, step: &Step, fails: bool, want: &mut Answer) -> Needs {
        let part = bounds(step.code.into(), step.start, step.end, self.text.len()).map(|(start, end)| &self.text[start..end]);
        match part {
            Some(part) if non_ascii(part).is_none() => {
                want.put(if fails { b"memory" } else { part });
                Needs::memory_if(!part.is_empty())
            }
            _ => {
                want.put(("ascii", self.text.len()));
                Needs::Nothing
            }
        }
    }
}

fn grow(random: &mut Random, commands: &mut Steps) {
    match random.below(4) {
        0 => commands.add(0, 0, random.code_of(b"")),
        1 => commands.add_text(1, 0, &piece(random)),
        2 => commands.add(12, 0, 0),
        _ if random.below(8) == 0 => commands.add(11, usize::MAX - random.below(40), 0),
        _ => commands.add(11, random.count(300), 0),
    }
}

fn insert(random: &mut Random, text: &[u8], commands: &mut Steps) {
    let at = random.place(text.len());
    if random.below(2) == 0 {
        commands.add(2, at, random.code_of(b""));
    } else {
        commands.add_text(3, at, &piece(random));
    }
}

fn place(random: &mut Random, text: &[u8], commands: &mut Steps) {
    let at = random.place(text.len());
    match random.below(4) {
        0 => commands.add(4, at, 0),
        1 => commands.add(8, at, random.code_of(b"")),
        2 => commands.add(6, at, 0),
        _ => commands.add(16, at, 0),
    }
}

fn ask(random: &mut Random, text: &[u8], commands: &mut Steps) {
    match *random.pick(&[5, 5, 7, 9, 10, 13, 14, 15, 17, 17, 18, 18]) {
        17 => {
            let form = random.below(6);
            let (start, end) = random.places(text.len());
            commands.steps.push(Step { kind: 17, code: form as u8, start, end, at: 0 });
        }
        18 => commands.add_text(18, 0, &random.other(text)),
        kind => commands.add(kind, 0, 0),
    }
}

/// A command that changes a capacity, of a list of their numbers; 20 and 21 reserve more than there can be.
fn resize(random: &mut Random, kinds: &[u8], commands: &mut Steps) {
    let kind = *random.pick(kinds);
    let room = random.room();
    match kind {
        0 => commands.add(0, 0, b'x'),
        1 => commands.add_text(1, 0, &vec![b'x'; room]),
        5 | 7 | 12 => commands.add(kind, 0, 0),
        6 => commands.add(6, room, 0),
        11 | 19 => commands.add(kind, room, 0),
        20 => commands.add(11, usize::MAX - 20 * random.below(3), 0),
        _ => commands.add(19, usize::MAX - 20 * random.below(3), 0),
    }
}

pub fn capacities(random: &mut Random, asked: &mut Asked) {
    let capacity = Vec::<u8>::with_capacity(random.room()).capacity();
    let mut commands = Steps::default();
    for _ in 0..random.count(20) {
        resize(random, &[0, 1, 5, 6, 7, 11, 12, 19, 20, 21], &mut commands);
    }
    ask_capacities(capacity, &commands, asked);
}

/// Asks for the capacity of an empty string, and for that after each command.
pub fn ask_capacities(capacity: usize, commands: &Steps, asked: &mut Asked) {
    calls::ask_capacities(asked, capacity, &commands.texts, &commands.steps);
    let lets_fail = asked.lets_fail;
    let want = &mut asked.want;
    let start = want.bytes.len();
    let needs = put_capacities(capacity, commands, None, want);
    want.fails(Needs::memory_if(capacity > 0), start, Failed);
    if lets_fail {
        for (number, (step, needs)) in commands.steps.iter().zip(needs).enumerate() {
            // The reply is in a list, but not the result of an exact reservation.
            let list = Needs::memory_if(step.kind != 19);
            for (needs, is_list) in [(list, true), (needs, false)] {
                want.fails_by(needs, start, |want| {
                    put_capacities(capacity, commands, Some((number, is_list)), want);
                });
            }
        }
    }
}

/// Writes the capacities and the replies. Of the command number `fails` there is no memory for the reply, if it is for
/// the list, or for the string.
fn put_capacities(capacity: usize, commands: &Steps, fails: Option<(usize, bool)>, want: &mut Answer) -> Vec<Needs> {
    let mut string = Edited::with_capacity(capacity);
    want.put(string.text.capacity());
    let mut needs = Vec::new();
    for (number, step) in commands.steps.iter().enumerate() {
        if fails == Some((number, true)) {
            want.put(Failed);
        } else {
            needs.push(string.answer(step, &commands.texts, fails == Some((number, false)), want));
        }
        want.put(string.text.capacity());
    }
    needs
}

/// A string is inline until it needs room for more than `INLINE` bytes, and then never again. Its capacity is unchanged
/// by a command that fits in it, and is otherwise enough for the command; a shrunk one is enough for the text.
pub fn small_capacities(random: &mut Random, asked: &mut Asked) {
    let source = vec![b'x'; random.room() % (INLINE + 3)];
    let (mut string, mut commands, mut want) = (Edited::new(&source, true), Steps::default(), Answer::default());
    want.put(source.len() <= INLINE);
    // The room that each command needs, or `None` for a shrunk string.
    let mut needs = vec![Some(source.len())];
    for _ in 0..random.count(20) {
        want.put(0);
        resize(random, &[0, 1, 5, 6, 7, 11, 12, 20], &mut commands);
        let step = commands.steps.last().expect("a command");
        string.answer(step, &commands.texts, false, &mut want);
        let reserved = if step.kind == 11 && step.at <= isize::MAX as usize { step.at } else { 0 };
        needs.push((step.kind != 12).then_some(string.text.len() + reserved));
        want.put(string.room <= INLINE);
    }
    want.put(0);
    calls::ask_small_capacities(asked, &source, &commands.texts, &commands.steps);
    asked.want = want;
    expect_promised(asked, &needs);
}

/// Puts each capacity that is as promised into the expected answer, in which they are 0.
fn expect_promised(asked: &mut Asked, needs: &[Option<usize>]) {
    let (got, want) = (items_of(asked.got()), items_of(&asked.want.bytes));
    let (mut answer, mut needs, mut old) = (Answer::default(), needs.iter(), None);
    for (at, item) in want.into_iter().enumerate() {
        let follows_flag = at > 0 && matches!(got.get(at - 1), Some(Item::Flag(_)));
        match (item, got.get(at)) {
            (Item::Number(0), Some(Item::Number(new))) if follows_flag => {
                let new = *new as usize;
                let is_promised = match needs.next() {
                    Some(Some(need)) if old >= Some(*need) => old == Some(new),
                    Some(Some(need)) => new >= *need,
                    _ => new <= old.unwrap_or(0).max(INLINE),
                };
                answer.put(if is_promised { new } else { usize::MAX });
                old = Some(new);
            }
            (Item::Number(number), _) => answer.put(number as usize),
            (Item::Text(text), _) => answer.put(text),
            (Item::Flag(holds), _) => answer.put(holds),
            _ => answer.put(NOTHING),
        }
    }
    asked.want = answer;
}
