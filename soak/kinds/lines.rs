//! Lines that are read and written, by plain loops.

use super::{allocating, long, Kind};
use crate::asked::{items_of, Answer, Asked, Failed, Fault, Item, Needs};
use crate::calls::{self, Device, Step, WHOLE};
use crate::line_model::{Model, Stop};
use crate::random::Random;

pub static KINDS: &[Kind] = &[
    allocating("lines of a reader", |random, asked| {
        let (source, size) = source_and_size(random);
        let (endings, device, is_ascii) = (random.below(3) as u8, slow(random), random.below(2) == 0);
        ask_lines(&source, size, endings, device, is_ascii, asked);
    }),
    allocating("steps of a reader", |random, asked| {
        let (source, size) = source_and_size(random);
        let device = slow(random);
        let steps = mixed_steps(random, size);
        ask_steps(&mut Model::new(&source, size), &source, size, device, &steps, asked);
    }),
    // A source that gives one byte a call fails before the byte whose number the call has.
    allocating("a reader that fails", |random, asked| {
        let (source, size) = source_and_size(random);
        let (steps, fails) = (mixed_steps(random, size), random.place(source.len()));
        let device = Device { most: 1, fails: fails as u64, ..WHOLE };
        ask_steps(&mut Model::failing(&source, size, fails), &source, size, device, &steps, asked);
    }),
    allocating("collected lines", |random, asked| {
        let (source, size) = source_and_size(random);
        let device = slow(random);
        ask_collected(&mut Model::new(&source, size), &source, size, device, asked);
    }),
    allocating("lines that change a state", |random, asked| {
        let (source, size) = source_and_size(random);
        let device = slow(random);
        ask_folded(&mut Model::new(&source, size), &source, size, device, asked);
    }),
    allocating("blocks of lines", |random, asked| {
        let (source, size) = source_and_size(random);
        let (device, most) = (slow(random), random.count(6));
        ask_block(&mut Model::new(&source, size), &source, size, device, most, asked);
    }),
    allocating("written lines", written),
    allocating("a writer that fails", failing_writer),
    allocating("conversations", conversations),
    long("lines of long inputs", 8192, |random, asked| {
        let source = long_source(random);
        let size = *random.pick(&[32_768, 65_535, 65_536, 65_537, 131_072, 131_073, 1 << 20]);
        let (endings, device) =
            (random.below(3) as u8, if random.below(2) == 0 { WHOLE } else { Device { most: 4093, ..WHOLE } });
        ask_lines(&source, size, endings, device, true, asked);
    })
    .allocating(),
];

/// A source of lines whose bodies are up to 300 codes, and a buffer.
fn source_and_size(random: &mut Random) -> (Vec<u8>, usize) {
    let source = match random.below(4) {
        0 => random.bytes(),
        1 => random.text(),
        _ if random.once_in(4) => {
            let mut source = Vec::new();
            for _ in 0..random.count(4) {
                let body = random.length();
                source.extend(random.repeated(b"abc\r", body.max(1)));
                source.extend_from_slice(*random.pick(&[b"\n".as_slice(), b"\r\n", b"\r", b"\xe9\n"]));
            }
            source
        }
        _ => random.joined(&[b"\r\n", b"ab", b"\r\n", b"c", b"\n", b"\r", b"de\r\n", b"\xe9"]),
    };
    let longest = source.split(|byte| *byte == b'\n').map(<[u8]>::len).max().unwrap_or(0) + 1;
    let size = random.size(longest);
    (source, size)
}

/// A device that moves few bytes a call or all, and does not fail.
pub fn slow(random: &mut Random) -> Device {
    let most = if random.below(2) == 0 { usize::MAX } else { 1 + random.size(16) };
    Device { most, ..WHOLE }
}

/// Asks a reader for steps, and expects what the model answers to them. The model knows the number of calls if each
/// gives one byte.
pub fn ask_steps(model: &mut Model<'_>, source: &[u8], size: usize, device: Device, steps: &[Step], asked: &mut Asked) {
    calls::ask_reader(asked, source, size, &device, steps);
    model.run(steps, &mut asked.want);
    let calls = asked.got().last_chunk().map_or(0, |calls| u64::from_le_bytes(*calls) as usize);
    asked.want.put(if device.most == 1 { model.calls } else { calls });
}

/// Asks for lines to the end and beyond, as text or as bytes.
pub fn ask_lines(source: &[u8], size: usize, endings: u8, device: Device, is_ascii: bool, asked: &mut Asked) {
    let lines = source.iter().filter(|byte| **byte == b'\n').count() + 4;
    let next = Step { kind: if is_ascii { 0 } else { 5 }, ..Step::default() };
    let steps: Vec<Step> = [Step { kind: 1 + endings, ..next }].into_iter().chain(std::iter::repeat_n(next, lines)).collect();
    ask_steps(&mut Model::new(source, size), source, size, device, &steps, asked);
}

/// Lines, parts, texts, endings and skipped lines, in any order, also after an error.
fn mixed_steps(random: &mut Random, size: usize) -> Vec<Step> {
    let step = |random: &mut Random| match random.below(10) {
        0 => Step { kind: 1 + random.below(3) as u8, ..Step::default() },
        1 | 2 => Step { kind: 4, at: random.part_length(size), ..Step::default() },
        3 | 4 => Step { kind: 5, ..Step::default() },
        5 => Step { kind: 6, at: random.part_length(size), ..Step::default() },
        6 => Step { kind: 7, code: *random.pick(b"\n\rac"), ..Step::default() },
        _ => Step::default(),
    };
    (0..1 + random.count(12)).map(|_| step(random)).collect()
}

impl Random {
    /// The length of a part, about the size of the buffer, or short.
    fn part_length(&mut self, size: usize) -> usize {
        match self.below(8) {
            0 if !self.is_small() => self.place(size),
            1 => 0,
            _ => self.below(6),
        }
    }
}

/// Asks for the lines up to the end or the first error.
pub fn ask_collected(model: &mut Model<'_>, source: &[u8], size: usize, device: Device, asked: &mut Asked) {
    calls::ask_collected_lines(asked, source, size, &device);
    let want = &mut asked.want;
    let start = want.bytes.len();
    let mut positions = Vec::new();
    loop {
        let line = model.next_line();
        want.put(line);
        if line.is_err() {
            break;
        }
        positions.push(model.start);
    }
    want.fails(Needs::Memory, start, Failed);
    // The line that there is no memory for is lost. Its body may be empty, and there may be room for it in the list.
    for position in positions {
        want.fails(Needs::Perhaps, start, (Failed, position));
    }
}

/// Asks for the lines up to an empty one, at most `most`.
/// Asks for a number made from the lines up to the end or the first error, in order.
fn ask_folded(model: &mut Model<'_>, source: &[u8], size: usize, device: Device, asked: &mut Asked) {
    calls::ask_folded_lines(asked, source, size, &device);
    let (mut count, mut mixed) = (0, 0u64);
    let end = loop {
        match model.next_line() {
            Ok((start, body, _)) => {
                count += 1;
                mixed = mixed.wrapping_mul(31).wrapping_add(start as u64);
                mixed = mixed.wrapping_mul(31).wrapping_add(body.len() as u64);
            }
            Err(end) => break end,
        }
    };
    asked.want.put((count, mixed));
    asked.want.put((end, model.start));
    asked.want.fails(Needs::Memory, 0, Failed);
}

pub fn ask_block(model: &mut Model<'_>, source: &[u8], size: usize, device: Device, most: usize, asked: &mut Asked) {
    calls::ask_block(asked, source, size, &device, most);
    let want = &mut asked.want;
    let positions = put_block(model, most, want);
    want.put(model.start);
    want.fails(Needs::Memory, 0, Failed);
    // The line that there is no memory for is lost.
    for position in positions {
        want.fails(Needs::Memory, 0, (Failed, position));
    }
}

/// Returns the position after each of the lines.
fn put_block(model: &mut Model<'_>, most: usize, want: &mut Answer) -> Vec<usize> {
    let mut positions = Vec::new();
    for _ in 0..most {
        let line = model.next_line();
        if line.is_ok_and(|(_, body, _)| body.is_empty()) {
            want.put("empty");
            return positions;
        }
        want.put(line);
        if line.is_err() {
            return positions;
        }
        positions.push(model.start);
    }
    want.put("full");
    positions
}

fn break_in(text: &[u8]) -> Option<usize> {
    text.iter().position(|byte| *byte == b'\r' || *byte == b'\n')
}

/// The lines of a writer: their texts, the steps, what each is answered if no call fails, and what goes out.
fn lines_to_write(random: &mut Random) -> (Vec<u8>, Vec<Step>, Vec<Fault>, Vec<u8>) {
    let (mut texts, mut steps, mut answers, mut sent) = (Vec::new(), Vec::new(), Vec::new(), Vec::new());
    for _ in 0..random.count(6) {
        let mut text = random.line(b"aB \r\n");
        if random.below(4) > 0 {
            text.retain(|byte| break_in(&[*byte]).is_none());
        }
        let (kind, start) = (random.below(5) as u8, texts.len());
        texts.extend(&text);
        steps.push(Step { kind, start, end: texts.len(), ..Step::default() });
        let at = break_in(&text).filter(|_| kind < 3);
        if at.is_none() && kind != 3 {
            sent.extend([&text, ["\n", "\r\n", "", "", ""][usize::from(kind)].as_bytes()].concat());
        }
        answers.push(Fault(if at.is_some() { "break" } else { "done" }, at));
    }
    steps.push(Step { kind: 3, ..Step::default() });
    answers.push(Fault("done", None));
    (texts, steps, answers, sent)
}

pub fn written(random: &mut Random, asked: &mut Asked) {
    let (texts, steps, answers, sent) = lines_to_write(random);
    let (size, device) = (random.size(texts.len()), slow(random));
    calls::ask_writer(asked, &texts, size, &device, &steps);
    asked.want.all(answers);
    // A sink that takes one byte a call has a call for each byte, and for each flush.
    let flushes = steps.iter().filter(|step| step.kind == 3).count();
    let calls = if device.most == 1 { sent.len() + flushes } else { calls_of_sink(asked) };
    asked.want.put((calls, sent));
}

/// The number of calls that `ask_writer` has answered.
fn calls_of_sink(asked: &Asked) -> usize {
    match items_of(asked.got()).iter().nth_back(1) {
        Some(Item::Number(calls)) => *calls as usize,
        _ => 0,
    }
}

/// A sink fails at a call. Up to some step all is as if it did not; from then on each step is answered with the error,
/// and a prefix of what was written has gone out, of a byte at most for each call.
pub fn failing_writer(random: &mut Random, asked: &mut Asked) {
    let (texts, steps, answers, sent) = lines_to_write(random);
    let (size, most) = (random.size(texts.len()), 1 + random.below(3));
    let fails = random.below(sent.len() + 3);
    calls::ask_writer(asked, &texts, size, &Device { most, fails: fails as u64, ..WHOLE }, &steps);
    let Some(Item::Text(taken)) = items_of(asked.got()).pop() else { return };
    let calls = calls_of_sink(asked);
    for failed in 0..=answers.len() {
        asked.want.bytes.clear();
        asked.want.all(&answers[..failed]);
        asked.want.times(answers.len() - failed, "write");
        // The flush at the end is a call too, so a writer of all lines fails if it is the call that fails.
        let may_take = if failed < answers.len() {
            sent.starts_with(&taken) && taken.len() <= most * fails
        } else {
            sent == taken && sent.len().div_ceil(most) < fails && calls <= fails
        };
        // After the call that fails there is none.
        asked.want.put(if failed < answers.len() { fails + 1 } else { calls });
        asked.want.put(if may_take { &taken } else { &b"another prefix"[..] });
        if !asked.differs() {
            return;
        }
    }
}

/// Sends a reply, and notes how much was sent before, and whether the reply is empty.
fn send(sent: &mut Vec<u8>, before: &mut Vec<(usize, bool)>, reply: &[u8]) -> Result<(), Fault> {
    before.push((sent.len(), reply.is_empty()));
    if let Some(at) = break_in(reply) {
        return Err(Fault("break", Some(at)));
    }
    sent.extend([reply, b"\r\n"].concat());
    Ok(())
}

/// Sends the replies of a conversation until it stops, and says why.
fn converse(model: &mut Model<'_>, sent: &mut Vec<u8>, before: &mut Vec<(usize, bool)>) -> Result<Fault, Stop> {
    let mut is_part = false;
    loop {
        let text = if is_part { model.part(3)?.1 } else { model.next_line()?.1 };
        send(sent, before, &text.to_ascii_uppercase()).map_err(Some)?;
        if !is_part && text == b"q" {
            return Ok(Fault("closed", None));
        }
        is_part = !is_part && text.starts_with(b"p");
    }
}

fn conversations(random: &mut Random, asked: &mut Asked) {
    let source = random.joined(&[b"\n", b"aB", b"\r\n", b"\np", b"Cd", b"q", b"\r", b"\nq\n", b"p\n", b"\xe9"]);
    let size = random.size(8);
    let (reads, writes) = (slow(random), slow(random));
    calls::ask_conversation(asked, &source, size, &reads, &writes);
    let (mut sent, mut before, want) = (Vec::new(), Vec::new(), &mut asked.want);
    want.put(converse(&mut Model::new(&source, size), &mut sent, &mut before));
    want.put(&sent);
    want.fails(Needs::Memory, 0, Failed);
    // A reply that there is no memory for ends the conversation. An empty one needs none.
    for (length, is_empty) in before {
        want.fails(Needs::memory_if(!is_empty), 0, ("write", &sent[..length]));
    }
}

/// Bytes past 64 KiB or 128 KiB, with CR, LF and non-ASCII bytes at the borders of buffers.
pub fn long_source(random: &mut Random) -> Vec<u8> {
    let border = *random.pick(&[32_768, 65_536, 131_072]);
    let mut source = vec![b'a'; if random.is_small() { 8 } else { border + random.below(300) }];
    for _ in 0..random.count(12) {
        let at = (border + random.below(5)).saturating_sub(3);
        let at = if random.below(2) == 0 { at } else { random.below(source.len()) };
        if let Some(byte) = source.get_mut(at) {
            *byte = *random.pick(b"\r\n\r\n\"\x01Z");
        }
    }
    if random.below(4) == 0 {
        let at = (border + random.below(5)).saturating_sub(2);
        if let Some(byte) = source.get_mut(at) {
            *byte = 0x80 + random.below(128) as u8;
        }
    }
    source
}
