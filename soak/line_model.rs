//! A line reader by a plain loop over the bytes of its source.

use crate::asked::{Answer, Fault};
use crate::calls::Step;
use crate::kinds::slices::non_ascii;

/// Why a reader returns no line: `None` at the end, or an error and its position.
pub type Stop = Option<Fault>;

/// A line: its start, its body and the name of its ending.
pub type Line<'a> = (usize, &'a [u8], &'static str);

const READ: Stop = Some(Fault("read", None));

/// A reader. Its source gives one byte a call and fails at the call number `fails`.
#[derive(Clone, Copy)]
pub struct Model<'a> {
    source: &'a [u8],
    size: usize,
    fails: usize,
    pub start: usize,
    /// 0 for any ending, 1 for CR LF, 2 for CR LF alone.
    endings: u8,
    has_ended: bool,
    error: Option<Stop>,
    /// How many calls the source has had.
    pub calls: usize,
}

impl<'a> Model<'a> {
    pub fn new(source: &'a [u8], size: usize) -> Model<'a> {
        Model { source, size, fails: usize::MAX, start: 0, endings: 0, has_ended: false, error: None, calls: 0 }
    }

    /// A reader whose source fails at a call.
    pub fn failing(source: &'a [u8], size: usize, fails: usize) -> Model<'a> {
        Model { fails, ..Model::new(source, size) }
    }

    /// What is at a position: a byte, or `None` at the end.
    fn at(&self, place: usize) -> Result<Option<u8>, Stop> {
        if place >= self.fails {
            return Err(READ);
        }
        Ok(self.source.get(place).copied())
    }

    fn follows_cr(&self, place: usize) -> bool {
        place > self.start && self.source[place - 1] == b'\r'
    }

    /// Whether a line ends with the LF at a position.
    fn ends(&self, place: usize) -> bool {
        self.source[place] == b'\n' && (self.endings == 0 || self.follows_cr(place))
    }

    /// The next line.
    pub fn next_line(&mut self) -> Result<Line<'a>, Stop> {
        self.next(true, None)
    }

    /// The next line, which is ASCII or may have any bytes; or the next text up to a byte.
    pub fn next(&mut self, is_ascii: bool, until: Option<u8>) -> Result<Line<'a>, Stop> {
        if let Some(error) = self.error {
            return Err(error);
        }
        if self.has_ended {
            return Err(None);
        }
        let (line, calls) = self.line(is_ascii, until);
        self.calls = self.calls.max(calls);
        match line {
            Ok((body, ending, next)) => {
                let start = std::mem::replace(&mut self.start, next);
                self.has_ended = ending == "none";
                Ok((start, body, ending))
            }
            Err(None) => {
                self.has_ended = true;
                Err(None)
            }
            Err(error) => {
                self.error = Some(error);
                Err(error)
            }
        }
    }

    /// The next line or text and where the one after it starts, by the first byte that shows a fault; and how many calls
    /// of the source that takes.
    fn line(&self, is_ascii: bool, until: Option<u8>) -> (Result<(&'a [u8], &'static str, usize), Stop>, usize) {
        let (start, is_strict) = (self.start, self.endings == 2 && until.is_none());
        let mut place = start;
        let line = loop {
            let byte = match self.at(place) {
                Err(error) => break Err(error),
                Ok(None) if is_strict && self.follows_cr(place) => break Err(Some(Fault("lone", Some(place - 1)))),
                Ok(None) if place == start => break Err(None),
                Ok(None) => break Ok((&self.source[start..], "none", place)),
                Ok(Some(byte)) => byte,
            };
            match byte {
                _ if place - start == self.size => break Err(Some(Fault("long", Some(start)))),
                128.. if is_ascii => break Err(Some(Fault("ascii", Some(place)))),
                _ if until == Some(byte) => break Ok((&self.source[start..place], "until", place + 1)),
                _ if until.is_some() => place += 1,
                b'\n' if self.follows_cr(place) => break Ok((&self.source[start..place - 1], "crlf", place + 1)),
                b'\n' if self.endings == 0 => break Ok((&self.source[start..place], "lf", place + 1)),
                b'\n' if is_strict => break Err(Some(Fault("lone", Some(place)))),
                _ if is_strict && self.follows_cr(place) => break Err(Some(Fault("lone", Some(place - 1)))),
                _ => place += 1,
            }
        };
        (line, place + 1)
    }

    /// The next `n` bytes with their start.
    pub fn part(&mut self, n: usize) -> Result<(usize, &'a [u8]), Stop> {
        if let Some(error) = self.error {
            return Err(error);
        }
        if self.has_ended {
            return Err(Some(Fault("incomplete", Some(0))));
        }
        let start = self.start;
        let (fault, calls) = self.fault_in_part(n);
        self.calls = self.calls.max(calls);
        match fault {
            Some(error) => {
                self.error = Some(error);
                Err(error)
            }
            None => {
                self.start += n;
                Ok((start, &self.source[start..start + n]))
            }
        }
    }

    /// The error of a part, and how many calls of the source it takes.
    fn fault_in_part(&self, n: usize) -> (Option<Stop>, usize) {
        if n > self.size {
            return (Some(Some(Fault("long", Some(self.start)))), self.calls);
        }
        for at in 0..n {
            let place = self.start + at;
            let error = match self.at(place) {
                Err(error) => error,
                Ok(None) => Some(Fault("incomplete", Some(at))),
                Ok(Some(128..)) => Some(Fault("ascii", Some(place))),
                Ok(Some(_)) => continue,
            };
            return (Some(error), place + 1);
        }
        (None, self.start + n)
    }

    /// Skips a line of up to `most` bytes, or what remains of one with a fault: its start, its length, and the position
    /// of its first non-ASCII byte.
    pub fn skip(&mut self, most: usize) -> Result<(usize, usize, Option<usize>), Stop> {
        match self.error {
            Some(Some(Fault("ascii" | "lone" | "long", _))) | None => (),
            Some(error) => return Err(error),
        }
        let start = self.start;
        if self.has_ended {
            return Ok((start, 0, None));
        }
        let mut place = start;
        let end = loop {
            // A CR at the end may belong to the ending, so it is not skipped.
            let skipped = place - usize::from(self.endings != 0 && self.follows_cr(place));
            let error = match self.at(place) {
                Err(error) => error,
                Ok(None) => break place,
                Ok(Some(_)) if place - start == most => Some(Fault("long", Some(start))),
                Ok(Some(_)) if self.ends(place) => break place + 1,
                Ok(Some(_)) => {
                    place += 1;
                    continue;
                }
            };
            (self.start, self.error) = (skipped, Some(error));
            self.calls = self.calls.max(place + 1);
            return Err(error);
        };
        (self.start, self.error) = (end, None);
        self.has_ended = place == end;
        self.calls = self.calls.max(place + 1);
        Ok((start, end - start, non_ascii(&self.source[start..end]).map(|at| start + at)))
    }

    /// What is answered to each step of `ask_reader`, and the position after it.
    pub fn run(&mut self, steps: &[Step], want: &mut Answer) {
        for step in steps {
            match step.kind {
                0 => want.put(self.next_line()),
                4 => want.put(self.part(step.at)),
                5 => want.put(self.next(false, None).map(|(start, body, ending)| {
                    let text = non_ascii(body).map_or(Ok(body), |at| Err(("ascii", start + at)));
                    (start, body, text, ending)
                })),
                6 => want.put(self.skip(step.at)),
                7 => want.put(self.next(true, Some(step.code)).map(|(start, text, _)| (start, text))),
                kind => self.endings = kind - 1,
            }
            want.put(self.start);
        }
    }
}
