//! Each allocation of a question fails in turn.
//!
//! The answers must be those that the question declares by `Answer::fails`, in this order, and at last the one with
//! ample memory. If it declares none, a call whose allocation fails answers `!` and nothing else.

use crate::asked::{Asked, Failure};
use crate::heap::{self, Fails};

/// More allocations than a question makes.
const MANY: u64 = 10_000;

/// The answers of a question whose allocations fail.
struct Expected {
    /// The answer with ample memory.
    whole: Vec<u8>,
    /// What is different in each of the answers, in the order of the allocations.
    failures: Vec<Failure>,
    /// The one that came last, or is to come next.
    at: usize,
    has_come: bool,
}

impl Expected {
    /// What a question declares that was asked with ample memory.
    fn new(asked: &mut Asked) -> Expected {
        let mut failures = std::mem::take(&mut asked.want.failures);
        if failures.is_empty() {
            let of_call = |range| Failure { range, instead: b"!".into(), is_sure: true };
            failures = asked.calls_that_allocate().map(of_call).collect();
        }
        let whole = asked.want.bytes.clone();
        failures.dedup_by(|next, last| {
            let is_equal = changed(&whole, next) == changed(&whole, last);
            last.is_sure |= is_equal && next.is_sure;
            is_equal
        });
        Expected { whole, failures, at: 0, has_come: false }
    }

    /// The expected answer that came last, or is to come next.
    fn answer(&self) -> Vec<u8> {
        self.failures.get(self.at).map_or(self.whole.clone(), |failure| changed(&self.whole, failure))
    }

    /// Whether an answer may come after a failure: it is the one that came last, or the next one. One that is not sure
    /// may be left out.
    fn takes(&mut self, got: &[u8]) -> bool {
        while self.at < self.failures.len() {
            if self.answer() == got {
                self.has_come = true;
                return true;
            }
            if self.is_missing() {
                return false;
            }
            self.at += 1;
            self.has_come = false;
        }
        false
    }

    /// Whether the answer that is to come next may not be left out.
    fn is_missing(&self) -> bool {
        !self.has_come && self.failures.get(self.at).is_some_and(|failure| failure.is_sure)
    }

    /// Whether an answer may come without a failure.
    fn ends_with(&mut self, got: &[u8]) -> bool {
        while self.at < self.failures.len() {
            if self.is_missing() {
                return false;
            }
            self.at += 1;
            self.has_come = false;
        }
        self.whole == got
    }
}

/// The answer in which a failure changes a range.
fn changed(whole: &[u8], failure: &Failure) -> Vec<u8> {
    [&whole[..failure.range.start], &failure.instead, &whole[failure.range.end..]].concat()
}

/// Asks a question again and again: with its first allocation failing, its second and so on, until none fails. With
/// each one fail others, as `fails` says. Returns the number of these questions, or the number of the allocation with
/// which the answer is not the expected one, which is then that of `asked`.
pub fn each(asked: &mut Asked, fails: Fails, mut question: impl FnMut(&mut Asked)) -> Result<u64, u64> {
    asked.clear();
    asked.lets_fail = true;
    heap::begin();
    question(asked);
    asked.lets_fail = false;
    if asked.want.has_other_failures {
        return Ok(1);
    }
    let mut expected = Expected::new(asked);
    for first in 0..MANY {
        asked.clear();
        heap::begin_failing(first, fails);
        question(asked);
        let has_failed = heap::count() > first;
        heap::begin();
        let is_right = if has_failed { expected.takes(asked.got()) } else { expected.ends_with(asked.got()) };
        if !is_right {
            asked.want.bytes = expected.answer();
            return Err(first);
        }
        if !has_failed {
            return Ok(first + 1);
        }
    }
    Err(MANY)
}
