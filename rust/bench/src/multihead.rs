//! Document 002's multi-head monitor in plain Rust: boxed operators, run-length encoded histories.
//!
//! Figure 3's recursion with HYDRA's change that a step gives a verdict or finds the log at its end; figure 4's steps
//! for since and until. A verdict carries its time, as there. Unlike the checker, an until waits for both operands'
//! answers at a position before it uses that position's time, and a previous for its operand's answer at the position
//! itself, so that either may answer later over a future operator.

use evaluator::rule::{Entry, Rule, LETTER, NEXT, NOT, NO_END, OR, PREVIOUS, SINCE, UNTIL};
use std::collections::VecDeque;
use std::mem::size_of;

/// A time-stamped verdict.
pub type Verdict = (u32, bool);

/// A monitor gives the verdicts of its formula in turn, or none while its heads stand at the end of the records.
pub trait Monitor {
    fn next(&mut self, records: &[u8]) -> Option<Verdict>;

    /// The bytes of its state, submonitors included.
    fn bytes(&self) -> usize;
}

type Boxed = Box<dyn Monitor>;

/// The monitor of a rule that has entries, one formula: document 002 knows no empty rule and not several on one sheet.
pub fn monitor(rule: &Rule) -> Boxed {
    let mut stack: Vec<Boxed> = Vec::new();
    for e in &rule.entries {
        let built: Boxed = match e.kind {
            LETTER => Box::new(Letter { letter: e.letter, head: 0 }),
            NOT => Box::new(Not { operand: stack.pop().unwrap() }),
            PREVIOUS => Box::new(Previous { operand: stack.pop().unwrap(), interval: *e, before: None }),
            NEXT => Box::new(Next { operand: stack.pop().unwrap(), interval: *e, before: None }),
            kind => {
                let right = stack.pop().unwrap();
                let operands = Operands { left: stack.pop().unwrap(), right, cached: None };
                match kind {
                    OR => Box::new(Or { operands }),
                    SINCE => Box::new(Since { operands, interval: *e, before: None, history: History::default() }),
                    _ => Box::new(Until {
                        operands,
                        interval: *e,
                        before: None,
                        history: History::default(),
                        verdicts: Verdicts::default(),
                    }),
                }
            }
        };
        stack.push(built);
    }
    stack.pop().unwrap()
}

/// Some until or previous stands over a next or an until: only then may this monitor answer later than the papers ask.
pub fn may_answer_later(rule: &Rule) -> bool {
    let mut future = Vec::new();
    for (e, ops) in rule.entries.iter().zip(&rule.operands) {
        let below = ops.iter().any(|&o| future[o]);
        if (e.kind == UNTIL || e.kind == PREVIOUS) && below {
            return true;
        }
        future.push(below || e.kind == UNTIL || e.kind == NEXT);
    }
    false
}

/// Reads one record: its time and its letters.
#[inline]
pub fn read(records: &[u8], at: usize) -> Option<(u32, u32)> {
    let record: &[u8; 8] = records.get(8 * at..8 * at + 8)?.try_into().ok()?;
    let [a, b, c, d, e, f, g, h] = *record;
    Some((u32::from_be_bytes([a, b, c, d]), u32::from_be_bytes([e, f, g, h])))
}

struct Letter {
    letter: u8,
    head: usize,
}

impl Monitor for Letter {
    fn next(&mut self, records: &[u8]) -> Option<Verdict> {
        let (time, letters) = read(records, self.head)?;
        self.head += 1;
        Some((time, letters >> self.letter & 1 == 1))
    }

    fn bytes(&self) -> usize {
        size_of::<Self>()
    }
}

struct Not {
    operand: Boxed,
}

impl Monitor for Not {
    fn next(&mut self, records: &[u8]) -> Option<Verdict> {
        self.operand.next(records).map(|(time, b)| (time, !b))
    }

    fn bytes(&self) -> usize {
        size_of::<Self>() + self.operand.bytes()
    }
}

/// Two submonitors and the verdict of the left that waits for the right.
struct Operands {
    left: Boxed,
    right: Boxed,
    cached: Option<bool>,
}

impl Operands {
    #[inline]
    fn next(&mut self, records: &[u8]) -> Option<(u32, bool, bool)> {
        let left = match self.cached {
            Some(b) => b,
            None => self.left.next(records)?.1,
        };
        self.cached = Some(left);
        let (time, right) = self.right.next(records)?;
        self.cached = None;
        Some((time, left, right))
    }

    fn bytes(&self) -> usize {
        self.left.bytes() + self.right.bytes()
    }
}

struct Or {
    operands: Operands,
}

impl Monitor for Or {
    fn next(&mut self, records: &[u8]) -> Option<Verdict> {
        let (time, left, right) = self.operands.next(records)?;
        Some((time, left || right))
    }

    fn bytes(&self) -> usize {
        size_of::<Self>() + self.operands.bytes()
    }
}

struct Previous {
    operand: Boxed,
    interval: Entry,
    before: Option<Verdict>,
}

impl Monitor for Previous {
    fn next(&mut self, records: &[u8]) -> Option<Verdict> {
        let (time, b) = self.operand.next(records)?;
        let before = self.before.replace((time, b));
        Some((time, before.is_some_and(|(t, b)| b && self.interval.within(t, time))))
    }

    fn bytes(&self) -> usize {
        size_of::<Self>() + self.operand.bytes()
    }
}

struct Next {
    operand: Boxed,
    interval: Entry,
    before: Option<u32>,
}

impl Monitor for Next {
    fn next(&mut self, records: &[u8]) -> Option<Verdict> {
        loop {
            let (time, b) = self.operand.next(records)?;
            if let Some(t) = self.before.replace(time) {
                return Some((t, b && self.interval.within(t, time)));
            }
        }
    }

    fn bytes(&self) -> usize {
        size_of::<Self>() + self.operand.bytes()
    }
}

/// A list of zeros, one for each witness or candidate, between the time differences, run-length encoded.
#[derive(Default)]
struct History {
    runs: VecDeque<(u32, u32)>,
    sum: u64,
}

impl History {
    fn push(&mut self, value: u32) {
        self.sum += value as u64;
        match self.runs.back_mut() {
            Some((same, count)) if *same == value => *count += 1,
            _ => self.runs.push_back((value, 1)),
        }
    }

    fn is_empty(&self) -> bool {
        self.runs.is_empty()
    }

    fn clear(&mut self) {
        self.runs.clear();
        self.sum = 0;
    }

    /// SPLIT: drops from the front until the list is empty, or starts with a zero and its sum is accepted. Each run of
    /// zeros dropped is handed on with the sum of what stands behind it.
    fn split(&mut self, accepted: impl Fn(u64) -> bool, mut dropped: impl FnMut(u64, u32)) {
        while let Some(&(value, count)) = self.runs.front() {
            if value == 0 && accepted(self.sum) {
                return;
            }
            self.runs.pop_front();
            self.sum -= value as u64 * count as u64;
            if value == 0 {
                dropped(self.sum, count);
            }
        }
    }

    fn bytes(&self) -> usize {
        self.runs.capacity() * size_of::<(u32, u32)>()
    }
}

struct Since {
    operands: Operands,
    interval: Entry,
    before: Option<Verdict>,
    history: History,
}

impl Monitor for Since {
    fn next(&mut self, records: &[u8]) -> Option<Verdict> {
        let (time, left, right) = self.operands.next(records)?;
        let (low, high) = (self.interval.low as u64, self.interval.high);
        let mut holds = false;
        if let Some((t, b)) = self.before {
            holds = b;
            if t < time && !self.history.is_empty() {
                self.history.push(time - t);
            }
        }
        if high != NO_END {
            self.history.split(|sum| sum <= high as u64, |_, _| {});
        }
        if !left {
            self.history.clear();
            holds = false;
        }
        if right {
            self.history.push(0);
        }
        if high != NO_END {
            holds = !self.history.is_empty() && self.history.sum >= low;
        } else {
            self.history.split(|sum| sum < low, |_, _| holds = true);
        }
        self.before = Some((time, holds));
        Some((time, holds))
    }

    fn bytes(&self) -> usize {
        size_of::<Self>() + self.operands.bytes() + self.history.bytes()
    }
}

/// Verdicts produced and not yet given, run-length encoded.
#[derive(Default)]
struct Verdicts(VecDeque<(Verdict, u32)>);

impl Verdicts {
    fn push(&mut self, verdict: Verdict, count: u32) {
        match self.0.back_mut() {
            Some((same, n)) if *same == verdict => *n += count,
            _ => self.0.push_back((verdict, count)),
        }
    }

    fn take(&mut self) -> Option<Verdict> {
        let (verdict, count) = self.0.front_mut()?;
        let verdict = *verdict;
        *count -= 1;
        if *count == 0 {
            self.0.pop_front();
        }
        Some(verdict)
    }
}

struct Until {
    operands: Operands,
    interval: Entry,
    before: Option<u32>,
    history: History,
    verdicts: Verdicts,
}

impl Until {
    fn step(&mut self, time: u32, left: bool, right: bool) {
        let (low, high) = (self.interval.low as u64, self.interval.high as u64);
        let (history, verdicts) = (&mut self.history, &mut self.verdicts);
        if let Some(t) = self.before.replace(time) {
            if t < time && !history.is_empty() {
                history.push(time - t);
            }
        }
        history.split(|sum| sum <= high, |sum, count| verdicts.push((time - sum as u32, false), count));
        history.push(0);
        if right {
            history.split(|sum| sum < low, |sum, count| verdicts.push((time - sum as u32, true), count));
        }
        if !left {
            history.split(|_| false, |sum, count| verdicts.push((time - sum as u32, false), count));
        }
    }
}

impl Monitor for Until {
    fn next(&mut self, records: &[u8]) -> Option<Verdict> {
        loop {
            if let Some(verdict) = self.verdicts.take() {
                return Some(verdict);
            }
            let (time, left, right) = self.operands.next(records)?;
            self.step(time, left, right);
        }
    }

    fn bytes(&self) -> usize {
        let verdicts = self.verdicts.0.capacity() * size_of::<(Verdict, u32)>();
        size_of::<Self>() + self.operands.bytes() + self.history.bytes() + verdicts
    }
}

#[cfg(test)]
mod tests {
    use super::{may_answer_later, monitor};
    use evaluator::random::{self, Random};
    use evaluator::rule;
    use evaluator::{log, reading};

    #[test]
    fn verdicts_are_those_of_document_01() {
        let (mut equal, mut later) = (0, 0);
        for seed in 0..20_000 {
            let mut r = Random::new(seed);
            let (rule_shape, log_shape) = random::shapes(&mut r, 12, 40);
            let rule = rule::parse(&rule::encode(&random::valid_entries(&mut r, rule_shape))).unwrap();
            if rule.entries.is_empty() {
                continue;
            }
            let records = random::log(&mut r, log_shape);
            let file = log::encode(&records);
            let mut monitor = monitor(&rule);
            let got: Vec<_> = std::iter::from_fn(|| monitor.next(&file[8..])).collect();
            let expected = reading::verdicts(&rule, &records);
            assert!(got.len() <= expected.len(), "seed {seed}");
            for (at, (time, holds)) in got.iter().enumerate() {
                assert_eq!((*time, u8::from(*holds)), (records[at].time, expected[at]), "seed {seed}, position {at}");
            }
            if may_answer_later(&rule) {
                later += (got.len() < expected.len()) as usize;
            } else {
                assert_eq!(got.len(), expected.len(), "seed {seed}");
                equal += 1;
            }
        }
        println!("{equal} rules with equal counts; {later} of the others answered fewer");
    }
}
