//! The verdicts of [`crate::reading`] in time proportional to the log: ranges of positions and running counts.
//!
//! For since and until the positions j that fit position i are one range: times never fall, so the gap is
//! within the interval on a range, and left holds up to i from one position on. Whether right holds in a range
//! is a difference of running counts.

use crate::log::Record;
use crate::reading::{self, Reading};
use crate::rule::{Entry, Rule, LETTER, NEXT, NOT, OR, PREVIOUS, SINCE, UNTIL};

/// The verdicts of a log: A bytes, each with the plain reading of every formula at its position.
pub fn verdicts(rule: &Rule, log: &[Record]) -> Vec<u8> {
    reading::settled(&of_formulas(rule, log), log.len())
}

/// The verdicts of a log that is closed: the plain reading at all N positions.
pub fn closed_verdicts(rule: &Rule, log: &[Record]) -> Vec<u8> {
    reading::bytes(&of_formulas(rule, log), log.len())
}

/// What stands on the stack in the end: the last entry of each formula.
fn of_formulas(rule: &Rule, log: &[Record]) -> Vec<Reading> {
    let mut stack: Vec<Reading> = Vec::new();
    for e in &rule.entries {
        let ops = stack.split_off(stack.len() - e.operands());
        stack.push(evaluate(e, ops, log));
    }
    stack
}

fn evaluate(e: &Entry, mut ops: Vec<Reading>, log: &[Record]) -> Reading {
    let n = log.len();
    let answered = ops.iter().map(|o| o.answered).min().unwrap_or(n);
    let within = |earlier: usize, later: usize| e.within(log[earlier].time, log[later].time);
    let right = if ops.len() == 2 { ops.pop().unwrap().holds } else { Vec::new() };
    let left = ops.pop().map_or(Vec::new(), |o| o.holds);
    match e.kind {
        LETTER => {
            let holds = log.iter().map(|r| r.letters >> e.letter & 1 == 1).collect();
            Reading { holds, answered }
        }
        NOT => Reading { holds: left.iter().map(|b| !b).collect(), answered },
        OR => {
            let holds = (0..n).map(|i| left[i] || right[i]).collect();
            Reading { holds, answered }
        }
        PREVIOUS => {
            let holds = (0..n).map(|i| i > 0 && within(i - 1, i) && left[i - 1]).collect();
            Reading { holds, answered: (answered + 1).min(n) }
        }
        NEXT => {
            let holds = (0..n).map(|i| i + 1 < n && within(i, i + 1) && left[i + 1]).collect();
            Reading { holds, answered: answered.saturating_sub(1) }
        }
        SINCE => Reading { holds: since(e, &left, &right, log), answered },
        _ => {
            debug_assert_eq!(e.kind, UNTIL);
            let holds = until(e, &left, &right, log, n);
            let met = until(e, &left, &right, log, answered);
            let answered = until_answered(e, &left, &met, log, answered);
            Reading { holds, answered }
        }
    }
}

/// How many of the first i booleans hold, for every i.
fn counts(holds: &[bool]) -> Vec<usize> {
    let mut sum = 0;
    let mut all = vec![0];
    for &b in holds {
        sum += b as usize;
        all.push(sum);
    }
    all
}

/// Since at every i: right holds at some j of `from..to`, where `from` is the first j that is at most high
/// before i and not before the latest failure of left, and `to` the first that is less than low before i.
fn since(e: &Entry, left: &[bool], right: &[bool], log: &[Record]) -> Vec<bool> {
    let sums = counts(right);
    let (mut failed, mut from, mut to) = (0, 0, 0);
    (0..log.len())
        .map(|i| {
            if !left[i] {
                failed = i;
            }
            while log[i].time - log[from].time > e.high {
                from += 1;
            }
            while to <= i && log[i].time - log[to].time >= e.low {
                to += 1;
            }
            sums[to] > sums[to.min(from.max(failed))]
        })
        .collect()
}

/// Until at every i, met by some j below the end: right holds at some j of `from..to`, where `from` is the first
/// j from i on that is at least low after i, and `to` lies behind the first failure of left from i on and behind
/// the last j that is at most high after i.
fn until(e: &Entry, left: &[bool], right: &[bool], log: &[Record], end: usize) -> Vec<bool> {
    let sums = counts(&right[..end]);
    let (mut failure, mut from, mut to) = (0, 0, 0);
    (0..end)
        .map(|i| {
            failure = failure.max(i);
            while failure < end && left[failure] {
                failure += 1;
            }
            from = from.max(i);
            while from < end && log[from].time - log[i].time < e.low {
                from += 1;
            }
            to = to.max(i);
            while to < end && log[to].time - log[i].time <= e.high {
                to += 1;
            }
            sums[to.min(failure + 1)] > sums[from.min(to.min(failure + 1))]
        })
        .collect()
}

/// The first position below m that is not settled, or m.
fn until_answered(e: &Entry, left: &[bool], met: &[bool], log: &[Record], m: usize) -> usize {
    let failures = m - counts(&left[..m])[m];
    let mut before = 0;
    for i in 0..m {
        // Times never fall, so some position from i to m lies more than high after i if the last of them does.
        let last = m.min(log.len() - 1);
        let too_late = log[last].time - log[i].time > e.high;
        if !met[i] && before == failures && !too_late {
            return i;
        }
        before += !left[i] as usize;
    }
    m
}
