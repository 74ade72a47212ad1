//! The plain reading and the settling rules, each written as document 01 writes it.
//!
//! A log is its positions here: service records are taken out before. Times must never fall. Nothing here is fast: since
//! and until take up to the cube of the log.

use crate::log::Record;
use crate::rule::{Entry, Rule, LETTER, NEXT, NOT, OR, PREVIOUS, SINCE, UNTIL};

/// One entry evaluated over a whole log.
pub(crate) struct Reading {
    /// The plain reading at every position.
    pub(crate) holds: Vec<bool>,
    /// The number of positions answered.
    pub(crate) answered: usize,
}

/// The verdicts of a log: A bytes, each with the plain reading of every formula at its position.
pub fn verdicts(rule: &Rule, log: &[Record]) -> Vec<u8> {
    settled(&of_formulas(rule, log), log.len())
}

/// The verdicts of a log that is closed: "every remaining position gets the plain reading's value on the log as it ends.
/// A is then N."
pub fn closed_verdicts(rule: &Rule, log: &[Record]) -> Vec<u8> {
    bytes(&of_formulas(rule, log), log.len())
}

/// "Position i has a verdict when every formula has answered it." "A count of 0 now means that every position is yes: 16
/// words, reach 0, A equals N."
pub(crate) fn settled(formulas: &[Reading], n: usize) -> Vec<u8> {
    bytes(formulas, formulas.iter().map(|formula| formula.answered).min().unwrap_or(n))
}

/// The first n verdicts: "bit k of the verdict byte is formula k's answer, in rule order from 0". An empty rule says yes.
pub(crate) fn bytes(formulas: &[Reading], n: usize) -> Vec<u8> {
    let bit = |(k, formula): (usize, &Reading), i: usize| u8::from(formula.holds[i]) << k;
    let byte = |i: usize| formulas.iter().enumerate().map(|formula| bit(formula, i)).sum();
    (0..n).map(|i| if formulas.is_empty() { 1 } else { byte(i) }).collect()
}

/// The last entry of each formula.
fn of_formulas(rule: &Rule, log: &[Record]) -> Vec<Reading> {
    let all = of_entries(rule, log);
    all.into_iter().enumerate().filter(|(k, _)| rule.tops.contains(k)).map(|(_, formula)| formula).collect()
}

/// Every entry.
pub(crate) fn of_entries(rule: &Rule, log: &[Record]) -> Vec<Reading> {
    let mut all: Vec<Reading> = Vec::new();
    for (e, ops) in rule.entries.iter().zip(&rule.operands) {
        let ops: Vec<&Reading> = ops.iter().map(|&o| &all[o]).collect();
        let holds = (0..log.len()).map(|i| holds(e, &ops, log, i)).collect();
        let answered = answered(e, &ops, log);
        all.push(Reading { holds, answered });
    }
    all
}

/// The plain reading of an entry at position i, given its operands' readings.
fn holds(e: &Entry, ops: &[&Reading], log: &[Record], i: usize) -> bool {
    let within = |earlier: usize, later: usize| e.within(log[earlier].time, log[later].time);
    match e.kind {
        LETTER => log[i].letters >> e.letter & 1 == 1,
        NOT => !ops[0].holds[i],
        OR => ops[0].holds[i] || ops[1].holds[i],
        PREVIOUS => i > 0 && within(i - 1, i) && ops[0].holds[i - 1],
        NEXT => i + 1 < log.len() && within(i, i + 1) && ops[0].holds[i + 1],
        SINCE => {
            let (left, right) = (&ops[0].holds, &ops[1].holds);
            (0..=i).any(|j| within(j, i) && right[j] && (j + 1..=i).all(|k| left[k]))
        }
        _ => until_met(e, ops, log, i, log.len()),
    }
}

/// The until's condition at i, met by some j below the end given.
fn until_met(e: &Entry, ops: &[&Reading], log: &[Record], i: usize, end: usize) -> bool {
    let (left, right) = (&ops[0].holds, &ops[1].holds);
    let within = |j: usize| e.within(log[i].time, log[j].time);
    (i..end).any(|j| within(j) && right[j] && (i..j).all(|k| left[k]))
}

/// How many positions an entry answers.
fn answered(e: &Entry, ops: &[&Reading], log: &[Record]) -> usize {
    let smaller = ops.iter().map(|o| o.answered).min();
    match e.kind {
        LETTER => log.len(),
        // "Previous now answers one position more than its operand, never more than N."
        PREVIOUS => (smaller.unwrap() + 1).min(log.len()),
        NEXT => smaller.unwrap().saturating_sub(1),
        UNTIL => {
            let m = smaller.unwrap();
            (0..m).find(|&i| !until_settled(e, ops, log, i, m)).unwrap_or(m)
        }
        _ => smaller.unwrap(),
    }
}

/// Position i < m of an until is settled.
fn until_settled(e: &Entry, ops: &[&Reading], log: &[Record], i: usize, m: usize) -> bool {
    let left = &ops[0].holds;
    let more_than_high_after = |q: usize| log[q].time - log[i].time > e.high;
    let yes = until_met(e, ops, log, i, m);
    let left_no = (i..m).any(|k| !left[k]);
    let too_late = (i..=m).any(|q| q < log.len() && more_than_high_after(q));
    let no = !yes && (left_no || too_late);
    // A position settled either way has the plain reading's value on the whole log.
    assert!(!yes || until_met(e, ops, log, i, log.len()));
    assert!(!no || !until_met(e, ops, log, i, log.len()));
    yes || no
}
