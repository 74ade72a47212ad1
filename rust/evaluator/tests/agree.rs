//! The evaluator against itself: the plain reading and the linear one give the same verdicts, and what document 01
//! asks to be proved of the definitions holds of them.

use evaluator::log::{self, Record};
use evaluator::model::Point;
use evaluator::random::{self, Random};
use evaluator::rule::{self, Rule, NO_REACH};
use evaluator::{linear, model, reading};

/// A random rule of either version, and a log: its positions.
fn drawn(seed: u64, entries: usize, records: usize) -> (Rule, Vec<Record>) {
    let mut r = Random::new(seed);
    let (rule_shape, log_shape) = random::shapes(&mut r, entries, records);
    let bytes = random::rule(&mut r, rule_shape);
    (rule::parse(&bytes).unwrap(), random::log(&mut r, log_shape))
}

#[test]
fn plain_and_linear_readings_agree() {
    let (mut verdicts, mut yes) = (0, 0);
    for seed in 0..20_000 {
        let (rule, log) = drawn(seed, 12, 40);
        let plain = reading::verdicts(&rule, &log);
        assert_eq!(plain, linear::verdicts(&rule, &log), "seed {seed}: {rule:?} {log:?}");
        let closed = reading::closed_verdicts(&rule, &log);
        assert_eq!(closed, linear::closed_verdicts(&rule, &log), "seed {seed}, closed: {rule:?} {log:?}");
        assert!(closed.starts_with(&plain) && closed.len() == log.len(), "seed {seed}: {rule:?} {log:?}");
        verdicts += plain.len() * rule.formulas();
        yes += plain.iter().map(|byte| byte.count_ones()).sum::<u32>();
    }
    println!("20,000 rules and logs, {verdicts} verdicts, {yes} of them yes");
}

/// "Each bit is the verdict that its formula would get in a run of its own": a run of version 1. A position has a verdict
/// when it has one in each of these runs.
#[test]
fn each_bit_is_the_verdict_of_its_formula_alone() {
    let (mut bits, mut held_back) = (0, 0);
    for seed in 0..20_000 {
        let (rule, log) = drawn(seed, 12, 40);
        if rule.entries.is_empty() {
            continue;
        }
        let alone: Vec<Rule> = rule.split().into_iter().map(|part| rule::parse(&rule::encode(part)).unwrap()).collect();
        assert_eq!(alone.len(), rule.formulas());
        assert_eq!(alone.iter().map(|one| one.reach).max(), Some(rule.reach), "seed {seed}: {rule:?}");
        assert_eq!(alone.iter().map(|one| one.depth).max(), Some(rule.depth), "seed {seed}: {rule:?}");
        for verdicts in [reading::verdicts, reading::closed_verdicts] {
            let together = verdicts(&rule, &log);
            let runs: Vec<Vec<u8>> = alone.iter().map(|one| verdicts(one, &log)).collect();
            assert_eq!(runs.iter().map(Vec::len).min(), Some(together.len()), "seed {seed}: {rule:?} {log:?}");
            for (i, &byte) in together.iter().enumerate() {
                let sum = runs.iter().enumerate().map(|(k, run)| run[i] << k).sum();
                assert_eq!(byte, sum, "seed {seed}, position {i}: {rule:?} {log:?}");
            }
            bits += together.len() * rule.formulas();
            held_back += runs.iter().map(|run| run.len() - together.len()).sum::<usize>();
        }
    }
    println!("{bits} bits; {held_back} answers were held back by another formula");
    assert!(held_back > 0);
}

/// "An answer never changes when the log is lengthened."
#[test]
fn lengthening_keeps_answers() {
    for seed in 0..3_000 {
        let (rule, log) = drawn(seed, 8, 30);
        let mut before = Vec::new();
        for n in 0..=log.len() {
            let now = reading::verdicts(&rule, &log[..n]);
            assert!(now.starts_with(&before), "seed {seed}, {n} records: {rule:?} {log:?}");
            before = now;
        }
    }
}

/// "For rules without next, position i is answered whenever the last record lies more than the reach after i", where the
/// last position stands for the last record.
#[test]
fn reach_bounds_the_wait() {
    let mut checked = 0;
    for seed in 0..20_000 {
        let (rule, log) = drawn(seed, 8, 40);
        if rule.reach == NO_REACH || log.is_empty() {
            continue;
        }
        let answered = linear::verdicts(&rule, &log).len();
        let last = log[log.len() - 1].time;
        for (i, r) in log.iter().enumerate() {
            if (last - r.time) as u64 > rule.reach {
                checked += 1;
                assert!(i < answered, "seed {seed}, position {i}: {rule:?} {log:?}");
            }
        }
    }
    println!("{checked} positions beyond the reach");
}

/// The model's list of calls gives, laid end to end, the verdicts of one run; those of a closing, if closings end it. Its
/// log has service records, and is trimmed before half of the calls.
#[test]
fn calls_laid_end_to_end_are_one_run() {
    let (mut service, mut dropped) = (0, 0);
    for seed in 0..2_000 {
        let mut r = Random::new(seed);
        let (rule_shape, log_shape) = random::shapes(&mut r, 8, 40);
        let bytes = random::rule(&mut r, rule_shape);
        let rule = rule::parse(&bytes).unwrap();
        let (version, records) = random::any_log(&mut r, log_shape);
        let positions = log::positions(version, &records);
        service += records.len() - positions.len();
        let words = rule.words as usize;
        let mut point = model::open(&bytes, words).unwrap();
        let mut turn = 0;
        let mut call = |point: &mut Point, closing: bool, n: usize, sheet: usize| {
            let mut log = log::encode_as(version, &records[..n]);
            turn += 1;
            if version == 2 && turn % 2 == 0 {
                log = point.trim(&bytes, &log, words, log.len() + 8).unwrap();
                dropped += log::parse(&log).unwrap().dropped;
            }
            point.carry_on(closing, &bytes, &log, words, sheet, &records).unwrap().more
        };
        // A list that does not catch up is closed as well.
        let (mut n, mut more, catches_up) = (0, true, !r.one_in(3));
        while n < records.len() || (more && catches_up) {
            n = r.from_to(n, records.len());
            more = call(&mut point, false, n, r.below(6));
        }
        let one_run = reading::verdicts(&rule, &positions);
        assert!(one_run.starts_with(&point.sheet), "seed {seed}: {rule:?} {records:?}");
        assert!(!catches_up || one_run == point.sheet, "seed {seed}: {rule:?} {records:?}");
        while call(&mut point, true, n, r.below(6)) {}
        assert_eq!(point.sheet, reading::closed_verdicts(&rule, &positions), "seed {seed}: {rule:?} {records:?}");
        // Where nothing is wanted any more, the first wanted is the record after all.
        assert!(rule.depth > 0 || point.wanted(&rule) == records.len(), "seed {seed}: {rule:?} {records:?}");
    }
    assert!(service > 5_000, "{service} service records");
    assert!(dropped > 5_000, "{dropped} records dropped");
}
