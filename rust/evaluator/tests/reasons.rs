//! Reasons (document 02, paper 13): those of the worked cases, and what the paper claims of all of them.

use evaluator::log::{self, Record};
use evaluator::random::{self, LogShape, Random, RuleShape};
use evaluator::reason::{self, all_hold, reasons, taken_apart};
use evaluator::rule::{self, Rule};
use evaluator::{cases, reading};
use std::collections::HashMap;

#[test]
fn the_worked_reasons() {
    for case in cases::reasons() {
        let rule = rule::parse(&case.rule).unwrap();
        let file = log::parse(&case.log).unwrap();
        let positions = log::positions(file.version, &file.records);
        assert_eq!(reasons(&rule, &positions, case.formula), case.texts, "{}", case.name);
    }
}

fn drawn(r: &mut Random) -> (Rule, Vec<Record>) {
    let (rule_shape, log_shape) = random::shapes(r, 9, 20);
    let bytes = random::rule(r, rule_shape);
    (rule::parse(&bytes).unwrap(), random::log(r, log_shape))
}

/// "Every fact written holds in the plain reading", and the lines come to the verdict. What is taken apart is the whole text.
#[test]
fn every_fact_holds() {
    let mut r = Random::new(31);
    let mut facts = 0;
    for round in 0..20_000 {
        let (rule, log) = drawn(&mut r);
        let verdicts = reading::verdicts(&rule, &log);
        for formula in 0..rule.formulas() {
            let all = reasons(&rule, &log, formula);
            assert_eq!(all.len(), verdicts.len());
            for (i, text) in all.iter().enumerate() {
                let taken = taken_apart(&rule, text).unwrap_or_else(|| panic!("{round}: {rule:?} {text}"));
                assert_eq!(taken.yes, verdicts[i] >> formula & 1 == 1, "{round}: {rule:?} {log:?} {text}");
                if !rule.tops.is_empty() {
                    assert_eq!((taken.formula, taken.position), (formula, i));
                    assert_eq!(taken.facts.len(), text.lines().count());
                }
                assert!(all_hold(&taken.facts, &rule, &log), "{round}: {rule:?} {log:?} {text}");
                facts += taken.facts.len();
            }
        }
    }
    println!("{facts} facts");
    assert!(facts > 500_000);
}

/// "and together they force the verdict on any log in which they hold and no time falls": logs that are like the first but for some
/// letters, times, and records that were added or taken away.
#[test]
fn the_facts_force_the_verdict() {
    let mut r = Random::new(32);
    let (mut met, mut tried) = (0, 0);
    for round in 0..30_000 {
        let (rule, log) = drawn(&mut r);
        let answered = reading::verdicts(&rule, &log).len();
        if answered == 0 || rule.tops.is_empty() {
            continue;
        }
        let (formula, i) = (r.below(rule.formulas()), r.below(answered));
        let text = &reasons(&rule, &log, formula)[i];
        let taken = taken_apart(&rule, text).unwrap();
        for _ in 0..20 {
            let other = changed(&mut r, &log);
            tried += 1;
            if all_hold(&taken.facts, &rule, &other) {
                met += 1;
                let said = reading::closed_verdicts(&rule, &other)[i] >> formula & 1 == 1;
                assert_eq!(said, taken.yes, "{round}: {rule:?}\n{log:?}\n{other:?}\n{text}");
            }
        }
    }
    println!("{met} of {tried} other logs have the facts");
    assert!(met > 50_000, "{met} of {tried}");
}

/// A log that differs in some places, and whose times never fall.
fn changed(r: &mut Random, log: &[Record]) -> Vec<Record> {
    let mut other = log.to_vec();
    for _ in 0..r.from_to(1, 6) {
        if other.is_empty() {
            break;
        }
        let at = r.below(other.len());
        match r.below(5) {
            0 => other.truncate(at + 1),
            1 => {
                let last = other[other.len() - 1];
                let letters = r.draw() as u32 & 15;
                other.push(Record { time: last.time.saturating_add(r.below(4) as u32), letters });
            }
            2 => {
                let step = r.below(3) as u32;
                other[at..].iter_mut().for_each(|record| record.time = record.time.saturating_add(step));
            }
            3 => other[at].letters = r.draw() as u32 & 15,
            _ => other[at].letters ^= 1 << r.below(4),
        }
    }
    other
}

/// "Two different reasons of one rule never have the same text": over all logs of a few records, a text stands for one formula,
/// position and verdict.
#[test]
fn a_text_says_formula_position_and_verdict() {
    let mut r = Random::new(33);
    for round in 0..300 {
        let shape = RuleShape { entries: 7, letters: 2, high: 3 };
        let bytes = random::rule(&mut r, shape);
        let rule = rule::parse(&bytes).unwrap();
        let mut known: HashMap<String, (usize, usize, u8)> = HashMap::new();
        for _ in 0..60 {
            let shape = LogShape { records: r.from_to(1, 5), letters: 2, hold: 1, step: 2, start: 0 };
            let log = random::log(&mut r, shape);
            let verdicts = reading::verdicts(&rule, &log);
            for formula in 0..rule.formulas() {
                for (i, text) in reasons(&rule, &log, formula).into_iter().enumerate() {
                    if rule.tops.is_empty() {
                        assert_eq!(text, "empty\n");
                        continue;
                    }
                    let said = (formula, i, verdicts[i] >> formula & 1);
                    let before = *known.entry(text.clone()).or_insert(said);
                    assert_eq!(before, said, "{round}: {rule:?} {log:?} {text}");
                }
            }
        }
    }
}

/// What is no reason of the rule is not taken apart.
#[test]
fn other_texts_are_not_taken() {
    let rule = rule::parse(&cases::reasons()[0].rule).unwrap(); // P1's
    assert!(taken_apart(&rule, "2 0 until 2 left\n").is_some());
    for text in [
        "",
        "\n",
        "empty\n",
        "2 0 until 2 left",
        "2 0 until 2 left\n\n",
        "2 0 until 2 left\n2 0 until 2 left\n",
        "2 0 until 2 right\n",
        "2 0  until 2 left\n",
        "2 00 until 2 left\n",
        "2 0 until 02 left\n",
        "2 0 since 2 left\n",
        "0 0 e0 yes\n",
        "3 0 until 2 left\n",
    ] {
        assert_eq!(taken_apart(&rule, text), None, "{text:?}");
    }
}

/// The checks, each before the next.
#[test]
fn the_order_of_the_checks() {
    let [rule, file] = [&cases::reasons()[0].rule, &cases::reasons()[0].log].map(|bytes| bytes.to_vec());
    let records = log::parse(&file).unwrap().records;
    let fallen = |mut records: Vec<Record>| {
        records[1].time = 0;
        records
    };
    let of = |rule: &[u8], file: &[u8], k, i, room| reason::explain(rule, file, k, i, room);
    assert_eq!(of(&rule, &file, 0, 0, 17).as_deref(), Ok("2 0 until 2 left\n"));
    assert_eq!(of(&rule, &file, 0, 0, 16), Err(27));
    assert_eq!(of(&rule, &file, 1, 0, 17), Err(27));
    assert_eq!(of(&rule, &file, 0, 5, 17), Err(27));
    assert_eq!(of(&rule, &log::encode(&fallen(records.clone())), 1, 5, 0), Err(14));
    assert_eq!(of(&rule, &log::encode_trimmed(0, &fallen(records.clone())), 1, 5, 0), Err(14));
    assert_eq!(of(&rule, &log::encode_trimmed(1, &fallen(records.clone())), 1, 5, 0), Err(24));
    assert_eq!(of(&rule, &log::encode_trimmed(1_000_000, &fallen(records)), 1, 5, 0), Err(12));
    assert_eq!(of(&rule[..30], &file[..9], 1, 5, 0), Err(4));
}
