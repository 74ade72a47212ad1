//! The reason for a no, from the records that are as they were seen and no others.
//!
//! The library explains whole logs. It is handed a part of the log here, from the first position on that the verdict can depend on to
//! the last: a log of its own in which every part of the formula means, where it is asked, what it means in the whole.

use super::known::{Held, Span};
use super::sentence::{Place, Sentence};
use crate::letters::Letters;
use crate::parts::{entries, Entry, Kind};
use havdrims::{Log, Reason, Refusal, Rule};
use std::cell::Cell;

/// Why there is no reason.
#[derive(Clone, Copy, Debug, PartialEq, Eq)]
pub enum Missing {
    /// Records that it needs were overwritten or dropped.
    Lost,
    /// The card was closed before the log had settled it.
    Closed,
    /// Too many others were looked for.
    NotAsked,
}

impl Missing {
    pub fn said(self) -> &'static str {
        match self {
            Missing::Lost => "reason not available: the log no longer holds the records that it needs",
            Missing::Closed => "the log ended before it was settled, and the card was closed",
            Missing::NotAsked => "reason not looked for",
        }
    }
}

/// The positions that are looked at for all reasons of a page, at most, and so many that a reason counts besides.
pub const MOST_LOOKED_AT: u64 = 20_000_000;
const FOR_EACH: u64 = 1_000;

/// What explains the verdicts of one formula.
pub struct Reasons<'a> {
    /// The formula alone.
    rule: Rule,
    entries: Vec<Entry>,
    /// What the card has seen of the log, from its first record on.
    log: Log<'a>,
    spans: &'a [Span],
    /// The number of the card's first record in the whole log.
    first: u64,
    /// The positions that may still be looked at.
    left: Cell<u64>,
}

/// A reason, and the positions that it counts.
struct Explained<'a> {
    reason: Reason,
    held: &'a [Held],
    /// The first of them is the card's first.
    begins: bool,
}

impl<'a> Reasons<'a> {
    /// Of a rule of one formula. So many positions are looked at, at most.
    pub fn new(rule: &Rule, letters: &Letters, log: Log<'a>, spans: &'a [Span], first: u64, most: u64) -> Reasons<'a> {
        Reasons { rule: rule.clone(), entries: entries(rule, letters), log, spans, first, left: Cell::new(most) }
    }

    /// The reason for the no of a position.
    pub fn of(&self, position: u64) -> Result<Sentence, Missing> {
        let Explained { reason, held, begins } = self.explained(position)?;
        Sentence::of(&self.entries, &reason, &Place { held, first: self.first, begins }).ok_or(Missing::Lost)
    }

    fn explained(&self, position: u64) -> Result<Explained<'a>, Missing> {
        let span = self.spans.iter().find(|span| span.positions().contains(&position)).ok_or(Missing::Lost)?;
        let window = Window { entries: &self.entries, held: &span.held, whole: span.begins_the_card() };
        let at = (position - span.first) as usize;
        let last = self.entries.len() - 1;
        let from = window.from(last, at).ok_or(Missing::Lost)?;
        let held = &span.held[from..=window.to(last, at)];
        let left = self.left.get().checked_sub(held.len() as u64 + FOR_EACH).ok_or(Missing::NotAsked)?;
        self.left.set(left);
        let bytes = self.part(&held[0], &held[held.len() - 1]).ok_or(Missing::Lost)?;
        let part = Log::new(&bytes).map_err(|_| Missing::Lost)?;
        match self.rule.explain(&part, 0, (at - from) as u64) {
            Ok(reason) => Ok(Explained { reason, held, begins: window.begins() == Some(from) }),
            // The log as the card has seen it ends with this span.
            Err(Refusal::NoReason) if span.records.end == self.log.len() as u64 => Err(Missing::Closed),
            Err(_) => Err(Missing::Lost),
        }
    }

    /// The records from one to another as a log of their own.
    fn part(&self, first: &Held, last: &Held) -> Option<Vec<u8>> {
        let records = self.log.record_bytes(first.record as usize..last.record as usize + 1)?;
        let version = self.log.version().min(2);
        Some([b"KLG\x00", &[version, 0, 0, 0][..], records].concat())
    }
}

/// The positions that a verdict can depend on, among those of a span.
struct Window<'a> {
    entries: &'a [Entry],
    held: &'a [Held],
    /// The span begins with the card's first position.
    whole: bool,
}

impl Window<'_> {
    /// The first position that an entry depends on where it is asked from this one on. None where that may lie before the span.
    fn from(&self, entry: usize, at: usize) -> Option<usize> {
        let entry = &self.entries[entry];
        let at = match (entry.kind, entry.high) {
            (Kind::Previous, _) => at.checked_sub(1).or(self.begins())?,
            (Kind::Since, None) => self.begins()?,
            (Kind::Since, Some(high)) => {
                let earliest = self.held[at].seconds.saturating_sub(high);
                match self.held.partition_point(|held| held.seconds < earliest) {
                    // Others may stand before it and not be too early either.
                    0 => self.begins()?,
                    first => first,
                }
            }
            _ => at,
        };
        entry.operands.iter().try_fold(at, |first, &operand| Some(first.min(self.from(operand, at)?)))
    }

    fn begins(&self) -> Option<usize> {
        self.whole.then_some(0)
    }

    /// The last position that an entry depends on where it is asked up to this one, or the last of the span.
    fn to(&self, entry: usize, at: usize) -> usize {
        let entry = &self.entries[entry];
        let at = match (entry.kind, entry.high) {
            (Kind::Next, _) => at + 1,
            (Kind::Until, Some(high)) => {
                let latest = self.held[at].seconds.saturating_add(high);
                self.held.partition_point(|held| held.seconds <= latest)
            }
            _ => at,
        };
        let at = at.min(self.held.len() - 1);
        entry.operands.iter().fold(at, |last, &operand| last.max(self.to(operand, at)))
    }
}

#[cfg(test)]
mod tests {
    use super::super::known::{Held, Span};
    use super::{Explained, Missing, Reasons};
    use crate::letters::Letters;
    use crate::parts;
    use evaluator::random::{self, Random};
    use evaluator::{log, reason, rule};
    use havdrims::{Log, Rule};
    use std::ops::Range;

    /// A random rule and log.
    struct Drawn {
        formulas: Vec<Rule>,
        version: u16,
        records: Vec<log::Record>,
        bytes: Vec<u8>,
    }

    impl Drawn {
        fn new(r: &mut Random) -> Drawn {
            let (rule_shape, log_shape) = random::shapes(r, 10, 40);
            let formulas = parts::formulas(&Rule::new(&random::rule(r, rule_shape)).unwrap());
            let (version, records) = random::any_log(r, log_shape);
            Drawn { formulas, version, bytes: log::encode_as(version, &records), records }
        }

        /// These records as a span.
        fn span(&self, records: Range<usize>) -> Span {
            let places = log::places(self.version, &self.records);
            let first = places.iter().take_while(|&&record| record < records.start).count() as u64;
            let own = places.iter().filter(|record| records.contains(record));
            let held = own.map(|&record| Held { record: record as u64, seconds: self.records[record].time }).collect();
            Span { records: records.start as u64..records.end as u64, first, held, services: Vec::new() }
        }

        fn reasons<'a>(&'a self, formula: &Rule, spans: &'a [Span]) -> Reasons<'a> {
            let log = Log::new(&self.bytes).unwrap();
            Reasons::new(formula, &Letters::default(), log, spans, 0, u64::MAX)
        }
    }

    /// The text of a reason with its positions moved by so many.
    fn moved(Explained { reason, held, .. }: &Explained, spans: &[Span]) -> String {
        let span = spans.iter().find(|span| span.held.contains(&held[0])).unwrap();
        let by = span.first + span.held.iter().position(|other| *other == held[0]).unwrap() as u64;
        let line = |line: &str| {
            let mut words: Vec<String> = line.split(' ').map(str::to_string).collect();
            let timed = ["since", "until"].contains(&words[2].as_str());
            for at in [Some(1), timed.then_some(3)].into_iter().flatten() {
                words[at] = (words[at].parse::<u64>().unwrap() + by).to_string();
            }
            words.join(" ") + "\n"
        };
        reason.as_str().lines().map(line).collect()
    }

    /// From a part of the log comes the reason that the whole log gives.
    #[test]
    fn the_reason_of_a_part_is_that_of_the_whole() {
        let mut told = 0;
        for seed in 0..1_500 {
            let drawn = Drawn::new(&mut Random::new(seed));
            let spans = [drawn.span(0..drawn.records.len())];
            let log = Log::new(&drawn.bytes).unwrap();
            for formula in &drawn.formulas {
                let reasons = drawn.reasons(formula, &spans);
                for position in 0..spans[0].held.len() as u64 {
                    match (reasons.explained(position), formula.explain(&log, 0, position)) {
                        (Ok(part), Ok(whole)) => {
                            assert_eq!(
                                moved(&part, &spans),
                                whole.as_str(),
                                "{formula}, {position}: {:?}",
                                drawn.records
                            );
                            told += 1;
                        }
                        (Err(Missing::Closed), Err(_)) => {}
                        (_, whole) => panic!("{formula}, {position}: {whole:?}, {:?}", drawn.records),
                    }
                }
            }
        }
        assert!(told > 10_000, "{told}");
    }

    /// Where only some records are known, a reason that is given holds in the whole log and forces its verdict.
    #[test]
    fn the_reason_of_what_is_left_holds() {
        let (mut told, mut lost) = (0, 0);
        for seed in 0..3_000 {
            let mut r = Random::new(seed);
            let drawn = Drawn::new(&mut r);
            let mut cuts: Vec<usize> = (0..4).map(|_| r.from_to(0, drawn.records.len())).collect();
            cuts.sort();
            let spans = [drawn.span(cuts[0]..cuts[1]), drawn.span(cuts[2].max(cuts[1] + 1).min(cuts[3])..cuts[3])];
            // What is not known holds anything.
            let mut altered =
                Drawn { bytes: drawn.bytes.clone(), records: drawn.records.clone(), ..Drawn::new(&mut r.clone()) };
            let known = |record: &usize| spans.iter().any(|span| span.records.contains(&(*record as u64)));
            for record in (0..drawn.records.len()).filter(|record| !known(record)) {
                r.fill(&mut altered.bytes[8 + 8 * record..][..8]);
            }
            let positions = log::positions(drawn.version, &drawn.records);
            for formula in &drawn.formulas {
                let parsed = rule::parse(formula.as_bytes()).unwrap();
                let verdicts = evaluator::reading::verdicts(&parsed, &positions);
                let reasons = altered.reasons(formula, &spans);
                for (position, &verdict) in (0..).zip(&verdicts) {
                    let Ok(part) = reasons.explained(position) else {
                        lost += 1;
                        continue;
                    };
                    let text = moved(&part, &spans);
                    let taken = reason::taken_apart(&parsed, &text).unwrap();
                    assert_eq!((taken.position as u64, taken.yes), (position, verdict == 1), "{formula}: {text}");
                    assert!(reason::all_hold(&taken.facts, &parsed, &positions), "{formula}: {text}");
                    told += 1;
                }
            }
        }
        assert!(told > 5_000 && lost > 5_000, "{told} {lost}");
    }

    #[test]
    fn no_more_than_so_many_are_looked_at() {
        let drawn = (0..).map(|seed| Drawn::new(&mut Random::new(seed))).find(|drawn| drawn.records.len() > 9).unwrap();
        let spans = [drawn.span(0..drawn.records.len())];
        let rule: Rule = "e0".parse().unwrap();
        let mut reasons = drawn.reasons(&rule, &spans);
        assert!(reasons.explained(0).is_ok());
        reasons.left = 2_003.into();
        let asked = [0, 1, 2].map(|position| reasons.explained(position).err());
        assert_eq!(asked, [None, None, Some(Missing::NotAsked)]);
        assert_eq!(Missing::NotAsked.said(), "reason not looked for");
    }
}
