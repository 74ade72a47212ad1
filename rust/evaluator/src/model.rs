//! A point as document 01 describes it, and what each call must answer.

use crate::log::{self, Log, Record};
use crate::rule::{self, Rule, MOST_FORMULAS};
use crate::{linear, reading};

/// "A point holds a copy of its rule, the verdicts given d, the records seen, and the last time seen."
#[derive(Clone, Debug)]
pub struct Point {
    pub rule: Vec<u8>,
    /// "All verdict bytes written from that point, laid end to end": d of them.
    pub sheet: Vec<u8>,
    pub seen: usize,
    pub last: u32,
    /// The records at the first closing that was not refused.
    pub closed: Option<usize>,
    /// The log's version at "the last carry on or closing with this point that was not refused".
    pub version: Option<u16>,
    /// The seen records that hold positions.
    pub places: Vec<usize>,
}

/// "The count of no among verdicts given and the position of the latest, or none", one of each per formula.
#[derive(Clone, Debug, PartialEq, Eq)]
pub struct Summary {
    pub no: Vec<u64>,
    pub latest: Vec<Option<u64>>,
}

/// How far a point has come: the verdicts given d, the records seen, the first record still wanted, and whether a closing
/// was accepted.
#[derive(Clone, Copy, Debug, PartialEq, Eq)]
pub struct Status {
    pub given: u64,
    pub seen: u64,
    pub wanted: u64,
    pub closed: bool,
}

/// What an accepted carry on or closing gives: its c verdicts, and whether there are more.
#[derive(Clone, Debug, PartialEq, Eq)]
pub struct Resumed {
    pub verdicts: Vec<u8>,
    pub more: bool,
}

/// Above this many positions the linear evaluator stands in for the plain one.
const PLAIN_POSITIONS: usize = 400;

/// The verdicts of a log with these positions: of one that is closed, or of one that may grow.
pub fn verdicts(closing: bool, rule: &Rule, positions: &[Record]) -> Vec<u8> {
    let evaluate = match (closing, positions.len() <= PLAIN_POSITIONS) {
        (false, true) => reading::verdicts,
        (false, false) => linear::verdicts,
        (true, true) => reading::closed_verdicts,
        (true, false) => linear::closed_verdicts,
    };
    evaluate(rule, positions)
}

/// Weigh: words needed and reach.
pub fn measure(bytes: &[u8]) -> Result<(u64, u64), u32> {
    rule::parse(bytes).map(|r| (r.words, r.reach))
}

/// The number of formulas of a rule: 1 for version 1.
pub fn formulas(bytes: &[u8]) -> Result<u64, u32> {
    rule::parse(bytes).map(|r| r.formulas() as u64)
}

/// Open, for a lent point of so many words.
pub fn open(bytes: &[u8], lent_words: usize) -> Result<Point, u32> {
    if rule::parse(bytes)?.words > lent_words as u64 {
        return Err(9);
    }
    let (sheet, places) = (Vec::new(), Vec::new());
    Ok(Point { rule: bytes.to_vec(), sheet, seen: 0, last: 0, closed: None, version: None, places })
}

/// Tally: the count of no and of yes, one of each per formula. "Tally takes the number of formulas, and 15 is met by a bit
/// beyond it or by a number outside 1 to 8."
pub fn tally(sheet: &[u8], formulas: u64) -> Result<(Vec<u64>, Vec<u64>), u32> {
    if !(1..=MOST_FORMULAS as u64).contains(&formulas) || sheet.iter().any(|&byte| u32::from(byte) >= 1 << formulas) {
        return Err(15);
    }
    let count = |answer: u8| {
        let of_formula = |k: u64| sheet.iter().filter(|&&byte| byte >> k & 1 == answer).count() as u64;
        (0..formulas).map(of_formula).collect()
    };
    Ok((count(0), count(1)))
}

/// Tally and a scan over a sheet without fault.
pub fn summed(sheet: &[u8], formulas: usize) -> Summary {
    let (no, _) = tally(sheet, formulas as u64).expect("a sheet without fault");
    let latest = |k: usize| sheet.iter().rposition(|&byte| byte >> k & 1 == 0).map(|at| at as u64);
    Summary { no, latest: (0..formulas).map(latest).collect() }
}

impl Point {
    /// The number of verdicts given, d.
    pub fn given(&self) -> usize {
        self.sheet.len()
    }

    /// The rule that is brought, or one of refusals 1 to 11. The point is one that the library left, so 11 is not met;
    /// and it begins as one, so 10 is met by another rule alone.
    fn check_rule(&self, bytes: &[u8], lent_words: usize) -> Result<Rule, u32> {
        let rule = rule::parse(bytes)?;
        if rule.words > lent_words as u64 {
            return Err(9);
        }
        if bytes != self.rule {
            return Err(10);
        }
        Ok(rule)
    }

    /// "A call with checks 1 to 11 gives both. They equal what tally and a scan give over all verdict bytes written from
    /// that point, laid end to end."
    pub fn summary(&self, bytes: &[u8], lent_words: usize) -> Result<Summary, u32> {
        let rule = self.check_rule(bytes, lent_words)?;
        Ok(summed(&self.sheet, rule.formulas()))
    }

    /// The status, with the summary's checks.
    pub fn status(&self, bytes: &[u8], lent_words: usize) -> Result<Status, u32> {
        let rule = self.check_rule(bytes, lent_words)?;
        let (given, seen, wanted) = (self.given() as u64, self.seen as u64, self.wanted(&rule) as u64);
        Ok(Status { given, seen, wanted, closed: self.closed.is_some() })
    }

    /// The rule and the log of a carry on or a closing that is not refused, else its refusal. "The order of checks is
    /// carry on's. 20 when carry on is given a closed point, after 11; 21 when closing is repeated with more records than
    /// at its first call that was not refused, after 13."
    pub fn check(&self, closing: bool, bytes: &[u8], log: &[u8], lent_words: usize) -> Result<(Rule, Log), u32> {
        let rule = self.check_rule(bytes, lent_words)?;
        if !closing && self.closed.is_some() {
            return Err(20);
        }
        let log = self.check_version(log)?;
        let more = closing && self.closed.is_some_and(|at_first| log.total() > at_first);
        self.check_records(&rule, &log, more)?;
        Ok((rule, log))
    }

    /// "22 when the log's version differs from that of the last carry on or closing with this point that was not refused,
    /// after 12"; "a point may go from 2 to 3 and back, and 22 is amended so".
    fn check_version(&self, log: &[u8]) -> Result<Log, u32> {
        let log = log::parse(log)?;
        match self.version {
            Some(last) if !log::same_kind(last, log.version) => Err(22),
            _ => Ok(log),
        }
    }

    /// 13, 21 where a closing brings more records, 24 and 14: "24 when a log has dropped the first record wanted or one
    /// after it, for carrying on and closing too, after 13 and 21". The records that it has dropped are its first.
    fn check_records(&self, rule: &Rule, log: &Log, more: bool) -> Result<(), u32> {
        if log.total() < self.seen {
            return Err(13);
        }
        if more {
            return Err(21);
        }
        if log.dropped > self.wanted(rule) {
            return Err(24);
        }
        if self.time_falls(rule, log) {
            return Err(14);
        }
        Ok(())
    }

    /// "A trimming call takes a rule, a version 2 or 3 log and its point, and writes a version 3 log into another lent
    /// buffer: the header, a 64-bit count of records dropped, then the records from the first wanted. The point keeps its
    /// words. Checks are carry on's, less 20." "23 when a version 1 log is to be trimmed, after 22"; "25 when the lent buffer
    /// is short, after 14". What it writes into a buffer of so many bytes.
    pub fn trim(&self, bytes: &[u8], log: &[u8], lent_words: usize, room: usize) -> Result<Vec<u8>, u32> {
        let rule = self.check_rule(bytes, lent_words)?;
        let log = self.check_version(log)?;
        if log.version == 1 {
            return Err(23);
        }
        self.check_records(&rule, &log, false)?;
        let wanted = self.wanted(&rule);
        let kept: Vec<Record> = (wanted..log.total()).filter_map(|number| log.record(number)).collect();
        let trimmed = log::encode_trimmed(wanted as u64, &kept);
        if trimmed.len() > room {
            return Err(25);
        }
        Ok(trimmed)
    }

    /// "The first record wanted is the one that holds the first position still wanted, or the record after all seen where
    /// no seen record holds it": the records before it may be overwritten. The first position still wanted "is d less k (0
    /// when d is below k)".
    pub fn wanted(&self, rule: &Rule) -> usize {
        let position = self.given().saturating_sub(rule.depth);
        self.places.get(position).copied().unwrap_or(self.seen)
    }

    /// "Some record after position d has a time below that of the record before it, or the first new record's
    /// time is below the last time seen", where the first record still wanted stands for position d.
    fn time_falls(&self, rule: &Rule, log: &Log) -> bool {
        let time = |number: usize| log.record(number).map(|record| record.time);
        let after_wanted = (self.wanted(rule) + 1..log.total()).any(|p| time(p) < time(p - 1));
        let first_new = time(self.seen).is_some_and(|time| time < self.last);
        after_wanted || first_new
    }

    /// Carry on, or a closing. `untouched` has the records of the log never trimmed, as far as this call brings it or further.
    pub fn carry_on(
        &mut self,
        closing: bool,
        bytes: &[u8],
        log: &[u8],
        lent_words: usize,
        sheet_length: usize,
        untouched: &[Record],
    ) -> Result<Resumed, u32> {
        let (rule, log) = self.check(closing, bytes, log, lent_words)?;
        let untouched = &untouched[..log.total()];
        let all = verdicts(closing, &rule, &log::positions(log.version, untouched));
        let d = self.given();
        let c = (all.len() - d).min(sheet_length);
        let written = all[d..d + c].to_vec();
        self.sheet.extend(&written);
        self.note(closing, &log, log::places(log.version, untouched));
        Ok(Resumed { verdicts: written, more: all.len() > d + c })
    }

    /// What an accepted call notes of its log, but for the verdicts. `places` has the seen records that hold positions.
    pub fn note(&mut self, closing: bool, log: &Log, places: Vec<usize>) {
        let total = log.total();
        if total > self.seen {
            self.last = log.record(total - 1).expect("a new record is not dropped").time;
        }
        self.seen = total;
        self.version = Some(log.version);
        self.places = places;
        if closing {
            self.closed = Some(total);
        }
    }
}
