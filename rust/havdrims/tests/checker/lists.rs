//! Lists of calls: growth, overwriting, service records, closings, trimmings, refused calls between, sheets of all lengths, words
//! behind the need.

use crate::calls::{hex, side, Call, Checkpoint, Given};
use crate::runner::{cases, Counts};
use evaluator::cases::Kind;
use evaluator::log::{self, Record};
use evaluator::model::{self, Point};
use evaluator::random::{self, LogShape, Random, RuleShape};
use evaluator::rule;
use std::fmt;

/// A rule, an untouched log with the bytes that the kiosk has left of it, a point, and the model of that point.
pub struct Kiosk {
    pub rule: Vec<u8>,
    pub shape: RuleShape,
    pub need: usize,
    /// The untouched log's version.
    pub version: u16,
    pub untouched: Vec<Record>,
    /// The whole log first, then what trimmings left of it, in their order.
    pub files: Vec<File>,
    pub point: Checkpoint,
    pub model: Point,
    /// The calls so far, to be printed with a failure.
    pub story: Story,
}

/// A log with the records to come. Records before the first still wanted may be overwritten.
#[derive(Clone)]
pub struct File {
    pub bytes: Vec<u8>,
    /// So many records are not there.
    dropped: usize,
}

impl File {
    pub fn whole(version: u16, untouched: &[Record]) -> File {
        File { bytes: log::encode_as(version, untouched), dropped: 0 }
    }

    /// What a trimming left of the first n records, with the records to come behind it.
    fn trimmed(mut bytes: Vec<u8>, n: usize, untouched: &[Record]) -> File {
        let dropped = log::parse(&bytes).unwrap().dropped;
        bytes.extend(log::encode_records(&untouched[n..]));
        File { bytes, dropped }
    }

    /// Where a record begins, if it is there.
    fn at(&self, record: usize) -> usize {
        records_at(&self.bytes) + 8 * (record - self.dropped)
    }

    /// The log as long as it has n records.
    pub fn first(&self, n: usize) -> Vec<u8> {
        self.bytes[..self.at(n)].to_vec()
    }
}

/// Where the records of a log begin.
pub fn records_at(log: &[u8]) -> usize {
    if log.starts_with(&log::header(3)) {
        16
    } else {
        8
    }
}

/// A list of calls as far as it went, in the oracle's hexadecimal.
#[derive(Default)]
pub struct Story(Vec<Step>);

struct Step {
    kind: Kind,
    rule: Vec<u8>,
    log: Vec<u8>,
    words: usize,
    sheet: usize,
    point: String,
}

impl Story {
    pub fn add(&mut self, kind: Kind, rule: &[u8], log: &[u8], words: usize, sheet: usize, before: &Point) {
        let (d, seen, last, closed, version) =
            (before.given(), before.seen, before.last, before.closed, before.version);
        let point = format!("d {d}, seen {seen}, last {last}, closed {closed:?}, version {version:?}");
        self.0.push(Step { kind, rule: rule.to_vec(), log: log.to_vec(), words, sheet, point });
    }
}

impl fmt::Display for Story {
    fn fmt(&self, f: &mut fmt::Formatter<'_>) -> fmt::Result {
        for (at, step) in self.0.iter().enumerate() {
            let Step { kind, words, sheet, point, .. } = step;
            writeln!(f, "call {at}: {kind:?}, {words} words, a sheet or buffer of {sheet} bytes; {point}")?;
            writeln!(f, "  rule {}\n  log {}", hex(&step.rule), hex(&step.log))?;
        }
        Ok(())
    }
}

impl Kiosk {
    /// A random rule and log, with an open point.
    pub fn new(r: &mut Random, most_entries: usize, most_records: usize) -> Kiosk {
        let (shape, log_shape) = random::shapes(r, most_entries, most_records);
        let rule = random::rule(r, shape);
        let (version, untouched) = random::any_log(r, log_shape);
        Kiosk::with(r, rule, shape, version, untouched)
    }

    /// This rule and this log.
    fn with(r: &mut Random, rule: Vec<u8>, shape: RuleShape, version: u16, untouched: Vec<Record>) -> Kiosk {
        let files = vec![File::whole(version, &untouched)];
        let need = model::measure(&rule).unwrap().0 as usize;
        let words: Vec<u64> = (0..need + r.pick(&[0, 0, 1, 7, 600])).map(|_| r.draw()).collect();
        let mut point = Checkpoint::new(&words, side(r));
        point.open(&rule, need, side(r)).unwrap();
        let model = model::open(&rule, words.len()).unwrap();
        Kiosk { rule, shape, need, version, untouched, files, point, model, story: Story::default() }
    }

    /// The first n records as the whole log has them now.
    pub fn brought(&self, n: usize) -> Vec<u8> {
        self.files[0].first(n)
    }

    /// The same from the whole log or from any of what trimmings left of it: none of them has dropped what is wanted now.
    pub fn any_brought(&self, r: &mut Random, n: usize) -> Vec<u8> {
        self.files[r.below(self.files.len())].first(n)
    }

    /// The verdicts of one run over the first n records: of a closing, or of a carry on.
    fn one_run(&self, closing: bool, n: usize) -> Vec<u8> {
        let positions = log::positions(self.version, &self.untouched[..n]);
        model::verdicts(closing, &rule::parse(&self.rule).unwrap(), &positions)
    }

    /// The first record still wanted.
    pub fn wanted(&self) -> usize {
        self.model.wanted(&rule::parse(&self.rule).unwrap())
    }

    /// Overwrites the records before the first still wanted, all of them or some.
    pub fn overwrite(&mut self, r: &mut Random) {
        let (ways, wanted) = (r.pick(&[2, 4]), self.wanted());
        for file in &mut self.files {
            for record in file.dropped..wanted {
                let at = file.at(record);
                let record = &mut file.bytes[at..at + 8];
                match r.below(ways) {
                    0 => r.fill(record),
                    1 => record.fill(r.pick(&[0, 1, 127, 128, 255])),
                    _ => {}
                }
            }
        }
    }

    /// Trims, and compares with the model.
    fn trim(&mut self, r: &mut Random, rule: &[u8], log: &[u8], words: usize, room: usize) -> Result<Vec<u8>, u32> {
        self.story.add(Kind::Trim, rule, log, words, room, &self.model);
        let expected = self.model.trim(rule, log, words, room);
        let mut out = vec![0; room];
        r.fill(&mut out);
        let got = self.point.trim(rule, words, log, &out, side(r));
        assert_eq!(got, expected, "{}", self.story);
        self.asked(r, rule, words);
        got
    }

    /// A trimming that the list allows: n records, of the whole log or of what another left. What it leaves is kept beside the
    /// others; a log of version 1 is refused with 23, and a buffer that is short with 25.
    pub fn trimmed(&mut self, r: &mut Random, n: usize) -> Result<usize, u32> {
        let log = self.any_brought(r, n);
        let (rule, words) = (self.rule.clone(), r.from_to(self.need, self.point.words().len()));
        let whole = 16 + 8 * (n - self.wanted());
        let room = whole + r.pick(&[0, 0, 1, 8, 100]);
        if r.one_in(8) {
            let short = r.pick(&[0, whole - 1, whole / 2]);
            let number = if self.version == 1 { 23 } else { 25 };
            assert_eq!(self.trim(r, &rule, &log, words, short), Err(number), "{}", self.story);
        }
        let left = self.trim(r, &rule, &log, words, room);
        if self.version == 1 {
            assert_eq!(left, Err(23), "{}", self.story);
        }
        let left = left?;
        assert_eq!(left.len(), whole, "{}", self.story);
        self.files.push(File::trimmed(left, n, &self.untouched));
        Ok(self.wanted())
    }

    /// Calls, and compares with the model. `log` agrees with the untouched one from the first record wanted on, or is
    /// refused.
    fn carry_on(&mut self, r: &mut Random, brought: Brought) -> Result<Given, u32> {
        let Brought { closing, rule, log, words, sheet } = &brought;
        let (closing, words) = (*closing, *words);
        let kind = if closing { Kind::Close } else { Kind::Resume };
        self.story.add(kind, rule, log, words, sheet.len(), &self.model);
        let expected = self.model.carry_on(closing, rule, log, words, sheet.len(), &self.untouched);
        let expected = expected.map(|e| Given { verdicts: e.verdicts, more: e.more });
        let call = Call { closing, rule, need: self.need, words, side: side(r) };
        let got = self.point.resume(&call, log, sheet);
        assert_eq!(got, expected, "{}", self.story);
        self.asked(r, rule, words);
        got
    }

    /// Summary and status with the rule and the words of this call, and with those that belong to the point.
    fn asked(&mut self, r: &mut Random, rule: &[u8], words: usize) {
        let own = self.rule.clone();
        for (rule, words) in [(rule, words), (&own, r.from_to(self.need, self.point.words().len()))] {
            let expected = self.model.summary(rule, words);
            assert_eq!(self.point.summary(rule, words, side(r)), expected, "{}", self.story);
            let expected = self.model.status(rule, words);
            assert_eq!(self.point.status(rule, words, side(r)), expected, "{}", self.story);
        }
    }

    fn sheet(&self, r: &mut Random) -> Vec<u8> {
        let rest = self.untouched.len() - self.model.given();
        let length = r.pick(&[0, 1, 2, 5, 63, 64, 65, rest, rest, rest + 3]);
        let mut sheet = vec![0; length];
        r.fill(&mut sheet);
        sheet
    }

    /// A call that brings rule and log as it should: n records.
    fn rightly(&mut self, r: &mut Random, closing: bool, n: usize) -> Result<Given, u32> {
        let words = r.from_to(self.need, self.point.words().len());
        let log = self.any_brought(r, n);
        let brought = Brought { closing, rule: self.rule.clone(), log, words, sheet: self.sheet(r) };
        self.carry_on(r, brought)
    }

    /// A call that the list allows: n records.
    pub fn accepted(&mut self, r: &mut Random, closing: bool, n: usize) -> Given {
        let got = self.rightly(r, closing, n);
        got.unwrap_or_else(|n| panic!("refused {n}\n{}", self.story))
    }

    /// A call with one or more faults, if they come to a refusal: its number.
    fn refused(&mut self, r: &mut Random, n: usize) -> Option<u32> {
        let kind = r.pick(&[Kind::Resume, Kind::Close, Kind::Trim]);
        let mut rule = self.rule.clone();
        let mut words = self.point.words().len();
        let mut log = self.any_brought(r, n);
        if r.one_in(4) {
            random::damage(r, &mut rule);
        } else if r.one_in(4) {
            rule = random::rule(r, self.shape);
        } else if r.one_in(8) {
            // the other version, with the same entries
            rule[4] = 3 - rule[4];
        }
        if r.one_in(4) {
            words = r.pick(&[0, 1, self.need / 2, self.need - 1]);
        }
        if r.one_in(4) {
            log = self.dropped_too_far(r, n);
        }
        self.spoil(r, &mut log);
        if kind == Kind::Trim {
            let room = r.pick(&[0, log.len(), 16 + 8 * n]);
            self.model.trim(&rule, &log, words, room).err()?;
            return self.trim(r, &rule, &log, words, room).err();
        }
        let closing = kind == Kind::Close;
        self.model.check(closing, &rule, &log, words).err()?;
        let sheet = self.sheet(r);
        self.carry_on(r, Brought { closing, rule, log, words, sheet }).err()
    }

    /// A log that has dropped the first record wanted and some after it: of n records, or of one more where that record was to
    /// come.
    fn dropped_too_far(&self, r: &mut Random, n: usize) -> Vec<u8> {
        let wanted = self.wanted();
        let dropped = r.from_to(wanted + 1, n.max(wanted + 1));
        log::encode_trimmed(dropped as u64, self.untouched[..n].get(dropped..).unwrap_or(&[]))
    }

    /// One or more faults in a log, or none.
    fn spoil(&self, r: &mut Random, log: &mut Vec<u8>) {
        let at = records_at(log);
        let records = (log.len() - at) / 8;
        match r.below(8) {
            0 => random::damage(r, log),
            1 => {
                let at = r.below(at);
                log[at] ^= 1 << r.below(8);
            }
            2 => log.truncate(at + 8 * r.below(records + 1)),
            3 if records > 0 => {
                let at = at + 8 * r.below(records);
                let time = &mut log[at..at + 4];
                let lower = u32::from_be_bytes(time.try_into().unwrap()).saturating_sub(r.from_to(1, 5) as u32);
                time.copy_from_slice(&lower.to_be_bytes());
            }
            4 => {
                // another version, with another fault behind it now and then
                log[3..5].copy_from_slice(&r.pick(&[0u16, 1, 2, 3, 1, 2, 3, 4, 256, 257, 512, 768]).to_be_bytes());
                if r.one_in(3) {
                    log.truncate(8 + 8 * r.from_to(0, records));
                }
            }
            5 if at == 16 => {
                // another count of records dropped
                let limit = log::MOST_RECORDS as u64 - records as u64;
                let near = [0, 1, limit, limit + 1, limit + 2, u64::MAX, u64::MAX - records as u64, 1 << 32, 1 << 63];
                let around = (self.wanted() as u64 + 2).saturating_sub(r.below(5) as u64);
                let count = if r.one_in(2) { around } else { r.pick(&near) };
                log[8..16].copy_from_slice(&count.to_be_bytes());
            }
            6 if at == 16 => log.truncate(r.from_to(8, 15)),
            _ => {}
        }
    }

    /// With a closed point: what brings rule and log as it should is refused with 20, or with 21 if it is a closing with
    /// more records.
    fn refused_since_closed(&mut self, r: &mut Random, n: usize) -> Option<u32> {
        let at_first = self.model.closed?;
        if n > at_first && r.one_in(2) {
            assert_eq!(self.rightly(r, true, n), Err(21), "{}", self.story);
            return Some(21);
        }
        assert_eq!(self.rightly(r, false, n), Err(20), "{}", self.story);
        Some(20)
    }
}

/// What a call brings.
struct Brought {
    closing: bool,
    rule: Vec<u8>,
    log: Vec<u8>,
    words: usize,
    sheet: Vec<u8>,
}

/// Random lists; laid end to end their verdicts are those of one run.
#[test]
fn lists() {
    let body = |r: &mut Random, counts: &mut Counts| {
        let mut kiosk = Kiosk::new(r, 10, 40);
        let total = kiosk.untouched.len();
        let formulas = model::formulas(&kiosk.rule).unwrap();
        let (mut n, mut closed, mut written, mut caught_up) = (0, false, Vec::new(), None);
        for _ in 0..r.from_to(0, 14) {
            if r.one_in(3) {
                kiosk.overwrite(r);
                let kept = kiosk.model.given().min(rule::parse(&kiosk.rule).unwrap().depth);
                counts.add("kept for previous", kept);
                counts.add("kept for one of several formulas", if formulas > 1 { kept } else { 0 });
            }
            if r.one_in(3) {
                let n = r.from_to(n, total);
                match kiosk.trimmed(r, n) {
                    Ok(dropped) => counts.add("records dropped", dropped),
                    Err(number) => counts.returned(number),
                }
                counts.add("trimmings of closed points", usize::from(closed));
                counts.add("trimmings with records to come", usize::from(n > kiosk.model.seen));
            }
            if r.one_in(3) {
                let n = r.from_to(n, total);
                let number = if r.one_in(3) { kiosk.refused_since_closed(r, n) } else { kiosk.refused(r, n) };
                if let Some(number) = number {
                    counts.returned(number);
                }
                continue;
            }
            n = if closed || r.one_in(3) { n } else { r.from_to(n, total) };
            closed = closed || r.one_in(8);
            let given = kiosk.accepted(r, closed, n);
            counts.returned(0);
            counts.add("verdicts", given.verdicts.len());
            counts.add("of closings", if closed { given.verdicts.len() } else { 0 });
            counts.add("closings with more", usize::from(closed && given.more));
            counts.add("of empty rules", if kiosk.rule.len() == 8 { given.verdicts.len() } else { 0 });
            counts.add("of several formulas", if formulas > 1 { given.verdicts.len() } else { 0 });
            let service = n - kiosk.model.places.len();
            counts.add("of logs with service records", if service > 0 { given.verdicts.len() } else { 0 });
            counts.add("service records alone", usize::from(service > 0 && service == n));
            let copies = kiosk.files.len() - 1;
            counts.add("verdicts with trimmed copies there", if copies > 0 { given.verdicts.len() } else { 0 });
            written.extend(given.verdicts);
            caught_up = Some(!given.more);
        }
        let one_run = kiosk.one_run(closed, n);
        assert!(one_run.starts_with(&written), "{}", kiosk.story);
        if let Some(caught_up) = caught_up {
            assert_eq!(caught_up, one_run.len() == written.len(), "{}", kiosk.story);
        }
    };
    let shown = |counts: &Counts| {
        let met = |n: u32| counts.get(&format!("refused {n:02}")) > 0;
        let names = [
            "of empty rules",
            "of several formulas",
            "kept for previous",
            "kept for one of several formulas",
            "of closings",
            "closings with more",
            "of logs with service records",
            "service records alone",
            "records dropped",
            "trimmings of closed points",
            "trimmings with records to come",
            "verdicts with trimmed copies there",
        ];
        let reached = names.iter().all(|name| counts.get(name) > 0) && (20..=25).all(met);
        (1..=14).all(|n| met(n) || [3, 8, 11].contains(&n)) && reached
    };
    cases("lists", 30_000, body, shown);
}

/// Every length of the first sheet, and what it leaves over by calls of one byte or in one go.
#[test]
fn sheets_of_all_lengths() {
    let body = |r: &mut Random, counts: &mut Counts| {
        let start = Kiosk::new(r, 7, 20);
        let closing = r.one_in(2);
        let all = start.one_run(closing, start.untouched.len());
        let several = model::formulas(&start.rule).unwrap() > 1;
        let fresh = start.point.words().to_vec();
        let mut kiosk = start;
        for length in 0..=all.len() + 2 {
            kiosk.point.set(&fresh, side(r));
            kiosk.model = model::open(&kiosk.rule, fresh.len()).unwrap();
            kiosk.files = vec![File::whole(kiosk.version, &kiosk.untouched)];
            let mut written = Vec::new();
            let mut next = length;
            loop {
                let total = kiosk.untouched.len();
                if r.one_in(3) {
                    let _ = kiosk.trimmed(r, total);
                }
                let (rule, log) = (kiosk.rule.clone(), kiosk.any_brought(r, total));
                let brought = Brought { closing, rule, log, words: fresh.len(), sheet: vec![9; next] };
                let given = kiosk.carry_on(r, brought).unwrap();
                counts.returned(0);
                counts.add("of several formulas", if several { given.verdicts.len() } else { 0 });
                written.extend(given.verdicts);
                kiosk.overwrite(r);
                if !given.more {
                    break;
                }
                next = r.pick(&[1, 1, all.len()]);
            }
            assert_eq!(written, all, "{}", kiosk.story);
        }
    };
    cases("sheets_of_all_lengths", 1_500, body, |counts| counts.get("of several formulas") > 0);
}

/// A log of a list of calls: its version and its records.
type Untouched = (u16, Vec<Record>);

/// A random list over a log, with overwriting; in the end it is closed if so said. All its verdicts.
fn verdicts_of_a_list(r: &mut Random, rule: Vec<u8>, shape: RuleShape, log: &Untouched, closing: bool) -> Vec<u8> {
    let (version, untouched) = log;
    let mut kiosk = Kiosk::with(r, rule, shape, *version, untouched.to_vec());
    let (mut n, mut written) = (0, Vec::new());
    for _ in 0..r.from_to(1, 6) {
        n = r.from_to(n, untouched.len());
        written.extend(kiosk.accepted(r, false, n).verdicts);
        kiosk.overwrite(r);
        if r.one_in(2) {
            let _ = kiosk.trimmed(r, n);
        }
    }
    if closing {
        written.extend(kiosk.accepted(r, true, untouched.len()).verdicts);
    }
    written
}

/// "Each bit is the verdict that its formula would get in a run of its own": of version 1, whatever the two lists of calls.
#[test]
fn each_bit_is_the_verdict_of_its_formula_alone() {
    let body = |r: &mut Random, counts: &mut Counts| {
        let (shape, log_shape) = random::shapes(r, 10, 40);
        let rule = random::rule(r, shape);
        let untouched = random::any_log(r, log_shape);
        let closing = r.one_in(2);
        let together = verdicts_of_a_list(r, rule.clone(), shape, &untouched, closing);
        let decoded = rule::parse(&rule).unwrap();
        for (k, entries) in decoded.split().into_iter().enumerate() {
            let alone = verdicts_of_a_list(r, rule::encode(entries), shape, &untouched, closing);
            for (i, (byte, verdict)) in together.iter().zip(&alone).enumerate() {
                assert_eq!(byte >> k & 1, *verdict, "formula {k} of {}, position {i}", hex(&rule));
            }
            let of_several = if decoded.formulas() > 1 { "bits of several formulas" } else { "bits of one formula" };
            counts.add(of_several, together.len().min(alone.len()));
        }
    };
    let shown = |counts: &Counts| counts.get("bits of several formulas") > 0;
    cases("each_bit_is_the_verdict_of_its_formula_alone", 5_000, body, shown);
}

/// "Each carrying on or closing gives the sheet and answer that the log never trimmed would give at that call": the same point with
/// the whole log and with each of what trimmings left of it. The point is then the same too.
#[test]
fn trimmed_or_not_alike() {
    let body = |r: &mut Random, counts: &mut Counts| {
        let mut kiosk = Kiosk::new(r, 10, 60);
        let (mut n, mut closed) = (0, false);
        for _ in 0..r.from_to(1, 6) {
            n = if closed { n } else { r.from_to(n, kiosk.untouched.len()) };
            closed = closed || r.one_in(6);
            let (words, sheet) = (kiosk.point.words().to_vec(), kiosk.sheet(r));
            let call = Call { closing: closed, rule: &kiosk.rule, need: kiosk.need, words: words.len(), side: side(r) };
            let mut answers = kiosk.files.iter().map(|file| {
                let mut point = Checkpoint::new(&words, call.side);
                (point.resume(&call, &file.first(n), &sheet), point.words().to_vec())
            });
            let whole = answers.next().unwrap();
            for trimmed in answers {
                assert_eq!(trimmed, whole, "{}", kiosk.story);
                counts.add("trimmed logs", 1);
            }
            kiosk.accepted(r, closed, n);
            kiosk.overwrite(r);
            let _ = kiosk.trimmed(r, n);
        }
    };
    cases("trimmed_or_not_alike", 5_000, body, |counts| counts.get("trimmed logs") > 10_000);
}

/// Logs of up to 1,500 records, nine in ten of which may be service records: windows of 64 positions that are copied, and
/// runs longer than a window. The log is trimmed after every call, and each call brings any of what is there.
#[test]
fn long_visits() {
    let body = |r: &mut Random, counts: &mut Counts| {
        let (shape, log_shape) = random::shapes(r, 8, 40);
        let rule = random::rule(r, shape);
        let long = LogShape { records: r.from_to(300, 1_500), ..log_shape };
        let mut untouched = random::log(r, long);
        random::visit(r, &mut untouched);
        let total = untouched.len();
        let mut kiosk = Kiosk::with(r, rule, shape, 2, untouched);
        let (mut n, mut closed, mut written) = (0, false, Vec::new());
        for _ in 0..r.from_to(1, 6) {
            n = if closed { n } else { r.from_to(n, total) };
            closed = closed || r.one_in(6);
            let given = kiosk.accepted(r, closed, n);
            counts.returned(0);
            counts.add("verdicts", given.verdicts.len());
            counts.add("service records", n - kiosk.model.places.len());
            written.extend(given.verdicts);
            kiosk.overwrite(r);
            counts.add("records dropped", kiosk.trimmed(r, n).unwrap());
        }
        assert!(kiosk.one_run(closed, n).starts_with(&written), "{}", kiosk.story);
    };
    let names = ["verdicts", "service records", "records dropped"];
    cases("long_visits", 2_000, body, |counts| names.iter().all(|name| counts.get(name) > 100_000));
}

/// "It is skipped by every operator": a log with service records has the verdicts of the log without them, in every list of
/// calls.
#[test]
fn service_records_leave_no_trace() {
    let body = |r: &mut Random, counts: &mut Counts| {
        let (shape, log_shape) = random::shapes(r, 10, 60);
        let rule = random::rule(r, shape);
        let mut records = random::log(r, log_shape);
        random::visit(r, &mut records);
        let alone = log::positions(2, &records);
        counts.add("service records", records.len() - alone.len());
        let closing = r.one_in(2);
        let with = verdicts_of_a_list(r, rule.clone(), shape, &(2, records), closing);
        let alone = (r.pick(&[1, 2]), alone);
        let without = verdicts_of_a_list(r, rule.clone(), shape, &alone, closing);
        let both = with.len().min(without.len());
        assert_eq!(with[..both], without[..both], "{}", hex(&rule));
        counts.add("verdicts", both);
    };
    let shown = |counts: &Counts| counts.get("verdicts") > 10_000 && counts.get("service records") > 10_000;
    cases("service_records_leave_no_trace", 5_000, body, shown);
}
