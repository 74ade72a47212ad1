//! Forged points and altered open records: the call returns, nothing outside is written, a refusal changes nothing.

use crate::calls::{hex, side, Call, Checkpoint};
use crate::lists::{records_at, Kiosk};
use crate::runner::{cases, Counts};
use evaluator::cases::Kind;
use evaluator::log::{self, Log, Record};
use evaluator::model::Summary;
use evaluator::random::{self, Random};
use evaluator::rule::{self, Rule, MOST_FORMULAS, NO_END, SINCE, UNTIL};

/// The number of the checkpoint's format.
const FORMAT: u64 = 7;

/// The first word of a checkpoint of this format.
fn mark(format: u64) -> u64 {
    u64::from(u32::from_be_bytes(*b"HAVD")) << 32 | format
}

/// Words of the header, as docs/CHECKPOINT.md numbers them.
const GIVEN: usize = 1;
const SEEN: usize = 2;
const LAST: usize = 3;
const RULE: usize = 4;
const CLOSED: usize = 5;
const VERSION: usize = 6;
const WANTED: usize = 7;

/// The word of a block, or of an until's, that holds a record.
const HEAD: usize = 11;
const WAITING_HEAD: usize = 16;

/// The words of a checkpoint before its first block.
fn header(rule: &Rule) -> usize {
    if rule.version == 1 {
        16
    } else {
        24
    }
}

/// The words of the count of no and of the latest no: of one formula in version 1, of eight in version 2, used or not.
fn counts(rule: &Rule) -> Vec<(usize, usize)> {
    match rule.version {
        1 => vec![(8, 9)],
        _ => (0..MOST_FORMULAS).map(|k| (8 + k, 16 + k)).collect(),
    }
}

/// The first word of each block, and the cells of its ring.
fn blocks(rule: &Rule) -> Vec<(usize, u64)> {
    let mut at = header(rule);
    let block = |e: &rule::Entry| {
        let ring = match (e.kind, e.high) {
            (SINCE, NO_END) => 1,
            (SINCE, high) => u64::from(high) + 1,
            _ => 0,
        };
        let unused = if e.kind == UNTIL { 2 * (e.high as usize + 1) } else { 0 };
        let begins = at;
        at += 16 + ring as usize + unused;
        (begins, ring)
    };
    rule.entries.iter().map(block).collect()
}

/// Refusal 10 or 11, by the tables of docs/CHECKPOINT.md.
fn refusal(rule: &Rule, words: &[u64]) -> Option<u32> {
    let blocks = blocks(rule);
    let copied = blocks.iter().zip(&rule.entries).all(|(&(at, _), e)| {
        let entry = [u64::from(e.kind) << 8 | u64::from(e.letter), u64::from(e.low) << 32 | u64::from(e.high)];
        words[at + 14..at + 16] == entry
    });
    let own = u64::from(rule.version) << 8 | rule.entries.len() as u64;
    if words[0] != mark(FORMAT) || words[RULE] != own || !copied {
        return Some(10);
    }
    let (given, seen) = (words[GIVEN], words[SEEN]);
    let counted = |&(no, latest): &(usize, usize)| {
        let (no, latest) = (words[no], words[latest]);
        no <= given && latest <= given && (no == 0) == (latest == 0)
    };
    let block = |(&(at, ring), e): (&(usize, u64), &rule::Entry)| {
        let word = |k: usize| words[at + k];
        let taken = word(0) <= seen && word(1) <= 64 && word(3) <= 64 && word(5) <= seen;
        let last = word(6) <= 1 && word(7) <= 1 && word(8) < 1 << 32;
        let held = word(12) <= 64 && given + word(12) <= seen;
        let heads = word(HEAD) <= seen && (e.kind != UNTIL || word(WAITING_HEAD) <= seen);
        taken && last && word(9) <= ring && word(10) <= ring && heads && held
    };
    let fresh = seen == 0 && words[CLOSED] == 0;
    let in_range = given <= seen
        && seen <= 1_000_000
        && words[LAST] < 1 << 32
        && (words[CLOSED] == 0 || words[CLOSED] == seen + 1)
        && (words[VERSION] == 1 || words[VERSION] == 2 || (words[VERSION] == 0 && fresh))
        && words[WANTED] <= seen
        && counts(rule).iter().all(counted)
        && blocks.iter().zip(&rule.entries).all(block);
    (!in_range).then_some(11)
}

/// Changes some words, most of them to numbers that a point might hold.
fn forge(r: &mut Random, words: &mut [u64], n: usize) {
    let times = r.pick(&[1, 1, 2, 4, 40]);
    for _ in 0..times {
        let end = if r.one_in(3) { words.len().min(24) } else { words.len() };
        let at = r.below(end);
        words[at] = match r.below(9) {
            0 => r.draw(),
            1 => words[at] ^ 1 << r.below(64),
            2 => words[at].wrapping_add(1),
            3 => words[at].wrapping_sub(1),
            4 => r.pick(&[0, 1, 2, 3, 63, 64, 65, u64::MAX, u32::MAX as u64, 1 << 63, 1_000_000, 1_000_001]),
            5 => r.below(n + 2) as u64,
            6 => (n as u64).wrapping_sub(r.below(3) as u64),
            7 => words[r.below(words.len())],
            _ => r.draw() >> r.below(64),
        };
    }
}

/// Records from this byte on changed, with times that may fall.
fn alter(r: &mut Random, log: &mut [u8], from: usize) {
    for record in log[from..].chunks_mut(8) {
        if r.one_in(3) {
            match r.below(3) {
                0 => r.fill(record),
                1 => r.fill(&mut record[4..]),
                _ => record[3] = record[3].wrapping_add(r.pick(&[1, 2, 255])),
            }
        }
    }
}

/// A point that has been through some calls.
fn used(r: &mut Random) -> (Kiosk, usize) {
    let mut kiosk = Kiosk::new(r, 10, 40);
    let mut n = 0;
    for _ in 0..r.below(4) {
        n = r.from_to(n, kiosk.untouched.len());
        kiosk.accepted(r, false, n);
        if r.one_in(2) {
            let _ = kiosk.trimmed(r, n);
        }
    }
    if r.one_in(4) {
        kiosk.accepted(r, true, n);
    }
    (kiosk, n)
}

/// The refusal of a log that these words meet, which are in their ranges, after 11 and 20; else what a trimming would write. The
/// words alone decide it, forged or not. `more` says that a closing is repeated with more records.
fn after_11(words: &[u64], log: &[u8], trimming: bool, more: impl Fn(&Log) -> bool) -> Result<Vec<u8>, u32> {
    let log = log::parse(log)?;
    let kind = if log.version == 1 { 1 } else { 2 };
    let (wanted, seen) = (words[WANTED] as usize, words[SEEN] as usize);
    if words[VERSION] != 0 && words[VERSION] != kind {
        return Err(22);
    }
    if trimming && log.version == 1 {
        return Err(23);
    }
    if log.total() < seen {
        return Err(13);
    }
    if more(&log) {
        return Err(21);
    }
    if log.dropped > wanted {
        return Err(24);
    }
    let left: Vec<Record> = (wanted..log.total()).filter_map(|number| log.record(number)).collect();
    let falls = left.windows(2).any(|two| two[1].time < two[0].time);
    if falls || left.get(seen - wanted).is_some_and(|new| u64::from(new.time) < words[LAST]) {
        return Err(14);
    }
    Ok(log::encode_trimmed(wanted as u64, &left))
}

/// The refusal of a resume or a closing with these words.
fn call_refusal(rule: &Rule, words: &[u64], closing: bool, log: &[u8]) -> Option<u32> {
    let closed = words[CLOSED];
    let early = refusal(rule, words).or((!closing && closed > 0).then_some(20));
    early.or_else(|| after_11(words, log, false, |log| closing && closed > 0 && log.total() as u64 >= closed).err())
}

/// What a trimming with these words gives, into a buffer of so many bytes.
fn trimmed(rule: &Rule, words: &[u64], log: &[u8], room: usize) -> Result<Vec<u8>, u32> {
    refusal(rule, words).map_or(Ok(()), Err)?;
    let left = after_11(words, log, true, |_| false)?;
    if left.len() > room {
        return Err(25);
    }
    Ok(left)
}

#[test]
fn forged_points() {
    let body = |r: &mut Random, counts: &mut Counts| {
        let (mut kiosk, n) = used(r);
        let length = kiosk.point.words().len();
        for _ in 0..r.from_to(1, 3) {
            let mut words = kiosk.point.words().to_vec();
            forge(r, &mut words[..kiosk.need], n);
            kiosk.point.set(&words, side(r));
            let mut log = kiosk.any_brought(r, r.clone().from_to(n, kiosk.untouched.len()));
            if r.one_in(3) {
                let from = records_at(&log);
                alter(r, &mut log, from);
            }
            let sheet = vec![5; r.below(50)];
            let summary = kiosk.point.summary(&kiosk.rule, length, side(r));
            let status = kiosk.point.status(&kiosk.rule, length, side(r));
            let rule = rule::parse(&kiosk.rule).unwrap();
            let out = vec![6; r.pick(&[0, 16, log.len(), log.len() + 8])];
            let left = kiosk.point.trim(&kiosk.rule, length, &log, &out, side(r));
            let shown = format!("{}point {words:?}\nlog {}", kiosk.story, hex(&log));
            assert_eq!(left, trimmed(&rule, &words, &log, out.len()), "{shown}");
            counts.add("trimmed", usize::from(left.is_ok()));
            let closing = r.one_in(2);
            let call = Call { closing, rule: &kiosk.rule, need: kiosk.need, words: length, side: side(r) };
            let number = kiosk.point.resume(&call, &log, &sheet).err();
            counts.returned(number.unwrap_or(0));
            assert_eq!(number, call_refusal(&rule, &words, closing, &log), "{shown}");
            // All calls have checks 1 to 11.
            let expected = refusal(&rule, &words);
            assert_eq!([summary.err(), status.err()], [expected; 2], "{shown}");
        }
    };
    cases("forged_points", 40_000, body, |counts| {
        ["accepted", "refused 10", "refused 11", "refused 24", "trimmed"].iter().all(|name| counts.get(name) > 0)
    });
}

/// The words of a formula's count of no and of its latest no, in and out of their ranges (docs/CHECKPOINT.md).
#[test]
fn forged_counts() {
    let body = |r: &mut Random, counted: &mut Counts| {
        let (mut kiosk, n) = used(r);
        let rule = rule::parse(&kiosk.rule).unwrap();
        let given = kiosk.model.given() as u64;
        let near = [0, 1, given.saturating_sub(1), given, given + 1, u64::MAX];
        let mut words = kiosk.point.words().to_vec();
        let pairs = counts(&rule);
        let (no, latest) = r.pick(&pairs);
        (words[no], words[latest]) = (r.pick(&near), r.pick(&near));
        kiosk.point.set(&words, side(r));
        let in_range = words[no] <= given && words[latest] <= given && (words[no] == 0) == (words[latest] == 0);
        let of_formulas = &pairs[..rule.formulas()];
        let expected = Summary {
            no: of_formulas.iter().map(|&(no, _)| words[no]).collect(),
            latest: of_formulas.iter().map(|&(_, latest)| words[latest].checked_sub(1)).collect(),
        };
        let expected = if in_range { Ok(expected) } else { Err(11) };
        let got = kiosk.point.summary(&kiosk.rule, words.len(), side(r));
        assert_eq!(got, expected, "d {given}, words {no} and {latest}: {words:?}");
        let closing = kiosk.model.closed.is_some();
        let call = Call { closing, rule: &kiosk.rule, need: kiosk.need, words: words.len(), side: side(r) };
        let resumed = kiosk.point.resume(&call, &kiosk.brought(n), &[]).err();
        assert_eq!(resumed, got.err(), "d {given}, words {no} and {latest}: {words:?}");
        counted.returned(resumed.unwrap_or(0));
        counted.add("of formulas that are not there", usize::from(no >= 8 + rule.formulas()));
    };
    let names = ["accepted", "refused 11", "of formulas that are not there"];
    cases("forged_counts", 10_000, body, |counted| names.iter().all(|name| counted.get(name) > 0));
}

/// The word of the rule's version and number of entries, and that of the answers held by an entry, which every block has.
#[test]
fn forged_versions_and_held_answers() {
    let body = |r: &mut Random, counted: &mut Counts| {
        let (mut kiosk, n) = used(r);
        let rule = rule::parse(&kiosk.rule).unwrap();
        let mut words = kiosk.point.words().to_vec();
        assert_eq!(refusal(&rule, &words), None, "{}point {words:?}", kiosk.story);
        let (given, seen) = (words[GIVEN], words[SEEN]);
        let blocks = blocks(&rule);
        if blocks.is_empty() || r.one_in(4) {
            words[RULE] = r.pick(&[words[RULE] ^ 0x300, words[RULE] + 1, words[RULE] & 0xFF, words[RULE] + 0x100, 0]);
        } else {
            let (at, _) = r.pick(&blocks);
            words[at + 12] = r.pick(&[0, 1, seen - given, seen - given + 1, 63, 64, 65, u64::MAX, u64::MAX - given]);
            words[at + 13] = r.draw();
        }
        kiosk.point.set(&words, side(r));
        let closing = kiosk.model.closed.is_some();
        let call = Call { closing, rule: &kiosk.rule, need: kiosk.need, words: words.len(), side: side(r) };
        let got = kiosk.point.resume(&call, &kiosk.brought(n), &[5; 9]).err();
        assert_eq!(got, refusal(&rule, &words), "{}point {words:?}", kiosk.story);
        counted.returned(got.unwrap_or(0));
    };
    let names = ["accepted", "refused 10", "refused 11"];
    cases("forged_versions_and_held_answers", 10_000, body, |counted| names.iter().all(|name| counted.get(name) > 0));
}

/// The word of the log's version, that of the first wanted record, and the words of the reading heads.
#[test]
fn forged_records() {
    let body = |r: &mut Random, counted: &mut Counts| {
        let (mut kiosk, n) = used(r);
        let rule = rule::parse(&kiosk.rule).unwrap();
        let mut words = kiosk.point.words().to_vec();
        let seen = words[SEEN];
        let mut heads = vec![WANTED];
        for (&(at, _), e) in blocks(&rule).iter().zip(&rule.entries) {
            heads.push(at + HEAD);
            heads.extend((e.kind == UNTIL).then_some(at + WAITING_HEAD));
        }
        if r.one_in(4) {
            words[VERSION] = r.pick(&[0, 1, 2, 3, 1 << 32 | 1, u64::MAX]);
        } else {
            for _ in 0..r.from_to(1, heads.len()) {
                let near = [0, 1, seen.saturating_sub(1), seen, seen, seen + 1, r.draw(), u64::MAX];
                let of = if r.one_in(3) { &near[..] } else { &near[..5] };
                words[r.pick(&heads)] = r.pick(of);
            }
        }
        kiosk.point.set(&words, side(r));
        let n = r.from_to(n, if kiosk.model.closed.is_some() { n } else { kiosk.untouched.len() });
        let closing = kiosk.model.closed.is_some() || r.one_in(3);
        let call = Call { closing, rule: &kiosk.rule, need: kiosk.need, words: words.len(), side: side(r) };
        let log = kiosk.any_brought(r, n);
        let shown = format!("{}point {words:?}\nlog {}", kiosk.story, hex(&log));
        let left = kiosk.point.trim(&kiosk.rule, words.len(), &log, &vec![6; log.len() + 8], side(r));
        assert_eq!(left, trimmed(&rule, &words, &log, log.len() + 8), "{shown}");
        counted.add("trimmed", usize::from(left.is_ok()));
        let got = kiosk.point.resume(&call, &log, &vec![5; r.below(200)]).err();
        assert_eq!(got, call_refusal(&rule, &words, closing, &log), "{shown}");
        counted.returned(got.unwrap_or(0));
    };
    let names = ["accepted", "refused 11", "refused 22", "refused 24", "trimmed"];
    cases("forged_records", 30_000, body, |counted| names.iter().all(|name| counted.get(name) > 0));
}

/// The word that says at how many records the point was closed: 0, or one more than the records seen.
#[test]
fn forged_closings() {
    let body = |r: &mut Random, counts: &mut Counts| {
        let (mut kiosk, n) = used(r);
        let seen = kiosk.model.seen as u64;
        let mut words = kiosk.point.words().to_vec();
        words[CLOSED] = r.pick(&[0, 1, seen.max(1), seen + 1, seen + 1, seen + 2, r.clone().draw(), u64::MAX]);
        kiosk.point.set(&words, side(r));
        let closing = r.one_in(2);
        let call = Call { closing, rule: &kiosk.rule, need: kiosk.need, words: words.len(), side: side(r) };
        let got = kiosk.point.resume(&call, &kiosk.brought(n), &[]).err().unwrap_or(0);
        let expected = match words[CLOSED] {
            0 => 0,
            closed if closed != seen + 1 => 11,
            // an accepted closing has noted the log's version
            _ if words[VERSION] == 0 => 11,
            _ if closing => 0,
            _ => 20,
        };
        assert_eq!(got, expected, "seen {seen}, {}", words[CLOSED]);
        counts.returned(got);
    };
    let all = |counts: &Counts| ["accepted", "refused 11", "refused 20"].iter().all(|name| counts.get(name) > 0);
    cases("forged_closings", 5_000, body, all);
}

/// Words that are no point: all the same, random, or a point of which only the beginning is left.
#[test]
fn foreign_points() {
    let body = |r: &mut Random, counts: &mut Counts| {
        let (mut kiosk, n) = used(r);
        let mut words = kiosk.point.words().to_vec();
        assert_eq!(words[0], mark(FORMAT));
        let need = kiosk.need;
        let random = r.draw();
        match r.below(4) {
            0 => words[..need].fill(r.pick(&[0, 1, u64::MAX, random])),
            1 => words[..need].iter_mut().for_each(|w| *w = r.draw()),
            2 => words[0] ^= 1 << r.below(64),
            // the formats before this one
            _ => words[0] = mark(r.from_to(1, FORMAT as usize - 1) as u64),
        }
        kiosk.point.set(&words, side(r));
        let mut log = kiosk.brought(n);
        if r.one_in(2) {
            random::damage(r, &mut log);
        }
        assert_eq!(kiosk.point.summary(&kiosk.rule, words.len(), side(r)), Err(10), "{}point {words:?}", kiosk.story);
        let left = kiosk.point.trim(&kiosk.rule, words.len(), &log, &[6; 20], side(r));
        assert_eq!(left, Err(10), "{}point {words:?}\nlog {}", kiosk.story, hex(&log));
        let call = Call { closing: r.one_in(2), rule: &kiosk.rule, need, words: words.len(), side: side(r) };
        let got = kiosk.point.resume(&call, &log, &[5; 20]);
        assert_eq!(got, Err(10), "{}point {words:?}\nlog {}", kiosk.story, hex(&log));
        counts.returned(10);
    };
    cases("foreign_points", 10_000, body, |_| true);
}

/// Refusals are exact for altered records too, and a point left so meets neither 10 nor 11: only what an accepted call
/// writes is free.
#[test]
fn altered_open_records() {
    let body = |r: &mut Random, counts: &mut Counts| {
        let (mut kiosk, mut n) = used(r);
        let length = kiosk.point.words().len();
        for _ in 0..r.from_to(1, 4) {
            n = r.from_to(n, kiosk.untouched.len());
            let mut log = kiosk.any_brought(r, n);
            let wanted = kiosk.wanted();
            let from = records_at(&log) + 8 * (wanted - log::parse(&log).unwrap().dropped);
            alter(r, &mut log, from);
            if r.one_in(2) {
                sort_times(&mut log[from..]);
            }
            let sheet = vec![5; r.below(30)];
            let closing = r.one_in(4);
            let call = Call { closing, rule: &kiosk.rule, need: kiosk.need, words: length, side: side(r) };
            let got = kiosk.point.resume(&call, &log, &sheet);
            let expected = kiosk.model.check(closing, &kiosk.rule, &log, length).map(|_| ());
            let kind = if closing { Kind::Close } else { Kind::Resume };
            kiosk.story.add(kind, &kiosk.rule, &log, length, sheet.len(), &kiosk.model);
            let number = got.as_ref().err().copied().unwrap_or(0);
            assert_eq!(number, expected.err().unwrap_or(0), "{}", kiosk.story);
            counts.returned(number);
            let Ok(given) = got else { continue };
            let log = log::parse(&log).unwrap();
            // Which of the records from the first wanted on are positions is what the altered log says.
            let before = kiosk.model.given().saturating_sub(rule::parse(&kiosk.rule).unwrap().depth);
            let open = log::places(log.version, &log.records[wanted - log.dropped..]);
            let places = std::iter::repeat_n(0, before).chain(open.into_iter().map(|at| wanted + at)).collect();
            kiosk.model.sheet.extend(&given.verdicts);
            kiosk.model.note(closing, &log, places);
            let status = kiosk.point.status(&kiosk.rule, length, side(r));
            assert_eq!(status, kiosk.model.status(&kiosk.rule, length), "{}", kiosk.story);
        }
    };
    cases("altered_open_records", 40_000, body, |counts| counts.get("accepted") > 0);
}

/// Makes the times of some records rise.
fn sort_times(records: &mut [u8]) {
    let mut times: Vec<[u8; 4]> = records.chunks(8).map(|record| record[..4].try_into().unwrap()).collect();
    times.sort();
    for (record, time) in records.chunks_mut(8).zip(times) {
        record[..4].copy_from_slice(&time);
    }
}

/// A point opened for one rule, brought with another that needs as many words.
#[test]
fn another_rule() {
    let body = |r: &mut Random, counts: &mut Counts| {
        let kiosk = Kiosk::new(r, 8, 10);
        let mut rule = kiosk.rule.clone();
        let count = (rule.len() - 8) / 10;
        if r.one_in(4) {
            rule[4] = 3 - rule[4];
        }
        for _ in 0..r.below(3).min(count) {
            let at = 8 + 10 * r.below(count);
            match rule[at] {
                0 => rule[at + 1] = r.below(32) as u8,
                3..=6 => rule[at + 5] = rule[at + 9].min(r.below(4) as u8),
                _ => {}
            }
        }
        let need = evaluator::model::measure(&rule).map_or(0, |m| m.0 as usize);
        // Room for either version.
        let words = kiosk.need + r.pick(&[0, 8]);
        let mut point = Checkpoint::new(&vec![0; words], side(r));
        point.open(&kiosk.rule, kiosk.need, side(r)).unwrap();
        let closing = r.one_in(2);
        let call = Call { closing, rule: &rule, need, words, side: side(r) };
        let expected = kiosk.model.check(closing, &rule, &log::HEADER, words).err().unwrap_or(0);
        let left = point.trim(&rule, words, &log::header(2), &[6; 16], side(r));
        assert_eq!(left, kiosk.model.trim(&rule, &log::header(2), words, 16), "brought {}", hex(&rule));
        let got = point.resume(&call, &log::HEADER, &[]).err().unwrap_or(0);
        assert_eq!(got, expected, "opened for {}\nbrought {}", hex(&kiosk.rule), hex(&rule));
        counts.returned(got);
    };
    cases("another_rule", 20_000, body, |counts| counts.get("refused 10") > 1_000);
}
