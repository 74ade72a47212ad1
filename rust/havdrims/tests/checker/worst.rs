//! The log that keeps most seconds waiting (document 02, paper 4).

use crate::guard::{Lent, Side};
use evaluator::log::{self, Record, MOST_RECORDS};
use evaluator::rule::{self, Entry, Rule, NO_END, UNTIL};
use evaluator::{linear, reading};
use havdrims::{ffi, measure, open, resume};
use std::collections::HashSet;

const KEPT: u64 = 0x1111_2222_3333_4444;
const BEHIND: u8 = 0xEE;

/// havdrims_worst_log on a guarded buffer of so many bytes: the log, or the refusal's number, once it is sure that all
/// other bytes, and after a refusal the number too, are as they were.
fn worst_log(low: u32, high: u32, n: u64, room: usize, side: Side) -> Result<Vec<u8>, u32> {
    let mut lent = Lent::new(room);
    lent.place(&vec![BEHIND; room], side);
    let mut written = KEPT;
    // SAFETY: the buffer and the number are this function's own.
    let number = unsafe { ffi::havdrims_worst_log(low, high, n, lent.pointer(), lent.length(), &mut written) };
    assert!(lent.surroundings_kept());
    if number != 0 {
        assert_eq!(written, KEPT, "refusal {number} wrote its number");
        assert!(lent.bytes().iter().all(|&b| b == BEHIND), "refusal {number} wrote into the buffer");
        return Err(number);
    }
    let (log, behind) = lent.bytes().split_at(written as usize);
    assert!(behind.iter().all(|&b| b == BEHIND), "bytes behind the log were written");
    Ok(log.to_vec())
}

fn room_for(n: usize) -> usize {
    8 + 8 * n
}

/// "record i has letter 0 alone and as its time the smaller of i and high"
fn records(high: u32, n: usize) -> Vec<Record> {
    (0..n).map(|i| Record { time: (i as u32).min(high), letters: 1 }).collect()
}

/// "letter 0 until low to high of letter 1"
fn rule_bytes(low: u32, high: u32) -> Vec<u8> {
    rule::encode(&[Entry::letter(0), Entry::letter(1), Entry::timed(UNTIL, low, high)])
}

/// The distinct times among the positions that have no verdict.
fn open_times(verdicts: &[u8], log: &[Record]) -> usize {
    log[verdicts.len()..].iter().map(|r| r.time).collect::<HashSet<u32>>().len()
}

/// Every way to go on from these records up to n, with gaps up to `longest` and letters among 0 and 1.
fn every_log(log: &mut Vec<Record>, n: usize, longest: u32, visit: &mut impl FnMut(&[Record])) {
    if log.len() == n {
        return visit(log);
    }
    let (last, longest_now) = log.last().map_or((0, 0), |r| (r.time, longest));
    for gap in 0..=longest_now {
        for letters in 0..4 {
            log.push(Record { time: last + gap, letters });
            every_log(log, n, longest, visit);
            log.pop();
        }
    }
}

/// A gap above high + 1 settles what a gap of high + 1 settles, so that these are all logs that matter.
#[test]
fn no_small_log_keeps_more() {
    for high in 0..3 {
        for low in 0..=high {
            let rule: Rule = rule::parse(&rule_bytes(low, high)).unwrap();
            for n in 0..5 {
                let most = n.min(high as usize + 1);
                let mut found = 0;
                every_log(&mut Vec::new(), n, high + 1, &mut |log| {
                    let times = open_times(&reading::verdicts(&rule, log), log);
                    assert!(times <= most, "{low} to {high}: {times} in {log:?}");
                    found = found.max(times);
                });
                assert_eq!(found, most, "{low} to {high}, {n} records");
                let written =
                    log::parse(&worst_log(low, high, n as u64, room_for(n), Side::Right).unwrap()).unwrap().records;
                assert_eq!(open_times(&reading::verdicts(&rule, &written), &written), most);
            }
        }
    }
}

#[test]
fn sizes() {
    for (low, high) in [(0, 0), (0, 1), (1, 2), (90, 90), (0, 3600)] {
        let near = high as usize;
        for n in [0, 1, near, near + 1, near + 2, MOST_RECORDS] {
            let wanted = log::encode(&records(high, n));
            let rooms = [(room_for(n), Side::Right), (room_for(n), Side::Left), (room_for(n) + 13, Side::Right)];
            for (room, side) in rooms {
                let written = worst_log(low, high, n as u64, room, side);
                assert!(written.as_ref() == Ok(&wanted), "{low} to {high}, {n} records");
            }
            assert_eq!(worst_log(low, high, n as u64, room_for(n) - 1, Side::Right), Err(19), "{n} records");
        }
        let above = MOST_RECORDS + 1;
        assert_eq!(worst_log(low, high, above as u64, room_for(above), Side::Right), Err(19));
    }
}

#[test]
fn refusals() {
    for n in [MOST_RECORDS as u64 + 1, u64::MAX / 8, u64::MAX / 8 + 1, u64::MAX - 7, u64::MAX] {
        assert_eq!(worst_log(0, 5, n, 64, Side::Right), Err(19), "{n} records");
    }
    assert_eq!(worst_log(0, 5, 0, 0, Side::Right), Err(19));
    assert_eq!(worst_log(0, 5, 0, 7, Side::Right), Err(19));
    // interval faults, before 19
    for (low, high) in [(1, 0), (0, 3601), (3601, 3601), (3600, 3599), (0, NO_END), (NO_END, NO_END), (3601, NO_END)] {
        assert_eq!(rule::parse(&rule_bytes(low, high)).err(), Some(6));
        for (n, room) in [(3, 64), (3, 8), (u64::MAX, 0)] {
            assert_eq!(worst_log(low, high, n, room, Side::Left), Err(6), "{low} to {high}");
        }
    }
}

/// All its positions are open: a fresh checkpoint gives no verdict and has caught up.
#[test]
fn no_verdict_is_settled() {
    for (low, high) in [(0, 0), (0, 2), (5, 90), (0, 3600), (3600, 3600)] {
        let bytes = rule_bytes(low, high);
        let rule = rule::parse(&bytes).unwrap();
        let near = high as usize;
        for n in [0, 1, near, near + 1, near + 2, MOST_RECORDS] {
            let log = worst_log(low, high, n as u64, room_for(n), Side::Right).unwrap();
            let mut checkpoint = vec![0; measure(&bytes).unwrap().words];
            open(&bytes, &mut checkpoint).unwrap();
            let mut sheet = vec![7; n];
            let given = resume(&bytes, &log, &mut checkpoint, &mut sheet).unwrap();
            assert_eq!((given.verdicts, given.more), (0, false), "{low} to {high}, {n} records");
            assert!(sheet.iter().all(|&b| b == 7));
            let records = log::parse(&log).unwrap().records;
            assert_eq!(open_times(&linear::verdicts(&rule, &records), &records), n.min(near + 1));
        }
    }
}
