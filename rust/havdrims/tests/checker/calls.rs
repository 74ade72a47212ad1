//! The functions called on guarded buffers, with what every call keeps checked after it.

use crate::guard::{Lent, Side};
use evaluator::model::{self, Status, Summary};
use evaluator::random::Random;
use havdrims::{ffi, MOST_FORMULAS};
use std::cell::Cell;

/// What stands behind the last pointers before a call.
const KEPT: [u64; 2] = [0x1111_2222_3333_4444, 0x5555_6666_7777_8888];

/// A call's number and what it wrote behind its last two pointers.
pub type Answer = Result<(u64, u64), u32>;

pub fn hex(bytes: &[u8]) -> String {
    if bytes.is_empty() {
        return "-".to_string();
    }
    bytes.iter().map(|b| format!("{b:02x}")).collect()
}

pub fn side(r: &mut Random) -> Side {
    if r.one_in(2) {
        Side::Left
    } else {
        Side::Right
    }
}

/// The answer, once it is sure that a refusal left the numbers as they were.
fn answer(number: u32, numbers: [u64; 2]) -> Answer {
    if number == 0 {
        return Ok((numbers[0], numbers[1]));
    }
    assert_eq!(numbers, KEPT, "refusal {number} wrote its numbers");
    Err(number)
}

fn lent(content: &[u8], side: Side) -> Lent {
    let mut lent = Lent::new(content.len());
    lent.place(content, side);
    lent
}

/// Changing page protection is slow: one in so many buffers that are only read lies in pages that cannot be written.
const READ_ONLY_ONE_IN: usize = 7;

thread_local! {
    static CALLS: Cell<usize> = const { Cell::new(0) };
}

fn read_only_turn() -> bool {
    CALLS.set(CALLS.get() + 1);
    CALLS.get().is_multiple_of(READ_ONLY_ONE_IN)
}

/// havdrims_measure on a guarded rule.
pub fn measure(rule: &[u8], side: Side) -> Answer {
    let mut copy = lent(rule, side);
    copy.read_only_if(read_only_turn());
    let [mut words, mut reach] = KEPT;
    // SAFETY: the rule is lent for reading, the numbers are this function's own.
    let number = unsafe { ffi::havdrims_measure(copy.pointer(), copy.length(), &mut words, &mut reach) };
    assert_eq!(copy.bytes(), rule, "measure changed the rule");
    answer(number, [words, reach])
}

/// havdrims_formulas on a guarded rule.
pub fn formulas(rule: &[u8], side: Side) -> Result<u64, u32> {
    let mut copy = lent(rule, side);
    copy.read_only_if(read_only_turn());
    let mut formulas = KEPT[0];
    // SAFETY: the rule is lent for reading, the number is this function's own.
    let number = unsafe { ffi::havdrims_formulas(copy.pointer(), copy.length(), &mut formulas) };
    assert_eq!(copy.bytes(), rule, "formulas changed the rule");
    answer(number, [formulas, KEPT[1]]).map(|(formulas, _)| formulas)
}

/// What a call gives formula by formula: two guarded arrays of eight numbers.
struct PerFormula([Lent; 2]);

impl PerFormula {
    fn new(side: Side) -> PerFormula {
        PerFormula(KEPT.map(|kept| {
            let mut lent = Lent::new(8 * MOST_FORMULAS);
            lent.place_words(&[kept; MOST_FORMULAS], side);
            lent
        }))
    }

    fn pointers(&mut self) -> [*mut [u64; MOST_FORMULAS]; 2] {
        self.0.each_mut().map(|lent| lent.pointer().cast())
    }

    /// The numbers of so many formulas, once it is sure that the others are kept, and all of them if the call is refused.
    fn answer(&self, number: u32, formulas: usize) -> Result<[Vec<u64>; 2], u32> {
        let written = if number == 0 { formulas } else { 0 };
        for (lent, kept) in self.0.iter().zip(KEPT) {
            assert!(lent.surroundings_kept(), "the call wrote outside the numbers");
            let others = &lent.words()[written..];
            assert!(others.iter().all(|&word| word == kept), "{number}: the call wrote other numbers, {others:?}");
        }
        if number != 0 {
            return Err(number);
        }
        Ok(self.0.each_ref().map(|lent| lent.words()[..formulas].to_vec()))
    }
}

/// havdrims_tally on a guarded sheet: the counts of no and of yes.
pub fn tally(sheet: &[u8], formulas: u64, side: Side) -> Result<(Vec<u64>, Vec<u64>), u32> {
    let mut copy = lent(sheet, side);
    copy.read_only_if(read_only_turn());
    let mut counts = PerFormula::new(side);
    let [no, yes] = counts.pointers();
    // SAFETY: the sheet is lent for reading, the numbers are this function's own.
    let number = unsafe { ffi::havdrims_tally(copy.pointer(), copy.length(), formulas, no, yes) };
    assert_eq!(copy.bytes(), sheet, "tally changed the sheet");
    counts.answer(number, formulas as usize).map(|[no, yes]| (no, yes))
}

/// A checkpoint in guarded words.
pub struct Checkpoint {
    lent: Lent,
}

/// What an accepted carry on or closing gave.
#[derive(Debug, PartialEq)]
pub struct Given {
    pub verdicts: Vec<u8>,
    pub more: bool,
}

impl Checkpoint {
    /// Lent words with this content.
    pub fn new(words: &[u64], side: Side) -> Checkpoint {
        let mut lent = Lent::new(8 * words.len());
        lent.place_words(words, side);
        Checkpoint { lent }
    }

    pub fn words(&self) -> &[u64] {
        self.lent.words()
    }

    pub fn set(&mut self, words: &[u64], side: Side) {
        self.lent.place_words(words, side);
    }

    /// havdrims_open. The words behind the need are kept, and all of them if it refuses.
    pub fn open(&mut self, rule: &[u8], need: usize, side: Side) -> Result<(), u32> {
        let before = self.words().to_vec();
        let mut copy = lent(rule, side);
        copy.read_only_if(read_only_turn());
        let (point, length) = (self.lent.pointer().cast(), before.len());
        // SAFETY: rule and words are lent, the words for writing.
        let number = unsafe { ffi::havdrims_open(copy.pointer(), copy.length(), point, length) };
        assert_eq!(copy.bytes(), rule, "open changed the rule");
        let kept = if number == 0 { need } else { 0 };
        assert_eq!(self.words()[kept..], before[kept..], "open changed words that it has to keep");
        assert!(self.lent.surroundings_kept(), "open wrote outside the point");
        if number == 0 {
            Ok(())
        } else {
            Err(number)
        }
    }

    /// A call that only reads the rule and the words: its number, once it is sure that it keeps both.
    fn asked(&mut self, rule: &[u8], side: Side, call: impl FnOnce(*const u8, *const u64) -> u32) -> u32 {
        let before = self.words().to_vec();
        let mut copy = lent(rule, side);
        copy.read_only_if(read_only_turn());
        self.lent.read_only_if(read_only_turn());
        let number = call(copy.pointer(), self.lent.pointer().cast());
        self.lent.read_only_if(false);
        assert_eq!(copy.bytes(), rule, "the call changed the rule");
        assert_eq!(self.words(), before, "the call changed the point");
        assert!(self.lent.surroundings_kept(), "the call wrote outside the point");
        number
    }

    /// havdrims_summary, lending the first `words` words.
    pub fn summary(&mut self, rule: &[u8], words: usize, side: Side) -> Result<Summary, u32> {
        let mut numbers = PerFormula::new(side);
        let [no, latest] = numbers.pointers();
        // SAFETY: rule and words are lent for reading, the numbers are this function's own.
        let number = self.asked(rule, side, |lent, point| unsafe {
            ffi::havdrims_summary(lent, rule.len(), point, words, no, latest)
        });
        let formulas = model::formulas(rule).unwrap_or(0) as usize;
        let [no, latest] = numbers.answer(number, formulas)?;
        Ok(Summary { no, latest: latest.into_iter().map(|at| (at != u64::MAX).then_some(at)).collect() })
    }

    /// havdrims_status, lending the first `words` words.
    pub fn status(&mut self, rule: &[u8], words: usize, side: Side) -> Result<Status, u32> {
        let mut numbers = [KEPT[0]; 4];
        let [given, seen, wanted, closed] = &mut numbers;
        // SAFETY: rule and words are lent for reading, the numbers are this function's own.
        let number = self.asked(rule, side, |lent, point| unsafe {
            ffi::havdrims_status(lent, rule.len(), point, words, given, seen, wanted, closed)
        });
        if number != 0 {
            assert_eq!(numbers, [KEPT[0]; 4], "refusal {number} wrote its numbers");
            return Err(number);
        }
        let [given, seen, wanted, closed] = numbers;
        assert!(closed <= 1, "closed is {closed}");
        Ok(Status { given, seen, wanted, closed: closed == 1 })
    }

    /// havdrims_trim on guarded copies of the log and of what `out` holds, lending the first `words` words: the bytes that it
    /// wrote. Those behind them are kept, and all of them if it refuses.
    pub fn trim(&mut self, rule: &[u8], words: usize, log: &[u8], out: &[u8], side: Side) -> Result<Vec<u8>, u32> {
        let mut brought = lent(log, side);
        brought.read_only_if(read_only_turn());
        let mut trimmed = lent(out, side);
        let (room, mut written) = (out.len(), KEPT[0]);
        let (from, into) = (brought.pointer(), trimmed.pointer());
        // SAFETY: rule, log and words are lent for reading, the buffer for writing; the number is this function's own.
        let number = self.asked(rule, side, |lent, point| unsafe {
            ffi::havdrims_trim(lent, rule.len(), from, log.len(), point, words, into, room, &mut written)
        });
        assert_eq!(brought.bytes(), log, "trim changed the log");
        assert!(trimmed.surroundings_kept(), "trim wrote outside the buffer");
        let kept = answer(number, [written, KEPT[1]]).map_or(0, |(written, _)| written as usize);
        assert_eq!(trimmed.bytes()[kept..], out[kept..], "trim changed bytes that it has to keep");
        if number != 0 {
            return Err(number);
        }
        Ok(trimmed.bytes()[..kept].to_vec())
    }

    /// havdrims_resume or havdrims_close on a guarded copy of the log.
    pub fn resume(&mut self, call: &Call, log: &[u8], sheet: &[u8]) -> Result<Given, u32> {
        let mut copy = lent(log, call.side);
        copy.read_only_if(read_only_turn());
        let given = self.resume_in_place(call, &mut copy, sheet);
        assert_eq!(copy.bytes(), log, "the call changed the log");
        given
    }

    /// The same on this log, lending the first `words` words. Whatever the point and the log hold: a refusal changes
    /// nothing; an accepted call keeps the words behind the need and the sheet behind its verdicts.
    pub fn resume_in_place(&mut self, call: &Call, log: &mut Lent, sheet: &[u8]) -> Result<Given, u32> {
        let before = self.words().to_vec();
        let mut rule = lent(call.rule, call.side);
        let mut written = Lent::new(sheet.len());
        written.place(sheet, call.side);
        let [mut given, mut more] = KEPT;
        rule.read_only_if(read_only_turn());
        let function = if call.closing { ffi::havdrims_close } else { ffi::havdrims_resume };
        // SAFETY: all four buffers are lent, words and sheet for writing; the numbers are this function's own.
        let number = unsafe {
            function(
                rule.pointer(),
                rule.length(),
                log.pointer(),
                log.length(),
                self.lent.pointer().cast(),
                call.words,
                written.pointer(),
                sheet.len(),
                &mut given,
                &mut more,
            )
        };
        assert_eq!(rule.bytes(), call.rule, "the call changed the rule");
        assert!(self.lent.surroundings_kept(), "the call wrote outside the point");
        assert!(written.surroundings_kept(), "the call wrote outside the sheet");
        let (given, more) = match answer(number, [given, more]) {
            Ok(numbers) => numbers,
            Err(number) => {
                assert_eq!(self.words(), before, "refusal {number} changed the point");
                assert_eq!(written.bytes(), sheet, "refusal {number} changed the sheet");
                return Err(number);
            }
        };
        assert!(given as usize <= sheet.len(), "more verdicts than the sheet takes");
        assert!(more <= 1, "more is {more}");
        let c = given as usize;
        assert_eq!(written.bytes()[c..], sheet[c..], "the call changed the sheet behind its verdicts");
        assert_eq!(self.words()[call.need..], before[call.need..], "the call changed words behind the need");
        Ok(Given { verdicts: written.bytes()[..c].to_vec(), more: more == 1 })
    }
}

/// A carry on or a closing, but for its log and its sheet.
pub struct Call<'a> {
    pub closing: bool,
    pub rule: &'a [u8],
    /// The need of the rule that the point was opened for.
    pub need: usize,
    /// The words lent.
    pub words: usize,
    pub side: Side,
}
