//! A checker of rules over kiosk logs that carries on, evening by evening, from a saved point.
//!
//! A rule says what ought to hold around each record of a log, in metric temporal logic: "the head stays warm
//! until the print starts, within ninety seconds". The checker gives a verdict, yes or no, for each record in
//! turn, as soon as the log decides it. What it knows between two evenings is a checkpoint (a saved point): some
//! words that the caller lends and keeps. A record that has its verdict is not read again, but for the last few where
//! the rule looks back with previous, so the kiosk may overwrite it.
//!
//! From log version 2 on a record with letter 31 is a service record: it is no position and gets no verdict, and every
//! operator skips it. Positions are numbered from 0 over the other records. In a version 1 log every record is a position.
//!
//! A version 3 log is a trimmed one: its first records were dropped, and it says how many, so that all others keep their
//! numbers.
//!
//! A version 2 rule has up to eight formulas, which are judged in one run: a verdict is then a byte with an answer, a bit,
//! for each of them.
//!
//! [`Monitor`] keeps a rule and its checkpoint together, and takes a [`Rule`] and a [`Log`], which were looked at once: it is what
//! most programs want. Beneath it are the calls on slices, for those that lend their own memory.
//!
//! The calls: [`measure`] (weigh), [`open`], [`resume`] (carry on), [`close`] at the month's end, [`trim`], which writes a
//! shorter log, [`summary`], [`status`] and [`tally`]; [`explain`], which writes the reason for a yes or no; [`formulas`],
//! which counts those of a rule; [`parse`], which writes a rule that is typed as text; and [`worst_log`] and [`simulate`],
//! which write logs to try a kiosk or its settings with. Each yields its result or one [`Refusal`], and a refused call
//! changes nothing. The checker is proved; this crate only hands slices on to it. None of them allocates, and a thread with
//! [`MOST_STACK`] bytes of stack can make every call but `parse` and `explain`, which take [`PARSE_STACK`] and
//! [`EXPLAIN_STACK`].
//!
//! The crate does without `std`, and without its feature `alloc`, which is on by default, it allocates nothing: then it has the calls
//! on slices, [`Log`] and [`Refusal`].
//!
//! # Example
//!
//! With the calls on slices: letter 0 until letter 1, within two seconds, over a log that grows:
//!
//! ```
//! use havdrims::{measure, open, parse, resume, summary, tally, Refusal, MOST_RULE};
//!
//! # fn main() -> Result<(), Refusal> {
//! let mut buffer = [0; MOST_RULE];
//! let size = parse(b"e0 until[0,2] e1", &mut buffer)?;
//! let rule = &buffer[..size];
//!
//! let needs = measure(rule)?;
//! assert_eq!((needs.words, needs.reach), (70, Some(2)));
//! let mut checkpoint = vec![0; needs.words];
//! open(rule, &mut checkpoint)?;
//!
//! let mut log = b"KLG\x00\x01\x00\x00\x00".to_vec();
//! log.extend([0, 0, 0, 10, 0, 0, 0, 1]); // second 10: letter 0
//! log.extend([0, 0, 0, 12, 0, 0, 0, 1]); // second 12: letter 0
//! let mut sheet = [0; 16];
//! let first = resume(rule, &log, &mut checkpoint, &mut sheet)?;
//! assert_eq!((first.verdicts, first.more), (0, false)); // both still open
//!
//! log.extend([0, 0, 0, 13, 0, 0, 0, 2]); // second 13: letter 1
//! let second = resume(rule, &log, &mut checkpoint, &mut sheet)?;
//! assert_eq!(sheet[..second.verdicts], [0, 1, 1]); // no, yes, yes
//!
//! let counts = tally(&sheet[..second.verdicts], 1)?; // of a rule with one formula
//! assert_eq!((counts.no(), counts.yes()), (&[1][..], &[2][..]));
//! let so_far = summary(rule, &checkpoint)?;
//! assert_eq!(so_far.no(), [1]); // the same without any sheet: one no,
//! assert_eq!(so_far.latest(), [Some(0)]); // at position 0
//! # Ok(())
//! # }
//! ```

#![cfg_attr(not(test), no_std)]
#![warn(missing_docs)]

#[cfg(feature = "alloc")]
extern crate alloc;

pub mod ffi;
mod log;
#[cfg(feature = "alloc")]
mod monitor;
#[cfg(feature = "alloc")]
pub mod reason;
mod refusal;
#[cfg(feature = "alloc")]
mod rule;
#[cfg(feature = "alloc")]
pub mod save;
#[cfg(feature = "alloc")]
pub mod text;

pub use log::{Log, Record, MOST_RECORDS};
#[cfg(feature = "alloc")]
pub use monitor::{Answers, LoadError, Monitor, Verdict, Verdicts};
#[cfg(feature = "alloc")]
pub use reason::Reason;
pub use refusal::Refusal;
#[cfg(feature = "alloc")]
pub use rule::Rule;

/// The most bytes of stack that a call other than [`parse`] and [`explain`] needs, whatever the rule: measured and tested on
/// x86-64 Linux, not proved.
pub const MOST_STACK: usize = 65_536;

/// The most bytes of stack that [`parse`] needs, whatever the text: measured and tested on x86-64 Linux, not proved.
pub const PARSE_STACK: usize = 1_048_576;

/// The most bytes of stack that [`explain`] needs, whatever the rule: measured and tested on x86-64 Linux, not proved.
pub const EXPLAIN_STACK: usize = 262_144;

/// Enough bytes for the text of every reason: 128 lines of at most 29 bytes.
pub const MOST_REASON: usize = 3_712;

/// The most bytes of a rule: a header and 128 entries.
pub const MOST_RULE: usize = 1_288;

/// The most formulas of a rule.
pub const MOST_FORMULAS: usize = 8;

/// The most words that a checkpoint needs.
pub const MOST_WORDS: usize = 8_192;

/// What a rule needs.
#[derive(Clone, Copy, Debug, PartialEq, Eq)]
pub struct Needs {
    /// The 64-bit words that a checkpoint of the rule takes: 16 to 8,192, and 16 for a rule without entries alone.
    pub words: usize,
    /// A position is answered once the last one lies more than so many seconds after it; none for a rule with
    /// next. Of several formulas it is the largest.
    pub reach: Option<u32>,
}

/// What an accepted [`resume`] or [`close`] gave.
#[derive(Clone, Copy, Debug, PartialEq, Eq)]
pub struct Resumed {
    /// The verdicts written, from the sheet's first byte on.
    pub verdicts: usize,
    /// The log settles further positions, which the sheet had no room for. Otherwise the checkpoint has caught up.
    pub more: bool,
}

/// The no among all verdicts given with a checkpoint, formula by formula.
#[derive(Clone, Copy, Debug, PartialEq, Eq)]
pub struct Summary {
    formulas: usize,
    no: [u64; MOST_FORMULAS],
    latest: [Option<u64>; MOST_FORMULAS],
}

impl Summary {
    /// The count of no, one for each formula of the rule.
    pub fn no(&self) -> &[u64] {
        &self.no[..self.formulas]
    }

    /// The position of the latest no, one for each formula.
    pub fn latest(&self) -> &[Option<u64>] {
        &self.latest[..self.formulas]
    }

    /// What [`summary`] gives after all the verdicts of a sheet, from the sheet alone. Refusal: 15.
    ///
    /// ```
    /// use havdrims::{Refusal, Summary};
    ///
    /// let of_two = Summary::of(&[3, 2, 3], 2)?;
    /// assert_eq!((of_two.no(), of_two.latest()), (&[1, 0][..], &[Some(1), None][..]));
    /// assert_eq!(Summary::of(&[3, 2, 3], 1), Err(Refusal::SheetByte));
    /// # Ok::<(), Refusal>(())
    /// ```
    pub fn of(sheet: &[u8], formulas: usize) -> Result<Summary, Refusal> {
        let counts = tally(sheet, formulas)?;
        let mut latest = [None; MOST_FORMULAS];
        for (formula, latest) in latest.iter_mut().enumerate().take(formulas) {
            *latest = sheet.iter().rposition(|verdict| verdict >> formula & 1 == 0).map(|at| at as u64);
        }
        Ok(Summary { formulas, no: counts.no, latest })
    }
}

/// How far a checkpoint has come.
#[derive(Clone, Copy, Debug, PartialEq, Eq)]
pub struct Status {
    /// The verdicts given with it, all calls together.
    pub given: u64,
    /// The records that the last accepted [`resume`] or [`close`] brought, service records and dropped ones included.
    pub seen: u64,
    /// The first record still wanted: the one that holds the first position still wanted, or the record after all seen
    /// where none of them holds it. All records before it may be overwritten, or dropped by [`trim`].
    pub wanted: u64,
    /// A closing was accepted.
    pub closed: bool,
}

/// The counts of a sheet, formula by formula.
#[derive(Clone, Copy, Debug, PartialEq, Eq)]
pub struct Tally {
    formulas: usize,
    no: [u64; MOST_FORMULAS],
    yes: [u64; MOST_FORMULAS],
}

impl Tally {
    /// The count of no, one for each formula.
    pub fn no(&self) -> &[u64] {
        &self.no[..self.formulas]
    }

    /// The count of yes, one for each formula.
    pub fn yes(&self) -> &[u64] {
        &self.yes[..self.formulas]
    }
}

/// Reads a rule and gives the words that its checkpoint needs, and its reach. Refusals: 1 to 8.
///
/// ```
/// use havdrims::{measure, Needs, Refusal};
///
/// let letter = b"KRL\x00\x01\x01\x00\x00\x00\x05\x00\x00\x00\x00\x00\x00\x00\x00"; // e5
/// assert_eq!(measure(letter), Ok(Needs { words: 32, reach: Some(0) }));
/// assert_eq!(measure(&letter[..17]), Err(Refusal::RuleLength));
/// ```
pub fn measure(rule: &[u8]) -> Result<Needs, Refusal> {
    let (mut words, mut reach) = (0, 0);
    // SAFETY: the pointers and lengths are those of a slice and of two numbers, none of which overlap.
    let number = unsafe { ffi::havdrims_measure(rule.as_ptr(), rule.len(), &mut words, &mut reach) };
    refusal::checked(number)?;
    let reach = u32::try_from(reach).ok().filter(|&r| r != u32::MAX);
    Ok(Needs { words: words as usize, reach })
}

/// The number of formulas of a rule: 1 to 8, and 1 for version 1, a rule without entries included. Refusals: 1 to 8.
///
/// ```
/// use havdrims::{formulas, Refusal};
///
/// let two = b"KRL\x00\x02\x02\x00\x00\
///     \x00\x05\x00\x00\x00\x00\x00\x00\x00\x00\
///     \x00\x06\x00\x00\x00\x00\x00\x00\x00\x00"; // e5, and e6
/// assert_eq!(formulas(two), Ok(2));
/// assert_eq!(formulas(b"KRL\x00\x02\x00\x00\x00"), Err(Refusal::Shape)); // version 2 with no formula
/// ```
pub fn formulas(rule: &[u8]) -> Result<usize, Refusal> {
    let mut number = 0;
    // SAFETY: the pointers and the length are those of a slice and of a number, which do not overlap.
    let refused = unsafe { ffi::havdrims_formulas(rule.as_ptr(), rule.len(), &mut number) };
    refusal::checked(refused)?;
    Ok(number as usize)
}

/// Writes a fresh checkpoint for a rule. Words beyond the need are kept. Refusals: 1 to 9.
///
/// ```
/// use havdrims::{open, Refusal};
///
/// let empty = b"KRL\x00\x01\x00\x00\x00"; // yes at every position; 16 words
/// let mut checkpoint = [7; 17];
/// assert_eq!(open(empty, &mut checkpoint[..15]), Err(Refusal::ShortPoint));
/// assert_eq!(checkpoint, [7; 17]);
/// open(empty, &mut checkpoint)?;
/// assert_eq!(checkpoint[16], 7);
/// # Ok::<(), Refusal>(())
/// ```
pub fn open(rule: &[u8], checkpoint: &mut [u64]) -> Result<(), Refusal> {
    // SAFETY: the pointers and lengths are those of two slices, the second of them borrowed for this call alone.
    let number = unsafe { ffi::havdrims_open(rule.as_ptr(), rule.len(), checkpoint.as_mut_ptr(), checkpoint.len()) };
    refusal::checked(number)
}

/// Carries on: writes the verdicts that the log settles beyond those already given, as many as the sheet takes,
/// each byte 1 for yes or 0 for no. The rest of the sheet keeps its bytes. For a rule with several formulas bit k of a byte
/// is the answer of formula k, counted from 0, and a position has its verdict once all of them have answered it.
///
/// The log is the whole log from its header on, or one that was trimmed with this checkpoint and has grown since; records
/// before the first still wanted, which [`status`] gives, may have been overwritten with any bytes. The first position still
/// wanted is the number of verdicts given with this checkpoint so far, less k, or 0 where it is below k, k being the largest
/// number of previous entries on a path from a formula's last entry to a letter; the first record still wanted is the one
/// that holds it, or the record after all seen where none of them does. A service record gets no verdict: its time matters to refusal 14 alone.
///
/// Refusals: 1 to 11, then 20 if the checkpoint is closed, then 12, 22 if the log is of another version than that of the
/// last accepted call with this checkpoint (2 and 3 count as one), 13, 24 and 14.
///
/// ```
/// use havdrims::{measure, open, parse, resume, status, text, Refusal, MOST_RULE};
///
/// # fn main() -> Result<(), Refusal> {
/// let mut buffer = [0; MOST_RULE];
/// let size = parse(b"prev[0,5] e0", &mut buffer)?;
/// let rule = &buffer[..size];
/// let mut checkpoint = vec![0; measure(rule)?.words];
/// open(rule, &mut checkpoint)?;
///
/// let log = text::log_from_text("version 2\n10 e0\n11 service\n12 none\n13 service\n").unwrap();
/// let mut sheet = [7; 4];
/// assert_eq!(resume(rule, &log, &mut checkpoint, &mut sheet)?.verdicts, 2); // records 0 and 2 are positions 0 and 1
/// assert_eq!(sheet, [0, 1, 7, 7]);
/// assert_eq!(status(rule, &checkpoint)?.wanted, 2); // position 1 is still looked back at
/// let first = text::log_from_text("10 e0\n11 e31\n12 none\n13 e31\n").unwrap();
/// assert_eq!(resume(rule, &first, &mut checkpoint, &mut sheet), Err(Refusal::OtherVersion));
/// # Ok(())
/// # }
/// ```
pub fn resume(rule: &[u8], log: &[u8], checkpoint: &mut [u64], sheet: &mut [u8]) -> Result<Resumed, Refusal> {
    carry_on(ffi::havdrims_resume, rule, log, checkpoint, sheet)
}

/// Says that no record will follow: every remaining position gets its verdict on the log as it ends. It writes and
/// answers as [`resume`] does, and is called again where the sheet had no room for all; records before the first still
/// wanted may be overwritten between. From the first accepted call on, an empty sheet included, the checkpoint is closed:
/// `resume` is refused with 20, and a closing that brings further records with 21.
///
/// ```
/// use havdrims::{close, measure, open, parse, resume, Refusal, MOST_RULE};
///
/// # fn main() -> Result<(), Refusal> {
/// let mut buffer = [0; MOST_RULE];
/// let size = parse(b"e0 until[0,2] e1", &mut buffer)?;
/// let rule = &buffer[..size];
/// let mut checkpoint = vec![0; measure(rule)?.words];
/// open(rule, &mut checkpoint)?;
///
/// let log = b"KLG\x00\x01\x00\x00\x00\x00\x00\x00\x0A\x00\x00\x00\x01"; // second 10: letter 0
/// let mut sheet = [7; 4];
/// assert_eq!(resume(rule, log, &mut checkpoint, &mut sheet)?.verdicts, 0); // open: letter 1 may still come
/// assert_eq!(close(rule, log, &mut checkpoint, &mut sheet)?.verdicts, 1);
/// assert_eq!(sheet, [0, 7, 7, 7]); // no: it never came
/// assert_eq!(resume(rule, log, &mut checkpoint, &mut sheet), Err(Refusal::PointClosed));
/// # Ok(())
/// # }
/// ```
///
/// Refusals: 1 to 12, then 22, 13, 21, 24 and 14; 13 and 21 count service records and dropped ones too.
pub fn close(rule: &[u8], log: &[u8], checkpoint: &mut [u64], sheet: &mut [u8]) -> Result<Resumed, Refusal> {
    carry_on(ffi::havdrims_close, rule, log, checkpoint, sheet)
}

/// Writes a shorter log: of version 3, with the number of records dropped and then the records from the first still wanted
/// on, which [`status`] gives. Gives its length, 16 bytes and 8 for each record that is left; the rest of the buffer keeps
/// its bytes, and the checkpoint its words. The log is of version 2 or 3, as for [`resume`].
///
/// What is written, as it is or with further records behind, may be brought in place of the log: record numbers go on
/// counting those that were dropped, and every call gives what it would give with the log that was never trimmed. It can be
/// trimmed again. A closed checkpoint's log can be trimmed too.
///
/// ```
/// use havdrims::{open, resume, text, trim, Refusal, Rule};
///
/// let rule: Rule = "e0 until[0,2] e1".parse()?;
/// let mut checkpoint = vec![0; rule.needs().words];
/// open(rule.as_bytes(), &mut checkpoint)?;
/// let log = text::log_from_text("version 2\n10 e0\n11 service\n13 e0\n").unwrap();
/// resume(rule.as_bytes(), &log, &mut checkpoint, &mut [0; 8])?; // no at position 0; records 0 and 1 are no longer wanted
///
/// let mut out = [7; 32];
/// assert_eq!(trim(rule.as_bytes(), &log, &checkpoint, &mut out[..23]), Err(Refusal::ShortLog));
/// assert_eq!(trim(rule.as_bytes(), &log, &checkpoint, &mut out)?, 24);
/// assert_eq!(text::log_to_text(&out[..24])?, "version 3\ndropped 2\n13 e0\n");
/// assert_eq!(out[24..], [7; 8]);
///
/// out[24..].copy_from_slice(&[0, 0, 0, 14, 0, 0, 0, 2]); // record 3, second 14: letter 1
/// let mut sheet = [7; 4];
/// assert_eq!(resume(rule.as_bytes(), &out, &mut checkpoint, &mut sheet)?.verdicts, 2);
/// assert_eq!(sheet, [1, 1, 7, 7]);
/// # Ok::<(), Refusal>(())
/// ```
///
/// Refusals: 1 to 12, then 22, 23 for a log of version 1, 13, 24, 14, and 25.
pub fn trim(rule: &[u8], log: &[u8], checkpoint: &[u64], out: &mut [u8]) -> Result<usize, Refusal> {
    let mut written = 0;
    // SAFETY: the pointers and lengths are those of four slices and of a number. What is written to is borrowed for this
    // call alone, so it overlaps nothing.
    let number = unsafe {
        ffi::havdrims_trim(
            rule.as_ptr(),
            rule.len(),
            log.as_ptr(),
            log.len(),
            checkpoint.as_ptr(),
            checkpoint.len(),
            out.as_mut_ptr(),
            out.len(),
            &mut written,
        )
    };
    refusal::checked(number)?;
    Ok(written as usize)
}

/// Writes the reason for the yes or no of one formula, by its number from 0, at an answered position, and gives the number of
/// its bytes. The rest of the buffer keeps its bytes; [`MOST_REASON`] bytes are enough for every reason. No checkpoint is
/// needed, but the whole log is, from its first record on, with none overwritten or dropped.
///
/// A reason is a text of lines: the number of an entry of the rule from 0, a position, and what there is to say of the two.
/// [`reason`](mod@reason) has the lines one by one, and docs/FORMATS.md what each says.
///
/// ```
/// use havdrims::{explain, text, Refusal, Rule, MOST_REASON};
///
/// let rule: Rule = "not e2 or e0 until[0,90] e1".parse()?;
/// let log = text::log_from_text("300 e0 e2\n340 none\n395 e0 e1\n").unwrap();
/// let mut buffer = [0; MOST_REASON];
/// let length = explain(rule.as_bytes(), &log, 0, 0, &mut buffer)?;
/// // no: both sides are; letter 2 stands there, and letter 0 fails at position 1, before letter 1 comes
/// assert_eq!(&buffer[..length], b"5 0 or\n1 0 not\n0 0 e2 yes\n4 0 until 1 left\n");
///
/// assert_eq!(explain(rule.as_bytes(), &log, 1, 0, &mut buffer), Err(Refusal::NoReason)); // there is one formula
/// assert_eq!(explain(rule.as_bytes(), &log, 0, 3, &mut buffer), Err(Refusal::NoReason)); // and three positions
/// assert_eq!(explain(rule.as_bytes(), &log, 0, 0, &mut buffer[..length - 1]), Err(Refusal::NoReason));
/// # Ok::<(), Refusal>(())
/// ```
///
/// Refusals: 1 to 8, then 12, 24 for a log that has dropped any record, 14 from the first record on, and 27. A thread needs
/// [`EXPLAIN_STACK`] bytes of stack.
pub fn explain(rule: &[u8], log: &[u8], formula: usize, position: u64, text: &mut [u8]) -> Result<usize, Refusal> {
    let mut written = 0;
    // SAFETY: the pointers and lengths are those of three slices and of a number. What is written to is borrowed for this
    // call alone, so it overlaps nothing.
    let number = unsafe {
        ffi::havdrims_explain(
            rule.as_ptr(),
            rule.len(),
            log.as_ptr(),
            log.len(),
            formula as u64,
            position,
            text.as_mut_ptr(),
            text.len(),
            &mut written,
        )
    };
    refusal::checked(number)?;
    Ok(written as usize)
}

/// The parameters that resume and close share.
type CarryOn = unsafe extern "C" fn(
    *const u8,
    usize,
    *const u8,
    usize,
    *mut u64,
    usize,
    *mut u8,
    usize,
    *mut u64,
    *mut u64,
) -> u32;

fn carry_on(
    call: CarryOn,
    rule: &[u8],
    log: &[u8],
    checkpoint: &mut [u64],
    sheet: &mut [u8],
) -> Result<Resumed, Refusal> {
    let (mut given, mut more) = (0, 0);
    // SAFETY: the pointers and lengths are those of four slices and of two numbers. What is written to is borrowed
    // for this call alone, so nothing overlaps.
    let number = unsafe {
        call(
            rule.as_ptr(),
            rule.len(),
            log.as_ptr(),
            log.len(),
            checkpoint.as_mut_ptr(),
            checkpoint.len(),
            sheet.as_mut_ptr(),
            sheet.len(),
            &mut given,
            &mut more,
        )
    };
    refusal::checked(number)?;
    Ok(Resumed { verdicts: given as usize, more: more == 1 })
}

/// For each formula, the count of no among all verdicts given with a checkpoint, and the position of the latest (not its
/// record, where service records stand before it): what [`tally`] and a scan would give over all of them, laid end to end,
/// without the sheets. Refusals: 1 to 11.
///
/// ```
/// use havdrims::{open, resume, summary, text, Refusal, Rule};
///
/// let rule: Rule = "not e0".parse()?;
/// let mut checkpoint = vec![0; rule.needs().words];
/// open(rule.as_bytes(), &mut checkpoint)?;
/// let log = text::log_from_text("10 none\n11 e0\n12 e0\n13 none\n").unwrap();
/// resume(rule.as_bytes(), &log, &mut checkpoint, &mut [0; 8])?;
/// let so_far = summary(rule.as_bytes(), &checkpoint)?;
/// assert_eq!((so_far.no(), so_far.latest()), (&[2][..], &[Some(2)][..]));
/// # Ok::<(), Refusal>(())
/// ```
pub fn summary(rule: &[u8], checkpoint: &[u64]) -> Result<Summary, Refusal> {
    // No count is so large: what is written, one number for each formula, is told from what is not.
    let (mut no, mut latest) = ([u64::MAX; MOST_FORMULAS], [u64::MAX; MOST_FORMULAS]);
    // SAFETY: the pointers and lengths are those of two slices and of two arrays. The arrays overlap nothing.
    let number = unsafe {
        ffi::havdrims_summary(rule.as_ptr(), rule.len(), checkpoint.as_ptr(), checkpoint.len(), &mut no, &mut latest)
    };
    refusal::checked(number)?;
    let formulas = no.iter().take_while(|&&count| count != u64::MAX).count();
    no[formulas..].fill(0);
    let latest = latest.map(|position| Some(position).filter(|&position| position != u64::MAX));
    Ok(Summary { formulas, no, latest })
}

/// How far a checkpoint has come, and from which record on it still wants the log. Refusals: 1 to 11.
///
/// ```
/// use havdrims::{open, resume, status, text, Refusal, Rule, Status};
///
/// let rule: Rule = "e0 until[0,2] e1".parse()?;
/// let mut checkpoint = vec![0; rule.needs().words];
/// open(rule.as_bytes(), &mut checkpoint)?;
/// let log = text::log_from_text("10 e0\n13 e0\n14 e0\n").unwrap();
/// resume(rule.as_bytes(), &log, &mut checkpoint, &mut [0; 8])?;
/// let now = status(rule.as_bytes(), &checkpoint)?;
/// assert_eq!(now, Status { given: 1, seen: 3, wanted: 1, closed: false }); // record 0 may be overwritten
/// # Ok::<(), Refusal>(())
/// ```
pub fn status(rule: &[u8], checkpoint: &[u64]) -> Result<Status, Refusal> {
    let (mut given, mut seen, mut wanted, mut closed) = (0, 0, 0, 0);
    // SAFETY: the pointers and lengths are those of two slices and of four numbers. The numbers overlap nothing.
    let number = unsafe {
        ffi::havdrims_status(
            rule.as_ptr(),
            rule.len(),
            checkpoint.as_ptr(),
            checkpoint.len(),
            &mut given,
            &mut seen,
            &mut wanted,
            &mut closed,
        )
    };
    refusal::checked(number)?;
    Ok(Status { given, seen, wanted, closed: closed == 1 })
}

/// Counts the no and the yes of each of so many formulas in a sheet. Refusal: 15, for a byte with a bit beyond their
/// number, and for a number of formulas outside 1 to 8.
///
/// ```
/// use havdrims::{tally, Refusal};
///
/// let sheet = [2, 2, 2, 1, 1]; // of two formulas: no and yes three times, then yes and no twice
/// let counts = tally(&sheet, 2)?;
/// assert_eq!(counts.no(), [3, 2]);
/// assert_eq!(counts.yes(), [2, 3]);
/// assert_eq!(tally(&sheet, 1), Err(Refusal::SheetByte));
/// # Ok::<(), Refusal>(())
/// ```
pub fn tally(sheet: &[u8], formulas: usize) -> Result<Tally, Refusal> {
    let (mut no, mut yes) = ([0; MOST_FORMULAS], [0; MOST_FORMULAS]);
    // SAFETY: the pointers and the length are those of a slice and of two arrays, none of which overlap.
    let number = unsafe { ffi::havdrims_tally(sheet.as_ptr(), sheet.len(), formulas as u64, &mut no, &mut yes) };
    refusal::checked(number)?;
    Ok(Tally { formulas, no, yes })
}

/// Writes the rule that a text says, of version 1, and gives the number of its bytes. The rest of the buffer keeps its
/// bytes. [`text::joined`] makes one rule of several.
///
/// Letters are e0 to e31. not, prev and next bind tightest, then since and until, grouping to the right, then or,
/// grouping to the left; round brackets override. prev, next, since and until carry `[low,high]` in seconds, with inf
/// for no upper end. Refusals: 16, 17, 4, 6, 8, 18, the first of them in this order that applies.
///
/// ```
/// use havdrims::{parse, text, Refusal, MOST_RULE};
///
/// let mut rule = [0; MOST_RULE];
/// let size = parse(b"not e2 or e0 until[0,90] e1", &mut rule).unwrap();
/// assert_eq!(size, 68);
/// assert_eq!(text::formula(&rule[..size]).unwrap(), "not e2 or e0 until[0,90] e1");
/// assert_eq!(parse(b"e0 until e1", &mut rule), Err(Refusal::NotDerived));
/// ```
pub fn parse(text: &[u8], rule: &mut [u8]) -> Result<usize, Refusal> {
    let mut written = 0;
    // SAFETY: the pointers and lengths are those of two slices, the second of them borrowed for this call alone, and of
    // a number.
    let number = unsafe { ffi::havdrims_parse(text.as_ptr(), text.len(), rule.as_mut_ptr(), rule.len(), &mut written) };
    refusal::checked(number)?;
    Ok(written as usize)
}

/// Writes a log of exactly `records` records that keeps most seconds waiting, for the rule "letter 0 until letter 1,
/// within `low` to `high` seconds": none of them is settled, and they have as many distinct times as the open records
/// of such a log can have, the smaller of `records` and `high` + 1. Gives the log's length, 8 + 8 × `records` bytes;
/// the bytes behind are kept. Refusals: 6 for the interval, and 19.
///
/// ```
/// use havdrims::{text, worst_log, Refusal};
///
/// let mut log = [0; 32];
/// assert_eq!(worst_log(0, 1, 3, &mut log), Ok(32));
/// assert_eq!(text::log_to_text(&log).unwrap(), "0 e0\n1 e0\n1 e0\n");
/// assert_eq!(worst_log(0, 1, 4, &mut log), Err(Refusal::LogRoom));
/// ```
pub fn worst_log(low: u32, high: u32, records: u64, log: &mut [u8]) -> Result<usize, Refusal> {
    let mut written = 0;
    // SAFETY: the pointers and the length are those of a slice and of a number, which do not overlap.
    let number = unsafe { ffi::havdrims_worst_log(low, high, records, log.as_mut_ptr(), log.len(), &mut written) };
    refusal::checked(number)?;
    Ok(written as usize)
}

/// The settings of a simulated kiosk, in seconds.
#[derive(Clone, Copy, Debug, PartialEq, Eq)]
pub struct Settings {
    /// How long the head takes to warm up: 1 to 600.
    pub warm_up: u32,
    /// How long a print takes: 1 to 600.
    pub print_time: u32,
    /// How long a warm head is idle before it goes off: 1 to 3,600.
    pub switch_off: u32,
    /// A customer joins in a second whose draw is divisible by this: 1 to 3,600.
    pub mean_gap: u32,
}

/// What a [`simulate`] gave: the log's length, and how many customers are where at the end.
#[derive(Clone, Copy, Debug, PartialEq, Eq)]
pub struct Simulated {
    /// The bytes of the log, from the buffer's first on.
    pub written: usize,
    /// The prints that ended.
    pub finished: u64,
    /// 1 if a print goes on, else 0.
    pub printing: u64,
    /// The customers whose print has not begun.
    pub waiting: u64,
}

/// Simulates up to 3,600 seconds of a kiosk, from time 0, with the head off and nobody there, and writes its log, a
/// record for each second: 8 + 8 × seconds bytes. The rest of the buffer keeps its bytes. The seed is not 0.
///
/// Letter 0 stands in a second that ends with a warm head, letter 1 where a print begins, letter 2 where a customer
/// joins, letter 3 where a print ends. Refusal: 26.
///
/// ```
/// use havdrims::{simulate, Refusal, Settings};
///
/// let settings = Settings { warm_up: 1, print_time: 2, switch_off: 1, mean_gap: 3 };
/// let mut log = [0; 24];
/// let first = simulate(&settings, 2, 6, &mut log)?;
/// assert_eq!((first.written, first.finished, first.printing, first.waiting), (24, 0, 1, 0));
/// assert_eq!(log[8..16], [0, 0, 0, 0, 0, 0, 0, 4]); // second 0: a customer joins, and the head begins to warm up
/// assert_eq!(log[16..24], [0, 0, 0, 1, 0, 0, 0, 3]); // second 1: the head is warm, and a print begins
/// assert_eq!(simulate(&settings, 3, 6, &mut log), Err(Refusal::Settings)); // no room for three records
/// # Ok::<(), Refusal>(())
/// ```
pub fn simulate(settings: &Settings, seconds: u32, seed: u32, log: &mut [u8]) -> Result<Simulated, Refusal> {
    let (mut written, mut finished, mut printing, mut waiting) = (0, 0, 0, 0);
    // SAFETY: the pointers and lengths are those of a slice and of four numbers, none of which overlap.
    let number = unsafe {
        ffi::havdrims_simulate(
            seconds,
            settings.warm_up,
            settings.print_time,
            settings.switch_off,
            settings.mean_gap,
            seed,
            log.as_mut_ptr(),
            log.len(),
            &mut written,
            &mut finished,
            &mut printing,
            &mut waiting,
        )
    };
    refusal::checked(number)?;
    Ok(Simulated { written: written as usize, finished, printing, waiting })
}
