//! A checkpoint with its rule, from evening to evening.

use crate::save::{checksum, checksum_from, Saved, Unreadable};
use crate::{close, open, resume, status, summary, trim, Log, Refusal, Resumed, Rule, Status, Summary};
use alloc::vec;
use alloc::vec::Vec;
use core::error::Error;
use core::fmt;

/// A rule and the checkpoint that belongs to it: the calls of this crate without a rule or a checkpoint to mix up.
///
/// ```
/// use havdrims::{text, Log, Monitor, Refusal};
///
/// # fn main() -> Result<(), Box<dyn std::error::Error>> {
/// let mut monitor = Monitor::new("e0 until[0,2] e1".parse()?);
/// let mut sheet = [0; 16];
///
/// // Monday: position 0 is settled when second 13 is there, the others not.
/// let monday = text::log_from_text("10 e0\n13 e0\n14 e0\n")?;
/// let verdicts = monitor.resume(&Log::new(&monday)?, &mut sheet)?;
/// assert_eq!((verdicts.bytes(), verdicts.more()), (&[0][..], false));
///
/// // Kept until Tuesday, in a file.
/// let file = monitor.to_bytes();
/// let mut monitor = Monitor::from_bytes("e0 until[0,2] e1".parse()?, &file)?;
/// assert_eq!(monitor.status()?.wanted, 1); // record 0 may be overwritten
///
/// let tuesday = text::log_from_text("10 none\n13 e0\n14 e0\n15 e1\n20 e0\n")?;
/// for verdict in monitor.resume(&Log::new(&tuesday)?, &mut sheet)? {
///     println!("position {}: {}", verdict.position, verdict.yes); // positions 1 to 3: yes
/// }
///
/// // The month's end: letter 1 never came for position 4.
/// let verdicts = monitor.close(&Log::new(&tuesday)?, &mut sheet)?;
/// assert_eq!((verdicts.first(), verdicts.bytes()), (4, &[0][..]));
/// assert_eq!(monitor.summary()?.no(), [2]);
/// assert_eq!(monitor.resume(&Log::new(&tuesday)?, &mut sheet), Err(Refusal::PointClosed));
/// # Ok(())
/// # }
/// ```
///
/// A log is no rule, and the other way round. This does not compile:
///
/// ```compile_fail,E0308
/// use havdrims::{Log, Monitor};
///
/// let log = Log::new(b"KLG\x00\x01\x00\x00\x00").unwrap();
/// let monitor = Monitor::new(log);
/// ```
///
/// nor does this:
///
/// ```compile_fail,E0308
/// use havdrims::{Monitor, Rule};
///
/// let rule: Rule = "e0".parse().unwrap();
/// let mut monitor = Monitor::new(rule.clone());
/// monitor.resume(&rule, &mut [0; 16]);
/// ```
#[derive(Clone, Debug, PartialEq, Eq)]
pub struct Monitor {
    rule: Rule,
    /// The checkpoint, and what is kept with it.
    saved: Saved,
}

impl Monitor {
    /// A fresh checkpoint for a rule.
    pub fn new(rule: Rule) -> Monitor {
        let mut words = vec![0; rule.needs().words];
        let opened = open(rule.as_bytes(), &mut words);
        debug_assert_eq!(opened, Ok(()), "the rule is accepted and the words are as many as it needs");
        let (of_rule, none) = (checksum(rule.as_bytes()), checksum(b""));
        Monitor { rule, saved: Saved { owner: 0, rule: of_rule, given: 0, sheet: none, services: 0, words } }
    }

    /// The same, with a number that says whose it is. It is saved with the checkpoint, and 0 without this.
    pub fn owned_by(mut self, owner: u64) -> Monitor {
        self.saved.owner = owner;
        self
    }

    /// Whose it is.
    pub fn owner(&self) -> u64 {
        self.saved.owner
    }

    /// The rule.
    pub fn rule(&self) -> &Rule {
        &self.rule
    }

    /// Carries on, as [`crate::resume`] does: the verdicts that the log settles beyond those given, as many as the sheet takes.
    /// Refusals: 20, 22, 13, 24, 14.
    pub fn resume<'s>(&mut self, log: &Log<'_>, sheet: &'s mut [u8]) -> Result<Verdicts<'s>, Refusal> {
        self.carry_on(resume, log, sheet)
    }

    /// Says that no record will follow the log, as [`crate::close`] does. Refusals: 22, 13, 21, 24, 14.
    pub fn close<'s>(&mut self, log: &Log<'_>, sheet: &'s mut [u8]) -> Result<Verdicts<'s>, Refusal> {
        self.carry_on(close, log, sheet)
    }

    fn carry_on<'s>(&mut self, call: CarryOn, log: &Log<'_>, sheet: &'s mut [u8]) -> Result<Verdicts<'s>, Refusal> {
        // Only the new records: those seen before were counted, and may be overwritten.
        let new = log.services(self.status()?.seen as usize);
        let resumed = call(self.rule.as_bytes(), log.as_bytes(), &mut self.saved.words, sheet)?;
        let bytes = &sheet[..resumed.verdicts];
        let first = self.saved.given;
        self.saved.given += bytes.len() as u64;
        self.saved.sheet = checksum_from(self.saved.sheet, bytes);
        self.saved.services += new as u64;
        Ok(Verdicts { bytes, first, formulas: self.rule.formulas(), more: resumed.more })
    }

    /// The bytes of a shorter log, as [`crate::trim`] writes it, without the records before the first still wanted. It may be
    /// brought in place of this one, but by no checkpoint that is behind this one: put it in the log's place only once this one is
    /// saved. Refusals: 22, 23, 13, 24, 14.
    ///
    /// ```
    /// use havdrims::{text, Log, Monitor};
    ///
    /// # fn main() -> Result<(), Box<dyn std::error::Error>> {
    /// let mut monitor = Monitor::new("e0 until[0,2] e1".parse()?);
    /// let monday = text::log_from_text("version 2\n10 e0\n11 service\n13 e0\n")?;
    /// monitor.resume(&Log::new(&monday)?, &mut [0; 16])?;
    ///
    /// let mut log = monitor.trim(&Log::new(&monday)?)?;
    /// assert_eq!(text::log_to_text(&log)?, "version 3\ndropped 2\n13 e0\n");
    /// log.extend([0, 0, 0, 14, 0, 0, 0, 2]); // Tuesday: letter 1 in second 14
    /// let mut sheet = [0; 16];
    /// let verdicts = monitor.resume(&Log::new(&log)?, &mut sheet)?;
    /// assert_eq!((verdicts.first(), verdicts.bytes()), (1, &[1, 1][..]));
    /// # Ok(())
    /// # }
    /// ```
    pub fn trim(&self, log: &Log<'_>) -> Result<Vec<u8>, Refusal> {
        let left = (log.len() as u64).saturating_sub(self.status()?.wanted);
        let mut bytes = vec![0; 16 + 8 * left as usize];
        let length = trim(self.rule.as_bytes(), log.as_bytes(), &self.saved.words, &mut bytes)?;
        bytes.truncate(length);
        Ok(bytes)
    }

    /// How far it has come. Refused, with 11, only where a log was brought in which records that were still wanted had been
    /// altered; no such case is known.
    pub fn status(&self) -> Result<Status, Refusal> {
        status(self.rule.as_bytes(), &self.saved.words)
    }

    /// For each formula the count of no among all verdicts given, and the position of the latest. Refused as [`Monitor::status`].
    pub fn summary(&self) -> Result<Summary, Refusal> {
        summary(self.rule.as_bytes(), &self.saved.words)
    }

    /// The service records among the records seen.
    pub fn services(&self) -> u64 {
        self.saved.services
    }

    /// Whether these are all verdicts given, laid end to end: to know a sheet that was kept beside a saved checkpoint.
    ///
    /// ```
    /// use havdrims::{text, Log, Monitor};
    ///
    /// let mut monitor = Monitor::new("not e0".parse().unwrap());
    /// let log = text::log_from_text("10 e0\n11 none\n").unwrap();
    /// monitor.resume(&Log::new(&log).unwrap(), &mut [0; 8]).unwrap();
    /// assert!(monitor.gave(&[0, 1]));
    /// assert!(!monitor.gave(&[1, 1]) && !monitor.gave(&[0]));
    /// ```
    pub fn gave(&self, verdicts: &[u8]) -> bool {
        self.saved.given == verdicts.len() as u64 && self.saved.sheet == checksum(verdicts)
    }

    /// The bytes of a saved point, as docs/FORMATS.md lists them. Write them only once the verdicts are kept: a verdict that a
    /// saved point counts is not given again.
    pub fn to_bytes(&self) -> Vec<u8> {
        self.saved.encode()
    }

    /// Takes a saved point up again, with the rule that it was made for.
    ///
    /// ```
    /// use havdrims::{LoadError, Monitor, Refusal, Rule};
    /// use std::error::Error;
    ///
    /// let rule: Rule = "e0 until[0,2] e1".parse().unwrap();
    /// let mut file = Monitor::new(rule.clone()).owned_by(17).to_bytes();
    /// assert_eq!(Monitor::from_bytes(rule.clone(), &file).unwrap().owner(), 17);
    /// assert_eq!(Monitor::from_bytes("not e0".parse().unwrap(), &file), Err(LoadError::AnotherRule));
    ///
    /// file[100] ^= 1;
    /// let damaged = Monitor::from_bytes(rule, &file).unwrap_err();
    /// assert_eq!(damaged.to_string(), "the saved point cannot be read");
    /// assert_eq!(damaged.source().unwrap().to_string(), "the saved point is damaged: its checksum does not fit");
    /// ```
    pub fn from_bytes(rule: Rule, bytes: &[u8]) -> Result<Monitor, LoadError> {
        let saved = Saved::decode(bytes).map_err(LoadError::Unreadable)?;
        if saved.rule != checksum(rule.as_bytes()) {
            return Err(LoadError::AnotherRule);
        }
        let status = status(rule.as_bytes(), &saved.words).map_err(LoadError::Refused)?;
        if saved.given != status.given || saved.services > status.seen.saturating_sub(status.given) {
            return Err(LoadError::Counts);
        }
        Ok(Monitor { rule, saved })
    }
}

/// What resume and close share.
type CarryOn = fn(&[u8], &[u8], &mut [u64], &mut [u8]) -> Result<Resumed, Refusal>;

/// Why a saved point is not taken up again.
#[derive(Clone, Copy, Debug, PartialEq, Eq)]
#[non_exhaustive]
pub enum LoadError {
    /// The bytes are no saved point, of another version, or damaged.
    Unreadable(Unreadable),
    /// It was made for another rule.
    AnotherRule,
    /// The library does not take its words: with 10 where a library of another version wrote them.
    Refused(Refusal),
    /// Its counts of verdicts and service records do not fit its words.
    Counts,
}

impl fmt::Display for LoadError {
    fn fmt(&self, f: &mut fmt::Formatter<'_>) -> fmt::Result {
        f.write_str(match self {
            LoadError::Unreadable(_) => "the saved point cannot be read",
            LoadError::AnotherRule => "the saved point was made for another rule",
            LoadError::Refused(_) => "the library does not take the saved point",
            LoadError::Counts => "the saved point's counts do not fit its words",
        })
    }
}

impl Error for LoadError {
    fn source(&self) -> Option<&(dyn Error + 'static)> {
        match self {
            LoadError::Unreadable(why) => Some(why),
            LoadError::Refused(refusal) => Some(refusal),
            LoadError::AnotherRule | LoadError::Counts => None,
        }
    }
}

/// The verdicts of one call, in the sheet that it was lent.
///
/// ```
/// use havdrims::{text, Log, Monitor, Refusal, Rule, Verdict};
///
/// let rule = Rule::joined(&["e0".parse()?, "not e1".parse()?])?;
/// let bytes = text::log_from_text("10 e0 e1\n11 none\n").unwrap();
/// let mut sheet = [0; 8];
/// let verdicts = Monitor::new(rule).resume(&Log::new(&bytes)?, &mut sheet)?;
/// assert_eq!(verdicts.bytes(), [0b01, 0b10]);
/// let all: Vec<Verdict> = verdicts.into_iter().collect();
/// assert_eq!(all.len(), 4);
/// assert_eq!(all[1], Verdict { position: 0, formula: 1, yes: false });
/// assert_eq!(all[3], Verdict { position: 1, formula: 1, yes: true });
/// # Ok::<(), Refusal>(())
/// ```
#[derive(Clone, Copy, Debug, PartialEq, Eq)]
pub struct Verdicts<'s> {
    bytes: &'s [u8],
    first: u64,
    formulas: usize,
    more: bool,
}

impl<'s> Verdicts<'s> {
    /// A byte for each position, with a bit for each formula: what the sheet holds of them.
    pub fn bytes(&self) -> &'s [u8] {
        self.bytes
    }

    /// The position of the first of them, and where there is none that of the next to come.
    pub fn first(&self) -> u64 {
        self.first
    }

    /// The log settles further positions, which the sheet had no room for: the same call gives them.
    pub fn more(&self) -> bool {
        self.more
    }
}

/// The answer of a formula at a position.
#[derive(Clone, Copy, Debug, PartialEq, Eq)]
pub struct Verdict {
    /// Counted from 0 over the records that are no service records.
    pub position: u64,
    /// Counted from 0 in the rule's order.
    pub formula: usize,
    /// The formula holds there.
    pub yes: bool,
}

/// [`Verdicts`] one by one: position by position, and at each formula by formula.
#[derive(Clone, Debug)]
pub struct Answers<'s> {
    verdicts: Verdicts<'s>,
    next: usize,
}

impl<'s> IntoIterator for Verdicts<'s> {
    type Item = Verdict;
    type IntoIter = Answers<'s>;

    fn into_iter(self) -> Answers<'s> {
        Answers { verdicts: self, next: 0 }
    }
}

impl Iterator for Answers<'_> {
    type Item = Verdict;

    fn next(&mut self) -> Option<Verdict> {
        let Verdicts { bytes, first, formulas, .. } = self.verdicts;
        let (at, formula) = (self.next / formulas, self.next % formulas);
        let byte = bytes.get(at)?;
        self.next += 1;
        Some(Verdict { position: first + at as u64, formula, yes: byte >> formula & 1 == 1 })
    }

    fn size_hint(&self) -> (usize, Option<usize>) {
        let left = self.verdicts.bytes.len() * self.verdicts.formulas - self.next;
        (left, Some(left))
    }
}

impl ExactSizeIterator for Answers<'_> {}
