//! A rule's bytes, looked at once.

use crate::{explain, formulas, measure, parse, text, Log, Needs, Reason, Refusal, MOST_REASON, MOST_RULE};
use alloc::vec;
use alloc::vec::Vec;
use core::fmt;
use core::str::FromStr;

/// A rule that the library accepts: refusals 1 to 8 are behind it.
///
/// It is typed as text, read from the bytes of a .krl file, or made of several others:
///
/// ```
/// use havdrims::{Refusal, Rule};
///
/// let warm: Rule = "e0 until[0,90] e1".parse()?;
/// assert_eq!((warm.needs().words, warm.needs().reach), (246, Some(90)));
/// assert_eq!(Rule::new(warm.as_bytes())?, warm);
///
/// let both = Rule::joined(&[warm, "not e1".parse()?])?;
/// assert_eq!(both.formulas(), 2);
/// assert_eq!(both.to_string(), "e0 until[0,90] e1\nnot e1");
///
/// assert_eq!("e0 until e1".parse::<Rule>(), Err(Refusal::NotDerived));
/// assert_eq!(Rule::new(b"KLG\x00\x01\x00\x00\x00"), Err(Refusal::RuleMark)); // a log is no rule
/// # Ok::<(), Refusal>(())
/// ```
#[derive(Clone, Debug, PartialEq, Eq)]
pub struct Rule {
    bytes: Vec<u8>,
    needs: Needs,
    formulas: usize,
}

impl Rule {
    /// Takes the bytes of a rule, or gives the refusal of 1 to 8 that they meet.
    pub fn new(bytes: &[u8]) -> Result<Rule, Refusal> {
        Ok(Rule { needs: measure(bytes)?, formulas: formulas(bytes)?, bytes: bytes.to_vec() })
    }

    /// The rule of version 2 with the formulas of all these rules, in their order. Refusals: 4 for more than 128 entries, 7 for
    /// more than eight formulas or none, 8.
    pub fn joined(rules: &[Rule]) -> Result<Rule, Refusal> {
        let all: Vec<&[u8]> = rules.iter().map(Rule::as_bytes).collect();
        Rule::new(&text::joined(&all)?)
    }

    /// The bytes, as the calls on slices take them and as a .krl file has them.
    pub fn as_bytes(&self) -> &[u8] {
        &self.bytes
    }

    /// What [`measure`] gives.
    pub fn needs(&self) -> Needs {
        self.needs
    }

    /// The number of formulas: 1 to 8.
    pub fn formulas(&self) -> usize {
        self.formulas
    }

    /// The reason for the yes or no of one formula at a position, as [`explain`] writes it. The log is the whole one, with no
    /// record overwritten. Refusals: 24, 14, 27.
    ///
    /// ```
    /// use havdrims::reason::{Cause, Said};
    /// use havdrims::{text, Log, Refusal, Rule};
    ///
    /// let rule: Rule = "e0 until[0,90] e1".parse()?;
    /// let bytes = text::log_from_text("300 e0\n340 none\n395 e0 e1\n400 e0\n").unwrap();
    /// let log = Log::new(&bytes)?;
    /// let reason = rule.explain(&log, 0, 0)?;
    /// assert_eq!(reason.to_string(), "2 0 until 1 left\n");
    /// let [line] = reason.lines() else { panic!("one line") };
    /// assert_eq!((line.entry, line.position), (2, 0));
    /// assert_eq!(line.said, Said::Until { position: 1, no: Some(Cause::Left) }); // letter 0 fails at position 1
    /// assert_eq!(rule.explain(&log, 0, 3), Err(Refusal::NoReason)); // not settled yet
    /// # Ok::<(), Refusal>(())
    /// ```
    pub fn explain(&self, log: &Log<'_>, formula: usize, position: u64) -> Result<Reason, Refusal> {
        let mut text = vec![0; MOST_REASON];
        let length = explain(&self.bytes, log.as_bytes(), formula, position, &mut text)?;
        Ok(Reason::new(&text[..length]))
    }
}

/// Reads a formula as [`parse`] does. Refusals: 16, 17, 4, 6, 8.
impl FromStr for Rule {
    type Err = Refusal;

    fn from_str(formula: &str) -> Result<Rule, Refusal> {
        let mut bytes = [0; MOST_RULE];
        let size = parse(formula.as_bytes(), &mut bytes)?;
        Rule::new(&bytes[..size])
    }
}

/// As [`text::formula`] shows it: a line for each formula.
impl fmt::Display for Rule {
    fn fmt(&self, f: &mut fmt::Formatter<'_>) -> fmt::Result {
        f.write_str(&text::formula(&self.bytes).map_err(|_| fmt::Error)?)
    }
}
