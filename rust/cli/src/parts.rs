//! The entries of a rule, each with its operands and its formula.

use crate::letters::Letters;
use havdrims::{text, Rule};

/// What an entry is.
#[derive(Clone, Copy, Debug, PartialEq, Eq)]
pub enum Kind {
    Letter(u8),
    Not,
    Or,
    Previous,
    Next,
    Since,
    Until,
}

/// An entry of a rule that the library accepts.
#[derive(Clone, Debug)]
pub struct Entry {
    pub kind: Kind,
    pub low: u32,
    /// None where there is no upper end.
    pub high: Option<u32>,
    /// The entries of its operands.
    pub operands: Vec<usize>,
    /// The first entry of its formula, of which it is the last.
    first: usize,
    /// The formula that ends with it, with the letters by their names.
    pub formula: String,
}

impl Entry {
    pub fn is_letter(&self) -> bool {
        matches!(self.kind, Kind::Letter(_))
    }

    /// Whether a gap is within its interval.
    pub fn within(&self, gap: u32) -> bool {
        self.low <= gap && self.high.is_none_or(|high| gap <= high)
    }

    /// Its interval: `0 to 90 seconds`, or `at least 5 seconds`.
    pub fn interval(&self) -> String {
        match self.high {
            Some(high) => format!("{} to {}", self.low, seconds(high)),
            None => format!("at least {}", seconds(self.low)),
        }
    }

    /// The formula inside a sentence, in brackets where it has several words.
    pub fn bracketed(&self) -> String {
        match self.kind {
            Kind::Letter(_) => self.formula.clone(),
            _ => format!("({})", self.formula),
        }
    }
}

pub fn seconds(number: u32) -> String {
    counted(number as usize, "second", "seconds")
}

/// So many of something.
pub fn counted(number: usize, one: &str, more: &str) -> String {
    format!("{number} {}", if number == 1 { one } else { more })
}

pub fn records(number: u64) -> String {
    counted(number as usize, "record", "records")
}

pub fn verdicts(number: u64) -> String {
    counted(number as usize, "verdict", "verdicts")
}

/// All entries of a rule, in turn.
pub fn entries(rule: &Rule, letters: &Letters) -> Vec<Entry> {
    let bytes: Vec<&[u8]> = entries_of(rule.as_bytes()).collect();
    let mut all: Vec<Entry> = Vec::new();
    // The last entries of the formulas that wait for their operator.
    let mut waiting: Vec<usize> = Vec::new();
    for (at, entry) in bytes.iter().enumerate() {
        let (kind, count) = kind(entry);
        let operands = waiting.split_off(waiting.len() - count);
        let first = operands.first().map_or(at, |&operand| all[operand].first);
        waiting.push(at);
        let formula = text::formula(&alone(&bytes[first..=at])).expect("a part of an accepted rule is a rule");
        all.push(Entry {
            kind,
            low: number(&entry[2..6]),
            high: Some(number(&entry[6..])).filter(|&high| high != u32::MAX),
            operands,
            first,
            formula: letters.in_formula(&formula),
        });
    }
    all
}

/// Whether the formula that ends with this entry is `A or not A`, or the other way round, and so holds everywhere.
pub fn holds_everywhere(all: &[Entry], at: usize) -> bool {
    let Entry { kind: Kind::Or, operands, .. } = &all[at] else { return false };
    let denies = |one: &Entry, other: &Entry| one.kind == Kind::Not && all[one.operands[0]].formula == other.formula;
    let [left, right] = [0, 1].map(|side| &all[operands[side]]);
    denies(left, right) || denies(right, left)
}

/// The letter of which this entry is the not, if it is that of a letter.
pub fn denied(all: &[Entry], at: usize) -> Option<usize> {
    let Entry { kind: Kind::Not, operands, .. } = &all[at] else { return None };
    Some(operands[0]).filter(|&operand| all[operand].is_letter())
}

/// Each formula of a rule as a rule of its own: none of an empty rule.
pub fn formulas(rule: &Rule) -> Vec<Rule> {
    let bytes: Vec<&[u8]> = entries_of(rule.as_bytes()).collect();
    let all = entries(rule, &Letters::default());
    let mut found = Vec::new();
    let mut end = all.len();
    while let Some(last) = end.checked_sub(1) {
        let rule = Rule::new(&alone(&bytes[all[last].first..end])).expect("a formula of an accepted rule is a rule");
        found.push(rule);
        end = all[last].first;
    }
    found.reverse();
    found
}

fn entries_of(rule: &[u8]) -> impl Iterator<Item = &[u8]> {
    rule[8..].chunks_exact(10)
}

/// The rule that these entries are.
fn alone(entries: &[&[u8]]) -> Vec<u8> {
    let mut rule = b"KRL\x00\x01\x00\x00\x00".to_vec();
    rule[5] = entries.len() as u8;
    rule.extend(entries.concat());
    rule
}

fn kind(entry: &[u8]) -> (Kind, usize) {
    match entry[0] {
        0 => (Kind::Letter(entry[1]), 0),
        1 => (Kind::Not, 1),
        2 => (Kind::Or, 2),
        3 => (Kind::Previous, 1),
        4 => (Kind::Next, 1),
        5 => (Kind::Since, 2),
        _ => (Kind::Until, 2),
    }
}

fn number(bytes: &[u8]) -> u32 {
    bytes.iter().fold(0, |number, &byte| number << 8 | u32::from(byte))
}

#[cfg(test)]
mod tests {
    use super::{entries, formulas, holds_everywhere, Kind};
    use crate::letters::Letters;
    use havdrims::Rule;

    #[test]
    fn entries_have_their_operands_and_formulas() {
        let rules = ["e2", "not e2 or e0 until[0,90] e1", "prev[2,inf] e0"].map(|text| text.parse::<Rule>().unwrap());
        let rule = Rule::joined(&rules).unwrap();
        let all = entries(&rule, &Letters::read("0 head warm\n").unwrap());
        let kinds: Vec<Kind> = all.iter().map(|entry| entry.kind).collect();
        let letter = Kind::Letter;
        let expected = [letter(2), letter(2), Kind::Not, letter(0), letter(1), Kind::Until, Kind::Or, letter(0)];
        assert_eq!((&kinds[..8], kinds[8]), (&expected[..], Kind::Previous));
        assert_eq!(all[6].operands, [2, 5]);
        assert_eq!((all[5].low, all[5].high, all[8].low, all[8].high), (0, Some(90), 2, None));
        assert_eq!(all[6].formula, "not e2 or \"head warm\" until[0,90] e1");
        assert_eq!(all[2].bracketed(), "(not e2)");
        assert_eq!(formulas(&rule), rules);
        assert_eq!(formulas(&Rule::new(b"KRL\x00\x01\x00\x00\x00").unwrap()), []);
    }

    #[test]
    fn what_holds_everywhere() {
        let holds = |formula: &str| {
            let all = entries(&formula.parse().unwrap(), &Letters::default());
            holds_everywhere(&all, all.len() - 1)
        };
        for formula in ["e0 or not e0", "not e0 or e0", "prev[0,1] e0 or not prev[0,1] e0", "not e0 or not not e0"] {
            assert!(holds(formula), "{formula}");
        }
        for formula in ["e0", "not e0", "e0 or not e1", "e0 or e0", "not e0 or not e0", "not not e0 or e0"] {
            assert!(!holds(formula), "{formula}");
        }
    }
}
