//! How far a rule looks back: what a card that begins in the middle of its log does not see.

use crate::letters::Letters;
use crate::parts::{counted, entries, Entry, Kind};
use havdrims::Rule;

/// How far the since and previous of a formula look back, those that stand one inside the other together.
#[derive(Clone, Copy, Debug, Default, PartialEq, Eq)]
pub struct Back {
    /// Of since: no seconds where there is none. None where one has no upper end.
    seconds: Option<Option<u64>>,
    /// Of previous.
    records: u64,
}

impl Back {
    /// The furthest that a formula of this rule looks.
    pub fn of(rule: &Rule) -> Back {
        let mut all: Vec<Back> = Vec::new();
        for entry in entries(rule, &Letters::default()) {
            all.push(Back::of_entry(&entry, &all));
        }
        Back::furthest(all.into_iter())
    }

    fn of_entry(entry: &Entry, before: &[Back]) -> Back {
        let inside = Back::furthest(entry.operands.iter().map(|&operand| before[operand]));
        match entry.kind {
            Kind::Previous => Back { records: inside.records + 1, ..inside },
            Kind::Since => {
                let inner = inside.seconds.unwrap_or(Some(0));
                let seconds = inner.zip(entry.high).map(|(inner, high)| inner + u64::from(high));
                Back { seconds: Some(seconds), ..inside }
            }
            _ => inside,
        }
    }

    fn furthest(all: impl Iterator<Item = Back>) -> Back {
        all.fold(Back::default(), |one, other| Back {
            seconds: match (one.seconds, other.seconds) {
                (Some(one), Some(other)) => Some(one.zip(other).map(|(one, other)| one.max(other))),
                (one, other) => one.or(other),
            },
            records: one.records.max(other.records),
        })
    }

    /// What there is to say to one whose card begins at this record, if the rule looks back at all.
    pub fn told(&self, record: u64) -> Option<String> {
        let seconds = |number: u64| counted(number as usize, "second", "seconds");
        let records = counted(self.records as usize, "record", "records");
        let (looks, others) = match (self.seconds, self.records) {
            (None, 0) => return None,
            (None, 1) => (format!("`prev` looks back {records}"), "the first verdict may be another".to_string()),
            (None, first) => {
                (format!("`prev` looks back {records}"), format!("the first {first} verdicts may be others"))
            }
            (Some(None), _) => (
                "`since` without an upper end looks back as long as its left side holds".to_string(),
                "any verdict may be another".to_string(),
            ),
            (Some(Some(since)), 0) => (
                format!("`since` looks back {}", seconds(since)),
                format!("verdicts up to {} after record {record} may be others", seconds(since)),
            ),
            (Some(Some(since)), _) => (
                format!("`since` looks back {} and `prev` {records}", seconds(since)),
                format!("verdicts up to {} and {records} after record {record} may be others", seconds(since)),
            ),
        };
        Some(format!("it reads nothing before that: {looks}, and {others} than on the whole log\n"))
    }
}

#[cfg(test)]
mod tests {
    use super::Back;

    fn back(formula: &str) -> Back {
        Back::of(&formula.parse().unwrap())
    }

    #[test]
    fn how_far_a_rule_looks_back() {
        for (formula, seconds, records) in [
            ("not e1 or e0 until[0,90] next[0,inf] e2", None, 0),
            ("not e1 or e3 since[5,90] e2", Some(Some(90)), 0),
            ("e1 since[0,90] e2 or e3 since[0,7] e4", Some(Some(90)), 0),
            ("(e1 since[0,90] e2) since[0,7] e4", Some(Some(97)), 0),
            ("e4 since[0,7] (e1 since[0,90] (e2 until[0,50] e3 since[0,3] e5))", Some(Some(100)), 0),
            ("e1 since[0,3600] (e1 since[0,3600] e2)", Some(Some(7_200)), 0),
            ("e1 since[0,90] (e2 since[3,inf] e3)", Some(None), 0),
            ("(e1 since[3,inf] e2) since[0,90] e3", Some(None), 0),
            ("e1 since[0,90] e2 or e3 since[0,inf] e4", Some(None), 0),
            ("e1 since[0,inf] e2 or e3 since[0,90] e4", Some(None), 0),
            ("prev[0,5] e1", None, 1),
            ("prev[0,5] next[0,5] prev[0,inf] e1 or prev[0,5] e2", None, 2),
            ("prev[0,5] (e1 since[0,90] prev[0,5] e2)", Some(Some(90)), 2),
        ] {
            assert_eq!(back(formula), Back { seconds, records }, "{formula}");
        }
    }

    #[test]
    fn what_is_said_of_it() {
        let said = |formula: &str| back(formula).told(3);
        assert_eq!(said("e0 until[0,90] e1"), None);
        for (formula, looks) in [
            ("e1 since[0,90] e2", "`since` looks back 90 seconds, and verdicts up to 90 seconds after record 3 may be others"),
            ("prev[0,5] e1", "`prev` looks back 1 record, and the first verdict may be another"),
            ("prev[0,5] prev[0,5] e1", "`prev` looks back 2 records, and the first 2 verdicts may be others"),
            (
                "prev[0,5] (e1 since[0,1] e2)",
                "`since` looks back 1 second and `prev` 1 record, and verdicts up to 1 second and 1 record after record 3 may be others",
            ),
            (
                "prev[0,5] (e1 since[0,inf] e2)",
                "`since` without an upper end looks back as long as its left side holds, and any verdict may be another",
            ),
        ] {
            let text = format!("it reads nothing before that: {looks} than on the whole log\n");
            assert_eq!(said(formula), Some(text), "{formula}");
        }
    }
}
