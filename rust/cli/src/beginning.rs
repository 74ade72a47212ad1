//! A card that begins in the middle of a log: which lines of a reason would have to look at what the card has not read.

use crate::parts::{Entry, Kind};
use havdrims::reason::{Cause, Line, Said};

/// What is said behind such a line.
pub fn begins(record: impl std::fmt::Display) -> String {
    format!("; the card begins at record {record} and has read nothing before it")
}

/// Whether what a line says may be otherwise where positions stand before the first. These are the times of all, from the first on.
pub fn is_first_read(entries: &[Entry], times: &[u32], line: &Line) -> bool {
    let inside = |from: u64| looks_before(entries, times, &entries[line.entry].operands, from as usize);
    match line.said {
        Said::Previous { gap } => gap.is_none(),
        Said::Since { position: 0, no: Some(Cause::Time) } => true,
        Said::Since { position, .. } => inside(position),
        Said::Until { .. } => inside(line.position),
        // What is said of an operand has a line of its own.
        Said::Letter { .. } | Said::Not | Said::Or | Said::Next { .. } => false,
    }
}

/// Whether one of these entries looks beyond the first position, asked from this one on: from a later one it looks less far.
fn looks_before(entries: &[Entry], times: &[u32], asked: &[usize], at: usize) -> bool {
    let looks = |entry: &Entry| {
        let from = match (entry.kind, entry.high) {
            (Kind::Previous, _) => at.checked_sub(1),
            (Kind::Next, _) => Some(at + 1),
            (Kind::Since, None) => None,
            (Kind::Since, Some(high)) => within(times, at, high),
            _ => Some(at),
        };
        from.is_none_or(|from| looks_before(entries, times, &entry.operands, from))
    };
    at < times.len() && asked.iter().any(|&entry| looks(&entries[entry]))
}

/// The first position so many seconds before another at most. None where there may be others before the first.
fn within(times: &[u32], at: usize, high: u32) -> Option<usize> {
    let first = times.partition_point(|&time| time < times[at].saturating_sub(high));
    Some(first).filter(|&first| first > 0)
}

#[cfg(test)]
mod tests {
    use super::looks_before;
    use crate::letters::Letters;
    use crate::parts::entries;

    #[test]
    fn how_far_a_formula_looks_back() {
        let times = [10, 12, 20, 20, 40];
        let last = |formula: &str| {
            let all = entries(&formula.parse().unwrap(), &Letters::default());
            (0..6).rev().find(|&at| looks_before(&all, &times, &[all.len() - 1], at))
        };
        let cases = [
            ("e0", None),
            ("not e0 or next[0,9] e1", None),
            ("prev[0,9] e0", Some(0)),
            ("prev[0,9] prev[0,9] e0", Some(1)),
            ("next[0,9] prev[0,9] e0", None),
            ("next[0,9] prev[0,9] prev[0,9] e0", Some(0)),
            ("e0 since[0,9] e1", Some(1)),
            ("e0 since[0,10] e1", Some(3)),
            ("e0 since[5,inf] e1", Some(4)),
            ("e0 since[0,8] prev[0,9] e1", Some(1)),
            ("e0 since[0,8] prev[0,9] prev[0,9] e1", Some(3)),
            ("e0 until[0,9] prev[0,9] e1", Some(0)),
            ("e1 or not prev[0,9] e0", Some(0)),
        ];
        for (formula, at) in cases {
            assert_eq!(last(formula), at, "{formula}");
        }
    }
}
