//! A reason in sentences, with the letters by their names.

use crate::beginning::{begins, is_first_read};
use crate::letters::Letters;
use crate::parts::{denied, entries, holds_everywhere, seconds, Entry, Kind};
use havdrims::reason::{Cause, Line, Said};
use havdrims::{Log, Reason, Refusal, Rule};
use std::fmt::Write;
use std::slice;

/// The records of a log that hold its positions, in turn, with their times.
pub struct Places {
    /// The first record's number, and one more than the last's.
    first: usize,
    end: usize,
    held: Vec<usize>,
    times: Vec<u32>,
}

impl Places {
    /// Of a log that has dropped none, or of the part of one from a record on.
    pub fn of(log: &Log<'_>, first: usize) -> Result<Places, Refusal> {
        if log.dropped() > 0 {
            return Err(Refusal::RecordDropped);
        }
        let positions = log.records().enumerate().filter(|(_, record)| !record.service);
        let (held, times) = positions.map(|(at, record)| (first + at, record.seconds)).unzip();
        Ok(Places { first, end: first + log.len(), held, times })
    }

    /// The position that a record holds, counted from the first, or what it is instead.
    pub fn position(&self, record: usize) -> Result<u64, String> {
        if record < self.first {
            return Err(format!("record {record} stands before the card's first, {}", self.first));
        }
        if record >= self.end {
            return Err(match self.end {
                0 => format!("there is no record {record}: the log has none"),
                1 => format!("there is no record {record}: the log has one, 0"),
                records => format!("there is no record {record}: the log has {records}, 0 to {}", records - 1),
            });
        }
        let at = self.held.binary_search(&record);
        at.map(|at| at as u64)
            .map_err(|_| format!("record {record} is a service record: it is no position and has no verdict"))
    }

    fn record(&self, position: u64) -> usize {
        self.held[position as usize]
    }

    fn gap(&self, earlier: u64, later: u64) -> u32 {
        self.times[later as usize] - self.times[earlier as usize]
    }
}

/// What the lines of a reason come to at one entry and position.
struct Tree {
    entry: usize,
    position: u64,
    yes: bool,
    /// The part of an or that makes it yes.
    by: Option<usize>,
    /// Why, in words; what is below says more.
    why: String,
    below: Vec<Tree>,
}

/// A reason in sentences. They name records, where the reason names positions.
pub struct Teller {
    entries: Vec<Entry>,
    places: Places,
}

impl Teller {
    pub fn new(rule: &Rule, letters: &Letters, places: Places) -> Teller {
        Teller { entries: entries(rule, letters), places }
    }

    /// Whether the reason is that of a yes.
    pub fn is_yes(&self, reason: &Reason) -> bool {
        let mut lines = reason.lines().iter();
        lines.len() == 0 || self.tree(&mut lines).yes
    }

    /// Of what is told, as `record 8, position 5`; of a rule with several formulas behind the number of one.
    pub fn told(&self, reason: &Reason, what: &str, formula: Option<usize>) -> String {
        let mut lines = reason.lines().iter();
        if lines.len() == 0 {
            return format!("{what} is yes: the rule is empty\n");
        }
        let of = formula.map_or(String::new(), |formula| format!(" under formula {formula}"));
        let mut told = String::new();
        self.tell(&self.tree(&mut lines), what, &of, 0, &mut told);
        told
    }

    /// A line, and further in those below it.
    fn tell(&self, tree: &Tree, what: &str, of: &str, depth: usize, told: &mut String) {
        let by = tree.by.map_or(String::new(), |entry| format!(", by {}", self.entries[entry].bracketed()));
        let _ = writeln!(told, "{:1$}{what} is {2}{of}{by}: {3}", "", 2 * depth, word(tree.yes), tree.why);
        for part in &tree.below {
            let (e, record) = (&self.entries[part.entry], self.places.record(part.position));
            match e.kind {
                Kind::Letter(_) => told.push_str(&format!("{:1$}{2}\n", "", 2 * depth + 2, part.why)),
                _ => self.tell(part, &e.formula, &format!(" at record {record}"), depth + 1, told),
            }
        }
    }

    /// That the card begins with the record up to which this line looks back, and that others stand before it.
    fn begun(&self, line: &Line) -> Option<String> {
        let first = self.places.first;
        (first > 0 && is_first_read(&self.entries, &self.places.times, line)).then(|| begins(first))
    }

    /// The same of all lines of a reason.
    pub fn begun_in(&self, reason: &Reason) -> Option<String> {
        reason.lines().iter().find_map(|line| self.begun(line))
    }

    /// The next line, and those that follow because of it.
    fn tree(&self, lines: &mut slice::Iter<'_, Line>) -> Tree {
        let line = lines.next().expect("a reason has the lines that its others ask for");
        let mut tree = self.of_line(line, lines);
        tree.why.extend(self.begun(line));
        tree
    }

    fn of_line(&self, &Line { entry, position, said }: &Line, lines: &mut slice::Iter<'_, Line>) -> Tree {
        let e = &self.entries[entry];
        let leaf = |yes, why| Tree { entry, position, yes, by: None, why, below: Vec::new() };
        match said {
            Said::Letter { yes, .. } => leaf(yes, self.stands(entry, position, yes)),
            // A not has its operand's reason, turned round.
            Said::Not => {
                let inner = self.tree(lines);
                Tree { entry, position, yes: !inner.yes, ..inner }
            }
            Said::Or => self.either(entry, position, lines),
            Said::Previous { gap: None } => leaf(false, "no record stands before it".to_string()),
            Said::Previous { gap: Some(gap) } => {
                let before = self.places.record(position - 1);
                self.beside(leaf, e, gap, format!("record {before} is {} before", seconds(gap)), lines)
            }
            Said::Next { gap } => {
                let next = self.places.record(position + 1);
                self.beside(leaf, e, gap, format!("record {next} is {} later", seconds(gap)), lines)
            }
            Said::Since { position: at, no: None } | Said::Until { position: at, no: None } => {
                leaf(true, self.found(e, position, at))
            }
            Said::Since { position: at, no: Some(cause) } => leaf(false, self.not_since(e, position, at, cause)),
            Said::Until { position: at, no: Some(cause) } => leaf(false, self.not_until(e, position, at, cause)),
        }
    }

    /// An or: the part that is yes, ors inside it passed over; or all parts, each of which is no.
    fn either(&self, entry: usize, position: u64, lines: &mut slice::Iter<'_, Line>) -> Tree {
        let first = self.tree(lines);
        if first.yes {
            let by = match self.entries[first.entry].kind {
                Kind::Or => first.by,
                // What is said of a letter names it.
                Kind::Letter(_) => None,
                _ => Some(first.entry),
            };
            return Tree { entry, position, yes: true, by, ..first };
        }
        let mut parts = Vec::new();
        for side in [first, self.tree(lines)] {
            match self.entries[side.entry].kind {
                Kind::Or => parts.extend(side.below),
                _ => parts.push(side),
            }
        }
        let of = if parts.len() == 2 { "neither" } else { "none" };
        Tree { entry, position, yes: false, by: None, why: format!("{of} of these is yes"), below: parts }
    }

    /// previous and next, with the position beside: where the gap is within, the operand decides there.
    fn beside(
        &self,
        leaf: impl Fn(bool, String) -> Tree,
        e: &Entry,
        gap: u32,
        beside: String,
        lines: &mut slice::Iter<'_, Line>,
    ) -> Tree {
        if !e.within(gap) {
            return leaf(false, format!("{beside}, not {}", e.interval()));
        }
        let inner = self.tree(lines);
        let why = format!("{beside}, and {}", self.stands(inner.entry, inner.position, inner.yes));
        // What is said of a letter is all that there is to say of it.
        let own = leaf(inner.yes, why);
        match self.entries[inner.entry].kind {
            Kind::Letter(_) => own,
            _ if denied(&self.entries, inner.entry).is_some() => own,
            _ => Tree { below: vec![inner], ..own },
        }
    }

    /// That the formula of an entry is yes or no at a position.
    fn stands(&self, entry: usize, position: u64, yes: bool) -> String {
        if let Some(letter) = denied(&self.entries, entry) {
            return self.stands(letter, position, !yes);
        }
        let (e, record) = (&self.entries[entry], self.places.record(position));
        match (e.kind, yes) {
            (Kind::Letter(_), true) => format!("record {record} has {}", e.formula),
            (Kind::Letter(_), false) => format!("record {record} does not have {}", e.formula),
            _ => format!("{} is {} at record {record}", e.bracketed(), word(yes)),
        }
    }

    /// The records from one position to another, said of all of them.
    fn span(&self, from: u64, to: u64) -> String {
        let [first, last] = [from, to].map(|position| self.places.record(position));
        // Where service records lie between, they are not meant.
        let aside = if (last - first) as u64 == to - from { "" } else { ", service records aside," };
        format!("from {first} to {last}{aside}")
    }

    /// A since or until is yes by this position.
    fn found(&self, e: &Entry, i: u64, at: u64) -> String {
        let stands = self.stands(e.operands[1], at, true);
        let (from, to, when) = match at {
            _ if at < i => (at + 1, i, "before"),
            _ if at > i => (i, at - 1, "later"),
            _ => return stands,
        };
        let gap = seconds(self.places.gap(at.min(i), at.max(i)));
        if holds_everywhere(&self.entries, e.operands[0]) {
            return format!("{stands}, {gap} {when}");
        }
        let held = match (self.entries[e.operands[0]].kind, denied(&self.entries, e.operands[0])) {
            _ if from == to => self.stands(e.operands[0], from, true),
            (Kind::Letter(_), _) => {
                format!("every record {} has {}", self.span(from, to), self.entries[e.operands[0]].formula)
            }
            (_, Some(letter)) => format!("no record {} has {}", self.span(from, to), self.entries[letter].formula),
            _ => {
                let left = self.entries[e.operands[0]].bracketed();
                format!("{left} is yes at every record {}", self.span(from, to))
            }
        };
        format!("{stands}, {gap} {when}, and {}", held.trim_end_matches(','))
    }

    fn not_since(&self, e: &Entry, i: u64, p: u64, cause: Cause) -> String {
        let nowhere = self.nowhere(e, (p, i), "before", |q| self.places.gap(q, i));
        match (cause, e.high) {
            (Cause::Left, _) => self.fails(e, p, nowhere),
            (Cause::Time, Some(high)) => {
                let first = self.places.record(p);
                format!("record {first} is the first at most {} before, and {}", seconds(high), nowhere.said)
            }
            (Cause::Time, None) => nowhere.said,
        }
    }

    fn not_until(&self, e: &Entry, i: u64, p: u64, cause: Cause) -> String {
        let nowhere = self.nowhere(e, (i, p), "later", |q| self.places.gap(i, q));
        match (cause, e.high) {
            (Cause::Time, Some(high)) => {
                let (late, gap) = (self.places.record(p), seconds(self.places.gap(i, p)));
                format!("record {late} is {gap} later, more than {high}, and {}", nowhere.said)
            }
            _ => self.fails(e, p, nowhere),
        }
    }

    /// Left fails at p, and right is yes nowhere.
    fn fails(&self, e: &Entry, p: u64, nowhere: Nowhere) -> String {
        let [left, right] = [0, 1].map(|side| &self.entries[e.operands[side]]);
        let record = self.places.record(p);
        if left.is_letter() && right.is_letter() && nowhere.only == Some(p) {
            return format!("record {record} has neither {} nor {}", left.formula, right.formula);
        }
        let fails = self.stands(e.operands[0], p, false);
        match nowhere.alone {
            true => fails,
            false => format!("{fails}, and {}", nowhere.said),
        }
    }

    /// That right is yes nowhere from one position to another where the gap is within: these positions follow each other.
    fn nowhere(&self, e: &Entry, (from, to): (u64, u64), when: &str, gap: impl Fn(u64) -> u32) -> Nowhere {
        let within = |&q: &u64| e.within(gap(q));
        let right = &self.entries[e.operands[1]];
        let ends = (from..=to).find(within).zip((from..=to).rev().find(within));
        let said = match ends {
            None if from == to => format!("none is {} {when}", e.interval()),
            None => format!("no record {} is {} {when}", self.span(from, to), e.interval()),
            Some((only, last)) if only == last => self.stands(e.operands[1], only, false),
            Some((first, last)) if right.is_letter() => {
                format!("no record {} has {}", self.span(first, last), right.formula)
            }
            Some((first, last)) if denied(&self.entries, e.operands[1]).is_some() => {
                let letter = &self.entries[right.operands[0]];
                format!("every record {} has {}", self.span(first, last), letter.formula)
            }
            Some((first, last)) => {
                let span = self.span(first, last);
                format!("{} is yes at no record {}", right.bracketed(), span.trim_end_matches(','))
            }
        };
        let only = ends.filter(|(first, last)| first == last).map(|(only, _)| only);
        Nowhere { said, only, alone: ends.is_none() && from == to }
    }
}

/// That right is yes nowhere.
struct Nowhere {
    said: String,
    /// The position whose gap is within, if there is just one.
    only: Option<u64>,
    /// There is one position, and its gap is not within: nothing is said of it.
    alone: bool,
}

pub fn word(yes: bool) -> &'static str {
    if yes {
        "yes"
    } else {
        "no"
    }
}
