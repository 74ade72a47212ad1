//! A reason in one sentence, for a line of a table: what is there and what is missing, and when.

use super::html::{grouped, short};
use super::known::Held;
use super::reasons::Missing;
use crate::beginning::{begins, is_first_read};
use crate::parts::{denied, holds_everywhere, seconds, Entry, Kind};
use havdrims::reason::{Cause, Line, Said};
use havdrims::Reason;
use std::slice;

/// The characters of a sentence, at most.
const LONGEST: usize = 300;

/// A reason as the page tells it.
#[derive(Clone, Debug, PartialEq, Eq)]
pub struct Sentence {
    /// All of it, of the position that was asked for.
    pub text: String,
    /// The same without its times and records: what it has in common with others.
    pub kind: String,
    /// The records at which something failed that had to go on.
    pub failed_at: Vec<u64>,
}

/// The records of the positions that a reason counts.
pub struct Place<'a> {
    pub held: &'a [Held],
    /// The number that is added to a record's.
    pub first: u64,
    /// The first of them is the card's first.
    pub begins: bool,
}

impl Place<'_> {
    fn record(&self, position: u64) -> u64 {
        self.first + self.held[position as usize].record
    }

    fn gap(&self, one: u64, other: u64) -> u32 {
        self.held[one as usize].seconds.abs_diff(self.held[other as usize].seconds)
    }

    /// That the card begins with the record up to which a reason looks back, and that others stand before it; else nothing.
    fn begun(&self, entries: &[Entry], reason: &Reason) -> String {
        if self.first == 0 || !self.begins {
            return String::new();
        }
        let times: Vec<u32> = self.held.iter().map(|held| held.seconds).collect();
        let first_read = reason.lines().iter().any(|line| is_first_read(entries, &times, line));
        first_read.then(|| begins(grouped(self.first))).unwrap_or_default()
    }
}

/// What is said of an entry: in full, and in common with others.
struct Part {
    yes: bool,
    full: String,
    kind: String,
}

impl Part {
    fn new(yes: bool, full: String, kind: String) -> Part {
        Part { yes, full, kind }
    }

    fn same(yes: bool, said: String) -> Part {
        Part { yes, full: said.clone(), kind: said }
    }
}

impl Sentence {
    /// That there is none.
    pub fn missing(why: Missing) -> Sentence {
        Sentence { text: why.said().to_string(), kind: why.said().to_string(), failed_at: Vec::new() }
    }

    /// None where the reason is one for a yes.
    pub fn of(entries: &[Entry], reason: &Reason, place: &Place<'_>) -> Option<Sentence> {
        let mut teller = Teller { entries, place, lines: reason.lines().iter(), failed_at: Vec::new() };
        let Part { yes, full, kind } = teller.part();
        let [text, kind] = [full, kind].map(|said| cut(said) + &place.begun(entries, reason));
        (!yes).then_some(Sentence { text, kind, failed_at: teller.failed_at })
    }
}

/// A sentence that is not too long for a line of a table. The formula stands above it in full.
fn cut(sentence: String) -> String {
    match sentence.chars().count() <= LONGEST {
        true => sentence,
        false => format!("{} (cut off here; `havdrims why` has all of it)", short(&sentence, LONGEST)),
    }
}

struct Teller<'a> {
    entries: &'a [Entry],
    place: &'a Place<'a>,
    lines: slice::Iter<'a, Line>,
    failed_at: Vec<u64>,
}

impl Teller<'_> {
    /// The next line, and those that follow because of it.
    fn part(&mut self) -> Part {
        let &Line { entry, position, said } =
            self.lines.next().expect("a reason has the lines that its others ask for");
        let e = &self.entries[entry];
        match said {
            Said::Letter { yes, .. } => Part::same(yes, present(e, yes)),
            Said::Not => {
                let inner = self.part();
                Part { yes: !inner.yes, ..inner }
            }
            Said::Or => self.either(),
            Said::Previous { gap: None } => Part::same(false, "no record stands before".to_string()),
            Said::Previous { gap: Some(gap) } => {
                self.beside(e, gap, position.wrapping_sub(1), "the record before", "earlier")
            }
            Said::Next { gap } => self.beside(e, gap, position + 1, "the next record", "later"),
            Said::Since { position: at, no: None } => self.found(e, position, at, ("came", "earlier", "since then")),
            Said::Until { position: at, no: None } => self.found(e, position, at, ("comes", "later", "until then")),
            Said::Since { position: at, no: Some(cause) } => self.not_since(e, position, at, cause),
            Said::Until { position: at, no: Some(cause) } => self.not_until(e, position, at, cause),
        }
    }

    /// Of an or that is no both parts count, of one that is yes the one that is.
    fn either(&mut self) -> Part {
        let first = self.part();
        if first.yes {
            return first;
        }
        let second = self.part();
        Part::new(false, format!("{}; {}", first.full, second.full), format!("{}; {}", first.kind, second.kind))
    }

    /// previous and next: where the gap is within, what is said of the operand there.
    fn beside(&mut self, e: &Entry, gap: u32, at: u64, which: &str, direction: &str) -> Part {
        let far = format!("{} {direction}", seconds(gap));
        if !e.within(gap) {
            let not = format!("not {}", e.interval());
            return Part::new(false, format!("{which} is {far}, {not}"), format!("{which} is {not} {direction}"));
        }
        let record = grouped(self.place.record(at));
        let inner = self.part();
        let full = format!("at {which}, {far} (record {record}), {}", inner.full);
        Part::new(inner.yes, full, format!("at {which} {}", inner.kind))
    }

    /// A since or until that is yes by this position.
    fn found(&self, e: &Entry, position: u64, at: u64, (comes, direction, then): (&str, &str, &str)) -> Part {
        let [left, right] = self.operands(e);
        let missing = denied(self.entries, e.operands[1]).map(|letter| &self.entries[letter].formula);
        if at == position {
            return Part::same(true, missing.map_or(format!("{right} is there"), |letter| format!("no {letter}")));
        }
        let (gap, record) = (seconds(self.place.gap(at, position)), grouped(self.place.record(at)));
        let when = format!("{gap} {direction} (record {record})");
        let (full, kind) = match missing {
            Some(letter) => (format!("{when} no {letter}"), format!("{direction} no {letter}")),
            None => (format!("{right} {comes} {when}"), format!("{right} {comes}")),
        };
        match holds_everywhere(self.entries, e.operands[0]) {
            true => Part::new(true, full, kind),
            false => Part::new(true, format!("{full}, and {left} {then}"), format!("{kind}, and {left} {then}")),
        }
    }

    fn not_until(&mut self, e: &Entry, position: u64, at: u64, cause: Cause) -> Part {
        let (left, right) = (self.fails(e.operands[0]), self.nowhere(e.operands[1]));
        let gap = self.place.gap(position, at);
        let record = grouped(self.place.record(at));
        if cause == Cause::Left {
            self.failed_at.push(self.place.record(at));
            let when = if at == position {
                "at once".to_string()
            } else {
                format!("{} later (record {record})", seconds(gap))
            };
            // The right one is told to be missing only where it could have counted.
            let up_to_then =
                if e.low > gap { String::new() } else { format!(", and up to then{} {right}", far(e, "later")) };
            return Part::new(false, format!("{when} {left}{up_to_then}"), format!("{left}{up_to_then}"));
        }
        let kind = format!("{right} {}", self.within(e, "later"));
        Part::new(false, format!("{kind} (record {record} is {} later)", seconds(gap)), kind)
    }

    fn not_since(&mut self, e: &Entry, position: u64, at: u64, cause: Cause) -> Part {
        let (left, right) = (self.fails(e.operands[0]), self.nowhere(e.operands[1]));
        let gap = self.place.gap(position, at);
        if cause == Cause::Left {
            self.failed_at.push(self.place.record(at));
            let record = grouped(self.place.record(at));
            let when = if at == position {
                "at once".to_string()
            } else {
                format!("{} earlier (record {record})", seconds(gap))
            };
            let from_then =
                if e.low > gap { String::new() } else { format!(", and from then on{} {right}", far(e, "earlier")) };
            return Part::new(false, format!("{when} {left}{from_then}"), format!("{left}{from_then}"));
        }
        Part::same(false, format!("{right} {}", self.within(e, "earlier")))
    }

    /// That an entry is no at a record.
    fn fails(&self, entry: usize) -> String {
        match denied(self.entries, entry) {
            Some(letter) => present(&self.entries[letter], true),
            None => format!("no {}", self.entries[entry].bracketed()),
        }
    }

    /// That it is no at all of some records.
    fn nowhere(&self, entry: usize) -> String {
        match denied(self.entries, entry) {
            Some(letter) => format!("always {}", self.entries[letter].formula),
            None => format!("no {}", self.entries[entry].bracketed()),
        }
    }

    /// The interval in which something was missing.
    fn within(&self, e: &Entry, direction: &str) -> String {
        match (e.low, e.high) {
            (0, None) => format!("here or {direction}"),
            (0, Some(high)) if direction == "later" => format!("within {}", seconds(high)),
            (0, Some(high)) => format!("in the {} before", seconds(high)),
            _ => format!("{} {direction}", e.interval()),
        }
    }

    fn operands(&self, e: &Entry) -> [String; 2] {
        [0, 1].map(|side| self.entries[e.operands[side]].bracketed())
    }
}

/// That nearer records do not count, where they do not.
fn far(e: &Entry, direction: &str) -> String {
    match e.low {
        0 => String::new(),
        low => format!(", at least {} {direction},", seconds(low)),
    }
}

/// That a letter stands there, or does not.
fn present(e: &Entry, yes: bool) -> String {
    debug_assert!(matches!(e.kind, Kind::Letter(_)));
    match yes {
        true => format!("{} is there", e.formula),
        false => format!("no {}", e.formula),
    }
}

#[cfg(test)]
mod tests {
    use super::{Place, Sentence};
    use crate::letters::Letters;
    use crate::page::known::Held;
    use crate::parts::entries;
    use havdrims::{text, Log, Rule};

    /// What is said of a position of a log that is typed, and what of it without its times and records.
    fn said(formula: &str, log: &str, position: u64, begins: bool) -> (String, String) {
        let rule: Rule = formula.parse().unwrap();
        let bytes = text::log_from_text(log).unwrap();
        let log = Log::new(&bytes).unwrap();
        let held: Vec<Held> =
            (0..).zip(log.records()).map(|(record, of)| Held { record, seconds: of.seconds }).collect();
        let reason = rule.explain(&log, 0, position).unwrap();
        let letters = Letters::read("0 head warm\n1 print starts\n2 customer asks\n").unwrap();
        let place = Place { held: &held, first: 1_000, begins };
        let Sentence { text, kind, .. } = Sentence::of(&entries(&rule, &letters), &reason, &place).unwrap();
        (text, kind)
    }

    #[test]
    fn every_form_of_a_sentence() {
        let check = |formula: &str, log: &str, position: u64, text: &str, kind: &str| {
            assert_eq!(said(formula, log, position, false), (text.to_string(), kind.to_string()), "{formula}");
        };
        let same = |formula: &str, log: &str, position: u64, text: &str| check(formula, log, position, text, text);
        same("e0", "1 none\n", 0, "no \"head warm\"");
        same("not e0", "1 e0\n", 0, "\"head warm\" is there");
        same("e0 or e1 or e7", "1 none\n", 0, "no \"head warm\"; no \"print starts\"; no e7");
        same("prev[0,5] e0", "1 none\n", 0, "no record stands before");
        check(
            "prev[2,5] e0",
            "1 e0\n2 none\n",
            1,
            "the record before is 1 second earlier, not 2 to 5 seconds",
            "the record before is not 2 to 5 seconds earlier",
        );
        check(
            "not e1 or prev[0,inf] e0",
            "1 none\n3 e1\n",
            1,
            "\"print starts\" is there; at the record before, 2 seconds earlier (record 1,000), no \"head warm\"",
            "\"print starts\" is there; at the record before no \"head warm\"",
        );
        check(
            "next[0,inf] not (e0 or e1)",
            "1 e0\n2 e1\n",
            0,
            "at the next record, 1 second later (record 1,001), \"print starts\" is there",
            "at the next record \"print starts\" is there",
        );
        check(
            "not e2 or e0 until[0,90] e1",
            "1 e0 e2\n5 e0\n20 none\n",
            0,
            "\"customer asks\" is there; 19 seconds later (record 1,002) no \"head warm\", and up to then no \"print starts\"",
            "\"customer asks\" is there; no \"head warm\", and up to then no \"print starts\"",
        );
        check(
            "e0 until[0,90] e1",
            "1 none\n",
            0,
            "at once no \"head warm\", and up to then no \"print starts\"",
            "no \"head warm\", and up to then no \"print starts\"",
        );
        check("e0 until[5,90] e1", "1 none\n", 0, "at once no \"head warm\"", "no \"head warm\"");
        check(
            "e0 until[0,90] (e1 or e7)",
            "1 e0\n101 e0\n",
            0,
            "no (\"print starts\" or e7) within 90 seconds (record 1,001 is 100 seconds later)",
            "no (\"print starts\" or e7) within 90 seconds",
        );
        check(
            "e0 until[5,90] e1",
            "1 e0\n101 e0\n",
            0,
            "no \"print starts\" 5 to 90 seconds later (record 1,001 is 100 seconds later)",
            "no \"print starts\" 5 to 90 seconds later",
        );
        check(
            "e0 since[0,inf] e1",
            "1 e1\n2 none\n4 e0\n",
            2,
            "2 seconds earlier (record 1,001) no \"head warm\", and from then on no \"print starts\"",
            "no \"head warm\", and from then on no \"print starts\"",
        );
        // what is nearer than the interval does not count, whatever it says
        check(
            "e0 until[5,90] e1",
            "1 e0 e1\n10 none\n",
            0,
            "9 seconds later (record 1,001) no \"head warm\", and up to then, at least 5 seconds later, no \"print starts\"",
            "no \"head warm\", and up to then, at least 5 seconds later, no \"print starts\"",
        );
        check(
            "e0 since[3,inf] e1",
            "1 none\n9 e0 e1\n",
            1,
            "8 seconds earlier (record 1,000) no \"head warm\", and from then on, at least 3 seconds earlier, no \"print starts\"",
            "no \"head warm\", and from then on, at least 3 seconds earlier, no \"print starts\"",
        );
        check("e0 since[9,20] e1", "1 e1\n2 none\n", 1, "at once no \"head warm\"", "no \"head warm\"");
        same("e0 since[0,inf] e1", "1 e0\n2 e0\n", 1, "no \"print starts\" here or earlier");
        same("e0 since[0,5] e1", "1 e1\n9 e0\n", 1, "no \"print starts\" in the 5 seconds before");
        same("e0 since[3,inf] e1", "1 e0\n2 e0\n", 1, "no \"print starts\" at least 3 seconds earlier");
        check(
            "not (e0 until[0,9] e1)",
            "1 e0\n4 e1\n",
            0,
            "\"print starts\" comes 3 seconds later (record 1,001), and \"head warm\" until then",
            "\"print starts\" comes, and \"head warm\" until then",
        );
        check(
            "not (e0 since[0,9] e1)",
            "1 e1\n4 e0\n",
            1,
            "\"print starts\" came 3 seconds earlier (record 1,000), and \"head warm\" since then",
            "\"print starts\" came, and \"head warm\" since then",
        );
        same("not (e0 until[0,9] e1)", "1 e1\n", 0, "\"print starts\" is there");
        check(
            "not ((e0 or not e0) until[0,9] e1)",
            "1 e0\n4 e1\n",
            0,
            "\"print starts\" comes 3 seconds later (record 1,001)",
            "\"print starts\" comes",
        );
        // a letter that is missing, where that counts
        check(
            "not ((e0 or not e0) until[0,9] not e0)",
            "1 e0\n4 e1\n",
            0,
            "3 seconds later (record 1,001) no \"head warm\"",
            "later no \"head warm\"",
        );
        same("not (e1 since[0,9] not e0)", "1 e1\n", 0, "no \"head warm\"");
        check(
            "not e1 until[0,90] e2",
            "1 none\n3 e1\n",
            0,
            "2 seconds later (record 1,001) \"print starts\" is there, and up to then no \"customer asks\"",
            "\"print starts\" is there, and up to then no \"customer asks\"",
        );
        check(
            "(e0 or e1) until[0,90] not e0",
            "1 e0\n101 e0\n",
            0,
            "always \"head warm\" within 90 seconds (record 1,001 is 100 seconds later)",
            "always \"head warm\" within 90 seconds",
        );
        same("(e0 or e1) since[0,5] not e0", "1 none\n9 e0\n", 1, "always \"head warm\" in the 5 seconds before");
    }

    #[test]
    fn a_sentence_that_is_too_long() {
        let formula = vec!["e31"; 60].join(" or ");
        let (text, kind) = said(&formula, "1 none\n", 0, false);
        let end = "; no … (cut off here; `havdrims why` has all of it)";
        assert!(text.starts_with("no e31; no e31; ") && text.ends_with(end), "{text}");
        assert_eq!((text.find('…'), kind), (Some(299), text.clone()));
    }

    /// A card that begins in the middle of a log has read nothing before.
    #[test]
    fn a_reason_that_looks_back_to_the_first_record() {
        let check = |formula: &str, position: u64, text: &str, begun: bool| {
            let log = "10 e0\n20 e0\n90 e0\n130 e0\n";
            assert_eq!(said(formula, log, position, false).0, text, "{formula}");
            let end = "; the card begins at record 1,000 and has read nothing before it";
            let (full, kind) = said(formula, log, position, true);
            assert_eq!(full, format!("{text}{}", if begun { end } else { "" }), "{formula}");
            assert_eq!(kind.ends_with(end), begun, "{formula}");
        };
        check("prev[0,inf] e0", 0, "no record stands before", true);
        check("e0 since[0,90] e1", 2, "no \"print starts\" in the 90 seconds before", true);
        check("e0 since[0,90] e1", 3, "no \"print starts\" in the 90 seconds before", false);
        check("e0 since[0,inf] e1", 3, "no \"print starts\" here or earlier", true);
        check("e1 since[0,90] e2", 2, "at once no \"print starts\", and from then on no \"customer asks\"", false);
    }
}
