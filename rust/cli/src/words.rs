//! A formula in words, for people who do not read formulas.
//!
//! Every formula has one reading, and no two have the same, but for what stands before an until or since and holds everywhere: what is
//! not a letter stands in brackets wherever it could be taken apart in another way.

use crate::letters::Letters;
use crate::parts::{entries, holds_everywhere, seconds, Entry, Kind};
use havdrims::{text, Rule};

/// A rule of one formula in words, without an end.
pub fn in_words(rule: &Rule, letters: &Letters) -> String {
    let all = entries(rule, letters);
    match all.len().checked_sub(1) {
        None => text::EMPTY.to_string(),
        Some(last) => Reader { entries: &all }.clause(last),
    }
}

/// What a `whenever` leaves to say: that it asks for nothing elsewhere.
pub fn elsewhere(rule: &Rule, letters: &Letters) -> Option<String> {
    let all = entries(rule, letters);
    let reader = Reader { entries: &all };
    let (when, _) = reader.whenever(all.len().checked_sub(1)?)?;
    Some(match when[..] {
        [only] if all[only].is_letter() => format!("Where {} is not there the verdict is yes.", all[only].formula),
        _ => "Where that is not so the verdict is yes.".to_string(),
    })
}

struct Reader<'a> {
    entries: &'a [Entry],
}

impl Reader<'_> {
    fn entry(&self, at: usize) -> &Entry {
        &self.entries[at]
    }

    fn operand(&self, at: usize, side: usize) -> usize {
        self.entries[at].operands[side]
    }

    /// The operand of a not.
    fn negated(&self, at: usize) -> Option<usize> {
        (self.entry(at).kind == Kind::Not).then(|| self.operand(at, 0))
    }

    /// The not of an or of two nots is what people mean by and: what these two are of.
    fn both(&self, at: usize) -> Option<[usize; 2]> {
        let or = self.negated(at).filter(|&inner| self.entry(inner).kind == Kind::Or)?;
        Some([self.negated(self.operand(or, 0))?, self.negated(self.operand(or, 1))?])
    }

    /// A formula that stands alone, or in brackets.
    fn clause(&self, at: usize) -> String {
        let entry = self.entry(at);
        match entry.kind {
            Kind::Letter(_) | Kind::Not => self.negation(at),
            Kind::Or => match self.whenever(at) {
                Some((when, parts)) => format!("whenever {}: {}", self.parts(&when, " and "), self.either(&parts)),
                None => self.either(&self.alternatives(at)),
            },
            Kind::Previous => format!("{} at the record before, {}", self.side(at, 0), ago(entry)),
            Kind::Next => format!("{} at the next record, {}", self.side(at, 0), later(entry)),
            Kind::Since | Kind::Until if self.is_free(at) => {
                format!("{} at some record, {}", self.side(at, 1), when(entry))
            }
            Kind::Since => {
                format!("{} at every record since {} came, {}", self.side(at, 0), self.side(at, 1), ago(entry))
            }
            Kind::Until => {
                format!("{} at every record until {} comes, {}", self.side(at, 0), self.side(at, 1), later(entry))
            }
        }
    }

    /// A since or until whose left side holds everywhere.
    fn is_free(&self, at: usize) -> bool {
        let timed = matches!(self.entry(at).kind, Kind::Since | Kind::Until);
        timed && holds_everywhere(self.entries, self.operand(at, 0))
    }

    /// The not of such a one.
    fn always_or_never(&self, at: usize) -> Option<String> {
        let free = self.negated(at).filter(|&inner| self.is_free(inner))?;
        let (right, when) = (self.operand(free, 1), when(self.entry(free)));
        Some(match self.negated(right).filter(|_| self.both(right).is_none()) {
            Some(kept) => format!("always {}, {when}", self.part(kept)),
            None => format!("never {}, {when}", self.part(right)),
        })
    }

    /// A formula as a part of another: a letter, that it is missing, or something in brackets.
    fn part(&self, at: usize) -> String {
        let missing = |inner| self.entry(inner).is_letter();
        match self.entry(at).kind {
            Kind::Letter(_) => self.negation(at),
            Kind::Not if self.negated(at).is_some_and(missing) => self.negation(at),
            _ => format!("({})", self.clause(at)),
        }
    }

    fn parts(&self, parts: &[usize], between: &str) -> String {
        parts.iter().map(|&part| self.part(part)).collect::<Vec<_>>().join(between)
    }

    fn side(&self, at: usize, side: usize) -> String {
        self.part(self.operand(at, side))
    }

    /// A letter or a not.
    fn negation(&self, at: usize) -> String {
        if let Some(said) = self.always_or_never(at) {
            return said;
        }
        match (self.negated(at), self.both(at)) {
            (None, _) => self.entry(at).formula.clone(),
            (_, Some(both)) => format!("both {}", self.parts(&both, " and ")),
            (Some(letter), _) if self.entry(letter).is_letter() => format!("no {}", self.part(letter)),
            (Some(inner), _) => format!("not ({})", self.clause(inner)),
        }
    }

    /// The parts of an or, ors on its left passed over.
    fn alternatives(&self, at: usize) -> Vec<usize> {
        match self.entry(at).kind {
            Kind::Or => {
                let mut parts = self.alternatives(self.operand(at, 0));
                parts.push(self.operand(at, 1));
                parts
            }
            _ => vec![at],
        }
    }

    /// An or that begins with nots: when something is asked for, and what.
    fn whenever(&self, at: usize) -> Option<(Vec<usize>, Vec<usize>)> {
        let mut parts = self.alternatives(at);
        let not = |&part: &usize| self.negated(part).filter(|_| self.both(part).is_none());
        let when: Vec<usize> = parts[..parts.len() - 1].iter().map_while(not).collect();
        let asked = parts.split_off(when.len());
        (!when.is_empty()).then_some((when, asked))
    }

    fn either(&self, parts: &[usize]) -> String {
        match parts {
            // An or here stood in brackets in the formula, and does so in words.
            &[only] if self.entry(only).kind != Kind::Or => self.clause(only),
            _ => self.parts(parts, " or "),
        }
    }
}

/// How long before.
fn ago(entry: &Entry) -> String {
    bounded(entry, "earlier", "however long ago")
}

fn later(entry: &Entry) -> String {
    bounded(entry, "later", "whenever that is")
}

/// How long before of a since, how long after of an until.
fn when(entry: &Entry) -> String {
    match entry.kind {
        Kind::Since => ago(entry),
        _ => later(entry),
    }
}

fn bounded(entry: &Entry, direction: &str, endless: &str) -> String {
    match (entry.low, entry.high) {
        (0, None) => endless.to_string(),
        (low, None) => format!("at least {} {direction}", seconds(low)),
        (0, Some(0)) => "in the same second".to_string(),
        (low, Some(high)) if low == high => format!("{} {direction}", seconds(low)),
        (low, Some(high)) => format!("{low} to {} {direction}", seconds(high)),
    }
}

#[cfg(test)]
mod tests {
    use super::{elsewhere, in_words};
    use crate::letters::Letters;
    use crate::parts::{self, Kind};
    use evaluator::random::{self, Random, RuleShape};
    use evaluator::rule::{self, Entry};
    use havdrims::{text, Rule};
    use std::collections::HashMap;

    const NAMES: &str = "0 head warm\n1 print starts\n2 customer asks\n";

    fn read(formula: &str) -> String {
        in_words(&formula.parse().unwrap(), &Letters::read(NAMES).unwrap())
    }

    #[test]
    fn every_operator_in_words() {
        let cases = [
            ("e0", "\"head warm\""),
            ("e7", "e7"),
            ("not e0", "no \"head warm\""),
            ("not not e0", "not (no \"head warm\")"),
            ("e0 or e1 or e7", "\"head warm\" or \"print starts\" or e7"),
            ("e0 or (e1 or e7)", "\"head warm\" or (\"print starts\" or e7)"),
            ("not e2 or e0", "whenever \"customer asks\": \"head warm\""),
            ("not e2 or e0 or e1", "whenever \"customer asks\": \"head warm\" or \"print starts\""),
            ("not e2 or (e0 or e1)", "whenever \"customer asks\": (\"head warm\" or \"print starts\")"),
            ("e0 or not e2", "\"head warm\" or no \"customer asks\""),
            ("not (e0 or e1)", "not (\"head warm\" or \"print starts\")"),
            ("not (not e0 or not e1)", "both \"head warm\" and \"print starts\""),
            ("not (not e0 or e1)", "not (whenever \"head warm\": \"print starts\")"),
            ("not (not e2 or not e0) or e1", "(both \"customer asks\" and \"head warm\") or \"print starts\""),
            ("not e2 or not e0 or e1", "whenever \"customer asks\" and \"head warm\": \"print starts\""),
            ("not e2 or not e0", "whenever \"customer asks\": no \"head warm\""),
            ("not e2 or e1 or not e0", "whenever \"customer asks\": \"print starts\" or no \"head warm\""),
            ("prev[0,inf] e0", "\"head warm\" at the record before, however long ago"),
            ("prev[2,inf] not e0", "no \"head warm\" at the record before, at least 2 seconds earlier"),
            ("prev[0,0] (e0 or e1)", "(\"head warm\" or \"print starts\") at the record before, in the same second"),
            ("next[1,1] e0", "\"head warm\" at the next record, 1 second later"),
            ("next[0,inf] e0", "\"head warm\" at the next record, whenever that is"),
            ("next[0,5] next[1,6] e0", "(\"head warm\" at the next record, 1 to 6 seconds later) at the next record, 0 to 5 seconds later"),
            ("e0 since[3,9] e1", "\"head warm\" at every record since \"print starts\" came, 3 to 9 seconds earlier"),
            ("e0 until[0,90] e1", "\"head warm\" at every record until \"print starts\" comes, 0 to 90 seconds later"),
            (
                "not e2 or e0 until[0,90] e1",
                "whenever \"customer asks\": \"head warm\" at every record until \"print starts\" comes, 0 to 90 seconds later",
            ),
            (
                "not e2 or e0 until[0,90] e1 or e7",
                "whenever \"customer asks\": (\"head warm\" at every record until \"print starts\" comes, 0 to 90 seconds later) or e7",
            ),
            ("(e0 or not e0) until[0,40] e1", "\"print starts\" at some record, 0 to 40 seconds later"),
            ("(not e7 or e7) since[0,inf] e1", "\"print starts\" at some record, however long ago"),
            ("(e0 or not e0) until[5,40] not e1", "no \"print starts\" at some record, 5 to 40 seconds later"),
            ("not ((e0 or not e0) until[0,40] e1)", "never \"print starts\", 0 to 40 seconds later"),
            ("not ((e0 or not e0) until[0,40] not e1)", "always \"print starts\", 0 to 40 seconds later"),
            ("not ((e0 or not e0) since[0,9] (e1 or e7))", "never (\"print starts\" or e7), 0 to 9 seconds earlier"),
            ("not ((e0 or not e0) since[0,9] not (e1 or e7))", "always (\"print starts\" or e7), 0 to 9 seconds earlier"),
            (
                "not ((e0 or not e0) until[0,9] not (not e0 or not e1))",
                "never (both \"head warm\" and \"print starts\"), 0 to 9 seconds later",
            ),
            (
                "not e2 or (e0 or not e0) until[0,40] e1",
                "whenever \"customer asks\": \"print starts\" at some record, 0 to 40 seconds later",
            ),
            (
                "not e2 or not ((e0 or not e0) until[0,40] e1)",
                "whenever \"customer asks\": never \"print starts\", 0 to 40 seconds later",
            ),
            (
                "not ((e0 or not e0) until[0,9] e1) or e2",
                "whenever (\"print starts\" at some record, 0 to 9 seconds later): \"customer asks\"",
            ),
            ("(e0 or not e1) until[0,9] e1", "(\"head warm\" or no \"print starts\") at every record until \"print starts\" comes, 0 to 9 seconds later"),
            ("not e1 or prev[0,inf] e0", "whenever \"print starts\": \"head warm\" at the record before, however long ago"),
        ];
        for (formula, words) in cases {
            assert_eq!(read(formula), words, "{formula}");
        }
        assert_eq!(in_words(&Rule::new(&rule::encode(&[])).unwrap(), &Letters::default()), text::EMPTY);
    }

    #[test]
    fn where_nothing_is_asked_for() {
        let said = |formula: &str| elsewhere(&formula.parse().unwrap(), &Letters::read(NAMES).unwrap());
        assert_eq!(said("not e2 or e0").unwrap(), "Where \"customer asks\" is not there the verdict is yes.");
        assert_eq!(said("not e7 or e0").unwrap(), "Where e7 is not there the verdict is yes.");
        assert_eq!(said("not (e7 or e1) or e0").unwrap(), "Where that is not so the verdict is yes.");
        assert_eq!(said("not not e7 or e0").unwrap(), "Where that is not so the verdict is yes.");
        assert_eq!((said("e0 or not e2"), said("not e2"), said("e0 until[0,9] e1")), (None, None, None));
    }

    /// A formula with one sign for every left side that holds everywhere.
    fn meant(all: &[parts::Entry], at: usize) -> String {
        let parts::Entry { kind, low, high, operands, .. } = &all[at];
        let free = matches!(kind, Kind::Since | Kind::Until) && parts::holds_everywhere(all, operands[0]);
        let side = |(side, &operand): (usize, &usize)| match side {
            0 if free => "anything".to_string(),
            _ => meant(all, operand),
        };
        let sides: Vec<String> = operands.iter().enumerate().map(side).collect();
        format!("{kind:?} {low} {high:?} ({})", sides.join(") ("))
    }

    /// What the formulas met so far read like.
    #[derive(Default)]
    struct Met(HashMap<String, String>);

    impl Met {
        fn meet(&mut self, entries: &[Entry]) {
            let rule = Rule::new(&rule::encode(entries)).unwrap();
            let words = in_words(&rule, &Letters::read(NAMES).unwrap());
            let all = parts::entries(&rule, &Letters::default());
            let formula = all.len().checked_sub(1).map_or(String::new(), |last| meant(&all, last));
            let other = self.0.entry(words.clone()).or_insert_with(|| formula.clone());
            assert_eq!(*other, formula, "both read: {words}");
        }
    }

    /// All formulas with up to so many entries over two letters and a few intervals.
    fn all(size: usize) -> Vec<Vec<Entry>> {
        if size == 1 {
            return vec![vec![Entry::letter(0)], vec![Entry::letter(1)]];
        }
        let timed = |kind: u8| {
            let highs: &[u32] = if kind == rule::UNTIL { &[1, 2] } else { &[1, rule::NO_END] };
            highs.iter().map(move |&high| Entry::timed(kind, 0, high))
        };
        let unary: Vec<Entry> =
            [Entry::not()].into_iter().chain(timed(rule::PREVIOUS)).chain(timed(rule::NEXT)).collect();
        let binary: Vec<Entry> =
            [Entry::or()].into_iter().chain(timed(rule::SINCE)).chain(timed(rule::UNTIL)).collect();
        let mut found = Vec::new();
        for inner in all(size - 1) {
            found.extend(unary.iter().map(|&last| [&inner[..], &[last]].concat()));
        }
        for left in 1..size.saturating_sub(1) {
            for (one, two) in
                all(left).iter().flat_map(|one| all(size - 1 - left).into_iter().map(move |two| (one.clone(), two)))
            {
                found.extend(binary.iter().map(|&last| [&one[..], &two, &[last]].concat()));
            }
        }
        found
    }

    #[test]
    fn no_two_small_formulas_read_alike() {
        let mut met = Met::default();
        for formula in (1..=5).flat_map(all) {
            met.meet(&formula);
        }
        assert!(met.0.len() > 5_000, "{}", met.0.len());
    }

    /// Nots and ors alone, in which a whenever or an and is read.
    #[test]
    fn no_two_formulas_of_nots_and_ors_read_alike() {
        fn all(size: usize) -> Vec<Vec<Entry>> {
            if size == 1 {
                return vec![vec![Entry::letter(0)], vec![Entry::letter(1)]];
            }
            let mut found: Vec<Vec<Entry>> =
                all(size - 1).iter().map(|inner| [&inner[..], &[Entry::not()]].concat()).collect();
            for left in 1..size.saturating_sub(1) {
                for one in all(left) {
                    found.extend(all(size - 1 - left).iter().map(|two| [&one[..], two, &[Entry::or()]].concat()));
                }
            }
            found
        }
        let mut met = Met::default();
        for formula in (1..=9).flat_map(all) {
            met.meet(&formula);
        }
        assert!(met.0.len() > 5_000, "{}", met.0.len());
    }

    /// Left sides that hold everywhere, and that are nearly such.
    #[test]
    fn no_two_formulas_with_free_left_sides_read_alike() {
        let postfix = |parts: &[&[Entry]], last: Entry| [&parts.concat()[..], &[last]].concat();
        let [one, two] = [0, 1].map(|letter| vec![Entry::letter(letter)]);
        let not = |of: &[Entry]| postfix(&[of], Entry::not());
        let lefts = [[&one, &not(&one)], [&not(&two), &two], [&one, &not(&two)], [&one, &two]]
            .map(|[left, right]| postfix(&[left, right], Entry::or()));
        let timed = [Entry::timed(rule::UNTIL, 0, 1), Entry::timed(rule::UNTIL, 1, 1), Entry::timed(rule::SINCE, 0, 1)];
        let small: Vec<Vec<Entry>> = (1..=3).flat_map(all).collect();
        let mut inner = small.clone();
        for right in small {
            let free = lefts.iter().flat_map(|left| timed.map(|last| postfix(&[left, &right], last)));
            inner.extend(free.flat_map(|free| [not(&not(&free)), not(&free), free]));
        }
        let mut met = Met::default();
        for part in &inner {
            met.meet(part);
            met.meet(&postfix(&[&not(&one), part], Entry::or()));
            met.meet(&postfix(&[part, &not(&one)], Entry::or()));
            met.meet(&postfix(&[&not(part), &one], Entry::or()));
            met.meet(&postfix(&[part, &one], timed[0]));
            met.meet(&postfix(&[&lefts[0], part], timed[0]));
            met.meet(&not(&postfix(&[&lefts[0], part], timed[0])));
            met.meet(&postfix(&[part], Entry::timed(rule::NEXT, 0, 1)));
        }
        assert!(met.0.len() > 5_000, "{}", met.0.len());
    }

    #[test]
    fn no_two_random_formulas_read_alike() {
        let mut met = Met::default();
        let mut r = Random::new(7);
        for round in 0..40_000 {
            let shape = RuleShape { entries: 2 + round % 20, letters: 4, high: 1 + (round % 3) as u32 };
            met.meet(&random::valid_entries(&mut r, shape));
        }
        assert!(met.0.len() > 10_000, "{}", met.0.len());
    }
}
