//! Reasons: "A sentence under each no" (document 02, paper 13), each clause as the paper has it; and a reader of reasons, which
//! takes a text apart and judges each fact by the plain reading.

use crate::log::{self, Record};
use crate::reading::{self, Reading};
use crate::rule::{self, Entry, Rule, LETTER, NEXT, NOT, OR, PREVIOUS, SINCE, UNTIL};

/// The reason of one formula at every position below A, as text; nothing where the formula does not exist.
pub fn reasons(rule: &Rule, log: &[Record], formula: usize) -> Vec<String> {
    let all = reading::of_entries(rule, log);
    let answered = rule.tops.iter().map(|&top| all[top].answered).min().unwrap_or(log.len());
    // "an empty rule's reason is the one line empty"
    if rule.tops.is_empty() {
        return if formula == 0 { vec!["empty\n".to_string(); answered] } else { Vec::new() };
    }
    let Some(&top) = rule.tops.get(formula) else { return Vec::new() };
    let teller = Teller { rule, log, all };
    (0..answered).map(|i| teller.lines(top, i)).collect()
}

/// The whole call: "Checks are 1 to 8, 12, 24 for any dropped record, and 14 from the first record on. 27 when the formula does
/// not exist, the position is not below A or the lent text buffer is short, after these."
pub fn explain(rule: &[u8], file: &[u8], formula: u64, position: u64, room: usize) -> Result<String, u32> {
    let rule = rule::parse(rule)?;
    let file = log::parse(file)?;
    if file.dropped > 0 {
        return Err(24);
    }
    if file.records.windows(2).any(|two| two[1].time < two[0].time) {
        return Err(14);
    }
    let positions = log::positions(file.version, &file.records);
    let all = usize::try_from(formula).map_or(Vec::new(), |formula| reasons(&rule, &positions, formula));
    let text = usize::try_from(position).ok().and_then(|position| all.get(position)).ok_or(27u32)?;
    if room < text.len() {
        Err(27)
    } else {
        Ok(text.clone())
    }
}

struct Teller<'a> {
    rule: &'a Rule,
    log: &'a [Record],
    all: Vec<Reading>,
}

impl Teller<'_> {
    fn gap(&self, earlier: usize, later: usize) -> u32 {
        self.log[later].time - self.log[earlier].time
    }

    /// The sentence of entry k at position i, and what follows it.
    fn lines(&self, k: usize, i: usize) -> String {
        let e = &self.rule.entries[k];
        let ops = &self.rule.operands[k];
        let holds = self.all[k].holds[i];
        match e.kind {
            LETTER => format!("{k} {i} e{} {}\n", e.letter, if holds { "yes" } else { "no" }),
            // "Not gives the operand's sentence"
            NOT => format!("{k} {i} not\n") + &self.lines(ops[0], i),
            // "An or that is yes gives its left operand's if that is yes, else its right's; one that is no gives both, left first."
            OR => {
                let shown: Vec<usize> = match (self.all[ops[0]].holds[i], self.all[ops[1]].holds[i]) {
                    (true, _) => vec![ops[0]],
                    (false, true) => vec![ops[1]],
                    (false, false) => ops.clone(),
                };
                format!("{k} {i} or\n") + &shown.iter().map(|&o| self.lines(o, i)).collect::<String>()
            }
            // "previous and next give the gap and, if it is within, then the operand's sentence, or none for the gap where no position
            // stands before"
            PREVIOUS if i == 0 => format!("{k} {i} prev none\n"),
            PREVIOUS => self.beside(k, i, "prev", (i - 1, i), i - 1),
            NEXT => self.beside(k, i, "next", (i, i + 1), i + 1),
            SINCE => self.since(e, k, i),
            _ => self.until(e, k, i),
        }
    }

    fn beside(&self, k: usize, i: usize, word: &str, (earlier, later): (usize, usize), at: usize) -> String {
        let e = &self.rule.entries[k];
        let own = format!("{k} {i} {word} {}\n", self.gap(earlier, later));
        let within = e.within(self.log[earlier].time, self.log[later].time);
        if within {
            own + &self.lines(self.rule.operands[k][0], at)
        } else {
            own
        }
    }

    fn since(&self, e: &Entry, k: usize, i: usize) -> String {
        let [left, right] = self.operands(k);
        let within = |j: usize| e.within(self.log[j].time, self.log[i].time);
        let fits = |j: usize| within(j) && right.holds[j] && (j + 1..=i).all(|q| left.holds[q]);
        // "Since and until give the earliest fitting j for yes."
        if let Some(j) = (0..=i).find(|&j| fits(j)) {
            return format!("{k} {i} since {j}\n");
        }
        // "since the latest where left fails, or the first at most high before if none does from there on"
        let near = (0..=i).find(|&q| e.high == rule::NO_END || self.gap(q, i) <= e.high).unwrap();
        match (near..=i).rev().find(|&q| !left.holds[q]) {
            Some(p) => format!("{k} {i} since {p} left\n"),
            None => format!("{k} {i} since {near} time\n"),
        }
    }

    fn until(&self, e: &Entry, k: usize, i: usize) -> String {
        let [left, right] = self.operands(k);
        let n = self.log.len();
        let within = |j: usize| e.within(self.log[i].time, self.log[j].time);
        let fits = |j: usize| within(j) && right.holds[j] && (i..j).all(|q| left.holds[q]);
        if let Some(j) = (i..n).find(|&j| fits(j)) {
            return format!("{k} {i} until {j}\n");
        }
        // "until gives the first position where left is answered no or which lies more than high later, left's if both"
        let by_left = |q: usize| q < left.answered && !left.holds[q];
        let p = (i..n).find(|&q| by_left(q) || self.gap(i, q) > e.high).unwrap();
        format!("{k} {i} until {p} {}\n", if by_left(p) { "left" } else { "time" })
    }

    fn operands(&self, k: usize) -> [&Reading; 2] {
        let ops = &self.rule.operands[k];
        [&self.all[ops[0]], &self.all[ops[1]]]
    }
}

/// A reason taken apart.
#[derive(Clone, Debug, PartialEq, Eq)]
pub struct Taken {
    pub formula: usize,
    pub position: usize,
    /// The verdict that the facts force.
    pub yes: bool,
    pub facts: Vec<Fact>,
}

/// What a line says of its entry at its position.
#[derive(Clone, Copy, Debug, PartialEq, Eq)]
pub struct Fact {
    entry: usize,
    position: usize,
    said: Said,
}

#[derive(Clone, Copy, Debug, PartialEq, Eq)]
enum Said {
    Stands(bool),
    /// A not or an or: what follows says it all.
    Nothing,
    /// The gap to the position before.
    Before(u32),
    NoneBefore,
    /// The gap to the next position.
    After(u32),
    /// Since or until, yes by this position.
    By(usize),
    /// Since or until, no by this position, "left" or else "time".
    No(usize, bool),
}

/// Takes the text of a reason of this rule apart. None where it is no such text: where a line is not that of the entry whose turn it
/// is, or there are too few or too many of them.
pub fn taken_apart(rule: &Rule, text: &str) -> Option<Taken> {
    let lines: Vec<&str> = text.strip_suffix('\n')?.split('\n').collect();
    if rule.tops.is_empty() {
        return (lines == ["empty"]).then(|| Taken { formula: 0, position: 0, yes: true, facts: Vec::new() });
    }
    let first = Fact::read(rule, lines[0])?;
    let formula = rule.tops.iter().position(|&top| top == first.entry)?;
    let mut reader = Reader { rule, lines: lines.iter(), facts: Vec::new() };
    let yes = reader.sentence(first.entry, first.position)?;
    let whole = reader.lines.len() == 0;
    whole.then_some(Taken { formula, position: first.position, yes, facts: reader.facts })
}

/// A decimal number without needless zeros.
fn decimal<T: std::str::FromStr + ToString>(word: &str) -> Option<T> {
    word.parse::<T>().ok().filter(|number| number.to_string() == word)
}

impl Fact {
    /// "A sentence is a line, one space between its parts ..: the entry's number from 0, the position, then for a letter e0 to e31 and
    /// yes or no, else paper 1's word and a decimal number (not and or: no number)."
    fn read(rule: &Rule, line: &str) -> Option<Fact> {
        let words: Vec<&str> = line.split(' ').collect();
        let [entry, position, words @ ..] = words.as_slice() else { return None };
        let (entry, position): (usize, usize) = (decimal(entry)?, decimal(position)?);
        let e = rule.entries.get(entry)?;
        let said = match (e.kind, words) {
            (LETTER, [letter, answer]) if *letter == format!("e{}", e.letter) => match *answer {
                "yes" => Said::Stands(true),
                "no" => Said::Stands(false),
                _ => return None,
            },
            (NOT, ["not"]) | (OR, ["or"]) => Said::Nothing,
            (PREVIOUS, ["prev", "none"]) => Said::NoneBefore,
            (PREVIOUS, ["prev", gap]) => Said::Before(decimal(gap)?),
            (NEXT, ["next", gap]) => Said::After(decimal(gap)?),
            (SINCE, ["since", j]) | (UNTIL, ["until", j]) => Said::By(decimal(j)?),
            (SINCE, ["since", p, why]) | (UNTIL, ["until", p, why]) => match *why {
                "left" => Said::No(decimal(p)?, true),
                "time" => Said::No(decimal(p)?, false),
                _ => return None,
            },
            _ => return None,
        };
        Some(Fact { entry, position, said })
    }

    /// The fact holds in the plain reading of a log.
    pub fn holds(&self, rule: &Rule, log: &[Record]) -> bool {
        self.holds_in(rule, log, &reading::of_entries(rule, log))
    }

    fn holds_in(&self, rule: &Rule, log: &[Record], all: &[Reading]) -> bool {
        let (e, i, n) = (&rule.entries[self.entry], self.position, log.len());
        if i >= n {
            return false;
        }
        let gap = |q: usize| log[i.max(q)].time - log[i.min(q)].time;
        let within = |q: usize| e.low <= gap(q) && (gap(q) <= e.high || e.high == rule::NO_END);
        let near = |q: usize| gap(q) <= e.high || e.high == rule::NO_END;
        let operand = |at: usize, q: usize| all[rule.operands[self.entry][at]].holds[q];
        let (left, right) = (|q: usize| operand(0, q), |q: usize| operand(1, q));
        match (e.kind, self.said) {
            (LETTER, Said::Stands(yes)) => (log[i].letters >> e.letter & 1 == 1) == yes,
            (NOT | OR, Said::Nothing) => true,
            (PREVIOUS, Said::NoneBefore) => i == 0,
            (PREVIOUS, Said::Before(seconds)) => i > 0 && gap(i - 1) == seconds,
            (NEXT, Said::After(seconds)) => i + 1 < n && gap(i + 1) == seconds,
            (SINCE, Said::By(j)) => j <= i && within(j) && right(j) && (j + 1..=i).all(left),
            (UNTIL, Said::By(j)) => i <= j && j < n && within(j) && right(j) && (i..j).all(left),
            // "Such a line also says that right is no from there to the position wherever the gap is within."
            (SINCE, Said::No(p, by_left)) => {
                let first = |p: usize| near(p) && !(0..p).any(near);
                p <= i && if by_left { !left(p) } else { first(p) } && !(p..=i).any(|q| within(q) && right(q))
            }
            (UNTIL, Said::No(p, by_left)) => {
                i <= p && p < n && if by_left { !left(p) } else { !near(p) } && !(i..=p).any(|q| within(q) && right(q))
            }
            _ => false,
        }
    }
}

/// All facts hold in the plain reading of a log.
pub fn all_hold(facts: &[Fact], rule: &Rule, log: &[Record]) -> bool {
    let all = reading::of_entries(rule, log);
    facts.iter().all(|fact| fact.holds_in(rule, log, &all))
}

struct Reader<'a> {
    rule: &'a Rule,
    lines: std::slice::Iter<'a, &'a str>,
    facts: Vec<Fact>,
}

impl Reader<'_> {
    /// Reads the sentence of entry k at position i, with what follows it, and gives what they come to.
    fn sentence(&mut self, k: usize, i: usize) -> Option<bool> {
        let fact = Fact::read(self.rule, self.lines.next()?)?;
        if (fact.entry, fact.position) != (k, i) {
            return None;
        }
        self.facts.push(fact);
        let (e, ops) = (&self.rule.entries[k], &self.rule.operands[k]);
        let within = |gap: u32| e.within(0, gap);
        match fact.said {
            Said::Stands(yes) => Some(yes),
            Said::Nothing if e.kind == NOT => self.sentence(ops[0], i).map(|yes| !yes),
            Said::Nothing => self.either(ops[0], ops[1], i),
            Said::Before(gap) if within(gap) => self.sentence(ops[0], i.checked_sub(1)?),
            Said::After(gap) if within(gap) => self.sentence(ops[0], i + 1),
            Said::Before(_) | Said::NoneBefore | Said::After(_) => Some(false),
            Said::By(_) => Some(true),
            Said::No(..) => Some(false),
        }
    }

    /// "An or that is yes gives its left operand's if that is yes, else its right's; one that is no gives both, left first."
    fn either(&mut self, left: usize, right: usize, i: usize) -> Option<bool> {
        let next = Fact::read(self.rule, self.lines.as_slice().first()?)?;
        if next.entry == right {
            return self.sentence(right, i).filter(|&yes| yes);
        }
        if self.sentence(left, i)? {
            return Some(true);
        }
        self.sentence(right, i).filter(|&yes| !yes)
    }
}
