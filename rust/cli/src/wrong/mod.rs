//! Where a formula, a rule file or a log is wrong that the library refuses, and what is wrong there.
//!
//! Whether it is refused, and with which number, is for the library to say. This is a reader of its own that looks for the place
//! afterwards; where it found another number than the library's, the paper's sentence would be printed. Tests hold the two against
//! each other on many damaged texts and files.

mod formula;
mod log;
mod rule;
mod token;

pub use formula::formula;
pub use log::{count, dropped, fall, log, longest, Fall, Header};
pub use rule::rule;

use havdrims::Refusal;

/// What is wrong.
#[derive(Clone, Debug, PartialEq, Eq)]
pub struct Wrong {
    /// The number of the refusal that it meets.
    pub number: u32,
    /// In words, and with the place.
    pub says: String,
}

impl Wrong {
    fn new(number: u32, says: impl Into<String>) -> Wrong {
        Wrong { number, says: says.into() }
    }
}

/// A refusal in the words of what is wrong, with its number at the end.
pub fn named(refusal: Refusal, wrong: Option<Wrong>) -> String {
    match wrong.filter(|wrong| wrong.number == refusal.number()) {
        Some(wrong) => numbered(&wrong.says, refusal),
        None => refusal.to_string(),
    }
}

/// A sentence with the number of a refusal at the end.
pub fn numbered(says: &str, refusal: Refusal) -> String {
    format!("{says} (refused {})", refusal.number())
}

/// The largest of an interval's ends, in seconds.
const MOST_SECONDS: u32 = 3_600;
const NO_END: u32 = u32::MAX;

/// What is wrong with the interval of a timed operator; until has no `inf`.
fn interval(low: u32, high: u32, until: bool) -> Option<String> {
    let end = |number: u32| (number > MOST_SECONDS).then(|| format!("{number} seconds are more than {MOST_SECONDS}"));
    match high {
        NO_END if until => Some("until has no `inf`: it needs an upper end".to_string()),
        NO_END => end(low),
        _ => end(low)
            .or(end(high))
            .or((low > high).then(|| format!("the lower end, {low}, is above the upper one, {high}"))),
    }
}

/// What is wrong with the ends of an until's interval.
pub fn ends(low: u32, high: u32) -> Option<Wrong> {
    interval(low, high, true).map(|says| Wrong::new(6, says))
}

/// The words of a checkpoint that an operator takes besides the 16 of every entry.
fn extra_words(kind: Kind, high: u32) -> u64 {
    match (kind, high) {
        (Kind::Since, NO_END) => 1,
        (Kind::Since, high) => u64::from(high) + 1,
        (Kind::Until, high) => 2 * (u64::from(high) + 1),
        _ => 0,
    }
}

/// The kinds of entries, in the order of their numbers.
#[derive(Clone, Copy, Debug, PartialEq, Eq)]
enum Kind {
    Letter,
    Not,
    Or,
    Previous,
    Next,
    Since,
    Until,
}

impl Kind {
    const ALL: [Kind; 7] = [Kind::Letter, Kind::Not, Kind::Or, Kind::Previous, Kind::Next, Kind::Since, Kind::Until];

    fn timed(self) -> bool {
        matches!(self, Kind::Previous | Kind::Next | Kind::Since | Kind::Until)
    }

    fn operands(self) -> usize {
        match self {
            Kind::Letter => 0,
            Kind::Not | Kind::Previous | Kind::Next => 1,
            Kind::Or | Kind::Since | Kind::Until => 2,
        }
    }

    /// Its word in a formula.
    fn word(self) -> &'static str {
        match self {
            Kind::Letter => "letter",
            Kind::Not => "not",
            Kind::Or => "or",
            Kind::Previous => "prev",
            Kind::Next => "next",
            Kind::Since => "since",
            Kind::Until => "until",
        }
    }
}

fn too_many_words(words: u64) -> String {
    format!("the rule needs {words} words, and {} are the most", havdrims::MOST_WORDS)
}

#[cfg(test)]
mod tests {
    use super::{named, Wrong};
    use havdrims::Refusal;

    /// The library decides: a reader that found something else is not believed.
    #[test]
    fn another_number_is_not_printed() {
        let wrong = || Some(Wrong::new(12, "the log is short"));
        assert_eq!(named(Refusal::LogFormat, wrong()), "the log is short (refused 12)");
        for other in [named(Refusal::TimeFalls, wrong()), named(Refusal::TimeFalls, None)] {
            assert_eq!(other, Refusal::TimeFalls.to_string());
        }
    }
}
