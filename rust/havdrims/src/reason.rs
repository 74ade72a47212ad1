//! The reason for a yes or no, line by line.

use alloc::string::String;
use alloc::vec::Vec;
use core::fmt;

/// A reason: the text that [`crate::explain`] writes, and its lines. [`crate::Rule::explain`] makes it.
#[derive(Clone, Debug, PartialEq, Eq)]
pub struct Reason {
    text: String,
    lines: Vec<Line>,
}

/// A line of a reason: a sentence about one entry of the rule at one position.
#[derive(Clone, Copy, Debug, PartialEq, Eq)]
pub struct Line {
    /// The entry's number, from 0, among all entries of the rule.
    pub entry: usize,
    /// The position that the sentence is about.
    pub position: u64,
    /// What it says.
    pub said: Said,
}

/// What a sentence says of its entry at its position.
#[derive(Clone, Copy, Debug, PartialEq, Eq)]
pub enum Said {
    /// The letter stands there, or does not.
    Letter {
        /// Its number.
        letter: u8,
        /// It stands there.
        yes: bool,
    },
    /// The operand's sentence follows.
    Not,
    /// Of an or that is yes the sentence of an operand that is yes follows; of one that is no those of both.
    Or,
    /// The seconds since the position before; none where there is none before. If they are within the interval the operand's
    /// sentence follows, at the position before.
    Previous {
        /// The seconds.
        gap: Option<u32>,
    },
    /// The seconds to the next position. If they are within the interval the operand's sentence follows, at that position.
    Next {
        /// The seconds.
        gap: u32,
    },
    /// Of a yes the earliest position that makes it one. Of a no the latest where the left operand fails; or the first that lies
    /// at most high before, where the left operand holds from there on. The right one is then no wherever the gap is within,
    /// from there to the line's position.
    Since {
        /// That position.
        position: u64,
        /// Why it is no, unless it is yes.
        no: Option<Cause>,
    },
    /// Of a yes the earliest position that makes it one. Of a no the first where the left operand is answered no or which lies
    /// more than high later. The right one is then no wherever the gap is within, from the line's position to there.
    Until {
        /// That position.
        position: u64,
        /// Why it is no, unless it is yes.
        no: Option<Cause>,
    },
}

/// Why a since or until is no.
#[derive(Clone, Copy, Debug, PartialEq, Eq)]
pub enum Cause {
    /// The left operand is no at the position given.
    Left,
    /// The position given bounds the time in which the right operand could have been yes.
    Time,
}

impl Reason {
    /// Of the text that the library wrote.
    pub(crate) fn new(text: &[u8]) -> Reason {
        let text: String = text.iter().map(|&byte| char::from(byte)).collect();
        let lines = text.lines().filter_map(Line::read).collect();
        Reason { text, lines }
    }

    /// The text.
    pub fn as_str(&self) -> &str {
        &self.text
    }

    /// Its sentences in turn: none of an empty rule, whose text is the line `empty`.
    pub fn lines(&self) -> &[Line] {
        &self.lines
    }
}

/// The text.
impl fmt::Display for Reason {
    fn fmt(&self, f: &mut fmt::Formatter<'_>) -> fmt::Result {
        f.write_str(&self.text)
    }
}

impl Line {
    fn read(line: &str) -> Option<Line> {
        let words: Vec<&str> = line.split(' ').collect();
        let [entry, position, words @ ..] = words.as_slice() else { return None };
        Some(Line { entry: entry.parse().ok()?, position: position.parse().ok()?, said: Said::read(words)? })
    }
}

impl Said {
    fn read(words: &[&str]) -> Option<Said> {
        Some(match *words {
            ["not"] => Said::Not,
            ["or"] => Said::Or,
            ["prev", "none"] => Said::Previous { gap: None },
            ["prev", gap] => Said::Previous { gap: Some(gap.parse().ok()?) },
            ["next", gap] => Said::Next { gap: gap.parse().ok()? },
            ["since", position, ref no @ ..] => Said::Since { position: position.parse().ok()?, no: cause(no)? },
            ["until", position, ref no @ ..] => Said::Until { position: position.parse().ok()?, no: cause(no)? },
            [letter, answer] => Said::Letter {
                letter: letter.strip_prefix('e')?.parse().ok()?,
                yes: [("yes", true), ("no", false)].into_iter().find(|(word, _)| *word == answer)?.1,
            },
            _ => return None,
        })
    }
}

/// The word at the end of a since's or until's line, if there is one.
fn cause(words: &[&str]) -> Option<Option<Cause>> {
    match *words {
        [] => Some(None),
        ["left"] => Some(Some(Cause::Left)),
        ["time"] => Some(Some(Cause::Time)),
        _ => None,
    }
}

#[cfg(test)]
mod tests {
    use super::{Cause, Line, Reason, Said};

    /// Every form of a line.
    #[test]
    fn every_form_is_read() {
        let text = "9 7 e31 yes\n0 1 e0 no\n1 2 not\n2 3 or\n3 0 prev none\n3 1 prev 0\n4 5 next 4294967295\n\
            5 6 since 2\n5 6 since 2 left\n5 6 since 2 time\n6 6 until 999999\n6 6 until 7 left\n127 6 until 8 time\n";
        let said = [
            Said::Letter { letter: 31, yes: true },
            Said::Letter { letter: 0, yes: false },
            Said::Not,
            Said::Or,
            Said::Previous { gap: None },
            Said::Previous { gap: Some(0) },
            Said::Next { gap: u32::MAX },
            Said::Since { position: 2, no: None },
            Said::Since { position: 2, no: Some(Cause::Left) },
            Said::Since { position: 2, no: Some(Cause::Time) },
            Said::Until { position: 999_999, no: None },
            Said::Until { position: 7, no: Some(Cause::Left) },
            Said::Until { position: 8, no: Some(Cause::Time) },
        ];
        let reason = Reason::new(text.as_bytes());
        assert_eq!(reason.as_str(), text);
        assert_eq!(reason.lines().iter().map(|line| line.said).collect::<Vec<_>>(), said);
        assert_eq!(reason.lines()[12], Line { entry: 127, position: 6, said: said[12] });
        assert_eq!(Reason::new(b"empty\n").lines(), []);
    }
}
