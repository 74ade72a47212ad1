//! Logs as text, for people who have theirs so, and rules shown as formulas.
//!
//! A log as text has a line for each record, the seconds and then the letters:
//!
//! ```text
//! # second, letters
//! 10 e0
//! 11 none
//! 12 e0 e3
//! ```
//!
//! A letter is `e0` to `e31`, or its number alone, in one of these ways throughout a line: in `09 30 e0` the 30 is rather a part of
//! the time. No letter stands twice in a line, or has a needless 0, as `e01`. `none`, or nothing behind the seconds, is a record without
//! letters, and `none` beside a letter is refused. Numbers are digits alone: `+5` could be meant as five seconds later. Empty lines, and
//! what follows a `#`, are passed over. A line ends with a line feed, before which a carriage return may stand, and no other end of a line
//! is taken; spaces and tabs stand between words, and no other character that looks like them.
//!
//! A line `version 2` before the first record says that the log is of version 2, which knows service records. The word
//! `service` makes a record one: it is letter 31, and is shown so.
//!
//! ```text
//! version 2
//! 10 e0
//! 11 service
//! ```
//!
//! A trimmed log is of version 3, and a line `dropped` before the first record says how many records were dropped before it:
//! none where there is no such line.
//!
//! ```text
//! version 3
//! dropped 12
//! 90 e0
//! ```

use crate::log::{be32, before_records, HEADERS, SERVICE};
use crate::{measure, Log, Refusal, MOST_RECORDS};
use alloc::format;
use alloc::string::{String, ToString};
use alloc::vec::Vec;
use core::error::Error;
use core::fmt::{self, Write};
use core::mem;
use core::num::ParseIntError;

/// The header of a version 2 rule, but for its number of entries.
const RULE_HEADER: [u8; 8] = *b"KRL\x00\x02\x00\x00\x00";
const NO_END: u32 = u32::MAX;

/// What [`formula`] shows of a rule without entries.
pub const EMPTY: &str = "empty: every position is yes";

/// What is wrong with a text that should say a log, and where.
#[derive(Clone, Debug, PartialEq, Eq)]
pub struct TextError {
    /// Its line, counted from 1.
    pub line: usize,
    /// What is wrong there.
    pub fault: TextFault,
}

/// What is wrong with a line.
#[derive(Clone, Debug, PartialEq, Eq)]
#[non_exhaustive]
pub enum TextFault {
    /// A second version, or one behind a record.
    VersionPlace,
    /// A version that is not 1, 2 or 3.
    Version,
    /// A second count of records dropped, or one behind a record or in a log of version 1 or 2.
    DroppedPlace,
    /// A count of records dropped that is no number up to [`MOST_RECORDS`].
    Dropped,
    /// A character inside a line that ends one elsewhere: what stands behind it would belong to this one.
    LineEnd {
        /// The character.
        character: char,
    },
    /// A character that looks like a space, and is none.
    Space {
        /// The character.
        character: char,
    },
    /// A first word that is no number of seconds.
    Seconds {
        /// The word.
        word: String,
        /// Why it is none.
        source: ParseIntError,
    },
    /// A word that is no letter.
    Letter {
        /// The word.
        word: String,
    },
    /// A letter that stands there already.
    Twice {
        /// The word.
        word: String,
        /// The word before it that is the same letter.
        before: String,
    },
    /// A number alone beside a letter as `e0`.
    Mixed {
        /// The first such number.
        number: String,
        /// The first such letter.
        letter: String,
    },
    /// `none` beside a letter.
    None,
    /// A service record in a log of version 1.
    Service,
    /// A time below the one before it.
    Falls {
        /// The time in this line.
        time: u32,
        /// That of the record before.
        before: u32,
    },
    /// More than [`MOST_RECORDS`] records, dropped ones included.
    TooMany,
}

impl fmt::Display for TextError {
    fn fmt(&self, f: &mut fmt::Formatter<'_>) -> fmt::Result {
        write!(f, "line {}: ", self.line)?;
        match &self.fault {
            TextFault::VersionPlace => write!(f, "the version stands once, before the first record"),
            TextFault::Version => write!(f, "a log's version is 1, 2 or 3"),
            TextFault::DroppedPlace => {
                write!(f, "`dropped` stands once, behind the line `version 3` and before the first record")
            }
            TextFault::Dropped => write!(f, "`dropped` wants a number of records up to 1000000"),
            TextFault::LineEnd { character } => {
                let number = u32::from(*character);
                write!(
                    f,
                    "the character U+{number:04X} stands inside the line: lines end with U+000A, or U+000D and U+000A"
                )
            }
            TextFault::Space { character } => {
                let number = u32::from(*character);
                write!(f, "the character U+{number:04X} is no plain space: spaces and tabs stand between words")
            }
            TextFault::Seconds { word, .. } => write!(f, "`{word}` is no number of seconds up to 4294967295"),
            TextFault::Letter { word } => write!(f, "`{word}` is no letter: letters are e0 to e31"),
            TextFault::Twice { word, before } if word == before => write!(f, "`{word}` is there twice"),
            TextFault::Twice { word, before } => write!(f, "`{before}` and `{word}` are the same letter"),
            TextFault::Mixed { number, letter } => {
                write!(f, "`{number}` stands beside `{letter}`: letters are written all as e0 or all as 0; ")?;
                write!(f, "is a line end missing, or is the time not one number?")
            }
            TextFault::None => write!(f, "`none` says that a record has no letters, and stands alone"),
            TextFault::Service => {
                write!(f, "`service` needs the line `version 2` or `version 3` before the first record")
            }
            TextFault::Falls { time, before } => write!(f, "second {time} comes after second {before}"),
            TextFault::TooMany => write!(f, "a log has at most 1,000,000 records, dropped ones included"),
        }
    }
}

impl Error for TextError {
    fn source(&self) -> Option<&(dyn Error + 'static)> {
        match &self.fault {
            TextFault::Seconds { source, .. } => Some(source),
            _ => None,
        }
    }
}

/// The bytes of the log that the text describes, or what is wrong and in which line.
///
/// ```
/// use havdrims::text::{log_from_text, TextFault};
///
/// let log = log_from_text("10 e0\n11 none\n").unwrap();
/// assert_eq!(log, *b"KLG\x00\x01\x00\x00\x00\x00\x00\x00\x0A\x00\x00\x00\x01\x00\x00\x00\x0B\x00\x00\x00\x00");
///
/// let wrong = log_from_text("10 e0\n9 none\n").unwrap_err();
/// assert_eq!((wrong.line, &wrong.fault), (2, &TextFault::Falls { time: 9, before: 10 }));
/// assert_eq!(wrong.to_string(), "line 2: second 9 comes after second 10");
/// ```
pub fn log_from_text(text: &str) -> Result<Vec<u8>, TextError> {
    let mut log = Typed { bytes: HEADERS[0].to_vec(), version: None, dropped: None };
    let mut before = 0;
    for (at, line) in text.lines().enumerate() {
        let faulty = |fault: TextFault| TextError { line: at + 1, fault };
        let words = words(line).map_err(faulty)?;
        let Some((&first, words)) = words.split_first() else { continue };
        match first {
            "version" => log.set_version(words).map_err(faulty)?,
            "dropped" => log.set_dropped(words).map_err(faulty)?,
            _ => {
                let (time, letters) = record(first, words, log.version() >= 2).map_err(faulty)?;
                if time < before {
                    return Err(faulty(TextFault::Falls { time, before }));
                }
                before = time;
                log.add(time, letters).map_err(faulty)?;
            }
        }
    }
    Ok(log.bytes)
}

/// The words of a line, before what is a remark. Where lines end otherwise, a remark would hide the lines behind it.
fn words(line: &str) -> Result<Vec<&str>, TextFault> {
    let is_end = |character| matches!(character, '\r' | '\u{B}' | '\u{C}' | '\u{85}' | '\u{2028}' | '\u{2029}');
    if let Some(character) = line.chars().find(|&character| is_end(character)) {
        return Err(TextFault::LineEnd { character });
    }
    let typed = line.split('#').next().unwrap_or("");
    let is_plain = |character| matches!(character, ' ' | '\t');
    if let Some(character) = typed.chars().find(|&other| other.is_whitespace() && !is_plain(other)) {
        return Err(TextFault::Space { character });
    }
    Ok(typed.split(is_plain).filter(|word| !word.is_empty()).collect())
}

/// A log as far as it was read.
struct Typed {
    bytes: Vec<u8>,
    version: Option<u8>,
    dropped: Option<u64>,
}

impl Typed {
    fn version(&self) -> u8 {
        self.version.unwrap_or(1)
    }

    fn records(&self) -> usize {
        (self.bytes.len() - before_records(self.version())) / 8
    }

    fn set_version(&mut self, words: &[&str]) -> Result<(), TextFault> {
        if self.version.is_some() || self.records() > 0 {
            return Err(TextFault::VersionPlace);
        }
        let version = ["1", "2", "3"].iter().position(|version| words == [*version]).ok_or(TextFault::Version)?;
        self.bytes = HEADERS[version].to_vec();
        self.version = Some(version as u8 + 1);
        self.bytes.resize(before_records(self.version()), 0);
        Ok(())
    }

    fn set_dropped(&mut self, words: &[&str]) -> Result<(), TextFault> {
        if self.version() != 3 || self.dropped.is_some() || self.records() > 0 {
            return Err(TextFault::DroppedPlace);
        }
        let [number] = words else { return Err(TextFault::Dropped) };
        let number = u64::from(digits(number).map_err(|_| TextFault::Dropped)?);
        if number > MOST_RECORDS as u64 {
            return Err(TextFault::Dropped);
        }
        self.bytes[8..16].copy_from_slice(&number.to_be_bytes());
        self.dropped = Some(number);
        Ok(())
    }

    fn add(&mut self, time: u32, letters: u32) -> Result<(), TextFault> {
        if self.records() as u64 + self.dropped.unwrap_or(0) == MOST_RECORDS as u64 {
            return Err(TextFault::TooMany);
        }
        self.bytes.extend(time.to_be_bytes());
        self.bytes.extend(letters.to_be_bytes());
        Ok(())
    }
}

/// A record's time and event set, in a log that has service records or not.
fn record(seconds: &str, words: &[&str], services: bool) -> Result<(u32, u32), TextFault> {
    let time = digits(seconds).map_err(|source| TextFault::Seconds { word: seconds.to_string(), source })?;
    if let Some(fault) = mixed(words) {
        return Err(fault);
    }
    let (mut letters, mut typed) = (0, [""; 32]);
    for &word in words {
        let number = match word {
            "none" if words.len() == 1 => break,
            "none" => return Err(TextFault::None),
            "service" if services => SERVICE,
            "service" => return Err(TextFault::Service),
            _ => letter(word).ok_or_else(|| TextFault::Letter { word: word.to_string() })?,
        };
        let before = mem::replace(&mut typed[number as usize], word);
        if !before.is_empty() {
            return Err(TextFault::Twice { word: word.to_string(), before: before.to_string() });
        }
        letters |= 1 << number;
    }
    Ok((time, letters))
}

/// The number of a letter, as rules have it too: with no 0 before other digits.
fn letter(word: &str) -> Option<u32> {
    let number = word.strip_prefix('e').unwrap_or(word);
    let formed = number == "0" || !number.starts_with('0');
    digits(number).ok().filter(|&number| formed && number < 32)
}

/// What is wrong where letters stand there in both ways.
fn mixed(words: &[&str]) -> Option<TextFault> {
    let is_number = |word: &str| !word.is_empty() && word.bytes().all(|byte| byte.is_ascii_digit());
    let number = words.iter().find(|word| is_number(word))?;
    let letter = words.iter().find(|word| word.strip_prefix('e').is_some_and(is_number))?;
    Some(TextFault::Mixed { number: number.to_string(), letter: letter.to_string() })
}

/// A number without a sign, which `parse` alone would take.
fn digits(word: &str) -> Result<u32, ParseIntError> {
    word.strip_prefix('+').map_or(word, |_| "+").parse()
}

/// A log as text, or refusal 12.
///
/// ```
/// use havdrims::text::log_to_text;
///
/// let log = b"KLG\x00\x02\x00\x00\x00\x00\x00\x00\x0A\x00\x00\x00\x03\x00\x00\x00\x0B\x80\x00\x00\x00";
/// assert_eq!(log_to_text(log).unwrap(), "version 2\n10 e0 e1\n11 service\n");
/// let trimmed = b"KLG\x00\x03\x00\x00\x00\x00\x00\x00\x00\x00\x00\x00\x01\x00\x00\x00\x0B\x80\x00\x00\x00";
/// assert_eq!(log_to_text(trimmed).unwrap(), "version 3\ndropped 1\n11 service\n");
/// ```
pub fn log_to_text(log: &[u8]) -> Result<String, Refusal> {
    let log = Log::new(log)?;
    let services = log.version() >= 2;
    let mut text = match log.version() {
        1 => String::new(),
        2 => String::from("version 2\n"),
        version => format!("version {version}\ndropped {}\n", log.dropped()),
    };
    for record in log.records() {
        let _ = write!(text, "{}", record.seconds);
        for letter in (0..32).filter(|letter| record.letters >> letter & 1 == 1) {
            let _ = match letter {
                SERVICE if services => write!(text, " service"),
                _ => write!(text, " e{letter}"),
            };
        }
        text.push_str(if record.letters == 0 { " none\n" } else { "\n" });
    }
    Ok(text)
}

/// How tightly a formula binds: or, then since and until, then the words with one operand, then a letter.
#[derive(Clone, Copy, PartialEq, PartialOrd)]
enum Binding {
    Or,
    Binary,
    Unary,
    Letter,
}

/// A part of a formula, and how tightly it binds.
struct Part {
    text: String,
    binding: Binding,
}

impl Part {
    /// The part's text where at least this binding is wanted, in brackets if it binds less.
    fn at(self, wanted: Binding) -> String {
        if self.binding < wanted {
            format!("({})", self.text)
        } else {
            self.text
        }
    }
}

/// A rule as a formula, or the refusal that it meets: the text that [`crate::parse`] reads, with the fewest brackets. A
/// rule without entries has no formula: [`EMPTY`] says what it means. A rule with several has a line for each, in the order
/// of their numbers, from 0 on.
///
/// ```
/// let rule = *b"KRL\x00\x01\x03\x00\x00\
///     \x00\x00\x00\x00\x00\x00\x00\x00\x00\x00\
///     \x00\x01\x00\x00\x00\x00\x00\x00\x00\x00\
///     \x06\x00\x00\x00\x00\x00\x00\x00\x00\x5A";
/// assert_eq!(havdrims::text::formula(&rule).unwrap(), "e0 until[0,90] e1");
/// ```
pub fn formula(rule: &[u8]) -> Result<String, Refusal> {
    measure(rule)?;
    // The rule has no fault, so every entry finds its operands and a part is left for each formula: none of an empty rule.
    let mut parts: Vec<Part> = Vec::new();
    for entry in rule[8..].chunks_exact(10) {
        let part = match entry[0] {
            0 => Part { text: format!("e{}", entry[1]), binding: Binding::Letter },
            1 | 3 | 4 => {
                let operand = operand(&mut parts).at(Binding::Unary);
                Part { text: format!("{} {operand}", word(entry)), binding: Binding::Unary }
            }
            2 => {
                let right = operand(&mut parts).at(Binding::Binary);
                let left = operand(&mut parts).at(Binding::Or);
                Part { text: format!("{left} or {right}"), binding: Binding::Or }
            }
            _ => {
                let right = operand(&mut parts).at(Binding::Binary);
                let left = operand(&mut parts).at(Binding::Unary);
                Part { text: format!("{left} {} {right}", word(entry)), binding: Binding::Binary }
            }
        };
        parts.push(part);
    }
    if parts.is_empty() {
        return Ok(EMPTY.to_string());
    }
    Ok(parts.into_iter().map(|part| part.text).collect::<Vec<_>>().join("\n"))
}

/// The version 2 rule with all formulas of these rules, in their order, or the first refusal of 1 to 8 that one of them or
/// the whole meets: 4 for more than 128 entries, 7 for more than eight formulas or none. A rule without entries has no
/// formula.
///
/// ```
/// use havdrims::{formulas, parse, text, Refusal, MOST_RULE};
///
/// let [mut one, mut two] = [[0; MOST_RULE]; 2];
/// let sizes = [parse(b"e0 until[0,2] e1", &mut one)?, parse(b"not e1", &mut two)?];
/// let rule = text::joined(&[&one[..sizes[0]], &two[..sizes[1]]])?;
/// assert_eq!(formulas(&rule), Ok(2));
/// assert_eq!(text::formula(&rule)?, "e0 until[0,2] e1\nnot e1");
/// # Ok::<(), Refusal>(())
/// ```
pub fn joined(rules: &[&[u8]]) -> Result<Vec<u8>, Refusal> {
    let mut all = RULE_HEADER.to_vec();
    for rule in rules {
        measure(rule)?;
        all.extend(&rule[8..]);
    }
    all[5] = u8::try_from((all.len() - 8) / 10).map_err(|_| Refusal::RuleLength)?;
    measure(&all)?;
    Ok(all)
}

fn operand(parts: &mut Vec<Part>) -> Part {
    parts.pop().expect("measure found each entry's operands")
}

/// An operator's word, with its interval if it has one.
fn word(entry: &[u8]) -> String {
    let (low, high) = (be32(&entry[2..]), be32(&entry[6..]));
    let name = match entry[0] {
        1 => return "not".to_string(),
        3 => "prev",
        4 => "next",
        5 => "since",
        _ => "until",
    };
    let high = if high == NO_END { "inf".to_string() } else { high.to_string() };
    format!("{name}[{low},{high}]")
}
