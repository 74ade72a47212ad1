//! Where the bytes of a rule are wrong.

use super::{extra_words, interval, too_many_words, Kind, Wrong};
use havdrims::{MOST_FORMULAS, MOST_WORDS};

const MOST_ENTRIES: usize = 128;

/// What is wrong with the bytes of a rule file; nothing if they are a rule.
pub fn rule(bytes: &[u8]) -> Option<Wrong> {
    header(bytes).or_else(|| {
        let entries: Vec<Entry> = bytes[8..].chunks_exact(10).map(Entry::of).collect();
        let of_each = |wrong: fn(&Entry) -> Option<String>, number| {
            let named = |(at, entry): (usize, &Entry)| wrong(entry).map(|says| (at, says));
            let (at, says) = entries.iter().enumerate().find_map(named)?;
            Some(Wrong::new(number, format!("entry {at} is damaged: {says}")))
        };
        of_each(Entry::field, 5)
            .or_else(|| of_each(Entry::interval, 6))
            .or_else(|| shape(bytes[4], &entries))
            .or_else(|| words(bytes[4], &entries))
    })
}

/// What is wrong before the first entry, or with the length.
fn header(bytes: &[u8]) -> Option<Wrong> {
    let damaged = |number, says: String| Some(Wrong::new(number, says));
    if bytes.starts_with(b"KLG") {
        return damaged(1, "this is a log, not a rule".to_string());
    }
    if !bytes.starts_with(b"KRL") {
        return damaged(1, "this is no rule file: it does not begin with KRL".to_string());
    }
    let Some(&[_, _, _, high, low, count, spares @ ..]) = bytes.first_chunk::<8>() else { return short(bytes) };
    let version = u16::from_be_bytes([high, low]);
    if ![1, 2].contains(&version) {
        return damaged(2, format!("the rule is of version {version}, and this program knows 1 and 2"));
    }
    let (count, has) = (usize::from(count), bytes.len());
    if count > MOST_ENTRIES {
        return damaged(4, format!("the rule says that it has {count} entries, and {MOST_ENTRIES} are the most"));
    }
    if spares != [0, 0] {
        return damaged(4, "the rule is damaged: bytes 6 and 7 are not 0".to_string());
    }
    let needs = 8 + 10 * count;
    (has != needs)
        .then(|| Wrong::new(4, format!("the rule has {has} bytes, but {needs} with {count} entries as it says")))
}

fn short(bytes: &[u8]) -> Option<Wrong> {
    Some(Wrong::new(1, format!("the rule ends after {} bytes, inside its first 8", bytes.len())))
}

struct Entry {
    kind: u8,
    letter: u8,
    low: u32,
    high: u32,
}

impl Entry {
    fn of(bytes: &[u8]) -> Entry {
        let number = |bytes: &[u8]| bytes.iter().fold(0, |number, &byte| number << 8 | u32::from(byte));
        Entry { kind: bytes[0], letter: bytes[1], low: number(&bytes[2..6]), high: number(&bytes[6..]) }
    }

    fn known(&self) -> Option<Kind> {
        Kind::ALL.get(usize::from(self.kind)).copied()
    }

    /// A kind or letter that there is not, or a field that has to be 0.
    fn field(&self) -> Option<String> {
        let Some(kind) = self.known() else { return Some(format!("there is no kind {}", self.kind)) };
        match kind {
            Kind::Letter if self.letter > 31 => Some(format!("there is no letter {}", self.letter)),
            Kind::Letter => unused(kind, self.low | self.high),
            _ if kind.timed() => unused(kind, u32::from(self.letter)),
            _ => unused(kind, u32::from(self.letter) | self.low | self.high),
        }
    }

    fn interval(&self) -> Option<String> {
        let kind = self.known().filter(|kind| kind.timed())?;
        interval(self.low, self.high, kind == Kind::Until)
    }
}

fn unused(kind: Kind, field: u32) -> Option<String> {
    (field != 0).then(|| format!("a field that {} does not use is not 0", kind.word()))
}

/// An operator without its operands, or another number of formulas than the version has.
fn shape(version: u8, entries: &[Entry]) -> Option<Wrong> {
    let mut formulas = 0;
    for (at, entry) in entries.iter().enumerate() {
        let kind = entry.known()?;
        if kind.operands() > formulas {
            let says = format!("entry {at}, {}, lacks an operand", kind.word());
            return Some(Wrong::new(7, says));
        }
        formulas = formulas + 1 - kind.operands();
    }
    let most = if version == 1 { 1 } else { MOST_FORMULAS };
    let empty = version == 1 && entries.is_empty();
    let says = match formulas {
        0 => "the rule has no entry, which only one of version 1 may".to_string(),
        _ => format!("the rule has {formulas} formulas, and {most} are the most in version {version}"),
    };
    (!empty && !(1..=most).contains(&formulas)).then(|| Wrong::new(7, says))
}

fn words(version: u8, entries: &[Entry]) -> Option<Wrong> {
    let header = if version == 1 { 16 } else { 24 };
    let entry = |entry: &Entry| 16 + entry.known().map_or(0, |kind| extra_words(kind, entry.high));
    let words = header + entries.iter().map(entry).sum::<u64>();
    (words > MOST_WORDS as u64).then(|| Wrong::new(8, too_many_words(words)))
}
