//! The rule format: entries, refusals 1 to 8, words needed and reach.

/// High 4,294,967,295: no upper end.
pub const NO_END: u32 = u32::MAX;
/// The reach of a rule with next: none.
pub const NO_REACH: u64 = u32::MAX as u64;

pub const LETTER: u8 = 0;
pub const NOT: u8 = 1;
pub const OR: u8 = 2;
pub const PREVIOUS: u8 = 3;
pub const NEXT: u8 = 4;
pub const SINCE: u8 = 5;
pub const UNTIL: u8 = 6;

/// One entry of a rule, as its ten bytes give it.
#[derive(Clone, Copy, Debug, PartialEq, Eq)]
pub struct Entry {
    pub kind: u8,
    pub letter: u8,
    pub low: u32,
    pub high: u32,
}

impl Entry {
    pub fn letter(letter: u8) -> Entry {
        Entry { kind: LETTER, letter, low: 0, high: 0 }
    }

    /// An entry of a kind without letter.
    pub fn timed(kind: u8, low: u32, high: u32) -> Entry {
        Entry { kind, letter: 0, low, high }
    }

    pub fn not() -> Entry {
        Entry::timed(NOT, 0, 0)
    }

    pub fn or() -> Entry {
        Entry::timed(OR, 0, 0)
    }

    pub fn operands(&self) -> usize {
        match self.kind {
            LETTER => 0,
            NOT | PREVIOUS | NEXT => 1,
            _ => 2,
        }
    }

    /// "low ≤ gap ≤ high"; without upper end "a gap is within it if it is at least low".
    pub fn within(&self, earlier: u32, later: u32) -> bool {
        let gap = later - earlier;
        self.low <= gap && (gap <= self.high || self.high == NO_END)
    }

    fn has_interval(&self) -> bool {
        self.kind >= PREVIOUS
    }
}

/// "At most 128 entries make one rule."
pub const MOST_ENTRIES: usize = 128;
/// The most formulas of a version 2 rule.
pub const MOST_FORMULAS: usize = 8;

/// A rule without fault: its entries, none in an empty rule, and, for each, the numbers of its operands' entries.
#[derive(Clone, Debug, PartialEq, Eq)]
pub struct Rule {
    pub version: u16,
    pub entries: Vec<Entry>,
    pub operands: Vec<Vec<usize>>,
    /// The last entry of each formula, in rule order from 0; none in an empty rule.
    pub tops: Vec<usize>,
    pub words: u64,
    pub reach: u64,
    /// Request 2's k.
    pub depth: usize,
}

impl Rule {
    /// How many answers a verdict byte has: an empty rule's has one.
    pub fn formulas(&self) -> usize {
        self.tops.len().max(1)
    }

    /// The entries of each formula alone.
    pub fn split(&self) -> Vec<&[Entry]> {
        let mut from = 0;
        let part = |&top: &usize| &self.entries[std::mem::replace(&mut from, top + 1)..=top];
        self.tops.iter().map(part).collect()
    }
}

/// The bytes of a version 1 rule with these entries.
pub fn encode(entries: &[Entry]) -> Vec<u8> {
    encode_as(1, entries)
}

/// The bytes of a version 2 rule with these formulas, one after the other.
pub fn encode_several(formulas: &[Vec<Entry>]) -> Vec<u8> {
    encode_as(2, &formulas.concat())
}

/// The bytes of a rule of this version with these entries.
pub fn encode_as(version: u16, entries: &[Entry]) -> Vec<u8> {
    let mut bytes = b"KRL".to_vec();
    bytes.extend(version.to_be_bytes());
    bytes.extend([entries.len() as u8, 0, 0]);
    for e in entries {
        bytes.extend([e.kind, e.letter]);
        bytes.extend(e.low.to_be_bytes());
        bytes.extend(e.high.to_be_bytes());
    }
    bytes
}

fn be32(bytes: &[u8], at: usize) -> u32 {
    u32::from_be_bytes(bytes[at..at + 4].try_into().unwrap())
}

/// The rule that the bytes hold, or the first of refusals 1 to 8 that applies. From request 3 on, 3 no longer occurs;
/// from request 8 on, "2 accepts both versions".
pub fn parse(bytes: &[u8]) -> Result<Rule, u32> {
    if bytes.len() < 8 || &bytes[..3] != b"KRL" {
        return Err(1);
    }
    let version = u16::from_be_bytes([bytes[3], bytes[4]]);
    if version != 1 && version != 2 {
        return Err(2);
    }
    let count = bytes[5] as usize;
    if count > MOST_ENTRIES || bytes[6] != 0 || bytes[7] != 0 || bytes.len() != 8 + 10 * count {
        return Err(4);
    }
    let entries: Vec<Entry> = (0..count)
        .map(|k| {
            let at = 8 + 10 * k;
            Entry { kind: bytes[at], letter: bytes[at + 1], low: be32(bytes, at + 2), high: be32(bytes, at + 6) }
        })
        .collect();
    check(version, entries)
}

/// Refusals 5 to 8, which speak of entries.
fn check(version: u16, entries: Vec<Entry>) -> Result<Rule, u32> {
    if entries.iter().any(field_fault) {
        return Err(5);
    }
    if entries.iter().any(interval_fault) {
        return Err(6);
    }
    let (operands, tops) = operands(&entries).ok_or(7u32)?;
    if !formulas_allowed(version, entries.len(), tops.len()) {
        return Err(7);
    }
    let words = words(version, &entries);
    if words > 8192 {
        return Err(8);
    }
    let reach = reach(&entries, &operands, &tops);
    let depth = depth(&entries, &operands, &tops);
    Ok(Rule { version, entries, operands, tops, words, reach, depth })
}

/// "Some kind is above 6, some letter above 31, or some unused field not zero."
fn field_fault(e: &Entry) -> bool {
    let unused_letter = e.kind != LETTER && e.letter != 0;
    let unused_interval = !e.has_interval() && (e.low != 0 || e.high != 0);
    e.kind > 6 || e.letter > 31 || unused_letter || unused_interval
}

/// "Some low or finite high is above 3,600, some low is above its high, or until has no upper end", as request 6
/// amends it.
fn interval_fault(e: &Entry) -> bool {
    let endless = e.high == NO_END;
    e.low > 3600 || (!endless && e.high > 3600) || e.low > e.high || (endless && e.kind == UNTIL)
}

/// Each entry's operands in postfix order, and the last entries of the formulas that the whole leaves; none if an operand
/// is lacking.
fn operands(entries: &[Entry]) -> Option<(Vec<Vec<usize>>, Vec<usize>)> {
    let mut stack = Vec::new();
    let mut all = Vec::new();
    for (k, e) in entries.iter().enumerate() {
        let rest = stack.len().checked_sub(e.operands())?;
        all.push(stack.split_off(rest));
        stack.push(k);
    }
    Some((all, stack))
}

/// Version 1 leaves one formula, and a count of 0 passes, by request 3. "Rule version 2 leaves one to eight formulas;
/// refusal 7 is amended so (a version 2 count of 0 meets it)".
fn formulas_allowed(version: u16, count: usize, formulas: usize) -> bool {
    match version {
        1 => formulas == 1 || count == 0,
        _ => (1..=MOST_FORMULAS).contains(&formulas),
    }
}

/// "Words needed: 16, and 16 for each entry, and for since with a finite high (high + 1), for since without
/// upper end 1, for until 2 × (high + 1)." "A version 2 point has 24 words where it had 16 at the start."
fn words(version: u16, entries: &[Entry]) -> u64 {
    let further = |e: &Entry| match (e.kind, e.high) {
        (SINCE, NO_END) => 1,
        (SINCE, high) => high as u64 + 1,
        (UNTIL, high) => 2 * (high as u64 + 1),
        _ => 0,
    };
    let start = if version == 1 { 16 } else { 24 };
    start + entries.iter().map(|e| 16 + further(e)).sum::<u64>()
}

/// "Reach: letter 0; not and previous as the operand; or and since the larger; until high plus the larger. A
/// rule with next has reach 4,294,967,295, meaning none." "The reach, and paper 2's k, are the largest over the
/// formulas."
fn reach(entries: &[Entry], operands: &[Vec<usize>], tops: &[usize]) -> u64 {
    if entries.iter().any(|e| e.kind == NEXT) {
        return NO_REACH;
    }
    let mut reaches: Vec<u64> = Vec::new();
    for (e, ops) in entries.iter().zip(operands) {
        let larger = ops.iter().map(|&o| reaches[o]).max().unwrap_or(0);
        reaches.push(if e.kind == UNTIL { e.high as u64 + larger } else { larger });
    }
    // "A count of 0 now means that every position is yes: 16 words, reach 0, A equals N."
    tops.iter().map(|&top| reaches[top]).max().unwrap_or(0)
}

/// "k being the largest number of previous entries on a path from the last entry to a letter", over the formulas; 0 for an
/// empty rule.
fn depth(entries: &[Entry], operands: &[Vec<usize>], tops: &[usize]) -> usize {
    let mut depths: Vec<usize> = Vec::new();
    for (e, ops) in entries.iter().zip(operands) {
        let largest = ops.iter().map(|&o| depths[o]).max().unwrap_or(0);
        depths.push(largest + usize::from(e.kind == PREVIOUS));
    }
    tops.iter().map(|&top| depths[top]).max().unwrap_or(0)
}
