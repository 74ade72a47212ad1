//! Random rules, logs and damage from a fixed seed.

use crate::log::Record;
use crate::rule::{self, Entry, MOST_ENTRIES, MOST_FORMULAS, NEXT, NOT, NO_END, OR, PREVIOUS, SINCE, UNTIL};

/// Vigna's splitmix64.
#[derive(Clone, Debug)]
pub struct Random(u64);

impl Random {
    pub fn new(seed: u64) -> Random {
        Random(seed)
    }

    /// Any 64-bit number.
    pub fn draw(&mut self) -> u64 {
        self.0 = self.0.wrapping_add(0x9E37_79B9_7F4A_7C15);
        let z = (self.0 ^ (self.0 >> 30)).wrapping_mul(0xBF58_476D_1CE4_E5B9);
        let z = (z ^ (z >> 27)).wrapping_mul(0x94D0_49BB_1331_11EB);
        z ^ (z >> 31)
    }

    /// A number below `end`, which is above 0.
    pub fn below(&mut self, end: usize) -> usize {
        (self.draw() % end as u64) as usize
    }

    /// A number from `low` to `high`, both included.
    pub fn from_to(&mut self, low: usize, high: usize) -> usize {
        low + self.below(high - low + 1)
    }

    /// True once in `n` times.
    pub fn one_in(&mut self, n: usize) -> bool {
        self.below(n) == 0
    }

    pub fn pick<T: Copy>(&mut self, of: &[T]) -> T {
        of[self.below(of.len())]
    }

    pub fn fill(&mut self, bytes: &mut [u8]) {
        for b in bytes {
            *b = self.draw() as u8;
        }
    }
}

/// How random rules are drawn.
#[derive(Clone, Copy, Debug)]
pub struct RuleShape {
    /// At most so many entries.
    pub entries: usize,
    /// Letters below this number.
    pub letters: usize,
    /// Highs up to this number of seconds, or no upper end.
    pub high: u32,
}

/// The entries of a rule with exactly `size` entries; its need may be above the limit.
pub fn entries(r: &mut Random, shape: RuleShape, size: usize) -> Vec<Entry> {
    if size == 0 {
        return Vec::new();
    }
    if size == 1 {
        let letter = if r.one_in(16) { 31 } else { r.below(shape.letters) };
        return vec![Entry::letter(letter as u8)];
    }
    let unary = [NOT, NOT, PREVIOUS, NEXT];
    let binary = [OR, OR, SINCE, SINCE, UNTIL, UNTIL, UNTIL];
    let two = size >= 3 && !r.one_in(3);
    let kind = if two { r.pick(&binary) } else { r.pick(&unary) };
    let mut all = Vec::new();
    if two {
        let left = r.from_to(1, size - 2);
        all.extend(entries(r, shape, left));
        all.extend(entries(r, shape, size - 1 - left));
    } else {
        all.extend(entries(r, shape, size - 1));
    }
    all.push(interval(r, shape, kind));
    all
}

fn interval(r: &mut Random, shape: RuleShape, kind: u8) -> Entry {
    if kind < PREVIOUS {
        return Entry::timed(kind, 0, 0);
    }
    let top = shape.high as usize;
    let endless = kind != UNTIL && r.one_in(3);
    let low = if r.one_in(2) { 0 } else { r.from_to(0, top) };
    let high = if r.one_in(8) { low } else { r.from_to(low, top) };
    Entry::timed(kind, low as u32, if endless { NO_END } else { high as u32 })
}

/// A random size of up to so many entries; one rule in twenty is empty.
pub fn size(r: &mut Random, most: usize) -> usize {
    if r.one_in(20) {
        0
    } else {
        r.from_to(1, most)
    }
}

/// The entries of a version 1 rule of random size whose need is within the limit.
pub fn valid_entries(r: &mut Random, shape: RuleShape) -> Vec<Entry> {
    loop {
        let size = size(r, shape.entries);
        let drawn = entries(r, shape, size);
        if rule::parse(&rule::encode(&drawn)).is_ok() {
            return drawn;
        }
    }
}

/// One to eight formulas of random sizes, some of them the one before or its not; their need may be above the limit.
pub fn formulas(r: &mut Random, shape: RuleShape, number: usize) -> Vec<Vec<Entry>> {
    let most = (2 * shape.entries / number).clamp(1, shape.entries);
    let mut all: Vec<Vec<Entry>> = Vec::new();
    for _ in 0..number {
        let drawn = match all.last() {
            Some(before) if r.one_in(8) => before.clone(),
            Some(before) if r.one_in(8) => [before.as_slice(), &[Entry::not()]].concat(),
            _ => {
                let size = r.from_to(1, most);
                entries(r, shape, size)
            }
        };
        all.push(drawn);
    }
    all
}

/// The bytes of a rule without fault: of version 1, or of version 2 with one to eight formulas.
pub fn rule(r: &mut Random, shape: RuleShape) -> Vec<u8> {
    if r.one_in(2) {
        return rule::encode(&valid_entries(r, shape));
    }
    let number = r.pick(&[1, 2, 2, 3, 5, 8, 8, r.clone().from_to(1, MOST_FORMULAS)]);
    loop {
        let drawn = formulas(r, shape, number);
        let fits = drawn.iter().map(Vec::len).sum::<usize>() <= MOST_ENTRIES;
        let bytes = rule::encode_several(&drawn);
        if fits && rule::parse(&bytes).is_ok() {
            return bytes;
        }
    }
}

/// How random logs are drawn.
#[derive(Clone, Copy, Debug)]
pub struct LogShape {
    pub records: usize,
    /// Letters below this number are drawn.
    pub letters: usize,
    /// A letter changes once in so many records; 1 draws all anew.
    pub hold: usize,
    /// Steps of time up to so many seconds, most of them smaller.
    pub step: u32,
    /// The first record's time.
    pub start: u32,
}

/// A log whose times never fall; it ends at time 4,294,967,295 if it would go beyond.
pub fn log(r: &mut Random, shape: LogShape) -> Vec<Record> {
    let mask = if shape.letters >= 32 { u32::MAX } else { (1 << shape.letters) - 1 };
    let mut time = shape.start;
    let mut letters = r.draw() as u32 & mask;
    let mut all = Vec::with_capacity(shape.records);
    for _ in 0..shape.records {
        all.push(Record { time, letters });
        if shape.hold <= 1 {
            letters = r.draw() as u32 & mask;
        } else if r.one_in(shape.hold) {
            letters ^= 1 << r.below(shape.letters);
        }
        let step = match r.below(4) {
            0 => 0,
            1 => r.from_to(0, (shape.step as usize).min(1)) as u32,
            2 => r.from_to(0, shape.step as usize / 2) as u32,
            _ => r.from_to(0, shape.step as usize) as u32,
        };
        time = time.saturating_add(step);
    }
    all
}

/// Gives some of the records letter 31: none to nine in ten of them, one by one or in runs. In a log of version 2 these are
/// service records.
pub fn visit(r: &mut Random, records: &mut [Record]) {
    let hundredths = r.pick(&[0, 1, 5, 20, 50, 90]);
    let longest = r.pick(&[1, 1, 3, 20, 100]);
    let mut at = 0;
    while at < records.len() {
        let end = records.len().min(at + r.from_to(1, longest));
        if r.below(100) < hundredths {
            records[at..end].iter_mut().for_each(|record| *record = record.as_service());
        }
        at = end;
    }
}

/// A log of version 1 or 2, its version first; in version 1 letter 31 is a letter like the others.
pub fn any_log(r: &mut Random, shape: LogShape) -> (u16, Vec<Record>) {
    let version = r.pick(&[1, 2, 2]);
    let mut records = log(r, shape);
    if version == 2 || r.one_in(2) {
        visit(r, &mut records);
    }
    (version, records)
}

/// A small rule shape and a log shape that suits it; one log in twenty may have five times as many records.
pub fn shapes(r: &mut Random, most_entries: usize, most_records: usize) -> (RuleShape, LogShape) {
    let letters = r.from_to(1, 4);
    let high = r.pick(&[0, 1, 2, 3, 5, 10, 30]);
    let rule = RuleShape { entries: most_entries, letters, high };
    let most = if r.one_in(20) { 5 * most_records } else { most_records };
    let log = LogShape {
        records: r.from_to(0, most),
        letters,
        hold: r.pick(&[1, 1, 2, 5, 10]),
        step: r.pick(&[0, 1, 2, 3, high / 2 + 1, high + 1, 2 * high + 2]),
        start: 0,
    };
    let last_second = u32::MAX - r.below(40) as u32;
    let start = [0, r.below(100) as u32, r.draw() as u32, last_second];
    (rule, LogShape { start: r.pick(&start), ..log })
}

/// Bytes changed at random: one to three of a bit, a byte, a cut, an added byte or a repeated part.
pub fn damage(r: &mut Random, bytes: &mut Vec<u8>) {
    for _ in 0..r.from_to(1, 3) {
        let at = if bytes.is_empty() { 0 } else { r.below(bytes.len()) };
        match r.below(6) {
            0 if !bytes.is_empty() => bytes[at] ^= 1 << r.below(8),
            1 if !bytes.is_empty() => bytes[at] = r.draw() as u8,
            2 if !bytes.is_empty() => bytes[at] = r.pick(&[0, 1, 2, 6, 7, 31, 32, 127, 128, 129, 255]),
            3 => bytes.truncate(at),
            4 => bytes.push(r.draw() as u8),
            _ => {
                let end = bytes.len().min(at + r.from_to(0, 20));
                let part = bytes[at..end].to_vec();
                bytes.extend(part);
            }
        }
    }
}

/// How tightly a text binds: or, then since and until, then a word in front, then a letter or brackets.
const OR_BINDS: u8 = 0;
const TIMED_BINDS: u8 = 1;
const PREFIX_BINDS: u8 = 2;
const ATOM_BINDS: u8 = 3;

/// A text that says these entries, with needless brackets and spaces here and there.
pub fn text(r: &mut Random, entries: &[Entry]) -> String {
    let mut parts: Vec<(String, u8)> = Vec::new();
    for e in entries {
        let operand = |r: &mut Random, parts: &mut Vec<(String, u8)>, least: u8| {
            let (text, binds) = parts.pop().expect("the entries stand in postfix order");
            if binds < least || r.one_in(9) {
                format!("({}{text}{})", spaces(r, 0), spaces(r, 0))
            } else {
                text
            }
        };
        let part = match e.kind {
            NOT => {
                let inner = operand(r, &mut parts, PREFIX_BINDS);
                (format!("not{}", behind(r, &inner)), PREFIX_BINDS)
            }
            PREVIOUS | NEXT => {
                let inner = operand(r, &mut parts, PREFIX_BINDS);
                (format!("{}{}{inner}", timed_word(r, e), spaces(r, 0)), PREFIX_BINDS)
            }
            OR => {
                let right = operand(r, &mut parts, TIMED_BINDS);
                let left = operand(r, &mut parts, OR_BINDS);
                (format!("{}or{}", before(r, &left), behind(r, &right)), OR_BINDS)
            }
            SINCE | UNTIL => {
                let right = operand(r, &mut parts, TIMED_BINDS);
                let left = operand(r, &mut parts, PREFIX_BINDS);
                (format!("{}{}{}{right}", before(r, &left), timed_word(r, e), spaces(r, 0)), TIMED_BINDS)
            }
            _ => (format!("e{}", e.letter), ATOM_BINDS),
        };
        parts.push(part);
    }
    parts.pop().expect("there is an entry").0
}

fn spaces(r: &mut Random, least: usize) -> String {
    let further = if r.one_in(5) { r.from_to(1, 3) } else { 0 };
    " ".repeat(least + further)
}

/// The text with a space in front where a word before it would run into it.
fn behind(r: &mut Random, text: &str) -> String {
    let least = usize::from(!text.starts_with('(') || r.one_in(2));
    format!("{}{text}", spaces(r, least))
}

fn before(r: &mut Random, text: &str) -> String {
    let least = usize::from(!text.ends_with(')') || r.one_in(2));
    format!("{text}{}", spaces(r, least))
}

fn timed_word(r: &mut Random, e: &Entry) -> String {
    let word = ["prev", "next", "since", "until"][usize::from(e.kind - PREVIOUS)];
    let high = if e.high == NO_END { "inf".to_string() } else { e.high.to_string() };
    let mut gap = || spaces(r, 0);
    format!("{word}{}[{}{}{},{}{high}{}]", gap(), gap(), e.low, gap(), gap(), gap())
}
