//! The rules and logs that the benchmark runs.

use evaluator::log::Record;
use evaluator::random::{self, LogShape, Random};
use evaluator::rule::{Entry, NEXT, NO_END, PREVIOUS, SINCE, UNTIL};

/// How long a rule may take: against document 002's algorithm and against a pass that only reads the records.
pub struct Limits {
    pub algorithm: Option<f64>,
    pub reading: Option<f64>,
}

/// A rule with its name and its limits.
pub struct Limited {
    pub name: &'static str,
    pub entries: Vec<Entry>,
    pub limits: Limits,
}

fn binary(letters: [u8; 2], entry: Entry) -> Vec<Entry> {
    vec![Entry::letter(letters[0]), Entry::letter(letters[1]), entry]
}

/// A balanced tree over so many letters whose operators are or, since and until in turn.
pub fn tree(leaves: usize, next: &mut usize) -> Vec<Entry> {
    let operators = [Entry::or(), Entry::timed(SINCE, 0, 60), Entry::timed(UNTIL, 0, 60)];
    if leaves == 1 {
        return vec![Entry::letter((*next % 4) as u8)];
    }
    let mut all = tree(leaves / 2, next);
    *next += 1;
    all.extend(tree(leaves - leaves / 2, next));
    *next += 1;
    all.push(operators[*next % 3]);
    all
}

/// The five rules, each with its name.
pub fn all() -> Vec<(&'static str, Vec<Entry>)> {
    let mix = vec![
        Entry::letter(0),
        Entry::not(),
        Entry::letter(1),
        Entry::timed(PREVIOUS, 0, 5),
        Entry::timed(SINCE, 0, 60),
        Entry::letter(2),
        Entry::timed(NEXT, 0, 9),
        Entry::letter(3),
        Entry::timed(UNTIL, 2, 120),
        Entry::or(),
    ];
    let mut most = tree(64, &mut 0);
    most.push(Entry::not());
    vec![
        ("one letter", vec![Entry::letter(0)]),
        ("ninety seconds", binary([0, 1], Entry::timed(UNTIL, 0, 90))),
        ("since, ten minutes", binary([0, 1], Entry::timed(SINCE, 0, 600))),
        ("all seven kinds", mix),
        ("128 entries", most),
    ]
}

/// The rules whose time has a limit: the five, and operators with a low above 0.
pub fn limited() -> Vec<Limited> {
    let timed = |reading| Limits { algorithm: Some(0.25), reading: Some(reading) };
    let limits = |name| match name {
        "one letter" => Limits { algorithm: None, reading: Some(1.6) },
        "ninety seconds" | "since, ten minutes" => timed(3.0),
        _ => Limits { algorithm: Some(0.25), reading: None },
    };
    let mut rules: Vec<Limited> =
        all().into_iter().map(|(name, entries)| Limited { name, entries, limits: limits(name) }).collect();
    let late = [
        ("until, 2 to 120 seconds", Entry::timed(UNTIL, 2, 120)),
        ("since, 1 to 600 seconds", Entry::timed(SINCE, 1, 600)),
    ];
    let late = late.map(|(name, entry)| Limited { name, entries: binary([0, 1], entry), limits: timed(4.0) });
    let at = rules.len() - 2;
    rules.splice(at..at, late);
    rules
}

/// Many rules, each with its text as a name: every operator with low and high at and around what decides how it is run, and
/// rules of several operators.
pub fn many() -> Vec<(String, Vec<Entry>)> {
    let until = [(0, 0), (0, 5), (0, 90), (0, 3600), (1, 2), (2, 120), (30, 90), (1800, 3600)];
    let since = [(0, 0), (0, 5), (0, 90), (0, 3600), (0, NO_END), (1, 600), (30, 90), (7, NO_END)];
    let timed = |kind, name: &str, low, high: u32| {
        let end = if high == NO_END { "inf".to_string() } else { high.to_string() };
        (format!("{name}[{low},{end}]"), Entry::timed(kind, low, high))
    };
    let mut rules: Vec<(String, Vec<Entry>)> = Vec::new();
    for (kind, name, all) in [(UNTIL, "until", until), (SINCE, "since", since)] {
        for (low, high) in all {
            let (name, entry) = timed(kind, name, low, high);
            rules.push((name, binary([0, 1], entry)));
        }
    }
    for (kind, name, high) in [(PREVIOUS, "prev", NO_END), (NEXT, "next", 5)] {
        let (name, entry) = timed(kind, name, 0, high);
        rules.push((name, vec![Entry::letter(0), entry]));
    }
    for (kind, name) in [(UNTIL, "nested until"), (SINCE, "nested since")] {
        let inner = binary([1, 2], Entry::timed(kind, 0, 30));
        let mut entries = vec![Entry::letter(0)];
        entries.extend(inner);
        entries.push(Entry::timed(kind, 0, 90));
        rules.push((name.to_string(), entries));
    }
    rules.extend(
        all()
            .into_iter()
            .filter(|(name, _)| *name != "ninety seconds" && !name.starts_with("since"))
            .map(|(name, entries)| (name.to_string(), entries)),
    );
    rules
}

/// Rules whose reasons have many lines, each with its name: letters, sinces and untils that are no, under ors; and previous and
/// next in turn.
pub fn many_lines() -> Vec<(&'static str, Vec<Entry>)> {
    let never = Entry::letter(4);
    let timed = |kind| binary([0, 4], Entry::timed(kind, 0, 60));
    let under_ors = |parts: usize, part: Vec<Entry>| {
        let mut all = part.clone();
        (1..parts).for_each(|_| all.extend(part.iter().copied().chain([Entry::or()])));
        all
    };
    let mut chain = vec![Entry::letter(0)];
    chain.extend((0..127).map(|k| Entry::timed([PREVIOUS, NEXT][k % 2], 0, NO_END)));
    vec![
        ("64 letters under ors", under_ors(64, vec![never])),
        ("32 sinces under ors", under_ors(32, timed(SINCE))),
        ("32 untils under ors", under_ors(32, timed(UNTIL))),
        ("127 times previous and next", chain),
    ]
}

/// Three times eight formulas, each with a name.
pub fn eights() -> Vec<(&'static str, Vec<Vec<Entry>>)> {
    let negated = |mut entries: Vec<Entry>| {
        entries.push(Entry::not());
        entries
    };
    let and_nots = |formulas: Vec<Vec<Entry>>| [formulas.clone(), formulas.into_iter().map(negated).collect()].concat();
    let pairs = [[0, 1], [1, 0], [2, 3], [3, 2], [0, 2], [2, 0], [1, 3], [3, 1]];
    let until = |letters| binary(letters, Entry::timed(UNTIL, 0, 90));
    vec![
        ("four letters and their nots", and_nots((0..4).map(|letter| vec![Entry::letter(letter)]).collect())),
        ("eight of ninety seconds", pairs.into_iter().map(until).collect()),
        ("the first four rules and their nots", and_nots(all().into_iter().take(4).map(|(_, rule)| rule).collect())),
    ]
}

fn shape(records: usize, hold: usize, step: u32) -> LogShape {
    LogShape { records, letters: 4, hold, step, start: 1_000 }
}

/// A kiosk's log, in which a letter changes once in forty records, and one in which every letter is drawn anew.
pub fn logs(records: usize) -> Vec<(&'static str, Vec<Record>)> {
    vec![
        ("kiosk", random::log(&mut Random::new(1), shape(records, 40, 2))),
        ("noise", random::log(&mut Random::new(2), shape(records, 1, 3))),
    ]
}

/// A log whose record number i has the time that `time` gives it.
fn paced(seed: u64, records: usize, hold: usize, time: fn(u32) -> u32) -> Vec<Record> {
    let mut log = random::log(&mut Random::new(seed), shape(records, hold, 1));
    log.iter_mut().zip(0..).for_each(|(record, i)| record.time = time(i));
    log
}

/// The two logs, a busy one with several records in a second, and a steady one with a record each second.
pub fn four_logs(records: usize) -> Vec<(&'static str, Vec<Record>)> {
    let mut logs = logs(records);
    logs.push(("busy", random::log(&mut Random::new(3), shape(records, 8, 1))));
    logs.push(("steady", paced(4, records, 40, |i| i)));
    logs
}

/// The four logs, and five whose times are what a run by whole words likes least: 64 records a second; 65 a second; all in one
/// second; a record every 50 seconds; and bursts of 500 records every 100 seconds.
pub fn nine_logs(records: usize) -> Vec<(&'static str, Vec<Record>)> {
    let mut logs = four_logs(records);
    let times: [(&str, fn(u32) -> u32); 5] = [
        ("dense", |i| i / 64),
        ("second", |i| i / 65),
        ("same", |_| 7),
        ("far", |i| i * 50),
        ("burst", |i| i / 500 * 100),
    ];
    logs.extend(times.map(|(name, time)| (name, paced(5, records, 4, time))));
    logs
}

/// Whether the record of this number is a service record.
type IsService = fn(usize) -> bool;

/// Where service records stand, each way with a name: in runs of 300, one record in a hundred, as visits leave them; and
/// one in fifty, each by itself.
pub fn visits() -> [(&'static str, IsService); 2] {
    [("in runs of 300, one in 100", |at| at % 30_000 >= 29_700), ("each by itself, one in 50", |at| at % 50 == 49)]
}
