//! The time of the checker against that of document 002's algorithm in plain Rust and of a pass that only reads the
//! records, as ratios of one run, with their limits; several formulas in one run against runs of one; logs with service records against
//! the same logs without them; the reason of a verdict against a run; growth with records, entries and calls; bytes of state.
//!
//! `cargo run --release --offline -p bench`, or with `-- quick` for a shorter run, `-- formulas` for the comparison of several
//! formulas alone, `-- service` for that of service records, `-- reasons` for that of reasons. It prints tables in Markdown.

mod multihead;

use bench::rules::{self, Limited};
use bench::time::{seconds, Spread};
use evaluator::log::{self, Record};
use evaluator::rule::{self, Entry, Rule};
use std::hint::black_box;

/// A rule and a log as the checker takes them.
struct Job {
    rule: Rule,
    bytes: Vec<u8>,
    file: Vec<u8>,
    records: usize,
}

impl Job {
    fn new(entries: &[Entry], records: &[Record]) -> Job {
        Job::of(rule::encode(entries), records)
    }

    fn of(bytes: Vec<u8>, records: &[Record]) -> Job {
        let rule = rule::parse(&bytes).expect("a rule without fault");
        Job { rule, bytes, file: log::encode(records), records: records.len() }
    }

    fn fresh(&self) -> Vec<u64> {
        let mut point = vec![0; self.rule.words as usize];
        havdrims::open(&self.bytes, &mut point).expect("open");
        point
    }

    /// The checker in one call: its seconds, and its verdicts in the sheet.
    fn checker(&self, sheet: &mut Vec<u8>) -> f64 {
        let mut point = self.fresh();
        sheet.resize(self.records, 0);
        let mut given = 0;
        let time = seconds(|| {
            let done = havdrims::resume(&self.bytes, &self.file, &mut point, sheet).expect("resume");
            given = done.verdicts;
        });
        sheet.truncate(given);
        time
    }

    /// Document 002's algorithm: its seconds, its verdicts in the sheet, and the bytes of its state.
    fn multihead(&self, sheet: &mut Vec<u8>) -> (f64, usize) {
        let mut monitor = multihead::monitor(&self.rule);
        sheet.resize(self.records, 0);
        let mut given = 0;
        let records = &self.file[8..];
        let time = seconds(|| {
            while let Some((_, holds)) = monitor.next(records) {
                sheet[given] = holds as u8;
                given += 1;
            }
        });
        sheet.truncate(given);
        (time, monitor.bytes())
    }

    /// A pass that only reads the records.
    fn reading(&self) -> f64 {
        let records = &self.file[8..];
        seconds(|| {
            let mut sum = 0u32;
            for at in 0..self.records {
                if let Some((time, letters)) = multihead::read(records, at) {
                    sum = sum.wrapping_add(time ^ letters);
                }
            }
            black_box(sum);
        })
    }

    /// The checker in so many calls of equal growth, with a sheet that takes all: its seconds, and its verdicts in the
    /// sheet.
    fn in_calls(&self, calls: usize, sheet: &mut Vec<u8>) -> f64 {
        let mut point = self.fresh();
        sheet.resize(self.records, 0);
        let mut given = 0;
        let time = seconds(|| {
            for call in 1..=calls {
                let end = 8 + 8 * (self.records * call / calls);
                let rest = &mut sheet[given..];
                given += havdrims::resume(&self.bytes, &self.file[..end], &mut point, rest).expect("resume").verdicts;
            }
        });
        sheet.truncate(given);
        time
    }

    /// The checker on the whole log with a sheet of a part of it, as often as it says "more".
    fn in_sheets(&self, parts: usize) -> f64 {
        let mut point = self.fresh();
        let mut sheet = vec![0; self.records.div_ceil(parts)];
        seconds(|| while havdrims::resume(&self.bytes, &self.file, &mut point, &mut sheet).expect("resume").more {})
    }
}

/// A ratio and the limit that it has, as two cells of a table.
fn cells(ratio: Spread, limit: Option<f64>) -> String {
    let limit = limit.map_or("-".to_string(), |limit| format!("{limit}"));
    format!("{} | {limit}", ratio.text(2))
}

/// Each rule over each log: three ways in turn, round by round.
fn rates(records: usize, rounds: usize) {
    println!("## Against document 002's algorithm and against reading alone, {records} records, {rounds} rounds\n");
    println!("Nanoseconds of processor time a record, middle of the rounds (least to most). A ratio is of the checker's time and");
    println!("the other's in one round: below 1, the checker is faster. Beside it its limit.\n");
    println!("| rule | log | checker | document 002 in Rust | checker / 002 | limit | checker / reading | limit | verdicts |");
    println!("|---|---|---|---|---|---|---|---|---|");
    for Limited { name, entries, limits } in rules::limited() {
        for (log_name, log) in rules::four_logs(records) {
            let job = Job::new(&entries, &log);
            let (mut sheet, mut other) = (Vec::new(), Vec::new());
            let mut times: [Vec<f64>; 3] = Default::default();
            for _ in 0..rounds {
                times[0].push(job.checker(&mut sheet));
                times[1].push(job.multihead(&mut other).0);
                times[2].push(job.reading());
                assert!(sheet.starts_with(&other), "{name} over {log_name}: verdicts differ");
                let counts_agree = multihead::may_answer_later(&job.rule) || sheet.len() == other.len();
                assert!(counts_agree, "{name} over {log_name}: counts differ");
            }
            let each = |way: usize| Spread::of(times[way].iter().map(|t| t / records as f64 * 1e9).collect()).text(2);
            let ratio = |way: usize| {
                Spread::of(times[0].iter().zip(&times[way]).map(|(checker, other)| checker / other).collect())
            };
            println!(
                "| {name} | {log_name} | {} | {} | {} | {} | {} |",
                each(0),
                each(1),
                cells(ratio(1), limits.algorithm),
                cells(ratio(2), limits.reading),
                sheet.len(),
            );
        }
    }
    println!();
}

/// So many formulas in runs of their own, of version 1, and together in one run of version 2.
struct Together {
    alone: Vec<Job>,
    together: Job,
    sheets: Vec<Vec<u8>>,
    sheet: Vec<u8>,
}

impl Together {
    fn new(formulas: &[Vec<Entry>], log: &[Record]) -> Together {
        Together {
            alone: formulas.iter().map(|entries| Job::new(entries, log)).collect(),
            together: Job::of(rule::encode_several(formulas), log),
            sheets: vec![Vec::new(); formulas.len()],
            sheet: Vec::new(),
        }
    }

    fn alone(&mut self, calls: usize) -> f64 {
        self.alone.iter().zip(&mut self.sheets).map(|(job, sheet)| job.in_calls(calls, sheet)).sum()
    }

    fn together(&mut self, calls: usize) -> f64 {
        self.together.in_calls(calls, &mut self.sheet)
    }

    /// Bit k of every verdict is that of the run of formula k alone, and none is missing.
    fn equal(&self) -> bool {
        let bits =
            |k: usize, alone: &[u8]| self.sheet.iter().zip(alone).all(|(byte, verdict)| byte >> k & 1 == *verdict);
        let all_bits = self.sheets.iter().enumerate().all(|(k, alone)| bits(k, alone));
        all_bits && self.sheets.iter().map(Vec::len).min() == Some(self.sheet.len())
    }

    /// A row of the table.
    fn row(&mut self, name: &str, log: &str, calls: usize, rounds: usize) {
        let mut times: [Vec<f64>; 2] = Default::default();
        // The first run of a side has memory to be found, and is not counted.
        self.alone(calls);
        self.together(calls);
        for round in 0..rounds {
            // Each side is the first in every other round.
            let (alone, together) = if round % 2 == 0 {
                let first = self.alone(calls);
                (first, self.together(calls))
            } else {
                let first = self.together(calls);
                (self.alone(calls), first)
            };
            assert!(self.equal(), "{name} over {log}: verdicts differ");
            times[0].push(alone);
            times[1].push(together);
        }
        let ratios = times[0].iter().zip(&times[1]).map(|(alone, together)| alone / together).collect();
        let [alone, together] = times.map(|all| Spread::of(all.into_iter().map(|time| time * 1e3).collect()).text(2));
        let ratio = Spread::of(ratios).text(2);
        println!("| {name} | {log} | {calls} | {alone} | {together} | {ratio} | {} equal |", self.sheet.len());
    }
}

/// Eight formulas in one run against eight runs of one, and one formula as version 2 against version 1.
fn several_formulas(records: usize, rounds: usize) {
    let intro = "Milliseconds of processor time, middle of the rounds (least to most). A ratio is of one round's two times: above";
    println!("## Eight formulas in one run, {records} records, {rounds} rounds\n\n{intro} 1, one run is faster than eight.\n");
    println!(
        "| formulas | log | calls | eight runs | one run | eight / one | verdicts |\n|---|---|---|---|---|---|---|"
    );
    for (name, formulas) in rules::eights() {
        for (log_name, log) in rules::logs(records) {
            let mut both = Together::new(&formulas, &log);
            for calls in [1, records / 100] {
                both.row(name, log_name, calls, rounds);
            }
        }
    }
    println!("\n## One formula as version 2, {records} records, {rounds} rounds\n\n{intro} 1, version 2 is faster.\n");
    println!("| rule | log | calls | version 1 | version 2 | 1 / 2 | verdicts |\n|---|---|---|---|---|---|---|");
    for (name, entries) in rules::all() {
        for (log_name, log) in rules::logs(records) {
            let mut both = Together::new(std::slice::from_ref(&entries), &log);
            for calls in [1, records / 100] {
                both.row(name, log_name, calls, rounds);
            }
        }
    }
    println!();
}

/// A version 2 log with service records, and the same log without them.
struct Visited {
    jobs: [Job; 2],
    sheets: [Vec<u8>; 2],
}

impl Visited {
    fn new(entries: &[Entry], log: &[Record], is_service: fn(usize) -> bool) -> Visited {
        let mark = |(at, &record): (usize, &Record)| if is_service(at) { record.as_service() } else { record };
        let with: Vec<Record> = log.iter().enumerate().map(mark).collect();
        let without = log::positions(2, &with);
        let job = |log: Vec<Record>| Job { file: log::encode_as(2, &log), ..Job::new(entries, &log) };
        Visited { jobs: [with, without].map(job), sheets: Default::default() }
    }

    /// What a row of the table has behind its names.
    fn row(&mut self, calls: usize, rounds: usize) -> String {
        let mut times: [Vec<f64>; 2] = Default::default();
        // The first round has memory to be found, and is not counted. Each side is the first in every other round.
        for round in 0..=rounds {
            for side in [round % 2, 1 - round % 2] {
                let time = self.jobs[side].in_calls(calls, &mut self.sheets[side]);
                times[side].extend((round > 0).then_some(time));
            }
            assert!(self.sheets[0] == self.sheets[1], "the verdicts differ");
        }
        let ratio = Spread::of(times[0].iter().zip(&times[1]).map(|(with, without)| with / without).collect()).text(2);
        let [with, without] = times.map(|all| Spread::of(all.into_iter().map(|time| time * 1e3).collect()).text(2));
        format!("{calls} | {with} | {without} | {ratio} | {} equal |", self.sheets[0].len())
    }
}

/// Logs with service records against the same logs without them.
fn service_visits(records: usize, rounds: usize) {
    println!("## Service records, {records} records, {rounds} rounds\n");
    println!("Milliseconds of processor time, middle of the rounds (least to most). A ratio is of one round's two times: above");
    println!("1, the log with service records takes longer than the same log without them.\n");
    println!("| rule | log | service records | calls | with | without | with / without | verdicts |");
    println!("|---|---|---|---|---|---|---|---|");
    for (rule_name, entries) in rules::all() {
        for (log_name, log) in rules::logs(records) {
            for (visits, is_service) in rules::visits() {
                let mut both = Visited::new(&entries, &log, is_service);
                for calls in [1, records / 100] {
                    println!("| {rule_name} | {log_name} | {visits} | {}", both.row(calls, rounds));
                }
            }
        }
    }
    println!();
}

/// The reason of one verdict against a run over the same log: at the first, a middle and the last position.
fn reasons(records: usize, rounds: usize) {
    println!("## Reasons, {records} records, {rounds} rounds\n");
    println!(
        "Milliseconds of processor time of a resume, and how many times as long explain takes at the first, the middle"
    );
    println!("and the last answered position; middle of the rounds (least to most).\n");
    println!("| rule | log | resume | first | middle | last | lines of the last |");
    println!("|---|---|---|---|---|---|---|");
    let [_, (_, is_service)] = rules::visits();
    for (rule_name, entries) in rules::all().into_iter().chain(rules::many_lines()) {
        let mut logs = rules::logs(records);
        let mark = |(at, &record): (usize, &Record)| if is_service(at) { record.as_service() } else { record };
        logs.push(("kiosk, service records", logs[0].1.iter().enumerate().map(mark).collect()));
        for (log_name, log) in logs {
            let version = if log_name.ends_with("records") { 2 } else { 1 };
            let job = Job { file: log::encode_as(version, &log), ..Job::new(&entries, &log) };
            let mut sheet = Vec::new();
            let (mut runs, mut ratios) = (Vec::new(), [(); 3].map(|()| Vec::new()));
            let mut lines = 0;
            for _ in 0..rounds {
                let run = job.checker(&mut sheet);
                runs.push(run * 1e3);
                let last = sheet.len() - 1;
                for (ratios, position) in ratios.iter_mut().zip([0, last / 2, last]) {
                    let mut text = [0; havdrims::MOST_REASON];
                    let mut length = 0;
                    let time = seconds(|| {
                        length =
                            havdrims::explain(&job.bytes, &job.file, 0, position as u64, &mut text).expect("explain");
                    });
                    ratios.push(time / run);
                    lines = text[..length].iter().filter(|&&byte| byte == 10).count();
                }
            }
            let [first, middle, last] = ratios.map(|ratios| Spread::of(ratios).text(2));
            let run = Spread::of(runs).text(2);
            println!("| {rule_name} | {log_name} | {run} | {first} | {middle} | {last} | {lines} |");
        }
    }
    println!();
}

fn middle(rounds: usize, work: impl FnMut(usize) -> f64) -> Spread {
    Spread::of((0..rounds).map(work).collect())
}

fn growth_with_records(most: usize, rounds: usize) {
    println!("## Growth with records\n\nNanoseconds a record, all seven kinds.\n");
    println!("| records | checker | document 002 in Rust |\n|---|---|---|");
    let entries = &rules::all()[3].1;
    let mut records = 1_000;
    while records <= most {
        let job = Job::new(entries, &rules::logs(records)[0].1);
        let each = 1e9 / records as f64;
        let mut sheet = Vec::new();
        let checker = middle(rounds, |_| job.checker(&mut sheet) * each);
        let other = middle(rounds, |_| job.multihead(&mut sheet).0 * each);
        println!("| {records} | {} | {} |", checker.text(1), other.text(1));
        records *= 10;
    }
    println!();
}

fn growth_with_entries(records: usize, rounds: usize) {
    println!("## Growth with entries\n\nNanoseconds a record and entry; or, since and until over letters in a balanced tree.\n");
    println!("| entries | checker | document 002 in Rust |\n|---|---|---|");
    for leaves in [1, 2, 4, 8, 16, 32, 64] {
        let entries = rules::tree(leaves, &mut 0);
        let job = Job::new(&entries, &rules::logs(records)[0].1);
        let each = 1e9 / records as f64 / entries.len() as f64;
        let mut sheet = Vec::new();
        let checker = middle(rounds, |_| job.checker(&mut sheet) * each);
        let other = middle(rounds, |_| job.multihead(&mut sheet).0 * each);
        println!("| {} | {} | {} |", entries.len(), checker.text(2), other.text(2));
    }
    println!();
}

fn growth_with_calls(records: usize, rounds: usize) {
    println!("## Growth with calls\n\nMilliseconds for {records} records in all, the ninety-second rule.\n");
    println!("| calls | the log grows, each call brings what is new | the whole log, each call's sheet takes a part |");
    println!("|---|---|---|");
    let job = Job::new(&rules::all()[1].1, &rules::logs(records)[0].1);
    for calls in [1, 10, 100, 1_000, 10_000] {
        let grows = middle(rounds, |_| job.in_calls(calls, &mut Vec::new()) * 1e3);
        let sheets = match calls {
            10_000 => "-".to_string(),
            _ => middle(rounds, |_| job.in_sheets(calls) * 1e3).text(1),
        };
        println!("| {calls} | {} | {sheets} |", grows.text(1));
    }
    println!();
}

fn memory(records: usize) {
    println!("## Memory\n\nBytes of state. The checker's are lent and do not grow; it allocates nothing.\n");
    println!("| rule | log | checker's point | document 002 in Rust, after {records} records |\n|---|---|---|---|");
    for (rule_name, entries) in rules::all() {
        for (log_name, log) in rules::logs(records) {
            let job = Job::new(&entries, &log);
            let other = job.multihead(&mut Vec::new()).1;
            println!("| {rule_name} | {log_name} | {} | {other} |", 8 * job.rule.words);
        }
    }
    println!();
}

fn main() {
    let quick = std::env::args().any(|word| word == "quick");
    let (records, rounds) = if quick { (100_000, 3) } else { (1_000_000, 11) };
    if std::env::args().any(|word| word == "formulas") {
        return several_formulas(records, rounds);
    }
    if std::env::args().any(|word| word == "service") {
        return service_visits(records, rounds);
    }
    if std::env::args().any(|word| word == "reasons") {
        return reasons(records, rounds);
    }
    rates(records, rounds);
    several_formulas(records, rounds);
    service_visits(records, rounds);
    reasons(records, rounds);
    growth_with_records(records, rounds);
    growth_with_entries(records / 10, rounds);
    growth_with_calls(records, rounds.min(5));
    memory(records);
}
