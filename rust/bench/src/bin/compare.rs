//! Two archives against each other, each in a runner of its own: the same rules and logs in alternating rounds of one
//! run, with the sheets compared byte for byte. The script `compare` beside src/ builds the runners and starts this.

use bench::rules;
use bench::time::Spread;
use evaluator::log::{self, Record};
use evaluator::rule::{self, Entry};
use std::env;
use std::io::{self, Read, Write};
use std::process::{Child, Command, ExitCode, Stdio};

/// A runner, linked with one of the archives.
struct Runner(Child);

impl Runner {
    fn start(program: &str) -> io::Result<Runner> {
        Command::new(program).stdin(Stdio::piped()).stdout(Stdio::piped()).spawn().map(Runner)
    }

    fn send(&mut self, bytes: &[u8]) -> io::Result<()> {
        self.0.stdin.as_mut().expect("a pipe").write_all(bytes)
    }

    /// The rule and the log that are run from now on.
    fn take(&mut self, rule: &[u8], log: &[u8]) -> io::Result<()> {
        self.send(&0u64.to_ne_bytes())?;
        for bytes in [rule, log] {
            self.send(&(bytes.len() as u64).to_ne_bytes())?;
            self.send(bytes)?;
        }
        Ok(())
    }

    /// The seconds that the log takes in so many calls, and its sheet.
    fn run(&mut self, calls: usize) -> io::Result<(f64, Vec<u8>)> {
        self.send(&(calls as u64).to_ne_bytes())?;
        let answer = self.0.stdout.as_mut().expect("a pipe");
        let (mut time, mut length) = ([0; 8], [0; 8]);
        answer.read_exact(&mut time)?;
        answer.read_exact(&mut length)?;
        let mut sheet = vec![0; u64::from_ne_bytes(length) as usize];
        answer.read_exact(&mut sheet)?;
        Ok((f64::from_ne_bytes(time), sheet))
    }
}

/// How two sheets differ, if they do.
fn difference(old: &[u8], new: &[u8]) -> Option<String> {
    match old.iter().zip(new).position(|(a, b)| a != b) {
        Some(at) => Some(format!("byte {at} differs")),
        None if old.len() != new.len() => Some(format!("{} and {} verdicts", old.len(), new.len())),
        None => None,
    }
}

/// The rounds of one rule and log in so many calls: a row of the table, and whether all sheets are equal.
fn row(old: &mut Runner, new: &mut Runner, calls: usize, rounds: usize) -> io::Result<(String, bool)> {
    let mut times: [Vec<f64>; 2] = Default::default();
    let (mut sheets, mut equal) = (String::new(), true);
    // The first run of a side has memory to be found, and is not counted.
    old.run(calls)?;
    new.run(calls)?;
    for round in 0..rounds {
        // Each side is the first in every other round.
        let ((before, a), (after, b)) = if round % 2 == 0 {
            let first = old.run(calls)?;
            (first, new.run(calls)?)
        } else {
            let first = new.run(calls)?;
            (old.run(calls)?, first)
        };
        times[0].push(before);
        times[1].push(after);
        match difference(&a, &b) {
            Some(how) => (sheets, equal) = (how, false),
            None if equal => sheets = format!("{} equal", a.len()),
            None => {}
        }
    }
    let ratios: Vec<f64> = times[0].iter().zip(&times[1]).map(|(before, after)| before / after).collect();
    let each: Vec<String> = ratios.iter().map(|ratio| format!("{ratio:.2}")).collect();
    let milliseconds = |all: &[f64]| Spread::of(all.iter().map(|time| time * 1e3).collect()).text(2);
    let row = format!(
        "{calls} | {} | {} | {} | {} | {sheets} |",
        milliseconds(&times[0]),
        milliseconds(&times[1]),
        Spread::of(ratios).text(2),
        each.join(" ")
    );
    Ok((row, equal))
}

/// What is run: rules and logs by name, and in how many calls.
struct Table {
    rules: Vec<(String, Vec<Entry>)>,
    logs: Vec<(&'static str, Vec<Record>)>,
    calls: Vec<usize>,
}

impl Table {
    /// Five rules and two logs, in one call and in calls of 100 records.
    fn usual(records: usize) -> Table {
        let rules = rules::all().into_iter().map(|(name, entries)| (name.to_string(), entries)).collect();
        Table { rules, logs: rules::logs(records), calls: vec![1, records / 100] }
    }

    /// Many rules and nine logs, in one call.
    fn wide(records: usize) -> Table {
        Table { rules: rules::many(), logs: rules::nine_logs(records), calls: vec![1] }
    }
}

/// The whole table; whether all sheets are equal.
fn compare(programs: [&str; 2], table: Table, rounds: usize) -> io::Result<bool> {
    let [mut old, mut new] = [Runner::start(programs[0])?, Runner::start(programs[1])?];
    let records = table.logs[0].1.len();
    println!("{records} records, {rounds} rounds. Milliseconds of processor time for all calls, middle of the rounds (least to");
    println!("most). A ratio is of one round's two times: above 1, the new archive is faster.\n");
    println!(
        "| rule | log | calls | old | new | old / new | each round | verdicts |\n|---|---|---|---|---|---|---|---|"
    );
    let mut all_equal = true;
    for (rule_name, entries) in &table.rules {
        for (log_name, records) in &table.logs {
            let (bytes, file) = (rule::encode(entries), log::encode(records));
            old.take(&bytes, &file)?;
            new.take(&bytes, &file)?;
            for &calls in &table.calls {
                let (row, equal) = row(&mut old, &mut new, calls, rounds)?;
                println!("| {rule_name} | {log_name} | {row}");
                all_equal &= equal;
            }
        }
    }
    Ok(all_equal)
}

fn main() -> ExitCode {
    let words: Vec<String> = env::args().skip(1).collect();
    let words: Vec<&str> = words.iter().map(String::as_str).collect();
    let done = match words.as_slice() {
        [old, new] => compare([old, new], Table::usual(1_000_000), 11),
        [old, new, "quick"] => compare([old, new], Table::usual(100_000), 3),
        [old, new, "wide"] => compare([old, new], Table::wide(1_000_000), 5),
        _ => {
            eprintln!("compare OLD NEW [quick | wide], two runners; the script rust/bench/compare takes two archives");
            return ExitCode::FAILURE;
        }
    };
    match done {
        Ok(true) => ExitCode::SUCCESS,
        Ok(false) => {
            eprintln!("the sheets differ");
            ExitCode::FAILURE
        }
        Err(fault) => {
            eprintln!("a runner stopped: {fault}");
            ExitCode::FAILURE
        }
    }
}
