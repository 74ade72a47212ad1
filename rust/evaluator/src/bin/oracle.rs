//! The evaluator on a line: what document 01 says of a rule and a log, for comparing a checker by hand.
//!
//! It reads commands from standard input, one to a line, and prints one line for each:
//!
//! ```text
//! rule HEX             take this rule           words W reach R, or refused N (1 to 8)
//! postfix ENTRY..      the same, typed          words W reach R, or refused N
//! several ENTRY..      the same, of version 2   words W reach R, or refused N
//! log HEX              the verdicts of a log    A and A digits, 1 for yes, 0 for no; or refused N (1 to 8, 12, 24, 14)
//! records RECORD..     the same, typed          as for log
//! visited RECORD..     the same, of version 2   as for log: A positions, service records, those with letter 31, left out
//! close                the last log, closed     as for log: N and N digits
//! tally HEX            a sheet                  no N yes Y, or refused 15
//! tally HEX FORMULAS   that of a version 2 rule the same, once for each formula
//! bytes                                         the rule's bytes and the last log's in hexadecimal
//! ```
//!
//! HEX is a string of hexadecimal digits, or `-` for no bytes. An ENTRY is `e0` to `e31`, `not`, `or`, `prev[L,H]`,
//! `next[L,H]`, `since[L,H]` or `until[L,H]`, with `inf` for no upper end. A RECORD is `TIME:LETTERS`, the letters'
//! numbers separated by commas, as in `0:0,2` and `11:`. An empty line or one that begins with `#` is passed over.
//! Document 01's full run:
//!
//! ```text
//! postfix e0 e1 until[0,2]
//! records 10:0 11:0 11: 12:0 13:1 20:0
//! ```
//!
//! prints `words 70 reach 2` and `5 00011`. A rule with several formulas, whose entries stand one after the other, gets A
//! digits for each of them: with `several e0 e1 until[0,2] e0 e1 until[0,2] not` the same records give `5 00011 11100`.

use evaluator::log::{self, Record};
use evaluator::model;
use evaluator::rule::{self, Entry, NEXT, NO_END, PREVIOUS, SINCE, UNTIL};
use std::io::{self, BufRead, Write};

fn unhex(digits: &str) -> Result<Vec<u8>, String> {
    let digits = if digits == "-" { "" } else { digits };
    let pairs = digits.as_bytes().chunks(2);
    let byte = |pair: &[u8]| {
        let text = std::str::from_utf8(pair).ok().filter(|t| t.len() == 2);
        text.and_then(|t| u8::from_str_radix(t, 16).ok())
    };
    pairs.map(byte).collect::<Option<_>>().ok_or_else(|| "not hexadecimal".to_string())
}

fn hex(bytes: &[u8]) -> String {
    bytes.iter().map(|b| format!("{b:02x}")).collect()
}

fn entry(word: &str) -> Result<Entry, String> {
    let unknown = || format!("unknown entry {word}");
    match word {
        "not" => return Ok(Entry::not()),
        "or" => return Ok(Entry::or()),
        _ => {}
    }
    if let Some(letter) = word.strip_prefix('e').and_then(|n| n.parse().ok()) {
        return Ok(Entry::letter(letter));
    }
    let (name, interval) = word.split_once('[').ok_or_else(unknown)?;
    let (low, high) = interval.trim_end_matches(']').split_once(',').ok_or_else(unknown)?;
    let kind = match name {
        "prev" => PREVIOUS,
        "next" => NEXT,
        "since" => SINCE,
        "until" => UNTIL,
        _ => return Err(unknown()),
    };
    let end = |n: &str| if n == "inf" { Ok(NO_END) } else { n.parse().map_err(|_| unknown()) };
    Ok(Entry::timed(kind, end(low)?, end(high)?))
}

fn record(word: &str) -> Result<Record, String> {
    let unknown = || format!("unknown record {word}");
    let (time, letters) = word.split_once(':').ok_or_else(unknown)?;
    let mut set = 0;
    for letter in letters.split(',').filter(|l| !l.is_empty()) {
        let number: u32 = letter.parse().map_err(|_| unknown())?;
        set |= 1u32.checked_shl(number).ok_or_else(unknown)?;
    }
    Ok(Record { time: time.parse().map_err(|_| unknown())?, letters: set })
}

fn measured(rule: &[u8]) -> String {
    match model::measure(rule) {
        Ok((words, reach)) => format!("words {words} reach {reach}"),
        Err(n) => format!("refused {n}"),
    }
}

fn judged(closing: bool, rule: &[u8], log: &[u8]) -> String {
    match model::open(rule, 8192).and_then(|fresh| fresh.check(closing, rule, log, 8192)) {
        Err(n) => format!("refused {n}"),
        Ok((rule, log)) => {
            let all = model::verdicts(closing, &rule, &log::positions(log.version, &log.records));
            let digit = |byte: u8, k: usize| if byte >> k & 1 == 1 { '1' } else { '0' };
            let digits = |k: usize| all.iter().map(|&byte| digit(byte, k)).collect::<String>();
            let formulas: Vec<String> = (0..rule.formulas()).map(digits).collect();
            format!("{} {}", all.len(), formulas.join(" ")).trim_end().to_string()
        }
    }
}

fn tallied(sheet: &[u8], formulas: u64) -> String {
    match model::tally(sheet, formulas) {
        Ok((no, yes)) => {
            let counts: Vec<String> = no.iter().zip(yes).map(|(no, yes)| format!("no {no} yes {yes}")).collect();
            counts.join(" ")
        }
        Err(n) => format!("refused {n}"),
    }
}

fn answer(line: &str, rule: &mut Vec<u8>, log: &mut Vec<u8>) -> Result<String, String> {
    let (command, rest) = line.split_once(' ').unwrap_or((line, ""));
    let words = || rest.split_whitespace();
    match command {
        "rule" => *rule = unhex(rest.trim())?,
        "postfix" => *rule = rule::encode(&words().map(entry).collect::<Result<Vec<_>, _>>()?),
        "several" => *rule = rule::encode_as(2, &words().map(entry).collect::<Result<Vec<_>, _>>()?),
        "log" => *log = unhex(rest.trim())?,
        "records" => *log = log::encode(&words().map(record).collect::<Result<Vec<_>, _>>()?),
        "visited" => *log = log::encode_as(2, &words().map(record).collect::<Result<Vec<_>, _>>()?),
        "close" => return Ok(judged(true, rule, log)),
        "tally" => {
            let (sheet, formulas) = rest.split_once(' ').unwrap_or((rest, "1"));
            let formulas = formulas.trim().parse().map_err(|_| format!("unknown number {formulas}"))?;
            return Ok(tallied(&unhex(sheet)?, formulas));
        }
        "bytes" => return Ok(format!("{} {}", hex(rule), hex(log))),
        _ => return Err(format!("unknown command {command}")),
    }
    let of_rule = ["rule", "postfix", "several"].contains(&command);
    Ok(if of_rule { measured(rule) } else { judged(false, rule, log) })
}

fn main() -> io::Result<()> {
    let (mut rule, mut log) = (Vec::new(), log::encode(&[]));
    let mut out = io::stdout().lock();
    for line in io::stdin().lock().lines() {
        let line = line?;
        let line = line.trim();
        if line.is_empty() || line.starts_with('#') {
            continue;
        }
        match answer(line, &mut rule, &mut log) {
            Ok(text) => writeln!(out, "{text}")?,
            Err(fault) => writeln!(out, "error: {fault}")?,
        }
        out.flush()?;
    }
    Ok(())
}
