//! Rules and logs as text and back, and logs to try a kiosk with.

use crate::command::{Answer, Failure, Given};
use crate::disk::{read_all, read_file};
use crate::parts::{counted, records as many};
use crate::wrong::{self, numbered, Wrong};
use crate::{beside, card, file};
use havdrims::{formulas, measure, parse, simulate, text, worst_log};
use havdrims::{Log, Needs, Refusal, Settings, MOST_FORMULAS, MOST_RECORDS, MOST_RULE, MOST_WORDS};
use std::io::ErrorKind;
use std::path::Path;
use std::str::FromStr;
use std::{fs, io};

/// The most bytes of a log, of version 3 with all its records, and one byte less than a record more: what is longer than this has
/// too many of them.
const MOST_LOG: usize = 16 + 8 * MOST_RECORDS + 7;

/// The bytes of a log file. What is longer than every log is cut behind that length: it is refused all the same.
pub fn log(path: &str) -> io::Result<Vec<u8>> {
    read_file(path, MOST_LOG)
}

/// How many records the log of this name has, dropped ones included. None where no log is there.
pub fn records_there(path: &str) -> Option<u64> {
    wrong::count(&read_file(path, 15).ok()?, fs::metadata(path).ok()?.len())
}

/// What is wrong where a file could not be read.
pub fn unread(path: &str, fault: io::Error) -> Failure {
    match fs::read_dir(path) {
        Err(_) if fault.kind() == ErrorKind::NotFound => {
            Failure::fault(path, format!("there is no such file{}", beside::or_file(path)))
        }
        Err(_) => Failure::fault(path, fault),
        Ok(_) if Path::new(path).join(card::CARD).is_file() => {
            Failure::fault(path, "this is a card, and a file is wanted here")
        }
        Ok(_) => Failure::fault(path, "this is a folder, and a file is wanted here"),
    }
}

/// The text in a file, without the mark that some editors write before it.
pub fn text_of(path: &str, bytes: Vec<u8>) -> Result<String, Failure> {
    let says = match bytes.get(..3) {
        Some(b"KLG") => "this is a log, and a text is wanted here",
        Some(b"KRL") => "this is a rule, and a text is wanted here",
        _ if bytes.contains(&0) => "this is no text: it has a zero byte",
        _ => "this is no text in UTF-8",
    };
    let text = String::from_utf8(bytes).ok().filter(|text| !text.contains('\0'));
    let text = text.ok_or_else(|| Failure::fault(path, says))?;
    Ok(text.strip_prefix('\u{feff}').unwrap_or(&text).to_string())
}

/// The bytes of a log, looked at once.
pub fn opened<'a>(path: &str, bytes: &'a [u8]) -> Result<Log<'a>, Failure> {
    Log::new(bytes).map_err(|refusal| Failure::fault(path, wrong::named(refusal, wrong::log(bytes))))
}

/// The bytes of the rule that some words of the command line say: each is the name of a .krl file, `-` for one that comes from
/// standard input, or else a formula.
/// One alone is taken as it is; of several, all formulas make a rule of version 2.
pub fn rule_said(words: &[&str]) -> Result<Vec<u8>, Failure> {
    let said = |word: &&str| match word.ends_with(".krl") || *word == "-" {
        true => read_file(word, MOST_RULE).map_err(|fault| unread(word, fault)),
        false => parsed(word, taken_for),
    };
    let rules: Result<Vec<Vec<u8>>, Failure> = words.iter().map(said).collect();
    joined(words, rules.map_err(|fault| unquoted(words).unwrap_or(fault))?)
}

/// The same of a word that may also be the name of a card, which there is not.
pub fn rule_of(word: &str) -> Result<Vec<u8>, Failure> {
    let none = || format!("no card or .krl file `{word}` is here{}", beside::or_rule(word));
    match refused(word).filter(|_| word != "-" && !Path::new(word).exists()) {
        Some(_) if word.ends_with(".krl") => Err(Failure::Fault(none())),
        Some(refusal) if is_name(word) => Err(Failure::Fault(numbered(&none(), refusal))),
        _ => rule_said(&[word]),
    }
}

/// Why this is no formula, if it is none.
fn refused(text: &str) -> Option<Refusal> {
    parse(text.as_bytes(), &mut vec![0; MOST_RULE]).err()
}

/// Whether this says a rule.
pub fn is_formula(text: &str) -> bool {
    refused(text).is_none()
}

/// Whether a word says a rule or names a rule file: it is none that names a card.
pub fn is_rule(word: &str) -> bool {
    word.ends_with(".krl") || is_formula(word)
}

/// Whether a word that is no formula looks like a name: of several words, or with brackets, it is a formula that is wrong.
fn is_name(word: &str) -> bool {
    !word.is_empty() && !word.contains([' ', '(', ')', '[', ']']) && refused(word) == Some(Refusal::UnknownWord)
}

/// What is wrong where the words of a formula stand alone, because nothing stands around them.
fn unquoted(words: &[&str]) -> Option<Failure> {
    let parts: Vec<&str> = words.iter().copied().filter(|word| !word.ends_with(".krl")).collect();
    // What is empty is no part of a formula: a variable may not be set.
    if parts.len() < 2 || parts.iter().any(|part| part.trim().is_empty()) {
        return None;
    }
    let (refusal, typed) = (parts.iter().find_map(|part| refused(part))?, parts.join(" "));
    match (formulas_in(&parts), refused(&typed)) {
        (Some(formulas), _) => Some(Failure::Fault(numbered(&each_between_quotes(&formulas), refusal))),
        // One of its words is a part of a formula, and no formula.
        (None, Some(whole)) if refusal == Refusal::NotDerived && !parts.iter().any(|part| part.contains(' ')) => {
            let says = wrong::named(whole, wrong::formula(&typed));
            Some(Failure::Fault(format!("{says}\nPut each formula between quotes of its own, when it is right")))
        }
        _ => None,
    }
}

/// The fewest formulas that these words make, one behind the other. What has a space stood between quotes and is one by itself.
fn formulas_in(words: &[&str]) -> Option<Vec<String>> {
    const MOST: usize = 100;
    let mut fewest = vec![Some(Vec::new())];
    for end in 1..=words.len().min(MOST) {
        let last = |from: usize| {
            let (before, own) = (fewest[from].as_ref()?, &words[from..end]);
            let typed = own.join(" ");
            let joins = own.len() == 1 || !own.iter().any(|word| word.contains(' '));
            (joins && is_formula(&typed)).then(|| [before.as_slice(), &[typed]].concat())
        };
        let made = (0..end).filter_map(last).min_by_key(Vec::len);
        fewest.push(made);
    }
    fewest.pop().flatten().filter(|_| words.len() <= MOST)
}

fn each_between_quotes(formulas: &[String]) -> String {
    match formulas {
        [only] => between_quotes(only),
        _ => format!("each formula needs quotes of its own: '{}'", formulas.join("' '")),
    }
}

pub fn between_quotes(formula: &str) -> String {
    format!("put the formula between quotes: '{formula}'")
}

/// One rule of those that these words say.
fn joined(words: &[&str], mut rules: Vec<Vec<u8>>) -> Result<Vec<u8>, Failure> {
    if rules.len() == 1 {
        return Ok(rules.remove(0));
    }
    for (word, rule) in words.iter().zip(&rules) {
        measured(word, rule)?;
        if rule.len() == 8 {
            return Err(Failure::fault(word, "a rule without entries cannot stand beside others"));
        }
    }
    let slices: Vec<&[u8]> = rules.iter().map(Vec::as_slice).collect();
    text::joined(&slices).map_err(|refusal| Failure::fault("all together", too_much(refusal, &slices)))
}

/// What is too much of rules that are right alone.
fn too_much(refusal: Refusal, rules: &[&[u8]]) -> String {
    let sum = |number: fn(&[u8]) -> usize| rules.iter().map(|rule| number(rule)).sum::<usize>();
    let says = match refusal {
        Refusal::RuleLength => {
            let entries = sum(|rule| (rule.len() - 8) / 10);
            format!("these are {entries} letters and operators, and 128 are the most")
        }
        Refusal::Shape => {
            let number = sum(|rule| formulas(rule).unwrap_or(0));
            format!("these are {number} formulas, and {MOST_FORMULAS} are the most")
        }
        Refusal::TooManyWords => format!("their checkpoint needs more than {MOST_WORDS} words"),
        _ => return refusal.to_string(),
    };
    numbered(&says, refusal)
}

/// What a rule needs, or what is wrong with its bytes.
fn measured(name: &str, rule: &[u8]) -> Result<Needs, Failure> {
    measure(rule).map_err(|refusal| Failure::fault(name, wrong::named(refusal, wrong::rule(rule))))
}

/// The bytes of the rule that a formula says. What else a word may name is said where it is none.
fn parsed(formula: &str, taken_for: fn(&str) -> Option<String>) -> Result<Vec<u8>, Failure> {
    let mut bytes = vec![0; MOST_RULE];
    let size = parse(formula.as_bytes(), &mut bytes).map_err(|refusal| {
        Failure::Fault(match taken_for(formula) {
            Some(says) => numbered(&says, refusal),
            None => wrong::named(refusal, wrong::formula(formula)),
        })
    })?;
    bytes.truncate(size);
    Ok(bytes)
}

/// What a word names where a formula alone is wanted: a rule file would not be taken, and so none is proposed.
fn no_formula(word: &str) -> Option<String> {
    let path = Path::new(word);
    let is = match path.is_file() {
        _ if beside::is_card(word) => "a card",
        true if word.ends_with(".krl") => "a rule file",
        true => "a file",
        false if path.is_dir() => "a folder",
        false => return None,
    };
    Some(format!("`{word}` is {is}, and a formula is wanted here"))
}

/// What a word that is no formula names instead.
fn taken_for(word: &str) -> Option<String> {
    if beside::is_card(word) {
        let rule = format!("{}/{}", word.trim_end_matches('/'), card::RULE);
        return Some(format!("`{word}` is a card; its rule is {rule}"));
    }
    if Path::new(word).is_dir() {
        let holds = beside::first_card(word).map_or(String::new(), |card| format!("; it holds cards, as {card}"));
        return Some(format!("`{word}` is a folder, and no card{holds}"));
    }
    match Path::new(word).is_file() {
        true => Some(format!("`{word}` is a file, but no rule file: the name of one ends in .krl")),
        false => {
            let meant = beside::or_rule_file(word);
            (is_name(word) && !meant.is_empty()).then(|| format!("`{word}` is no formula{meant}"))
        }
    }
}

/// A rule's formulas, and a line with its words and its reach.
pub fn described(name: &str, rule: &[u8]) -> Result<(Vec<String>, String), Failure> {
    let needs = measured(name, rule)?;
    let formulas = text::formula(rule).map_err(|refusal| Failure::fault(name, refusal))?;
    let reach = needs.reach.map_or("none".to_string(), |seconds| format!("{seconds} seconds"));
    Ok((formulas.lines().map(str::to_string).collect(), format!("words {}, reach {reach}\n", needs.words)))
}

pub fn to_log(path: &str, log: &str, force: bool) -> Answer {
    let into = file::named_other(log, path)?;
    let bytes = read_all(path).map_err(|fault| unread(path, fault))?;
    let typed = text_of(path, bytes)?;
    let bytes = text::log_from_text(&typed).map_err(|fault| Failure::in_line(path, fault))?;
    let made = opened(path, &bytes)?;
    file::write_at(log, into, &bytes, force)?;
    let services = match made.services(0) {
        0 => String::new(),
        number => format!(", {number} of them service"),
    };
    let dropped = match made.dropped() {
        0 => String::new(),
        number => format!(", behind {number} dropped"),
    };
    Ok(format!("{log}: {}{services}{dropped}\n", many(made.records().count() as u64)))
}

pub fn to_text(path: &str) -> Answer {
    let bytes = log(path).map_err(|fault| unread(path, fault))?;
    opened(path, &bytes)?;
    text::log_to_text(&bytes).map_err(|refusal| Failure::fault(path, refusal))
}

pub fn rule(formulas: &[&str], path: &str, force: bool) -> Answer {
    if !path.ends_with(".krl") {
        // It may be a formula, with the file's name forgotten.
        return Err(Failure::Use(format!("`{path}` is no name of a rule file: that ends in .krl")));
    }
    let rules: Result<Vec<Vec<u8>>, Failure> = formulas.iter().map(|formula| parsed(formula, no_formula)).collect();
    let bytes = joined(formulas, rules.map_err(|fault| unquoted(formulas).unwrap_or(fault))?)?;
    file::write(path, &bytes, force)?;
    let number = if formulas.len() == 1 { String::new() } else { format!("{} formulas, ", formulas.len()) };
    Ok(format!("{path}: {number}{}\n", counted((bytes.len() - 8) / 10, "entry", "entries")))
}

pub fn formula(path: &str) -> Answer {
    let bytes = read_file(path, MOST_RULE).map_err(|fault| unread(path, fault))?;
    let (formulas, needs) = described(path, &bytes)?;
    Ok(format!("{}\n{needs}", formulas.join("\n")))
}

/// A number in digits alone: `+5` could be meant as five more.
pub fn digits<T: FromStr>(word: &str) -> Option<T> {
    word.parse().ok().filter(|_| word.bytes().all(|byte| byte.is_ascii_digit()))
}

/// A number of the command line.
pub fn number<T: FromStr>(word: &str) -> Result<T, Failure> {
    digits(word).ok_or_else(|| Failure::Use(no_number(word)))
}

pub fn no_number(word: &str) -> String {
    format!("`{word}` is no number, or too large a one")
}

pub fn worst(low: &str, high: &str, records: &str, log: &str, force: bool) -> Answer {
    let (low, high, records): (u32, u32, u64) = (number(low)?, number(high)?, number(records)?);
    // With more records than a log may have the call is refused, whatever the room.
    let mut bytes = vec![0; 8 + 8 * records.min(MOST_RECORDS as u64) as usize];
    let length = worst_log(low, high, records, &mut bytes).map_err(|refusal| {
        let many =
            || Wrong { number: 19, says: format!("N is {records}, and a log has at most {MOST_RECORDS} records") };
        let found = wrong::ends(low, high).or_else(|| (records > MOST_RECORDS as u64).then(many));
        Failure::Fault(wrong::named(refusal, found))
    })?;
    file::write(log, &bytes[..length], force)?;
    let waiting = counted(records.min(u64::from(high) + 1) as usize, "second", "seconds");
    Ok(format!("{log}: {}, {waiting} waiting\n", many(records)))
}

/// The numbers that `simulate` takes, and their least and most.
pub const SETTINGS: [(&str, u32, u32); 6] = [
    ("--seconds", 0, 3_600),
    ("--warm-up", 1, 600),
    ("--print-time", 1, 600),
    ("--switch-off", 1, 3_600),
    ("--mean-gap", 1, 3_600),
    ("--seed", 1, u32::MAX),
];

/// The words of `simulate`.
pub fn simulated(given: &Given) -> Answer {
    let log = given.only();
    let mut numbers = [0; 6];
    for (number, (option, ..)) in numbers.iter_mut().zip(SETTINGS) {
        *number = given.number(option)?.expect("the table wants it");
    }
    let [seconds, warm_up, print_time, switch_off, mean_gap, seed] = numbers;
    let settings = Settings { warm_up, print_time, switch_off, mean_gap };
    let mut bytes = vec![0; 8 + 8 * seconds.min(3600) as usize];
    let refused = |refusal| Failure::Fault(wrong::named(refusal, out_of_range(numbers)));
    let simulated = simulate(&settings, seconds, seed, &mut bytes).map_err(refused)?;
    file::write(log, &bytes[..simulated.written], given.has("--force"))?;
    let numbers = [("finished", simulated.finished), ("printing", simulated.printing), ("waiting", simulated.waiting)];
    let numbers = numbers.map(|(name, number)| format!("{name} {number}")).join(", ");
    Ok(format!("{log}: {}, {numbers}\n", many(u64::from(seconds))))
}

/// The first setting that is outside of its range.
fn out_of_range(numbers: [u32; 6]) -> Option<Wrong> {
    let mut settings = SETTINGS.into_iter().zip(numbers);
    let ((option, least, most), number) =
        settings.find(|((_, least, most), number)| number < least || number > most)?;
    Some(Wrong { number: 26, says: format!("{option} is {number}, and may be {least} to {most}") })
}
