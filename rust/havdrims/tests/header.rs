//! The C header says what this crate says: its version, its limits, its refusals, and the bytes that it shows.

use havdrims::{explain, parse, text, Refusal, EXPLAIN_STACK, MOST_FORMULAS, MOST_REASON, MOST_RECORDS, MOST_RULE};
use havdrims::{MOST_STACK, MOST_WORDS, PARSE_STACK};

const HEADER: &str = include_str!("../../../include/havdrims.h");

/// The number of a `#define`.
fn defined(name: &str) -> usize {
    let start = format!("#define HAVDRIMS_{name} ");
    let value = HEADER.lines().find_map(|line| line.strip_prefix(&start)).expect(name);
    value.parse().expect(name)
}

#[test]
fn version_and_limits() {
    let parts = ["MAJOR", "MINOR", "PATCH"].map(|part| defined(&format!("VERSION_{part}")).to_string());
    assert_eq!(parts.join("."), env!("CARGO_PKG_VERSION"));
    assert_eq!(defined("MOST_FORMULAS"), MOST_FORMULAS);
    assert_eq!(defined("MOST_RULE"), MOST_RULE);
    assert_eq!(defined("MOST_STACK"), MOST_STACK);
    assert_eq!(defined("PARSE_STACK"), PARSE_STACK);
    assert_eq!(defined("EXPLAIN_STACK"), EXPLAIN_STACK);
    assert_eq!(defined("MOST_REASON"), MOST_REASON);
    assert_eq!(defined("MOST_RECORDS"), MOST_RECORDS);
    assert_eq!(defined("MOST_WORDS"), MOST_WORDS);
}

/// The refusals of the enum, by number and name.
fn listed() -> Vec<(u32, &'static str)> {
    let (_, behind) = HEADER.split_once("enum havdrims_refusal {").expect("the enum");
    let (body, _) = behind.split_once("};").expect("its end");
    let entries = body.lines().filter_map(|line| line.trim().trim_end_matches(',').split_once(" = "));
    entries.map(|(name, number)| (number.parse().expect(name), name)).collect()
}

/// The text that `havdrims_refusal_text` gives for a name: the strings behind its case.
fn told(name: &str) -> String {
    let (_, behind) = HEADER.split_once(&format!("    case {name}:\n")).expect(name);
    let (statement, _) = behind.split_once(";\n").expect(name);
    let (first, strings) = statement.trim_start().split_at("return ".len());
    assert_eq!(first, "return ", "{name}");
    strings.split('"').skip(1).step_by(2).collect()
}

#[test]
fn every_refusal_has_its_own_text() {
    let numbers: Vec<u32> = listed().iter().map(|&(number, _)| number).collect();
    let known: Vec<u32> = (0..=u32::from(u16::MAX)).filter(|&number| Refusal::from_number(number).is_some()).collect();
    assert_eq!(numbers, known);
    let mut texts: Vec<String> = listed().iter().map(|(_, name)| told(name)).collect();
    assert!(texts.iter().all(|text| text.is_ascii() && text.len() > 10), "{texts:?}");
    texts.sort();
    texts.dedup();
    assert_eq!(texts.len(), known.len());
}

/// The bytes that the header shows from this line on: two hexadecimal digits each, until two spaces, down to the comment's end.
fn shown(from: &str) -> Vec<u8> {
    let (_, behind) = HEADER.split_once(from).expect(from);
    let (lines, _) = behind.split_once(" */").expect("the comment's end");
    let lines = lines.lines().filter_map(|line| line.strip_prefix(" *     "));
    let digits = lines.flat_map(|line| line.split("  ").next().unwrap_or("").split(' '));
    digits.map(|byte| u8::from_str_radix(byte, 16).expect(byte)).collect()
}

#[test]
fn the_bytes_shown_are_those_of_the_formats() {
    let mut rule = [0; MOST_RULE];
    let size = parse(b"e0 until[0,2] e1", &mut rule).unwrap();
    assert_eq!(shown("\"e0 until[0,2] e1\", letter 0 until letter 1, within 0 to 2 seconds:\n"), rule[..size]);
    let log = text::log_from_text("version 2\n10 e0\n11 service\n12 e0 e1\n").unwrap();
    assert_eq!(shown("Three records, the second of them a service record:\n"), log);
    let trimmed = text::log_from_text("version 3\ndropped 2\n12 e0 e1\n").unwrap();
    assert_eq!(shown("The same log trimmed, once records 0 and 1 are no longer wanted:\n"), trimmed);
}

/// The reason that the header shows: its lines, each up to two spaces.
#[test]
fn the_reason_shown_is_the_librarys() {
    let (_, behind) = HEADER.split_once("at position 5 of the log of examples/day:\n *\n").expect("the example");
    let lines = behind.lines().map_while(|line| line.strip_prefix(" *     "));
    let shown: String = lines.map(|line| format!("{}\n", line.split("  ").next().unwrap_or(""))).collect();
    let mut rule = [0; MOST_RULE];
    let size = parse(b"not e2 or e0 until[0,90] e1", &mut rule).unwrap();
    let log = include_bytes!("../../../examples/day/day.klg");
    let mut reason = [0; MOST_REASON];
    let length = explain(&rule[..size], log, 0, 5, &mut reason).unwrap();
    assert_eq!(shown.as_bytes(), &reason[..length]);
}
