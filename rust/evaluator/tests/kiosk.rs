//! The built program `kiosk` against document 01's "A full run".
//!
//! Each case is a folder with a rule and a log in which the program is run. All that it prints is compared with what
//! the evaluator makes of the same bytes, and the first line with the one that the case names.

use evaluator::log::{self, Log, Record};
use evaluator::random::{self, Random};
use evaluator::rule::{self, Entry, NEXT, NO_END, UNTIL};
use evaluator::{cases, model};
use std::collections::BTreeMap;
use std::io::Write;
use std::path::{Path, PathBuf};
use std::process::Command;
use std::{env, fs, process};

/// "A file above 65,536 bytes prints `too long` before all else."
const MOST_BYTES: usize = 65_536;
/// The most records of such a log, and the length of the program's sheet.
const MOST_RECORDS: usize = 8_191;
/// The words of the program's point: no need is above it.
const POINT_WORDS: usize = 8_192;

/// The files of a folder; None: absent.
struct Files {
    rule: Option<Vec<u8>>,
    log: Option<Vec<u8>>,
}

fn files(rule: &[u8], log: &[u8]) -> Files {
    Files { rule: Some(rule.to_vec()), log: Some(log.to_vec()) }
}

fn p1_rule() -> Vec<u8> {
    rule::encode(&cases::p1_entries())
}

fn p1_log() -> Vec<u8> {
    log::encode(&cases::p1_records())
}

/// The program that `rt run` builds in crates/kiosk, and `rt ci` too, or the one that KIOSK_PROGRAM names.
fn program() -> PathBuf {
    let built = concat!(env!("CARGO_MANIFEST_DIR"), "/../../crates/kiosk/out/kiosk");
    let named = env::var_os("KIOSK_PROGRAM").map_or(PathBuf::from(built), PathBuf::from);
    named.canonicalize().unwrap_or_else(|e| {
        panic!("no program {}: {e}; `rt run` in crates/kiosk builds it, or set KIOSK_PROGRAM", named.display())
    })
}

/// What the program prints in a folder. It prints nothing else, and ends well.
fn run_in(folder: &Path) -> String {
    let ran = Command::new(program()).current_dir(folder).output().expect("the program runs");
    assert!(ran.status.success(), "{}: {}", folder.display(), ran.status);
    assert!(ran.stderr.is_empty(), "{}: {:?}", folder.display(), ran.stderr);
    String::from_utf8(ran.stdout).expect("the program prints text")
}

/// Runs the program on these files in a folder of their own, which is kept if the case fails. What it prints is what is
/// expected, and the folder is afterwards as it was made.
fn run(name: &str, files: &Files) -> String {
    let folder = env::temp_dir().join(format!("havdrims-kiosk-{}-{name}", process::id()));
    let both = [("rule.krl", &files.rule), ("day.klg", &files.log)];
    fs::create_dir(&folder).unwrap();
    for (file, bytes) in both {
        if let Some(bytes) = bytes {
            fs::write(folder.join(file), bytes).unwrap();
        }
    }
    let printed = run_in(&folder);
    assert_eq!(printed, expected(files), "run it again in {}", folder.display());
    for (file, bytes) in both {
        assert!(fs::read(folder.join(file)).ok() == *bytes, "{name}: {file} is changed");
    }
    let present = both.iter().filter(|(_, bytes)| bytes.is_some()).count();
    assert_eq!(fs::read_dir(&folder).unwrap().count(), present, "{name}: files afterwards");
    fs::remove_dir_all(&folder).unwrap();
    printed
}

/// The run on the evaluator: open, then carry on with a sheet of 8,191 bytes; verdicts given, the number of formulas, and
/// records: "the printed total" counts every record.
fn full_run(rule: &[u8], log: &[u8]) -> Result<(Vec<u8>, usize, usize), u32> {
    let mut point = model::open(rule, POINT_WORDS)?;
    // The point is fresh: a log that passes 24 has dropped no record.
    let (decoded, Log { records, .. }) = point.check(false, rule, log, POINT_WORDS)?;
    let resumed = point.carry_on(false, rule, log, POINT_WORDS, MOST_RECORDS, &records)?;
    Ok((resumed.verdicts, decoded.formulas(), records.len()))
}

/// What document 01 has the program print, with one word per formula on a line.
fn expected(files: &Files) -> String {
    let rule = files.rule.as_deref().unwrap_or(b"");
    let log = files.log.as_deref().unwrap_or(b"");
    if rule.len() > MOST_BYTES || log.len() > MOST_BYTES {
        return "too long\n".to_string();
    }
    match full_run(rule, log) {
        Err(number) => format!("refused {number}\n"),
        Ok((verdicts, formulas, records)) => {
            let mut text = format!("verdicts {} of {records}\n", verdicts.len());
            for (position, &verdict) in verdicts.iter().enumerate() {
                let word = |k: usize| if verdict >> k & 1 == 1 { "yes" } else { "no" };
                text += &format!("{position} {}\n", (0..formulas).map(word).collect::<Vec<_>>().join(" "));
            }
            text
        }
    }
}

/// Runs counted by their outcome.
#[derive(Default)]
struct Outcomes {
    runs: BTreeMap<String, usize>,
    verdicts: usize,
    /// The lines with a word for each of several formulas.
    of_several: usize,
}

impl Outcomes {
    /// Runs the program on these files, and gives the first line that it prints.
    fn run(&mut self, name: &str, files: &Files) -> String {
        let printed = run(name, files);
        let (first, lines) = printed.split_once('\n').expect("a line");
        let outcome = if first.starts_with("verdicts") { "accepted" } else { first };
        *self.runs.entry(outcome.to_string()).or_default() += 1;
        self.verdicts += lines.lines().count();
        self.of_several += lines.lines().filter(|line| line.split(' ').count() > 2).count();
        first.to_string()
    }

    /// The same for files of which document 01 gives the first line.
    fn says(&mut self, name: &str, files: &Files, first: &str) {
        assert_eq!(self.run(name, files), first, "{name}");
    }

    fn refusals(&self) -> Vec<u32> {
        let mut met: Vec<u32> =
            self.runs.keys().filter_map(|k| k.strip_prefix("refused ")).map(|n| n.parse().unwrap()).collect();
        met.sort();
        met
    }

    /// Writes the counts past the test harness, which would hold back what a passing test prints.
    fn print(&self, test: &str) {
        let list: Vec<String> = self.runs.iter().map(|(outcome, runs)| format!("{outcome}: {runs}")).collect();
        let (list, verdicts, several) = (list.join(", "), self.verdicts, self.of_several);
        let _ = writeln!(std::io::stderr(), "{test}: {list}; {verdicts} verdicts, {several} of several formulas");
    }
}

#[test]
fn worked_cases() {
    let mut outcomes = Outcomes::default();
    for (i, case) in cases::all().iter().enumerate() {
        let first = format!("verdicts {} of {}", case.verdicts.len(), case.records.len());
        let files = files(&case.rule, &case.log());
        outcomes.says(&format!("worked-{i}"), &files, &first);
    }
    // letter 2 is nowhere, so the inner until is no at all six; letter 0 fails at 2 and at 4, and position 5 is open
    let most_words = rule::encode(&cases::p10_entries(3600, 446));
    outcomes.says("most-words", &files(&most_words, &p1_log()), "verdicts 5 of 6");
    outcomes.says("empty-rule-p1", &files(&rule::encode(&[]), &p1_log()), "verdicts 6 of 6");
    let p1 = "verdicts 5 of 6\n0 no\n1 no\n2 no\n3 yes\n4 yes\n";
    assert_eq!(expected(&files(&p1_rule(), &p1_log())), p1);
    let p1_and_its_not = [cases::p1_entries(), [cases::p1_entries(), vec![Entry::not()]].concat()];
    let two = files(&rule::encode_several(&p1_and_its_not), &p1_log());
    assert_eq!(expected(&two), "verdicts 5 of 6\n0 no yes\n1 no yes\n2 no yes\n3 yes no\n4 yes no\n");
    outcomes.says("most-words-several", &files(&cases::several_words(869), &p1_log()), "verdicts 5 of 6");
    outcomes.print("kiosk: worked cases");
}

/// P1's rule with one byte changed.
fn rule_with(at: usize, byte: u8) -> Vec<u8> {
    let mut bytes = p1_rule();
    bytes[at] = byte;
    bytes
}

/// P1's rule with another last entry.
fn rule_ending(last: Entry) -> Vec<u8> {
    let mut entries = cases::p1_entries();
    entries[2] = last;
    rule::encode(&entries)
}

/// Rules that meet a refusal, with its number.
fn refused_rules() -> Vec<(Vec<u8>, u32)> {
    let p1 = p1_rule();
    let letters = |count| rule::encode(&vec![Entry::letter(0); count]);
    let mut version_and_length = rule_with(4, 3);
    version_and_length.pop();
    vec![
        (vec![], 1),
        (p1[..7].to_vec(), 1),
        (rule_with(2, b'l'), 1),
        (rule_with(3, 1), 2),
        (rule_with(4, 0), 2),
        (rule_with(4, 3), 2),
        (version_and_length, 2),
        (rule_with(5, 0), 4),
        (rule_with(5, 0)[..18].to_vec(), 4),
        (letters(129), 4),
        (rule_with(6, 1), 4),
        (rule_with(7, 1), 4),
        (p1[..37].to_vec(), 4),
        ([p1.as_slice(), &[0]].concat(), 4),
        (rule_with(28, 7), 5),
        (rule_with(9, 32), 5),
        (rule_with(29, 1), 5),
        (rule_with(13, 1), 5),
        (rule_ending(Entry::timed(UNTIL, 0, 3601)), 6),
        (rule_ending(Entry::timed(UNTIL, 3, 2)), 6),
        (rule_ending(Entry::timed(UNTIL, 0, NO_END)), 6),
        (rule_ending(Entry::timed(NEXT, 0, NO_END)), 7),
        (rule_ending(Entry::not()), 7),
        (rule::encode(&[Entry::not()]), 7),
        (letters(128), 7),
        (letters(2), 7),
        (rule::encode_several(&cases::letters(9)), 7),
        (rule::encode_as(2, &[]), 7),
        (rule::encode_as(2, &[Entry::letter(0), Entry::or()]), 7),
        (rule::encode(&cases::p10_entries(3600, 447)), 8),
        (cases::several_words(870), 8),
    ]
}

/// Logs that meet a refusal, with its number.
fn refused_logs() -> Vec<(Vec<u8>, u32)> {
    let p1 = p1_log();
    let with = |at: usize, byte: u8| {
        let mut bytes = p1.clone();
        bytes[at] = byte;
        bytes
    };
    let falls = |times: &[u32]| log::encode(&times.iter().map(|&time| Record { time, letters: 0 }).collect::<Vec<_>>());
    let mut logs = vec![
        (vec![], 12),
        (p1[..7].to_vec(), 12),
        (with(0, b'k'), 12),
        (with(3, 1), 12),
        (with(3, 2), 12),
        (with(4, 0), 12),
        (with(4, 3), 12),
        (with(4, 4), 12),
        (with(5, 1), 12),
        (with(6, 1), 12),
        (with(7, 1), 12),
        (falls(&[1, 0]), 14),
        (falls(&[5, 6, 7, 6]), 14),
        (falls(&[u32::MAX, 0]), 14),
        // by the time of a service record
        (log::encode_as(2, &[(5, 0), (4, log::SERVICE), (5, 0)].map(|(time, letters)| Record { time, letters })), 14),
        // trimmed: the program's point wants every record, 24 comes before 14, and dropped records are counted
        (log::encode_trimmed(1, &cases::p1_records()[1..]), 24),
        (log::encode_trimmed(1_000_000, &[]), 24),
        (log::encode_trimmed(1, &[5, 4].map(|time| Record { time, letters: 0 })), 24),
        (log::encode_trimmed(0, &[5, 4].map(|time| Record { time, letters: 0 })), 14),
        (log::encode_trimmed(1_000_000, &cases::p1_records()), 12),
        (log::encode_trimmed(u64::MAX, &cases::p1_records()), 12),
    ];
    logs.extend((9..16).map(|length| (p1[..length].to_vec(), 12)));
    logs.extend((8..16).map(|length| (log::encode_as(3, &[])[..length].to_vec(), 12)));
    logs
}

/// 1 to 8, but for 3, which no longer occurs; 12, 14 and 24. The program cannot meet the others of carry on: no need is
/// above its 8,192 words (9), it carries on once, from the point that open left for the rule (10, 11) with no record
/// seen (13).
#[test]
fn refusals() {
    let mut outcomes = Outcomes::default();
    for (i, (rule, number)) in refused_rules().iter().enumerate() {
        let first = format!("refused {number}");
        outcomes.says(&format!("rule-{i}"), &files(rule, &p1_log()), &first);
        outcomes.says(&format!("rule-{i}-before-log"), &files(rule, b"KLG"), &first);
    }
    for (i, (log, number)) in refused_logs().iter().enumerate() {
        outcomes.says(&format!("log-{i}"), &files(&p1_rule(), log), &format!("refused {number}"));
    }
    assert_eq!(outcomes.refusals(), [1, 2, 4, 5, 6, 7, 8, 12, 14, 24]);
    outcomes.print("kiosk: refusals");
}

#[test]
fn absent_and_empty_files() {
    let mut outcomes = Outcomes::default();
    let (rule, log) = (Some(p1_rule()), Some(p1_log()));
    outcomes.says("no-rule", &Files { rule: None, log: log.clone() }, "refused 1");
    outcomes.says("no-log", &Files { rule: rule.clone(), log: None }, "refused 12");
    outcomes.says("no-file", &Files { rule: None, log: None }, "refused 1");
    outcomes.says("empty-rule", &Files { rule: Some(vec![]), log }, "refused 1");
    outcomes.says("empty-log", &Files { rule, log: Some(vec![]) }, "refused 12");
    outcomes.says("no-record", &files(&p1_rule(), &log::HEADER), "verdicts 0 of 0");
    outcomes.says("no-record-version-2", &files(&p1_rule(), &log::header(2)), "verdicts 0 of 0");
    outcomes.says("no-record-version-3", &files(&p1_rule(), &log::encode_as(3, &[])), "verdicts 0 of 0");
    outcomes.print("kiosk: absent and empty files");
}

/// The bytes cut or filled up with zeros to a length.
fn to_length(mut bytes: Vec<u8>, length: usize) -> Vec<u8> {
    bytes.resize(length, 0);
    bytes
}

/// "The printed total" counts every record: P1's with service records between, and service records alone.
#[test]
fn service_records() {
    let mut outcomes = Outcomes::default();
    let all = cases::all();
    let named = |name: &str| all.iter().find(|case| case.name == name).expect(name);
    let visited = named("P1 with all four");
    outcomes.says("visited", &files(&visited.rule, &visited.log()), "verdicts 5 of 10");
    outcomes.says("undropped", &files(&visited.rule, &log::encode_as(3, &visited.records)), "verdicts 5 of 10");
    let p1 = "verdicts 5 of 10\n0 no\n1 no\n2 no\n3 yes\n4 yes\n";
    assert_eq!(expected(&files(&visited.rule, &visited.log())), p1);
    let as_version_1 = files(&visited.rule, &log::encode(&visited.records));
    outcomes.says("visited-as-version-1", &as_version_1, "verdicts 10 of 10");
    let alone = named("service records alone");
    outcomes.says("service-alone", &files(&alone.rule, &alone.log()), "verdicts 0 of 2");
    // as many records as the program takes, every second one of them a service record
    let mut most = log::parse(&steady(MOST_RECORDS as u32)).unwrap().records;
    most.iter_mut().skip(1).step_by(2).for_each(|record| *record = record.as_service());
    let letter = rule::encode(&[Entry::letter(1)]);
    outcomes.says("most-visited", &files(&letter, &log::encode_as(2, &most)), "verdicts 4096 of 8191");
    outcomes.print("kiosk: service records");
}

/// A log of so many records, one a second, with letter 0 in all and letter 1 in every third.
fn steady(records: u32) -> Vec<u8> {
    let record = |time: u32| Record { time, letters: if time.is_multiple_of(3) { 3 } else { 1 } };
    log::encode(&(0..records).map(record).collect::<Vec<_>>())
}

#[test]
fn lengths_at_the_limit() {
    let mut outcomes = Outcomes::default();
    let letter = rule::encode(&[Entry::letter(1)]);
    let most = steady(MOST_RECORDS as u32);
    assert_eq!(most.len(), MOST_BYTES);
    outcomes.says("most-records", &files(&letter, &most), "verdicts 8191 of 8191");
    outcomes.says("most-records-until", &files(&p1_rule(), &most), "verdicts 8191 of 8191");
    // the longest text: eight times yes at every record
    let eight = rule::encode_several(&vec![vec![Entry::letter(0)]; 8]);
    outcomes.says("most-records-eight", &files(&eight, &most), "verdicts 8191 of 8191");
    assert_eq!(outcomes.of_several, MOST_RECORDS);
    outcomes.says("one-record-fewer", &files(&p1_rule(), &steady(8190)), "verdicts 8188 of 8190");
    outcomes.says("one-record-more", &files(&p1_rule(), &steady(8192)), "too long");
    outcomes.says("log-one-byte-fewer", &files(&p1_rule(), &to_length(most.clone(), MOST_BYTES - 1)), "refused 12");
    let long_log = to_length(most, MOST_BYTES + 1);
    let long_rule = to_length(p1_rule(), MOST_BYTES + 1);
    outcomes.says("long-log", &files(&p1_rule(), &long_log), "too long");
    outcomes.says("longest-rule", &files(&to_length(p1_rule(), MOST_BYTES), &p1_log()), "refused 4");
    outcomes.says("longest-zeros", &files(&[0; MOST_BYTES], &[0; MOST_BYTES]), "refused 1");
    outcomes.says("long-rule", &files(&long_rule, &p1_log()), "too long");
    outcomes.says("long-both", &files(&long_rule, &long_log), "too long");
    outcomes.says("longer-log", &files(&p1_rule(), &[0; 1_000_000]), "too long");
    outcomes.says("long-log-bad-rule", &files(b"", &long_log), "too long");
    outcomes.says("long-log-no-rule", &Files { rule: None, log: Some(long_log) }, "too long");
    outcomes.says("long-rule-bad-log", &files(&long_rule, b""), "too long");
    outcomes.says("long-rule-no-log", &Files { rule: Some(long_rule), log: None }, "too long");
    outcomes.print("kiosk: lengths at the limit");
}

/// Random rules and logs, half of them damaged.
#[test]
fn random_days() {
    let mut outcomes = Outcomes::default();
    for seed in 0..400 {
        let mut r = Random::new(seed);
        let (rule_shape, log_shape) = random::shapes(&mut r, 20, 200);
        let mut rule = random::rule(&mut r, rule_shape);
        let (version, records) = random::any_log(&mut r, log_shape);
        let mut log = log::encode_as(if version == 2 && r.one_in(3) { 3 } else { version }, &records);
        match r.below(4) {
            0 => random::damage(&mut r, &mut rule),
            1 => random::damage(&mut r, &mut log),
            _ => {}
        }
        outcomes.run(&format!("seed-{seed}"), &files(&rule, &log));
    }
    assert!(outcomes.verdicts > 5_000 && outcomes.of_several > 1_000, "the cases do not reach what they should");
    outcomes.print("kiosk: random days");
}

/// README's first command, and what README says that it prints.
#[test]
fn sample_day() {
    let top = Path::new(concat!(env!("CARGO_MANIFEST_DIR"), "/../.."));
    let folder = top.join("examples/day");
    let bytes = |file| fs::read(folder.join(file)).unwrap();
    let printed = run_in(&folder);
    assert_eq!(printed, expected(&files(&bytes("rule.krl"), &bytes("day.klg"))));
    let shown: String = printed.lines().map(|line| format!("    {line}\n")).collect();
    let readme = fs::read_to_string(top.join("README.md")).unwrap();
    assert!(readme.contains(&format!("\n\n{shown}\n")), "README does not show:\n{shown}");
    let _ = writeln!(std::io::stderr(), "kiosk: sample day: {} lines", printed.lines().count());
}
