//! The stack of a call: every call on the deepest and the largest rules and texts, in a thread that has no more than
//! `MOST_STACK` bytes, or `PARSE_STACK` or `EXPLAIN_STACK`, its own start included. Below them lies a page that may not be touched.

use evaluator::log::{self, Record};
use evaluator::random::{self, LogShape, Random};
use evaluator::rule::{self, Entry, NEXT, NO_END, PREVIOUS, SINCE, UNTIL};
use evaluator::{cases, model, reading, reason, typed};
use havdrims::{
    close, explain, formulas, measure, open, parse, resume, simulate, status, summary, tally, trim, worst_log,
};
use havdrims::{Refusal, Resumed, Settings, EXPLAIN_STACK, MOST_REASON, MOST_RULE, MOST_STACK, PARSE_STACK};
use std::ffi::{c_int, c_long, c_void};
use std::io::Write;
use std::{ptr, slice};

extern "C" {
    fn mmap(at: *mut c_void, length: usize, protection: c_int, flags: c_int, file: c_int, from: c_long) -> *mut c_void;
    fn mprotect(at: *mut c_void, length: usize, protection: c_int) -> c_int;
    fn munmap(at: *mut c_void, length: usize) -> c_int;
    fn pthread_attr_init(attributes: *mut Attributes) -> c_int;
    fn pthread_attr_setstack(attributes: *mut Attributes, lowest: *mut c_void, size: usize) -> c_int;
    fn pthread_create(
        thread: *mut usize,
        attributes: *const Attributes,
        start: extern "C" fn(*mut c_void) -> *mut c_void,
        job: *mut c_void,
    ) -> c_int;
    fn pthread_join(thread: usize, value: *mut *mut c_void) -> c_int;
}

/// Room for a pthread_attr_t, which is smaller.
type Attributes = [u64; 16];

const PAGE: usize = 4096;
const NONE: c_int = 0;
const READ_WRITE: c_int = 3;
const PRIVATE_ANONYMOUS: c_int = 0x22;
/// What stands in a stack where nobody wrote.
const PAINT: u8 = 0xA5;

struct Job<'a> {
    work: &'a mut dyn FnMut(),
    /// Where the thread's own part of the stack ends and the call's begins.
    begun: usize,
}

extern "C" fn start(job: *mut c_void) -> *mut c_void {
    let here = 0u8;
    // SAFETY: the thread that started this one waits for it and does not touch the job.
    let job = unsafe { &mut *job.cast::<Job>() };
    job.begun = ptr::from_ref(&here) as usize;
    (job.work)();
    ptr::null_mut()
}

/// Runs the work in a thread with a stack of `MOST_STACK` bytes: what it gives, and the bytes of stack that it took.
fn on_small_stack<T>(work: impl FnOnce() -> T) -> (T, usize) {
    on_stack(MOST_STACK, work)
}

fn on_stack<T>(size: usize, work: impl FnOnce() -> T) -> (T, usize) {
    let (mut work, mut given) = (Some(work), None);
    let mut run = || given = work.take().map(|work| work());
    let mut job = Job { work: &mut run, begun: 0 };
    // SAFETY: the mapping is this function's own and outlives the thread, which alone uses it as long as it runs; the
    // lowest page is taken out of use before.
    let lowest = unsafe {
        let map = mmap(ptr::null_mut(), PAGE + size, READ_WRITE, PRIVATE_ANONYMOUS, -1, 0);
        assert!(map as isize != -1, "no memory for a stack");
        assert_eq!(mprotect(map, PAGE, NONE), 0);
        let stack = map.byte_add(PAGE);
        stack.cast::<u8>().write_bytes(PAINT, size);
        let (mut attributes, mut thread): (Attributes, usize) = ([0; 16], 0);
        assert_eq!(pthread_attr_init(&mut attributes), 0);
        assert_eq!(pthread_attr_setstack(&mut attributes, stack, size), 0);
        assert_eq!(pthread_create(&mut thread, &attributes, start, ptr::from_mut(&mut job).cast()), 0);
        assert_eq!(pthread_join(thread, ptr::null_mut()), 0);
        let untouched = slice::from_raw_parts(stack.cast::<u8>(), size).iter().take_while(|&&b| b == PAINT);
        let lowest = stack as usize + untouched.count();
        assert_eq!(munmap(map, PAGE + size), 0);
        lowest
    };
    let used = job.begun - lowest;
    (given.expect("the thread ran the work"), used)
}

/// A letter under 127 words with one operand, these in turn.
fn chain(words: &[Entry]) -> Vec<Entry> {
    [Entry::letter(0)].into_iter().chain(words.iter().copied().cycle().take(127)).collect()
}

/// 64 letters and 63 binary words, these in turn, each the left operand of the next; then a not.
fn to_the_left(words: &[Entry]) -> Vec<Entry> {
    let mut all = vec![Entry::letter(0)];
    for (k, &word) in words.iter().cycle().take(63).enumerate() {
        all.extend([Entry::letter(k as u8 % 4), word]);
    }
    all.push(Entry::not());
    all
}

/// The same, each the right operand of the next.
fn to_the_right(words: &[Entry]) -> Vec<Entry> {
    let mut all: Vec<Entry> = (0..64).map(|k| Entry::letter(k % 4)).collect();
    all.extend(words.iter().cycle().take(63));
    all.push(Entry::not());
    all
}

/// Rules with eight formulas: eight deep ones of 16 entries, eight letters, and a deeper one behind seven letters; and two
/// formulas with the most words.
fn eight_formulas() -> Vec<Vec<u8>> {
    let until = Entry::timed(UNTIL, 0, 40);
    let in_a_chain = chain(&[Entry::not(), Entry::timed(PREVIOUS, 0, NO_END)])[..16].to_vec();
    let left = [&to_the_left(&[until, Entry::or()])[..15], &[Entry::not()]].concat();
    let right = [&[Entry::letter(0); 8][..], &[until; 7], &[Entry::not()]].concat();
    let letters = cases::letters(8);
    let deeper = [&letters[..7], &[chain(&[Entry::not()])[..121].to_vec()]].concat();
    let eight = [vec![in_a_chain; 8], vec![left; 8], vec![right; 8], letters, deeper];
    [eight.map(|formulas| rule::encode_several(&formulas)).to_vec(), vec![cases::several_words(869)]].concat()
}

/// The deepest rules, and those with the most entries and words.
fn rules() -> Vec<Vec<Entry>> {
    let previous = Entry::timed(PREVIOUS, 0, NO_END);
    let next = Entry::timed(NEXT, 0, 3600);
    let [since, endless, until] =
        [(SINCE, 0, 40), (SINCE, 1, NO_END), (UNTIL, 0, 40)].map(|(k, l, h)| Entry::timed(k, l, h));
    let longest_ring = vec![Entry::letter(0), Entry::letter(1), Entry::timed(SINCE, 0, 3600)];
    let mut all = vec![cases::p10_entries(3600, 446), longest_ring];
    for words in [&[Entry::not()][..], &[previous], &[next], &[Entry::not(), previous, next]] {
        all.push(chain(words));
    }
    for words in [&[Entry::or()][..], &[since], &[endless], &[until], &[since, until, Entry::or()]] {
        all.extend([to_the_left(words), to_the_right(words)]);
    }
    all
}

/// A log of each of the first two versions, and their positions.
fn logs() -> [(Vec<u8>, Vec<Record>); 2] {
    let shape = LogShape { records: 400, letters: 4, hold: 3, step: 2, start: 7 };
    let mut records = random::log(&mut Random::new(1), shape);
    records.last_mut().unwrap().time += 9_000;
    let mut visited = records.clone();
    visited.iter_mut().skip(3).step_by(7).for_each(|record| *record = record.as_service());
    [(1, records), (2, visited)]
        .map(|(version, records)| (log::encode_as(version, &records), log::positions(version, &records)))
}

/// The bytes of all of them: of either version, and those with eight formulas.
fn all_rules() -> Vec<Vec<u8>> {
    let version_1: Vec<Vec<u8>> = rules().iter().map(|entries| rule::encode(entries)).collect();
    // The same of version 2, where 8 words more are not too many.
    let version_2 = rules().into_iter().map(|entries| rule::encode_as(2, &entries));
    let version_2 = version_2.filter(|bytes| rule::parse(bytes).is_ok()).collect();
    [version_1, version_2, eight_formulas()].concat()
}

#[test]
fn every_call_on_a_small_stack() {
    let (rules, logs) = (all_rules(), logs());
    let mut most = [0; 9];
    for (bytes, (file, positions)) in rules.iter().flat_map(|bytes| logs.iter().map(move |log| (bytes, log))) {
        let (needs, measuring) = on_small_stack(|| measure(bytes));
        let words = needs.unwrap().words;
        assert_eq!(words as u64, model::measure(bytes).unwrap().0);
        let mut point = vec![0; words];
        let (opened, opening) = on_small_stack(|| open(bytes, &mut point));
        opened.unwrap();
        let rule = rule::parse(bytes).unwrap();
        let settled = reading::verdicts(&rule, positions).len();
        let verdicts = reading::closed_verdicts(&rule, positions);
        let mut sheet = vec![7; positions.len()];
        let (resumed, resuming) = on_small_stack(|| resume(bytes, file, &mut point, &mut sheet));
        assert_eq!(resumed, Ok(Resumed { verdicts: settled, more: false }));
        let mut out = vec![7; file.len() + 8];
        let (trimmed, trimming) = on_small_stack(|| trim(bytes, file, &point, &mut out));
        let first = file.starts_with(&log::HEADER);
        assert_eq!(trimmed.err(), first.then_some(Refusal::TrimVersion));
        let (closed, closing) = on_small_stack(|| close(bytes, file, &mut point, &mut sheet[settled..]));
        assert_eq!(closed, Ok(Resumed { verdicts: verdicts.len() - settled, more: false }));
        assert_eq!(sheet, verdicts);
        let (number, counting) = on_small_stack(|| formulas(bytes));
        assert_eq!(number, Ok(rule.formulas()));
        let (counts, tallying) = on_small_stack(|| tally(&verdicts, rule.formulas()));
        let counts = counts.unwrap();
        let expected = model::tally(&verdicts, rule.formulas() as u64);
        assert_eq!(Ok((counts.no().to_vec(), counts.yes().to_vec())), expected);
        let (summed, summing) = on_small_stack(|| summary(bytes, &point));
        let (summed, expected) = (summed.unwrap(), model::summed(&verdicts, rule.formulas()));
        assert_eq!((summed.no(), summed.latest()), (&expected.no[..], &expected.latest[..]));
        let (state, stating) = on_small_stack(|| status(bytes, &point));
        assert_eq!(state.map(|state| state.given), Ok(verdicts.len() as u64));
        let now = [measuring, counting, opening, resuming, closing, trimming, summing, stating, tallying];
        for (most, now) in most.iter_mut().zip(now) {
            *most = now.max(*most);
        }
    }
    let settings = Settings { warm_up: 20, print_time: 30, switch_off: 60, mean_gap: 50 };
    let mut made = vec![7; 8 + 8 * 3600];
    let (simulated, simulating) = on_small_stack(|| simulate(&settings, 3600, 1, &mut made));
    assert_eq!(simulated.map(|given| given.written), Ok(made.len()));
    let [measuring, counting, opening, resuming, closing, trimming, summing, stating, tallying] = most;
    let mut made = vec![0; 8 + 8 * 5000];
    let (length, making) = on_small_stack(|| worst_log(0, 3600, 5000, &mut made));
    assert_eq!(length, Ok(made.len()));
    // Past the test harness, which would hold back what a passing test prints.
    let _ = writeln!(
        std::io::stderr(),
        "most bytes of stack: measure {measuring}, formulas {counting}, open {opening}, resume {resuming}, close {closing}, \
         trim {trimming}, summary {summing}, status {stating}, tally {tallying}, worst_log {making}, simulate {simulating}"
    );
    assert!(resuming > PAGE, "the stack was not measured");
    let header = include_str!("../../../include/havdrims.h");
    assert!(header.contains(&format!("#define HAVDRIMS_MOST_STACK {MOST_STACK}\n")), "the header says another number");
}

/// The deepest texts: open brackets alone, brackets around a letter, words in front, untils, and ors.
#[test]
fn parse_on_its_stack() {
    let around = |n: usize| "(".repeat(n) + "e0" + &")".repeat(n);
    let mixed = "not (".repeat(170) + "e0" + &")".repeat(170);
    let texts = [
        "(".repeat(1024),
        "(".repeat(1025),
        around(511),
        mixed,
        "not ".repeat(127) + "e0",
        "prev[0,1]".repeat(113) + "e0",
        "e0 until[0,1] ".repeat(60) + "e0",
        "e0 until[0,1](".repeat(60) + "e0" + &")".repeat(60),
        vec!["e0"; 64].join(" or "),
        vec!["e0"; 170].join(" or "),
    ];
    let mut most = 0;
    for text in &texts {
        let mut rule = [7; MOST_RULE];
        let (size, used) = on_stack(PARSE_STACK, || parse(text.as_bytes(), &mut rule));
        let expected = typed::parse(text.as_bytes(), MOST_RULE);
        assert_eq!(size.map_err(Refusal::number), expected.as_ref().map(Vec::len).map_err(|&number| number), "{text}");
        if let Ok(bytes) = expected {
            assert_eq!(rule[..bytes.len()], bytes, "{text}");
        }
        most = most.max(used);
    }
    let _ = writeln!(std::io::stderr(), "most bytes of stack: parse {most}");
    assert!(most > 8 * PAGE, "the stack was not measured");
    let header = include_str!("../../../include/havdrims.h");
    assert!(
        header.contains(&format!("#define HAVDRIMS_PARSE_STACK {PARSE_STACK}\n")),
        "the header says another number"
    );
}

/// The reasons of the deepest and the largest rules, at the first, a middle and the last position.
#[test]
fn explain_on_its_stack() {
    let logs = logs();
    let mut most = 0;
    for (bytes, (file, positions)) in all_rules().iter().flat_map(|bytes| logs.iter().map(move |log| (bytes, log))) {
        let rule = rule::parse(bytes).unwrap();
        for formula in 0..rule.formulas() {
            let all = reason::reasons(&rule, positions, formula);
            for position in [0, all.len() / 2, all.len() - 1] {
                let mut text = [7; MOST_REASON];
                let (length, used) =
                    on_stack(EXPLAIN_STACK, || explain(bytes, file, formula, position as u64, &mut text));
                assert_eq!(&text[..length.unwrap()], all[position].as_bytes());
                most = most.max(used);
            }
        }
    }
    let _ = writeln!(std::io::stderr(), "most bytes of stack: explain {most}");
    assert!(most > 16 * PAGE, "the stack was not measured");
    let header = include_str!("../../../include/havdrims.h");
    assert!(
        header.contains(&format!("#define HAVDRIMS_EXPLAIN_STACK {EXPLAIN_STACK}\n")),
        "the header says another number"
    );
}
