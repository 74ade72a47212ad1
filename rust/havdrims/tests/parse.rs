//! Rules typed as text: the archive against the reader that is written from the paper alone.

use evaluator::random::{self, Random, RuleShape};
use evaluator::rule::{self, Entry};
use evaluator::typed::{self, Token};
use havdrims::text::formula;
use havdrims::{ffi, parse, Refusal, MOST_RULE};
use std::collections::BTreeMap;

const KEPT: u64 = 0x1111_2222_3333_4444;

/// The C function on a buffer of `room` bytes that holds a pattern: the bytes written, or the number. What is behind
/// them, and all of it where the call is refused, has to stay.
fn call(text: &[u8], room: usize) -> Result<Vec<u8>, u32> {
    let before: Vec<u8> = (0..room).map(|i| (i * 37 + 11) as u8).collect();
    let (mut buffer, mut written) = (before.clone(), KEPT);
    // SAFETY: the pointers and lengths are those of two slices and of a number.
    let number =
        unsafe { ffi::havdrims_parse(text.as_ptr(), text.len(), buffer.as_mut_ptr(), buffer.len(), &mut written) };
    if number != 0 {
        assert_eq!((written, &buffer), (KEPT, &before), "refusal {number} wrote something");
        return Err(number);
    }
    let size = written as usize;
    assert_eq!(buffer[size..], before[size..], "the bytes behind the rule");
    buffer.truncate(size);
    Ok(buffer)
}

fn compare(text: &[u8], room: usize) -> Result<Vec<u8>, u32> {
    let expected = typed::parse(text, room);
    assert_eq!(call(text, room), expected, "`{}`, {room} bytes", String::from_utf8_lossy(text));
    expected
}

#[test]
fn worked_by_hand() {
    for (text, expected) in typed::worked() {
        let expected = expected.map(|entries| rule::encode(&entries));
        assert_eq!(call(text.as_bytes(), MOST_RULE), expected, "`{text}`");
    }
    let many = |n: usize| vec!["e0"; n].join(" or ");
    for text in [many(64), many(65), many(65) + " until[9,3] e0", " ".repeat(1024), " ".repeat(1025)] {
        let _ = compare(text.as_bytes(), MOST_RULE);
    }
    let mut rule = [0; 38];
    assert_eq!(parse(b"e0 until[0,2] e1", &mut rule), Ok(38));
    assert_eq!(parse(b"e0 until[0,2] e1", &mut rule[..37]), Err(Refusal::ShortRule));
    assert_eq!(parse(b"e0 or e1 or e2 or e3", &mut rule), Err(Refusal::ShortRule));
    assert_eq!(parse(b"", &mut []), Err(Refusal::NotDerived));
}

/// Random rules as text, as they are, damaged, and with their tokens dropped, doubled and exchanged.
#[test]
fn random_texts() {
    let mut r = Random::new(1);
    let mut counts: BTreeMap<u32, usize> = BTreeMap::new();
    for _ in 0..60_000 {
        let most = r.pick(&[1, 3, 8, 30, 128, 180]);
        let high = r.pick(&[2, 90, 700, 3600, 3605]);
        let size = r.from_to(1, most);
        let mut entries = random::entries(&mut r, RuleShape { entries: most, letters: 32, high }, size);
        if size > 100 || r.one_in(20) {
            // without intervals, so that a long one still fits into a text
            entries = entries.iter().map(|e| [*e, Entry::not(), Entry::or()][e.operands()]).collect();
        }
        let mut text = random::text(&mut r, &entries).into_bytes();
        match r.below(4) {
            0 => random::damage(&mut r, &mut text),
            1 => {
                let at = r.below(text.len());
                text[at] = r.pick(b" ()[],efinoprstuvx0123456789");
            }
            2 => {
                let mut words: Vec<&[u8]> = text.split_inclusive(|b| b" ()[],".contains(b)).collect();
                let [from, to] = [r.below(words.len()), r.below(words.len())];
                match r.below(3) {
                    0 => drop(words.remove(from)),
                    1 => words.insert(to, words[from]),
                    _ => words.swap(from, to),
                }
                text = words.concat();
            }
            _ => {}
        }
        let room = if r.one_in(8) { r.below(MOST_RULE) } else { MOST_RULE };
        let answer = compare(&text, room);
        if let Ok(bytes) = &answer {
            assert!(rule::parse(bytes).is_ok());
        }
        *counts.entry(answer.err().unwrap_or(0)).or_default() += 1;
    }
    eprintln!("random texts by refusal: {counts:?}");
    for number in [0, 4, 6, 8, 16, 17, 18] {
        assert!(counts.get(&number).copied().unwrap_or(0) > 100, "too few texts with {number}: {counts:?}");
    }
}

/// Every string of up to five tokens of a small alphabet, an interval being one of them: the grammar derives it in one
/// way at most, and the archive agrees.
#[test]
fn every_short_string() {
    let alphabet = ["e0", "e1", "not ", " or ", "prev", " since", " until", "[0,1]", "(", ")"];
    let (mut derived, mut all) = (0, 0);
    for length in 0..=5u32 {
        for number in 0..alphabet.len().pow(length) {
            let mut rest = number;
            let mut text = String::new();
            for _ in 0..length {
                text.push_str(alphabet[rest % alphabet.len()]);
                text.push(' ');
                rest /= alphabet.len();
            }
            let tokens: Vec<Token> = typed::tokens(text.as_bytes()).expect("the alphabet is known");
            let ways = typed::derivations(&tokens);
            assert!(ways.len() <= 1, "`{text}` has {} derivations", ways.len());
            let expected = ways.first().map(|entries| rule::encode(entries)).ok_or(17);
            assert_eq!(call(text.as_bytes(), MOST_RULE), expected, "`{text}`");
            derived += ways.len();
            all += 1;
        }
    }
    eprintln!("{derived} of {all} strings are derived");
    assert!(derived > 100);
}

/// A rule shown as a formula, and the formula read back.
#[test]
fn there_and_back() {
    let mut r = Random::new(2);
    let mut read = 0;
    for _ in 0..20_000 {
        let shape = RuleShape { entries: r.pick(&[5, 20, 128]), letters: 32, high: r.pick(&[3, 60, 700]) };
        let entries = random::valid_entries(&mut r, shape);
        let bytes = rule::encode(&entries);
        let shown = formula(&bytes).unwrap();
        // a rule without entries has no text
        if !entries.is_empty() && shown.len() <= typed::MOST_BYTES {
            assert_eq!(call(shown.as_bytes(), MOST_RULE), Ok(bytes), "{shown}");
            assert!(fewest_brackets(&shown), "{shown}");
            read += 1;
        }
    }
    assert!(read > 10_000);
}

/// Without any one pair of its brackets the text says something else, or nothing.
fn fewest_brackets(shown: &str) -> bool {
    let said = call(shown.as_bytes(), MOST_RULE);
    let mut open = Vec::new();
    for (at, byte) in shown.bytes().enumerate() {
        match byte {
            b'(' => open.push(at),
            b')' => {
                let from = open.pop().expect("the brackets match");
                let mut without = shown.as_bytes().to_vec();
                without[from] = b' ';
                without[at] = b' ';
                if call(&without, MOST_RULE) == said {
                    return false;
                }
            }
            _ => {}
        }
    }
    true
}
