//! Rules typed as text: paper 1 of document 02, by its definitions.
//!
//! The text is cut into tokens, and a phrase is derived by looking for where it can be split: an `or` splits it in
//! two, then a `since` or `until`, then a word in front. [`derivations`] tries every split; [`parse`] only the one
//! that the paper's grouping names.

use crate::rule::{self, Entry, NEXT, NO_END, PREVIOUS, SINCE, UNTIL};

/// "A text of up to 1,024 ASCII bytes"
pub const MOST_BYTES: usize = 1024;

#[derive(Clone, Copy, Debug, PartialEq, Eq)]
pub enum Token {
    Letter(u8),
    Number(u32),
    Word(&'static str),
    Sign(u8),
}

const WORDS: [&str; 7] = ["not", "or", "prev", "next", "since", "until", "inf"];

/// "each end one to four digits without needless leading zeros"
fn number(run: &str) -> Option<u32> {
    let plain = run == "0" || !run.starts_with('0');
    (plain && (1..=4).contains(&run.len()) && run.bytes().all(|b| b.is_ascii_digit())).then(|| run.parse().ok())?
}

fn word(run: &str) -> Option<Token> {
    if let Some(word) = WORDS.into_iter().find(|&word| word == run) {
        return Some(Token::Word(word));
    }
    if let Some(digits) = run.strip_prefix('e') {
        return number(digits).filter(|&n| n < 32).map(|n| Token::Letter(n as u8));
    }
    number(run).map(Token::Number)
}

/// The tokens, or none if a word, sign or form of number is unknown. "Spaces separate freely; a word or number is a
/// longest run of small letters and digits."
pub fn tokens(text: &[u8]) -> Option<Vec<Token>> {
    let mut all = Vec::new();
    let mut rest = text;
    while let Some((&first, behind)) = rest.split_first() {
        let run = rest.iter().take_while(|b| b.is_ascii_lowercase() || b.is_ascii_digit()).count();
        if run > 0 {
            all.push(word(std::str::from_utf8(&rest[..run]).ok()?)?);
            rest = &rest[run..];
            continue;
        }
        match first {
            b' ' => {}
            b'(' | b')' | b'[' | b']' | b',' => all.push(Token::Sign(first)),
            _ => return None,
        }
        rest = behind;
    }
    Some(all)
}

/// The interval at the front, and what stands behind it: the four timed words carry "[low,high]".
fn interval(tokens: &[Token]) -> Option<((u32, u32), &[Token])> {
    let [Token::Sign(b'['), Token::Number(low), Token::Sign(b','), high, Token::Sign(b']'), rest @ ..] = tokens else {
        return None;
    };
    match *high {
        Token::Number(high) => Some(((*low, high), rest)),
        Token::Word("inf") => Some(((*low, NO_END), rest)),
        _ => None,
    }
}

/// The levels of the grammar, the loosest first.
#[derive(Clone, Copy, PartialEq, Eq)]
enum Level {
    Or,
    Timed,
    Prefixed,
    Atom,
}

/// How splits are chosen: every place, or the one that the grouping names.
#[derive(Clone, Copy, PartialEq, Eq)]
enum Splits {
    Every,
    Grouped,
}

/// The places of these words outside brackets: or the last of them, or the first, where only one is asked for.
fn places(tokens: &[Token], words: &[&str], splits: Splits, last: bool) -> Vec<usize> {
    let mut depth = 0;
    let mut all = Vec::new();
    for (at, token) in tokens.iter().enumerate() {
        match token {
            Token::Sign(b'(') => depth += 1,
            Token::Sign(b')') => depth -= 1,
            Token::Word(word) if words.contains(word) && (depth == 0 || splits == Splits::Every) => all.push(at),
            _ => {}
        }
    }
    if splits == Splits::Grouped {
        let one = if last { all.pop() } else { all.first().copied() };
        return one.into_iter().collect();
    }
    all
}

fn joined(lefts: Vec<Vec<Entry>>, rights: &[Vec<Entry>], operator: Entry) -> Vec<Vec<Entry>> {
    let both = |left: &Vec<Entry>, right: &Vec<Entry>| [&left[..], right, &[operator]].concat();
    lefts.iter().flat_map(|left| rights.iter().map(move |right| both(left, right))).collect()
}

/// The formulas, in postfix order, that a level derives from the tokens, one for each derivation.
fn derive(level: Level, tokens: &[Token], splits: Splits) -> Vec<Vec<Entry>> {
    match level {
        Level::Or => {
            let mut all = Vec::new();
            // "then or, grouping to the left": the right operand has no or of its own
            for at in places(tokens, &["or"], splits, true) {
                let rights = derive(Level::Timed, &tokens[at + 1..], splits);
                if !rights.is_empty() {
                    all.extend(joined(derive(Level::Or, &tokens[..at], splits), &rights, Entry::or()));
                }
            }
            if splits == Splits::Grouped && !places(tokens, &["or"], splits, true).is_empty() {
                return all;
            }
            all.extend(derive(Level::Timed, tokens, splits));
            all
        }
        Level::Timed => {
            let mut all = Vec::new();
            // "then since and until, grouping to the right": the left operand has none of its own
            let at_words = places(tokens, &["since", "until"], splits, false);
            for &at in &at_words {
                let kind = if tokens[at] == Token::Word("since") { SINCE } else { UNTIL };
                if let Some(((low, high), right)) = interval(&tokens[at + 1..]) {
                    let lefts = derive(Level::Prefixed, &tokens[..at], splits);
                    if !lefts.is_empty() {
                        all.extend(joined(lefts, &derive(Level::Timed, right, splits), Entry::timed(kind, low, high)));
                    }
                }
            }
            if splits == Splits::Grouped && !at_words.is_empty() {
                return all;
            }
            all.extend(derive(Level::Prefixed, tokens, splits));
            all
        }
        Level::Prefixed => {
            let (operator, operand) = match tokens {
                [Token::Word("not"), operand @ ..] => (Some(Entry::not()), operand),
                [Token::Word(word @ ("prev" | "next")), behind @ ..] => {
                    let kind = if *word == "prev" { PREVIOUS } else { NEXT };
                    match interval(behind) {
                        Some(((low, high), operand)) => (Some(Entry::timed(kind, low, high)), operand),
                        None => return Vec::new(),
                    }
                }
                _ => (None, tokens),
            };
            match operator {
                None => derive(Level::Atom, operand, splits),
                Some(entry) => {
                    let operands = derive(Level::Prefixed, operand, splits);
                    operands.iter().map(|entries| [&entries[..], &[entry]].concat()).collect()
                }
            }
        }
        Level::Atom => match tokens {
            [Token::Letter(letter)] => vec![vec![Entry::letter(*letter)]],
            // "round brackets override"
            [Token::Sign(b'('), inside @ .., Token::Sign(b')')] => derive(Level::Or, inside, splits),
            _ => Vec::new(),
        },
    }
}

/// The formulas in postfix order, one for each derivation, whatever the place of a split. Slow: for short texts.
pub fn derivations(tokens: &[Token]) -> Vec<Vec<Entry>> {
    derive(Level::Or, tokens, Splits::Every)
}

/// The rule that a text says, for a lent buffer of `room` bytes, or the refusal's number: 16, 17, 4, 6, 8, 18.
pub fn parse(text: &[u8], room: usize) -> Result<Vec<u8>, u32> {
    if text.len() > MOST_BYTES {
        return Err(16);
    }
    let tokens = tokens(text).ok_or(16u32)?;
    let entries = derive(Level::Or, &tokens, Splits::Grouped).pop().ok_or(17u32)?;
    if entries.len() > 128 {
        return Err(4);
    }
    let bytes = rule::encode(&entries);
    rule::parse(&bytes)?;
    if room < bytes.len() {
        return Err(18);
    }
    Ok(bytes)
}

/// Texts worked by hand: the entries, or the refusal's number.
pub fn worked() -> Vec<(&'static str, Result<Vec<Entry>, u32>)> {
    let [a, b, c] = [0, 1, 2].map(Entry::letter);
    let timed = Entry::timed;
    let (until1, until2, since1) = (timed(UNTIL, 0, 1), timed(UNTIL, 0, 2), timed(SINCE, 0, 1));
    let mut all = vec![
        ("e0 since[0,1] e1 until[0,2] e2", Ok(vec![a, b, c, until2, since1])),
        ("e0 or e1 or e2", Ok(vec![a, b, Entry::or(), c, Entry::or()])),
        ("not e0 until[0,1] e1", Ok(vec![a, Entry::not(), b, until1])),
        ("prev[0,1] not next[0,1] e0", Ok(vec![a, timed(NEXT, 0, 1), Entry::not(), timed(PREVIOUS, 0, 1)])),
        ("(e0 since[0,1] e1) until[0,2] e2", Ok(vec![a, b, since1, c, until2])),
        ("e0 or (e1 or e2)", Ok(vec![a, b, c, Entry::or(), Entry::or()])),
        ("not(e0 until[0,1] e1)", Ok(vec![a, b, until1, Entry::not()])),
        ("e0 or e1 until[0,1] e2", Ok(vec![a, b, c, until1, Entry::or()])),
        ("e0 until[0,1] e1 or e2", Ok(vec![a, b, until1, c, Entry::or()])),
        ("  e31 since [ 10 , inf ]((e9))", Ok(vec![Entry::letter(31), Entry::letter(9), timed(SINCE, 10, NO_END)])),
        ("next[0,inf] e0", Ok(vec![a, timed(NEXT, 0, NO_END)])),
        ("e0until[0,1]e1", Err(16)),
        ("prev[3600,3600]e0", Ok(vec![a, timed(PREVIOUS, 3600, 3600)])),
    ];
    let refused: [(u32, &[&str]); 4] = [
        (
            16,
            &[
                "e0or e1",
                "e00",
                "e01",
                "e32",
                "e",
                "e0 until[007,9] e1",
                "e0 until[0,12345] e1",
                "e0 & e1",
                "E0",
                "e0\te1",
                "e0\n",
                "e0 e32",
                "e\u{e9}",
                "previous",
            ],
        ),
        (
            17,
            &[
                "",
                "   ",
                "e0 e1",
                "(e0",
                "e0)",
                "()",
                "not",
                "prev e0",
                "prev[0] e0",
                "e0 or",
                "or e0",
                "until[0,1] e0",
                "e0 until[inf,3] e1",
                "e0 until[0,1]",
                "e0 not e1",
                "[0,1] e0",
                "7",
            ],
        ),
        (6, &["e0 until[5,3] e1", "e0 until[0,inf] e1", "prev[3601,3601] e0", "prev[0,9999] e0"]),
        (8, &["e0 until[0,3600] e1 until[0,447] e2"]),
    ];
    for (number, texts) in refused {
        all.extend(texts.iter().map(|&text| (text, Err(number))));
    }
    all
}

#[cfg(test)]
mod tests {
    use super::{derivations, parse, tokens, worked};
    use crate::rule;

    #[test]
    fn worked_by_hand() {
        for (text, expected) in worked() {
            let expected = expected.map(|entries| rule::encode(&entries));
            assert_eq!(parse(text.as_bytes(), 1288), expected, "`{text}`");
        }
        let p1 = "e0 until[0,2] e1";
        assert_eq!(parse(p1.as_bytes(), 38).unwrap().len(), 38);
        assert_eq!(parse(p1.as_bytes(), 37), Err(18));
        let many = |n: usize| vec!["e0"; n].join(" or ");
        assert_eq!(parse(many(64).as_bytes(), 1288).unwrap().len(), 8 + 10 * 127);
        assert_eq!(parse(many(65).as_bytes(), 1288), Err(4));
        assert_eq!(parse((many(65) + " until[9,3] e0").as_bytes(), 0), Err(4));
        assert_eq!(parse(&[b' '; 1024], 1288), Err(17));
        assert_eq!(parse(&[b' '; 1025], 1288), Err(16));
    }

    #[test]
    fn every_split_finds_one_derivation() {
        for (text, expected) in worked() {
            let Some(all) = tokens(text.as_bytes()).map(|tokens| derivations(&tokens)) else { continue };
            assert!(all.len() <= 1, "`{text}`");
            if let Ok(entries) = expected {
                assert_eq!(all, [entries], "`{text}`");
            }
        }
    }
}
