//! The words and signs of a formula.

use super::Kind;
use crate::command::near::did_you_mean;
use std::ops::Range;

/// The most bytes of a text.
const MOST_TEXT: usize = 1_024;

const WORDS: [&str; 7] = ["not", "or", "prev", "next", "since", "until", "inf"];
const LETTERS: &str = "the letters e0 to e31";

#[derive(Clone, Copy, Debug, PartialEq, Eq)]
pub enum Token {
    Letter,
    Operator(Kind),
    Number(u32),
    Infinity,
    Sign(char),
}

/// A token and where it stands.
pub type Placed = (Token, Range<usize>);

/// A part of the text that is not known.
pub struct Unknown {
    pub at: Range<usize>,
    pub says: String,
    /// What there is instead.
    pub more: String,
}

/// The words and signs of a text, or the first that is not known.
pub fn tokens(text: &str) -> Result<Vec<Placed>, Unknown> {
    // In a text that is no ASCII there is something that is not known.
    if text.is_ascii() && text.len() > MOST_TEXT {
        let has = text.len();
        let says =
            format!("the formula has {has} characters, and {MOST_TEXT} are the most; from here on it is too long");
        return Err(Unknown { at: MOST_TEXT..has, says, more: String::new() });
    }
    let mut tokens = Vec::new();
    let mut from = 0;
    while from < text.len() {
        let at = from..from + together(&text[from..]);
        from = at.end;
        match &text[at.clone()] {
            " " => {}
            part => match token(part) {
                Ok(token) => tokens.push((token, at)),
                Err((says, more)) => return Err(Unknown { at, says, more }),
            },
        }
    }
    Ok(tokens)
}

fn in_word(letter: char) -> bool {
    letter.is_ascii_lowercase() || letter.is_ascii_digit()
}

/// How many bytes of a text belong together: small letters and digits, letters of other kinds with what stands behind them, an arrow,
/// or else one character.
fn together(text: &str) -> usize {
    if let Some(arrow) = arrow(text) {
        return arrow;
    }
    let same: fn(char) -> bool = match text.chars().next() {
        Some(first) if in_word(first) => in_word,
        Some(first) if first.is_alphanumeric() => char::is_alphanumeric,
        first => return first.map_or(0, char::len_utf8),
    };
    text.find(|letter| !same(letter)).unwrap_or(text.len())
}

/// How long the arrow is with which a text begins, as `->` or `=>`: people type it for then.
fn arrow(text: &str) -> Option<usize> {
    let shaft = text.len() - text.trim_start_matches(['-', '=']).len();
    (shaft > 0 && text[shaft..].starts_with('>')).then_some(shaft + 1)
}

/// What a part of a text is, or what is wrong with it and what there is instead.
fn token(part: &str) -> Result<Token, (String, String)> {
    match part.chars().next() {
        Some(sign @ ('(' | ')' | '[' | ']' | ',')) => Ok(Token::Sign(sign)),
        Some(first) if in_word(first) => word(part),
        Some(first) if first.is_alphanumeric() => Err(no_small_letters(part)),
        Some(' '..='~') | None => Err(not_known("sign", part)),
        Some('‘' | '’' | '“' | '”' | '„' | '‚') => {
            Err((format!("the character {part} is not known; quotes around a formula are straight ones, '"), known()))
        }
        Some(first) => Err((format!("the character {first:?} is not known"), known())),
    }
}

fn word(word: &str) -> Result<Token, (String, String)> {
    let digits = |part: &str| part.bytes().all(|byte| byte.is_ascii_digit());
    if digits(word) {
        let form = "a number has one to four digits, and no 0 before others";
        let wrong = || (format!("`{word}` is no number of seconds"), form.to_string());
        return number(word).map(Token::Number).ok_or_else(wrong);
    }
    if let Some(letter) = word.strip_prefix('e').filter(|letter| digits(letter)) {
        let wrong = || (format!("`{word}` is no letter"), format!("there are {LETTERS}"));
        return number(letter).filter(|&letter| letter <= 31).map(|_| Token::Letter).ok_or_else(wrong);
    }
    if word == "inf" {
        return Ok(Token::Infinity);
    }
    let kind = Kind::ALL.into_iter().filter(|&kind| kind != Kind::Letter).find(|kind| kind.word() == word);
    kind.map(Token::Operator).ok_or_else(|| not_known("word", word))
}

/// A number as the grammar has it.
fn number(digits: &str) -> Option<u32> {
    let formed = digits == "0" || (1..=4).contains(&digits.len()) && !digits.starts_with('0');
    digits.parse().ok().filter(|_| formed)
}

fn no_small_letters(part: &str) -> (String, String) {
    let small = part.to_ascii_lowercase();
    match word(&small) {
        Ok(_) if small != part => (format!("`{part}` is written in small letters: {small}"), String::new()),
        _ => not_known("word", part),
    }
}

const WHENEVER: &str = "; `not A or B` says that B is so whenever A is";

fn not_known(what: &str, found: &str) -> (String, String) {
    let hint = match found {
        "and" | "&" => "; there is no and: `not (not A or not B)` says it".to_string(),
        "|" => "; did you mean or?".to_string(),
        "-" => "; between two ends stands a comma, as in [0,90], and none is below 0".to_string(),
        "!" | "~" => "; did you mean not?".to_string(),
        "previous" => "; did you mean prev?".to_string(),
        "if" | "then" | "implies" => WHENEVER.to_string(),
        _ if arrow(found).is_some() => WHENEVER.to_string(),
        _ => did_you_mean(found, WORDS),
    };
    (format!("the {what} `{found}` is not known{hint}"), known())
}

fn known() -> String {
    format!("there are the words {}, {LETTERS}, numbers, and the signs ( ) [ ] ,", WORDS.join(", "))
}
