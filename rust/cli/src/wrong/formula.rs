//! Where a typed formula is wrong.

use super::token::{tokens, Placed, Token, Unknown};
use super::{extra_words, interval, too_many_words, Kind, Wrong, NO_END};
use std::ops::Range;

/// The most entries of a rule.
const MOST_ENTRIES: usize = 128;
/// The words before the first entry.
const HEADER_WORDS: u64 = 16;

/// The columns of a line in which the place is shown.
const SHOWN: usize = 72;

/// What is wrong with this text, with a line that shows the place; nothing if it says a rule.
pub fn formula(text: &str) -> Option<Wrong> {
    let found = match tokens(text) {
        Err(Unknown { at, says, more }) => Found { number: 16, at, says, more },
        Ok(tokens) => ungrammatical(text, &tokens).or_else(|| out_of_bounds(&tokens))?,
    };
    let Found { number, at, says, more } = found;
    let shown = shown(text, at);
    let more = if more.is_empty() { String::new() } else { format!("\n{more}") };
    Some(Wrong::new(number, format!("{says}\n{shown}{more}")))
}

/// What was found where.
struct Found {
    number: u32,
    at: Range<usize>,
    says: String,
    /// What could stand there.
    more: String,
}

/// The text, and below it the place, in as much of a line as is read at a glance.
fn shown(text: &str, at: Range<usize>) -> String {
    let columns = |part: &str| part.chars().count();
    let (before, marked) = (columns(&text[..at.start]), columns(&text[at.clone()]).max(1));
    let from = (before + marked.min(SHOWN / 2)).saturating_sub(SHOWN - 8);
    let cut = |is: bool| if is { ".." } else { "" };
    let lead = cut(from > 0);
    // Other characters could move the marks below them.
    let plain = |letter: char| if matches!(letter, ' '..='~') || letter.is_alphanumeric() { letter } else { '?' };
    let part: String = text.chars().skip(from).take(SHOWN).map(plain).collect();
    let tail = cut(columns(text) > from + SHOWN);
    let marks = "^".repeat(marked.min(from + SHOWN + 1 - before));
    format!("  {lead}{part}{tail}\n  {:1$}{marks}", "", lead.len() + before - from)
}

/// What the grammar lets stand next.
#[derive(Clone, Copy, Debug, PartialEq, Eq)]
enum Next {
    Operand,
    From(Kind),
    Low,
    Comma,
    High,
    To,
    /// Behind a whole formula.
    After,
}

impl Next {
    fn could_be(self, brackets: usize) -> String {
        match self {
            Next::Operand => "a letter as e0, `not`, `prev`, `next` or `(`".to_string(),
            Next::From(kind) => format!("`[` and seconds, as in {}[0,90]", kind.word()),
            Next::Low => "a number of seconds".to_string(),
            Next::Comma => "`,`".to_string(),
            Next::High => "a number of seconds, or `inf`".to_string(),
            Next::To => "`]`".to_string(),
            Next::After if brackets > 0 => "`since`, `until`, `or` or `)`".to_string(),
            Next::After => "`since`, `until`, `or`, or the end".to_string(),
        }
    }

    /// What may stand behind this, if it may stand here.
    fn then(self, token: Token, brackets: &mut usize) -> Option<Next> {
        match (self, token) {
            (Next::Operand, Token::Letter) => Some(Next::After),
            (Next::Operand, Token::Operator(Kind::Not)) => Some(Next::Operand),
            (Next::Operand, Token::Operator(kind @ (Kind::Previous | Kind::Next))) => Some(Next::From(kind)),
            (Next::Operand, Token::Sign('(')) => {
                *brackets += 1;
                Some(Next::Operand)
            }
            (Next::From(_), Token::Sign('[')) => Some(Next::Low),
            (Next::Low, Token::Number(_)) => Some(Next::Comma),
            (Next::Comma, Token::Sign(',')) => Some(Next::High),
            (Next::High, Token::Number(_) | Token::Infinity) => Some(Next::To),
            (Next::To, Token::Sign(']')) => Some(Next::Operand),
            (Next::After, Token::Operator(Kind::Or)) => Some(Next::Operand),
            (Next::After, Token::Operator(kind @ (Kind::Since | Kind::Until))) => Some(Next::From(kind)),
            (Next::After, Token::Sign(')')) if *brackets > 0 => {
                *brackets -= 1;
                Some(Next::After)
            }
            _ => None,
        }
    }
}

/// Where the grammar cannot go on. It is read without a stack: what may stand next depends on the token before and on the number of
/// brackets alone.
fn ungrammatical(text: &str, tokens: &[Placed]) -> Option<Found> {
    let (mut next, mut brackets) = (Next::Operand, 0);
    for (token, at) in tokens {
        let Some(then) = next.then(*token, &mut brackets) else {
            let says = match token {
                Token::Sign(')') if next == Next::After => "no bracket is open that this could close".to_string(),
                _ => format!("`{}` cannot stand here", &text[at.clone()]),
            };
            return Some(broken(at.clone(), says, next, brackets));
        };
        next = then;
    }
    let says = match tokens.is_empty() {
        true => "the formula is empty",
        false if next == Next::After => "the formula breaks off here: a bracket is still open",
        false => "the formula breaks off here",
    };
    let end = text.trim_end_matches(' ').len();
    (next != Next::After || brackets > 0).then(|| broken(end..end, says.to_string(), next, brackets))
}

fn broken(at: Range<usize>, says: String, next: Next, brackets: usize) -> Found {
    Found { number: 17, at, says, more: format!("here could stand {}", next.could_be(brackets)) }
}

/// An interval of a formula that the grammar derives.
struct Interval {
    kind: Kind,
    low: u32,
    high: u32,
    at: Range<usize>,
}

/// `until`, `[`, low, `,`, high, `]`, and so on.
fn intervals(tokens: &[Placed]) -> Vec<Interval> {
    let end = |token: &Placed| match token.0 {
        Token::Number(number) => number,
        _ => NO_END,
    };
    let interval = |part: &[Placed]| match part[0].0 {
        Token::Operator(kind) if kind.timed() => {
            Some(Interval { kind, low: end(&part[2]), high: end(&part[4]), at: part[0].1.start..part[5].1.end })
        }
        _ => None,
    };
    tokens.windows(6).filter_map(interval).collect()
}

/// Too many entries, seconds or words.
fn out_of_bounds(tokens: &[Placed]) -> Option<Found> {
    let entries = tokens.iter().filter(|(token, _)| matches!(token, Token::Letter | Token::Operator(_)));
    if let Some((_, at)) = entries.clone().nth(MOST_ENTRIES) {
        let says = format!(
            "the formula has {} letters and operators, and {MOST_ENTRIES} are the most; this is one too many",
            entries.count()
        );
        return Some(Found { number: 4, at: at.clone(), says, more: String::new() });
    }
    let intervals = intervals(tokens);
    for Interval { kind, low, high, at } in &intervals {
        if let Some(says) = interval(*low, *high, *kind == Kind::Until) {
            let more = format!("both ends are 0 to {} seconds, the lower one not above the upper", super::MOST_SECONDS);
            return Some(Found { number: 6, at: at.clone(), says, more });
        }
    }
    let words = |interval: &Interval| extra_words(interval.kind, interval.high);
    let needed = HEADER_WORDS + 16 * entries.count() as u64 + intervals.iter().map(words).sum::<u64>();
    let largest =
        intervals.iter().max_by_key(|interval| words(interval)).filter(|_| needed > havdrims::MOST_WORDS as u64)?;
    let more = format!(
        "this takes {} of them: until takes two for each second of its upper end, since takes one",
        words(largest)
    );
    Some(Found { number: 8, at: largest.at.clone(), says: too_many_words(needed), more })
}
