//! What a rule and its letters are called: of a card, a rule file or a formula.

use crate::beside::is_card;
use crate::card::{Card, First, SoFar};
use crate::command::{of_card, Failure};
use crate::convert;
use crate::disk::{read_all, Folder};
use crate::letters::Letters;
use crate::page::known::spans;
use crate::parts;
use crate::words::in_words;
use havdrims::{Rule, Status};
use std::iter::once;
use std::ops::Range;
use std::path::Path;

/// A rule with the names of its letters.
pub struct Named {
    pub rule: Rule,
    pub letters: Letters,
}

/// What a card has judged by its rule, and where it begins.
pub struct Judged {
    pub first: First,
    pub verdicts: Vec<u8>,
    /// The card is closed, and the log has all records that it has seen.
    pub closed: bool,
    /// The log that it was brought, from its first record on, and of a card that is closed up to its last.
    pub log: Vec<u8>,
    /// The records behind that.
    pub further: usize,
    /// Those of its records, from the card's first one on, that are as the card has seen them, and those that it has not seen. Of a
    /// card of an earlier program it cannot be told: all.
    pub known: Vec<Range<u64>>,
}

impl Named {
    /// What a word of the command line says: a card, a .krl file, or a formula.
    pub fn of(word: &str) -> Result<Named, Failure> {
        if is_card(word) {
            return Named::of_card(word);
        }
        let bytes = convert::rule_of(word)?;
        let rule = Rule::new(&bytes).map_err(|refusal| Failure::fault(word, refusal))?;
        Ok(Named { rule, letters: Letters::default() })
    }

    fn of_card(folder: &str) -> Result<Named, Failure> {
        let mut disk = Folder::new(Path::new(folder));
        let failed = |fault| of_card(folder, &fault);
        let mut card = Card::open(&mut disk, false).map_err(failed)?;
        let letters = card.letters().map_err(failed)?;
        let rule = Rule::new(card.rule()).map_err(|refusal| Failure::fault(folder, refusal))?;
        Ok(Named { rule, letters })
    }

    /// The same, and what it has judged of a log, if the word names a card.
    pub fn judged(word: &str, path: &str, log: &[u8]) -> Result<Option<Judged>, Failure> {
        if !is_card(word) {
            return Ok(None);
        }
        let mut disk = Folder::new(Path::new(word));
        let mut card = Card::open(&mut disk, false).map_err(|fault| of_card(word, &fault))?;
        let rows = card.evenings().map_err(|fault| of_card(word, &fault))?;
        let mut log = card.own_part(log).map_err(|fault| Failure::fault(path, fault))?.into_owned();
        let SoFar { first, status: Status { closed, seen, .. }, .. } = card.so_far;
        let records = convert::opened(path, &log)?;
        let further = records.len().checked_sub(seen as usize).filter(|_| closed);
        let (closed, further) = (further.is_some(), further.unwrap_or(0));
        let kept = records.len() - records.dropped();
        let unseen = if rows.is_empty() { 0 } else { seen };
        let known = spans(&records, &rows).into_iter().map(|span| span.records).chain(once(unseen..u64::MAX)).collect();
        log.truncate(log.len() - 8 * further.min(kept));
        Ok(Some(Judged { first, verdicts: card.verdicts().to_vec(), closed, log, further, known }))
    }
}

/// The names in a file. One without any is rather what a command left that failed: the line behind says how to go without names.
pub fn read(path: &str, without: &str) -> Result<Letters, Failure> {
    let bytes = read_all(path).map_err(|fault| convert::unread(path, fault))?;
    let text = convert::text_of(path, bytes)?;
    let letters = Letters::read(&text).map_err(|wrong| Failure::in_line(path, wrong))?;
    match letters.is_empty() {
        true => Err(Failure::fault(path, NO_NAME).and(without)),
        false => Ok(letters),
    }
}

const NO_NAME: &str = "there is no name in it: a line has a letter's number, 0 to 31, and a name";

/// The formulas of a rule that the library accepts, with their words where letters have names.
pub fn with_words(formulas: Vec<String>, rule: &[u8], letters: &Letters) -> Vec<String> {
    match Rule::new(rule) {
        Ok(rule) if !letters.is_empty() => {
            let words = formulas_in_words(&rule, letters);
            formulas.into_iter().zip(words).map(|(formula, words)| format!("{formula}\n    {words}")).collect()
        }
        _ => formulas,
    }
}

/// Each formula of a rule in words, a line each.
pub fn formulas_in_words(rule: &Rule, letters: &Letters) -> Vec<String> {
    match parts::formulas(rule) {
        none if none.is_empty() => vec![in_words(rule, letters)],
        formulas => formulas.iter().map(|formula| in_words(formula, letters)).collect(),
    }
}
