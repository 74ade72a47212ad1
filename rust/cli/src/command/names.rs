//! The names of letters, and formulas that are shown with them.

use super::{of_card, Answer, Given};
use crate::beside::is_card;
use crate::card::Card;
use crate::disk::Folder;
use crate::named::{self, Named};
use crate::{convert, parts};
use std::path::Path;

/// The words of `letters`.
pub fn letters(given: &Given) -> Answer {
    let (&folder, file) = given.all().split_first().expect("the table has a word at the beginning");
    let failed = |fault| of_card(folder, &fault);
    let mut disk = Folder::new(Path::new(folder));
    let Some(path) = file.first() else {
        let letters = Card::open(&mut disk, false).and_then(|mut card| card.letters()).map_err(failed)?;
        return Ok(letters.lines());
    };
    let letters = named::read(path, WITHOUT)?;
    Card::open(&mut disk, true).and_then(|mut card| card.name_letters(&letters)).map_err(failed)?;
    Ok(format!("{folder}: {}\n", parts::counted(letters.count(), "name", "names")))
}

const WITHOUT: &str = "Nothing was changed. To go without names, take the file `letters` in the card away.";

/// The words of `formula`.
pub fn formula(given: &Given) -> Answer {
    let word = given.only();
    let is_file = word == "-" || word.ends_with(".krl") || Path::new(word).exists();
    if !is_card(word) && is_file {
        return convert::formula(word);
    }
    let Named { rule, letters } = Named::of(word)?;
    let (formulas, needs) = convert::described(word, rule.as_bytes())?;
    let both = formulas.into_iter().zip(named::formulas_in_words(&rule, &letters));
    let lines: String = both.map(|(formula, words)| format!("{formula}\n  {words}\n")).collect();
    Ok(format!("{lines}{needs}"))
}
