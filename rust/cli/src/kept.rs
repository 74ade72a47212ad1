//! What can be told of a card whose files do not fit together: which are damaged, and the verdicts that a checksum vouches for.
//!
//! The sheet has its checksums in two places, in the point and in the rows of `evenings`; the latter are bound to `card.txt` and
//! `rule.krl` and need no point.

use crate::card::{
    Begins, First, Label, SoFar, CARD, EVENINGS, FOLLOWED, LETTERS, NEW_FOLLOWED, NEW_LETTERS, NEW_POINT, POINT, RULE,
    SHEET,
};
use crate::disk::Disk;
use crate::evenings::{bound_to, rows, Known, Row};
use crate::followed::Followed;
use crate::letters::Letters;
use crate::parts::{counted, verdicts};
use crate::wrong::numbered;
use havdrims::save::{checksum, Saved};
use havdrims::{formulas, measure, status, Refusal, Status, Summary};
use std::io::ErrorKind;

/// The verdicts that are vouched for, and how far the card had come with them.
pub struct Kept {
    pub so_far: SoFar,
    pub verdicts: Vec<u8>,
    /// Where another card can go on, if that is known.
    pub after: Option<Begins>,
}

const FOREIGN: &str = "damaged, or not of this card";

/// The files as they are, those that can be read.
struct Files {
    card: Option<Vec<u8>>,
    rule: Option<Vec<u8>>,
    sheet: Option<Vec<u8>>,
    evenings: Option<Vec<u8>>,
    point: Option<Vec<u8>>,
    letters: Option<Vec<u8>>,
    followed: Option<Vec<u8>>,
}

impl Files {
    fn read(disk: &mut impl Disk) -> Files {
        let mut read = |name| disk.read(name).ok();
        Files {
            card: read(CARD),
            rule: read(RULE),
            sheet: read(SHEET),
            evenings: read(EVENINGS),
            point: read(POINT),
            letters: read(LETTERS),
            followed: read(FOLLOWED),
        }
    }

    /// The rows, with nothing in the place of one that is damaged or not bound to this card and rule.
    fn rows(&self) -> Vec<Option<Row>> {
        match (&self.card, &self.rule, &self.evenings) {
            (Some(card), Some(rule), Some(evenings)) => rows(evenings, bound_to(card, rule)),
            (_, _, evenings) => vec![None; evenings.as_ref().map_or(0, |bytes| rows(bytes, 0).len())],
        }
    }

    /// What there is to say of the sheet: whether its verdicts are those that were given.
    fn sheet(&self) -> Option<String> {
        let has = self.sheet.as_ref()?.len() as u64;
        let label = self.card.as_ref().and_then(|card| Label::decode(card));
        let point = label.and_then(|label| self.of_point(label.number));
        let Some(row) = point.or(self.rows().into_iter().flatten().next_back()) else {
            return Some(format!("{}, for which nothing vouches", verdicts(has)));
        };
        let given = row.status.given;
        Some(match self.vouched(&row) {
            None if has < given => {
                format!("damaged: it has {}, and {} given", verdicts(has), counted(given as usize, "was", "were"))
            }
            None if given == 1 => "damaged: the verdict in it is not the one that was given".to_string(),
            None => format!("damaged: the {given} verdicts in it are not those that were given"),
            Some(_) if has == given => verdicts(given),
            // Only the point says whether those behind count.
            Some(_) if point.is_some() => {
                format!("{}; what a run that was cut wrote behind does not count", verdicts(given))
            }
            Some(_) => format!("{}, and nothing vouches for those behind the first {given}", verdicts(has)),
        })
    }

    /// What there is to say of the point: whether it is whole, and one of this card that the library takes.
    fn point(&self) -> Option<String> {
        let saved = match Saved::decode(self.point.as_ref()?) {
            Ok(saved) => saved,
            Err(why) => return Some(why.to_string()),
        };
        let label = self.card.as_ref().and_then(|card| Label::decode(card));
        let status = self.rule.as_ref().map(|rule| status(rule, &saved.words));
        Some(match status {
            _ if label.is_some_and(|label| label.number != saved.owner) => {
                "whole, but not of the card in card.txt".into()
            }
            _ if self.rule.as_ref().is_some_and(|rule| checksum(rule) != saved.rule) => {
                "whole, but not of the rule in rule.krl".into()
            }
            Some(Err(refusal @ Refusal::ForeignPoint)) => numbered("whole, but of another library's format", refusal),
            Some(Err(refusal)) => numbered("whole, but not as this library writes it", refusal),
            Some(Ok(status)) if !counts(&saved, &status) => "damaged: its numbers do not fit together".into(),
            _ => "good".into(),
        })
    }

    /// What the rows and the files of names are bound to.
    fn bound(&self) -> Option<u64> {
        Some(bound_to(self.card.as_ref()?, self.rule.as_ref()?))
    }

    /// What there is to say of the names of letters, if there are any.
    fn letters(&self) -> Option<String> {
        let bytes = self.letters.as_ref()?;
        let letters = self.bound().and_then(|bound| Letters::decode(bytes, bound));
        Some(letters.map_or(FOREIGN.to_string(), |letters| counted(letters.count(), "name", "names")))
    }

    /// What there is to say of the cards that go on from this one, if there are any.
    fn followed(&self) -> Option<String> {
        let bytes = self.followed.as_ref()?;
        let followed = self.bound().and_then(|bound| Followed::decode(bytes, bound));
        Some(followed.map_or(FOREIGN.to_string(), |followed| counted(followed.cards().len(), "card", "cards")))
    }

    /// What the point says, as a row would, but of records and positions.
    fn of_point(&self, number: u64) -> Option<Row> {
        let rule = self.rule.as_ref()?;
        let saved = Saved::decode(self.point.as_ref()?).ok()?;
        let status = status(rule, &saved.words).ok()?;
        let fits = (saved.owner, saved.rule) == (number, checksum(rule)) && counts(&saved, &status);
        let Saved { sheet, services, .. } = saved;
        fits.then_some(Row { status, sheet, services, ..Row::first(Known::none(), None) })
    }

    /// The verdicts that a row counts, if its checksum vouches for them.
    fn vouched(&self, row: &Row) -> Option<&[u8]> {
        let given = usize::try_from(row.status.given).ok()?;
        self.sheet.as_ref()?.get(..given).filter(|verdicts| checksum(verdicts) == row.sheet)
    }
}

/// Whether what a point counts is what its words count.
fn counts(saved: &Saved, status: &Status) -> bool {
    saved.given == status.given && saved.services <= status.seen - status.given
}

/// The row of how far the card had come. Without a point it is the last, but only if nothing stands behind it: records that an
/// earlier row wants may have been overwritten since. A point without its row does not count positions, but for a log in which every
/// record is one.
fn latest(files: &Files, rows: &[Option<Row>], point: Option<Row>) -> Option<Row> {
    let Some(point) = point else {
        let row = (*rows.last()?)?;
        return (row.status.given == files.sheet.as_ref()?.len() as u64).then_some(row);
    };
    let row = rows.iter().flatten().rev().find(|row| row.status == point.status).copied();
    row.or_else(|| (point.services == 0).then_some(Row { position: point.status.wanted, ..point }))
}

/// The verdicts that the point vouches for, or else the last row that does. None where there is no such.
pub fn kept(disk: &mut impl Disk) -> Option<Kept> {
    let files = Files::read(disk);
    let label = Label::decode(files.card.as_ref()?)?;
    let first = label.first.unwrap_or_default();
    let rows = files.rows();
    // Where the card begins is vouched for by its rows alone.
    let begins = label.first.is_none() || rows.iter().any(Option::is_some);
    let point = files.of_point(label.number).filter(|_| begins);
    let mut all = point.into_iter().chain(rows.iter().rev().copied().flatten());
    let (row, verdicts) = all.find_map(|row| Some((row, files.vouched(&row)?)))?;
    let summary = Summary::of(verdicts, formulas(files.rule.as_ref()?).ok()?).ok()?;
    let so_far = SoFar { summary, status: row.status, services: row.services, first };
    let after = latest(&files, &rows, point).map(|row| {
        let (record, position) = (first.record + row.status.wanted, first.position + row.position);
        Begins { first: First { record, position }, open: row.wanted(), before: row.before_wanted() }
    });
    Some(Kept { so_far, verdicts: verdicts.to_vec(), after })
}

/// The names of letters, whatever else is damaged. None where they are damaged themselves, or cannot be read.
pub fn names(disk: &mut impl Disk) -> Option<Letters> {
    match disk.read(LETTERS) {
        Err(fault) if fault.kind() == ErrorKind::NotFound => Some(Letters::default()),
        read => Letters::decode(&read.ok()?, Files::read(disk).bound()?),
    }
}

/// What there is to say of each file, and of others that stand in the folder.
pub fn looked_at(disk: &mut impl Disk) -> Vec<(String, String)> {
    let files = Files::read(disk);
    let missing = || "missing".to_string();
    let good = |is_good: bool, or: &str| if is_good { "good".to_string() } else { or.to_string() };
    let card = files.card.as_ref().map(|card| good(Label::decode(card).is_some(), "damaged"));
    let rule = files.rule.as_ref().map(|rule| match measure(rule) {
        Ok(_) => "good".to_string(),
        Err(refusal) => crate::wrong::named(refusal, crate::wrong::rule(rule)),
    });
    let sheet = files.sheet();
    let rows = files.rows();
    let whole = rows.iter().flatten().count();
    let evenings = files.evenings.as_ref().map(|_| match whole {
        _ if whole == rows.len() => counted(whole, "row", "rows"),
        whole => {
            let (whole, others) = (counted(whole, "row", "rows"), rows.len() - whole);
            format!("{whole}, and {others} damaged, cut, or not of this card and rule")
        }
    });
    let own = [(CARD, card), (RULE, rule), (SHEET, sheet), (EVENINGS, evenings), (POINT, files.point())];
    let names = disk.names().ok().flatten().unwrap_or_default();
    let unread = |name: &str| names.iter().any(|there| there == name).then(|| "cannot be read".to_string());
    let mut said: Vec<(String, String)> = own
        .into_iter()
        .map(|(name, said)| (name.to_string(), said.or_else(|| unread(name)).unwrap_or_else(missing)))
        .collect();
    for (name, more) in [(LETTERS, files.letters()), (FOLLOWED, files.followed())] {
        said.extend(more.or_else(|| unread(name)).map(|more| (name.to_string(), more)));
    }
    for name in names {
        match name.as_str() {
            CARD | RULE | SHEET | EVENINGS | POINT | LETTERS | FOLLOWED => {}
            NEW_POINT | NEW_LETTERS | NEW_FOLLOWED => {
                said.push((name, "left by a run that was cut; it does not count".to_string()))
            }
            _ => said.push((name, "not of this card".to_string())),
        }
    }
    said
}
