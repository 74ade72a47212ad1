//! What a card can be asked without a log: how far it has come, and whether its files fit together.

use super::json::Json;
use super::told::{all, as_json, followed_by};
use super::{checked, of_card, Answer, Failure, Given};
use crate::card::{self, Begins, Card, Fault, First, SoFar};
use crate::disk::Folder;
use crate::followed::Followed;
use crate::kept::{self, Kept};
use havdrims::save::Unreadable;
use havdrims::Refusal;
use std::fmt::Write;
use std::path::Path;

/// What a card can be asked without a log. Where its files do not fit together: what is vouched for, and the fault.
pub struct Told {
    pub so_far: SoFar,
    pub verdicts: Vec<u8>,
    /// The cards that go on from it, where that can be read.
    followed: Followed,
    fault: Option<Fault>,
    /// All verdicts that were given: the fault, if there is one, is in a file that they do not depend on.
    whole: bool,
}

impl Told {
    pub fn of(folder: &str) -> Result<Told, Failure> {
        let mut disk = Folder::new(Path::new(folder));
        let fault = match Card::open(&mut disk, false) {
            Ok(mut card) => {
                let (followed, letters) = (card.followed(), card.letters());
                let (followed, fault) = match followed {
                    Ok(followed) => (followed, letters.err()),
                    Err(fault) => (Followed::default(), Some(fault)),
                };
                let verdicts = card.verdicts().to_vec();
                return Ok(Told { so_far: card.so_far, verdicts, followed, fault, whole: true });
            }
            Err(fault) => fault,
        };
        match vouched(&mut disk, &fault).filter(|kept| !kept.verdicts.is_empty()) {
            Some(Kept { so_far, verdicts, .. }) => {
                Ok(Told { so_far, verdicts, followed: Followed::default(), fault: Some(fault), whole: false })
            }
            None => Err(of_card(folder, &fault)),
        }
    }

    pub fn formulas(&self) -> usize {
        self.so_far.summary.no().len()
    }

    /// What is wrong with the card, if anything is.
    pub fn fault(&self) -> Option<String> {
        self.fault.as_ref().map(Fault::to_string)
    }

    /// Ends with what was to be printed, and with the fault if there is one.
    pub fn end(&self, folder: &str, printed: String) -> Answer {
        let Some(fault) = &self.fault else { return Ok(printed) };
        if self.whole {
            return Err(Failure::Partly { printed, fault: format!("{folder}: {fault}") });
        }
        let vouched = match self.verdicts.len() {
            1 => "This is of the first verdict, which a checksum vouches for.".to_string(),
            many => format!("This is of the first {many} verdicts, which a checksum vouches for."),
        };
        let fault = format!("{folder}: {fault}\n{vouched} {}", checked(folder));
        Err(Failure::Partly { printed, fault })
    }
}

/// What is vouched for of a card with this fault. While another command is at work nothing is read.
pub fn vouched(disk: &mut Folder, fault: &Fault) -> Option<Kept> {
    (!matches!(fault, Fault::InUse)).then(|| kept::kept(disk)).flatten()
}

/// The words of `summary`.
pub fn summary(given: &Given) -> Answer {
    let told = Told::of(given.only())?;
    let printed = match given.has("--json") {
        true => Json::Object(vec![
            ("so_far", as_json(&told.so_far)),
            ("followed_by", followed_by(&told.followed)),
            ("fault", told.fault().into()),
        ])
        .to_string(),
        false => all(&told.so_far, given.paint) + &told.followed.line(),
    };
    told.end(given.only(), printed)
}

/// The words of `check`.
pub fn check(given: &Given) -> Answer {
    let folder = given.only();
    let mut disk = Folder::new(Path::new(folder));
    let opened = Card::open(&mut disk, false).and_then(|mut card| {
        let followed = card.followed()?;
        card.letters()?;
        Ok((card.so_far, followed))
    });
    match &opened {
        Err(fault @ (Fault::NoCard | Fault::InUse)) => return Err(of_card(folder, fault)),
        Err(fault) if Path::new(folder).is_file() => return Err(of_card(folder, fault)),
        _ => {}
    }
    let files = kept::looked_at(&mut disk);
    let kept = opened.as_ref().err().and_then(|fault| vouched(&mut disk, fault));
    let printed = match given.has("--json") {
        true => check_json(&files, &opened, kept.as_ref()),
        false => {
            let files: String = files.iter().map(|(name, said)| format!("{name}: {said}\n")).collect();
            let all_of_it = match &opened {
                Ok((so_far, followed)) => {
                    format!("all files fit together\n{}{}", all(so_far, given.paint), followed.line())
                }
                Err(fault) => advice(folder, fault, kept.as_ref()),
            };
            files + &all_of_it
        }
    };
    match opened {
        Ok(_) => Ok(printed),
        Err(fault) => Err(Failure::Partly { printed, fault: format!("{folder}: {fault}") }),
    }
}

fn check_json(files: &[(String, String)], opened: &Result<(SoFar, Followed), Fault>, kept: Option<&Kept>) -> String {
    let file = |(name, said): &(String, String)| {
        Json::Object(vec![("name", name.as_str().into()), ("says", said.as_str().into())])
    };
    let (so_far, vouched, after) = match opened {
        Ok((so_far, _)) => (Some(so_far), so_far.status.given, None),
        Err(_) => {
            let after = kept.and_then(|kept| kept.after).map(|begins| begins.first.record);
            let some = kept.filter(|kept| !kept.verdicts.is_empty());
            (some.map(|kept| &kept.so_far), kept.map_or(0, |kept| kept.verdicts.len() as u64), after)
        }
    };
    Json::Object(vec![
        ("good", opened.is_ok().into()),
        ("fault", opened.as_ref().err().map(Fault::to_string).into()),
        ("files", files.iter().map(file).collect()),
        ("vouched_verdicts", vouched.into()),
        ("new_card_from_record", after.into()),
        ("so_far", so_far.map(as_json).into()),
        ("followed_by", opened.as_ref().ok().map(|(_, followed)| followed_by(followed)).into()),
    ])
    .to_string()
}

/// What can be done with a card that has this fault.
fn advice(folder: &str, fault: &Fault, kept: Option<&Kept>) -> String {
    if let Fault::Unfinished | Fault::LettersDamaged | Fault::FollowedDamaged = fault {
        return String::new();
    }
    let given = kept.map_or(0, |kept| kept.verdicts.len());
    let mut text = match given {
        0 => "no verdict is vouched for\n".to_string(),
        1 => "the first verdict is vouched for: `havdrims sheet` prints it\n".to_string(),
        _ => format!("the first {given} verdicts are vouched for: `havdrims sheet` prints them\n"),
    };
    text.push_str("what can be done:\n");
    if let Fault::PointUnreadable(Unreadable::Version) | Fault::PointRefused(Refusal::ForeignPoint) = fault {
        text.push_str("  the program that wrote the point can carry on with this card\n");
    }
    if let Fault::Disk { .. } = fault {
        text.push_str("  when its files can be read again, the card goes on as it is\n");
    }
    text.push_str("  a copy of the card can be put back, all its files together\n");
    if let Some(Begins { first: First { record, .. }, .. }) = kept.and_then(|kept| kept.after) {
        let (rule, old) = (quoted(&format!("{folder}/{}", card::RULE)), quoted(folder));
        let new = format!("havdrims new NEW {rule} --after {old}");
        let _ = writeln!(text, "  a new card can go on at record {record}: {new}");
    }
    text
}

/// A word as a shell takes it.
pub fn quoted(word: &str) -> String {
    let plain = |letter: char| letter.is_alphanumeric() || "/._-+,:@%".contains(letter);
    match word.chars().all(plain) {
        true => word.to_string(),
        false => format!("'{}'", word.replace('\'', "'\\''")),
    }
}
