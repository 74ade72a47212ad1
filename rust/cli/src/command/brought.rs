//! A log that is brought to a card: reading it, and what to say where nothing came of it.

use super::reading::quoted;
use super::{of_card, Failure};
use crate::card::{Fault, SoFar, RULE};
use crate::convert;
use crate::parts::counted;
use crate::wrong::{self, numbered, Header};
use havdrims::{Log, Refusal, MOST_RECORDS};
use std::io::{self, ErrorKind};
use std::path::Path;

pub const UNCHANGED: &str = "Nothing was changed.";

/// A log and the card that it is for.
pub struct Brought<'a> {
    pub folder: &'a str,
    pub path: &'a str,
    pub bytes: Vec<u8>,
    /// What did not come of it where an operation fails: `No verdict was counted`.
    pub nothing: &'static str,
}

impl<'a> Brought<'a> {
    pub fn read(folder: &'a str, path: &'a str, nothing: &'static str) -> Result<Brought<'a>, Failure> {
        let failed = |fault| convert::unread(path, fault).and(UNCHANGED);
        Ok(Brought { folder, path, bytes: convert::log(path).map_err(failed)?, nothing })
    }

    /// What is wrong with the log, or with the card, and that nothing came of the command. How far the card has come is not known
    /// where it cannot be opened.
    pub fn failed(&self, fault: &Fault, so_far: Option<&SoFar>) -> Failure {
        let of_log = |hint: &str| Failure::fault(self.path, format!("{fault}\n{hint}{UNCHANGED}"));
        match fault {
            Fault::Refused(refusal) => self.refused(*refusal, so_far),
            Fault::LogBefore { .. } | Fault::LogShort { .. } => of_log(OLDER),
            Fault::OtherRecords { .. } => of_log(OTHER),
            Fault::LogAltered => of_log(""),
            Fault::Unsure { .. } => Failure::fault(self.folder, fault),
            Fault::Disk { fault: cause, .. } if !Path::new(self.folder).is_file() => self.disk(fault, cause),
            _ => of_card(self.folder, fault).and(UNCHANGED),
        }
    }

    fn disk(&self, fault: &Fault, cause: &io::Error) -> Failure {
        let nothing = self.nothing;
        let remedy = match cause.kind() {
            ErrorKind::StorageFull | ErrorKind::QuotaExceeded | ErrorKind::FileTooLarge => {
                format!("{nothing}; when there is room, repeat the command.")
            }
            // It would fail again.
            ErrorKind::PermissionDenied | ErrorKind::ReadOnlyFilesystem => {
                format!("{nothing}. Who runs this command must be able to write the card's folder and its files.")
            }
            ErrorKind::IsADirectory | ErrorKind::NotADirectory | ErrorKind::NotFound => {
                format!("{nothing}. `havdrims check` looks at the card's files.")
            }
            _ => format!("{nothing}; repeat the command."),
        };
        Failure::fault(self.folder, format!("{fault}\n{remedy}"))
    }

    /// A refusal with the numbers that it is about, and what may be the cause.
    fn refused(&self, refusal: Refusal, so_far: Option<&SoFar>) -> Failure {
        let (Ok(log), Some(so_far)) = (Log::new(&self.bytes), so_far) else {
            let says = wrong::named(refusal, wrong::log(&self.bytes));
            return Failure::fault(self.path, format!("{says}\n{}{UNCHANGED}", self.too_long()));
        };
        let (has, seen) = (counted(log.len(), "record", "records"), so_far.first.record + so_far.status.seen);
        let (says, hint) = match refusal {
            Refusal::PointClosed => {
                let says = numbered("the card is closed: it takes no further records", refusal);
                let next =
                    if seen < MOST_RECORDS as u64 { self.next_card() } else { with_the_next_log(self.folder) + " " };
                return Failure::fault(self.folder, format!("{says}\n{next}{UNCHANGED}"));
            }
            Refusal::FewerRecords => (format!("the log has {has}, and the card has seen {seen}"), OLDER.to_string()),
            Refusal::MoreRecords => {
                (format!("the log has {has}, and the card was closed with {seen}"), self.next_card())
            }
            Refusal::TimeFalls => falls(&log, so_far),
            Refusal::OtherVersion => (other_version(&log), ANOTHER_CARD.to_string()),
            Refusal::TrimVersion => {
                ("a log of version 1 cannot be trimmed".to_string(), "Logs of version 2 and 3 can be. ".to_string())
            }
            Refusal::RecordDropped => {
                let (dropped, wanted) = (wrong::dropped(&log), so_far.wanted());
                (format!("{dropped}, and the card still wants record {wanted}"), TRIMMED.to_string())
            }
            _ => return Failure::fault(self.path, format!("{refusal}\n{UNCHANGED}")),
        };
        Failure::fault(self.path, format!("{}\n{hint}{UNCHANGED}", numbered(&says, refusal)))
    }

    /// How the card behind a closed one is made.
    fn next_card(&self) -> String {
        let folder = self.folder.trim_end_matches('/');
        let (rule, old) = (quoted(&format!("{folder}/{RULE}")), quoted(folder));
        format!("`havdrims new NEW {rule} --after {old}` makes the next card, with the same rule. ")
    }

    /// What can be done with a log that has more records than a log may have.
    fn too_long(&self) -> String {
        let divided = |bytes| format!("Its {}", divided(bytes, "that a log may have"));
        wrong::longest(&self.bytes).map_or(String::new(), divided)
    }
}

/// How a log is divided behind this many bytes, with its last record there.
fn divided(bytes: usize, last: &str) -> String {
    format!(
        "first {bytes} bytes end with the last record {last}: close the card with these, and begin\n\
         a new log and a new card with what follows. "
    )
}

/// How the card of the next log is made, where the one that this card has seen is full.
pub fn with_the_next_log(folder: &str) -> String {
    let rule = quoted(&format!("{}/{RULE}", folder.trim_end_matches('/')));
    format!("The kiosk begins a new log, and `havdrims new NEW {rule}` makes the card for it.")
}

const OLDER: &str = "\
Is it an older copy of the log, only a part of it, or another kiosk's? The whole log is wanted, old records too.
A log that the kiosk has begun anew needs a card of its own, made without --after and --from. ";
const OTHER: &str = "\
Is this the log of another kiosk? Were more records overwritten than the last evening named? Was the card put back from
an older copy? Behind records that are gone for good `havdrims new --from` begins a new card. ";
const ANOTHER_CARD: &str =
    "A card keeps to the version of its first log, 2 and 3 counting as one; another needs a card of its own. ";
const TRIMMED: &str = "\
Was it trimmed for another card, or was this card put back from an older copy? The log before it was trimmed can still be
brought. ";

/// The first record that comes too early, and what may be the cause. Where all times in the log rise it is the first new one.
fn falls(log: &Log<'_>, so_far: &SoFar) -> (String, String) {
    let from = so_far.released().max(so_far.first.record) as usize;
    let fall = wrong::fall(log, from);
    if let Some(header) = fall.and_then(|fall| Header::among(log, from..fall.record + 1)) {
        return (header.says(), header.hint());
    }
    let new = so_far.first.record + so_far.status.seen;
    let early = || format!("record {new}, the first new one, comes before the last one that the card has seen");
    let question = match fall.is_some_and(|fall| fall.is_again(log)) {
        true => "Is this the log of another kiosk, did its clock begin anew, or were records added twice?",
        false => "Is this the log of another kiosk, or did its clock begin anew?",
    };
    // What the card has seen is not divided.
    let hint = match fall.filter(|fall| fall.record as u64 >= new) {
        Some(fall) => format!("\nIf the clock did, the log's {}", divided(fall.bytes_before(log), "before that")),
        None => " ".to_string(),
    };
    (fall.map_or_else(early, |fall| fall.says()), format!("{question}{hint}"))
}

fn other_version(log: &Log<'_>) -> String {
    match log.version() {
        1 => "the log is of version 1, and the card's first one was of version 2 or 3".to_string(),
        version => format!("the log is of version {version}, and the card's first one was of version 1"),
    }
}
