//! A card: the folder of one kiosk, with its rule, its checkpoint and its sheet.
//!
//! A verdict that was given once cannot be had again, since its record may be overwritten. So the verdicts of an evening
//! go first into the sheet, behind those that the saved checkpoint counts, and are synced; and so is a row of checksums
//! ([`crate::evenings`]) by which the next evening knows the log again. Then the checkpoint that counts them is written to a second file, synced, and renamed over the first; then the folder is synced. Only then is
//! it said which records may be overwritten. A run that is cut before leaves the checkpoint as it was, and is repeated
//! from there: it writes the same bytes again.

use crate::disk::{Disk, Lock};
use crate::evenings::{bound_to, rows, Known, Row, ROW};
use crate::followed::{Followed, Follower};
use crate::letters::Letters;
use crate::parts::{counted, records, verdicts};
use havdrims::save::{checksum, checksum_from, Saved, Unreadable};
use havdrims::{close, measure, open, resume, status, summary, tally, trim, Log, Refusal, Status, Summary, Tally};
use std::borrow::Cow;
use std::fmt;
use std::io::{self, ErrorKind};

/// The card's number in a line of text, and where it begins in another. A command locks this file.
pub const CARD: &str = "card.txt";
/// The rule, a .krl file.
pub const RULE: &str = "rule.krl";
/// The verdicts, a byte each, with a bit for each formula of the rule.
pub const SHEET: &str = "sheet";
/// A row of numbers for each evening: how far the card had come, and checksums of verdicts and records.
pub const EVENINGS: &str = "evenings";
/// The checkpoint, with the sheet's length and a checksum.
pub const POINT: &str = "point";
/// The checkpoint to be, until it is renamed.
pub const NEW_POINT: &str = "point.new";
/// The names of letters, if there are any.
pub const LETTERS: &str = "letters";
/// The names to be, until they are renamed.
pub const NEW_LETTERS: &str = "letters.new";
/// The cards that go on from this one, if there are any.
pub const FOLLOWED: &str = "followed";
/// The same with one more, until it is renamed.
pub const NEW_FOLLOWED: &str = "followed.new";

const OWN: [&str; 10] = [CARD, RULE, SHEET, EVENINGS, POINT, NEW_POINT, LETTERS, NEW_LETTERS, FOLLOWED, NEW_FOLLOWED];

/// Whether a folder with these names is a card, a damaged one or one that is being made included.
pub fn is_card(names: &[String]) -> bool {
    names.iter().any(|name| name == CARD || name == POINT)
}

/// The verdicts that one call may give. An evening makes as many calls as it needs.
const ROOM: usize = 65_536;

/// Why a command did not do what it was asked for.
#[derive(Debug)]
pub enum Fault {
    NoCard,
    Unfinished,
    /// A card whose making was cut was to begin at this record, another than is asked for.
    OtherBeginning(First),
    AlreadyThere,
    NotEmpty,
    InUse,
    /// The file of this name is not there.
    Missing(&'static str),
    CardDamaged,
    /// There is no checkpoint, but a sheet with verdicts, which no `new` leaves that was cut.
    PointMissing {
        has: u64,
    },
    PointUnreadable(Unreadable),
    PointOfAnotherCard,
    /// The library does not take the checkpoint, though the rule is that of the card.
    PointRefused(Refusal),
    /// The checkpoint's words count other verdicts than the file that holds them.
    PointCounts {
        given: u64,
        words: u64,
    },
    /// The file counts more service records than its words leave room for.
    PointServices {
        services: u64,
        others: u64,
    },
    AnotherRule,
    SheetShort {
        given: u64,
        has: u64,
    },
    SheetDamaged,
    /// No row that is whole is that of the checkpoint.
    EveningsDamaged,
    LettersDamaged,
    /// Other cards go on from this one, and the log is theirs.
    Followed(Followed),
    FollowedDamaged,
    /// The records from the first wanted one to the last seen are others than the card has seen.
    OtherRecords {
        from: u64,
        to: u64,
    },
    /// The log ends before the card's first record.
    LogBefore {
        has: usize,
        first: u64,
    },
    /// The log has fewer records than the card whose place this one takes has seen.
    LogShort {
        has: u64,
        seen: u64,
    },
    /// The card is of an earlier program: the number of its first wanted position is known with its next evening.
    PositionUnknown,
    /// The log has more positions than it can have if its open records are those of the evenings before.
    LogAltered,
    Refused(Refusal),
    /// An operation failed before the checkpoint was replaced: no further verdict counts.
    Disk {
        doing: &'static str,
        fault: io::Error,
    },
    /// The checkpoint may be replaced or not, and may not survive a cut.
    Unsure {
        doing: &'static str,
        fault: io::Error,
    },
    /// The card is made, but it may not survive a cut.
    MadeUnsure(io::Error),
}

impl fmt::Display for Fault {
    fn fmt(&self, f: &mut fmt::Formatter<'_>) -> fmt::Result {
        match self {
            Fault::NoCard => write!(f, "no card is here; `havdrims new` makes one"),
            Fault::Unfinished => {
                write!(f, "making this card was cut short; make it again by `havdrims new` with the same words")
            }
            Fault::OtherBeginning(First { record, .. }) => {
                write!(f, "making this card was cut short, and it was to begin at record {record}; ")?;
                write!(f, "make it again with the same words, or take this folder away")
            }
            Fault::AlreadyThere => write!(f, "a card is here already"),
            Fault::NotEmpty => write!(f, "this folder holds other files"),
            Fault::InUse => write!(f, "another command is at work on this card; try again when it has ended"),
            Fault::Missing(name) => write!(f, "the file `{name}` is missing"),
            Fault::CardDamaged => write!(f, "the file `card.txt` is damaged: it does not hold the card's number"),
            Fault::PointMissing { has } => {
                write!(f, "the file `point` is missing, but the sheet has {}", verdicts(*has))
            }
            Fault::PointUnreadable(why) => match why {
                Unreadable::Foreign => write!(f, "the file `point` is not that of a card"),
                Unreadable::Version => write!(f, "the file `point` is of another version of this program"),
                Unreadable::Damaged => write!(f, "the file `point` is damaged: its checksum does not fit"),
            },
            Fault::PointOfAnotherCard => {
                write!(f, "the files `card.txt` and `point` are of two cards, or one is damaged")
            }
            Fault::PointRefused(refusal @ Refusal::ForeignPoint) => {
                write!(f, "the file `point` is of another library's format (refused {})", refusal.number())
            }
            Fault::PointRefused(refusal) => {
                write!(f, "the file `point` holds what this library never writes (refused {})", refusal.number())
            }
            Fault::PointCounts { given, words } => {
                write!(f, "the file `point` is damaged: it says {}, its words {words}", verdicts(*given))
            }
            Fault::PointServices { services, others } => {
                let (services, have) = (
                    counted(*services as usize, "service record", "service records"),
                    counted(*others as usize, "record has", "records have"),
                );
                write!(f, "the file `point` is damaged: it says {services} where {have} no verdict")
            }
            Fault::AnotherRule => write!(f, "the file `rule.krl` is not the rule that this card was made for"),
            Fault::SheetShort { given, has } => {
                write!(
                    f,
                    "the file `sheet` has {}, but {} given",
                    verdicts(*has),
                    counted(*given as usize, "was", "were")
                )
            }
            Fault::SheetDamaged => write!(f, "the file `sheet` is damaged: its checksum does not fit"),
            Fault::EveningsDamaged => {
                write!(f, "the file `evenings` is damaged, or not of this card: it lacks the evening of the point")
            }
            Fault::LettersDamaged => {
                write!(f, "the file `letters` is damaged, or not of this card: ")?;
                write!(f, "`havdrims letters CARD FILE` writes it anew, from a file of names")
            }
            Fault::Followed(followed) => {
                let whom = if followed.cards().len() == 1 { "it" } else { "them" };
                write!(f, "{}: give the log to {whom}. With --both this card takes it too.", followed.says())
            }
            Fault::FollowedDamaged => {
                write!(
                    f,
                    "the file `followed` is damaged, or not of this card: it says which card goes on from this one. "
                )?;
                write!(f, "Give the log to that one; if there is none, take the file away")
            }
            Fault::OtherRecords { from, to } if from + 1 == *to => {
                write!(f, "record {from} is not the one that this card has seen")
            }
            Fault::OtherRecords { from, to } => {
                write!(f, "records {from} to {} are not those that this card has seen", to - 1)
            }
            Fault::LogBefore { has, first } => {
                write!(f, "the log has {}, and this card begins at record {first}", records(*has as u64))
            }
            Fault::LogShort { has, seen } => {
                write!(f, "the log has {}, and the card before this one has seen {seen}", records(*has))
            }
            Fault::PositionUnknown => {
                write!(f, "this card was made by an earlier program: run `havdrims evening` with it once more")
            }
            Fault::LogAltered => write!(f, "service records that may not be overwritten yet were altered"),
            Fault::Refused(refusal) => write!(f, "{refusal}"),
            Fault::Disk { doing, fault } => write!(f, "cannot {doing}: {fault}"),
            Fault::Unsure { doing, fault } => {
                write!(f, "cannot {doing}: {fault}; run the command again before any record is overwritten")
            }
            Fault::MadeUnsure(fault) => {
                write!(f, "cannot sync the folder: {fault}; the card is made, and the first `evening` syncs it")
            }
        }
    }
}

impl Fault {
    /// Whether the card's files do not fit together, so that there is more to say of each of them.
    pub fn is_damage(&self) -> bool {
        use Fault::*;
        matches!(
            self,
            Missing(_)
                | CardDamaged
                | PointMissing { .. }
                | PointUnreadable(_)
                | PointOfAnotherCard
                | PointRefused(_)
                | PointCounts { .. }
                | PointServices { .. }
                | AnotherRule
                | SheetShort { .. }
                | SheetDamaged
                | EveningsDamaged
        )
    }
}

/// The fault of an operation, with what it was for.
fn failed(doing: &'static str) -> impl Fn(io::Error) -> Fault {
    move |fault| Fault::Disk { doing, fault }
}

/// The fault of an operation after which the checkpoint may be another, with what it was for.
fn unsure(doing: &'static str) -> impl Fn(io::Error) -> Fault {
    move |fault| Fault::Unsure { doing, fault }
}

/// What the file `card.txt` holds.
#[derive(Clone, Copy, Debug, PartialEq, Eq)]
pub(crate) struct Label {
    pub(crate) number: u64,
    /// Where the card begins. None in a card of an earlier program, which begins with record 0 and may have no rows.
    pub(crate) first: Option<First>,
}

/// The first record of a card, and the number of its first position.
#[derive(Clone, Copy, Debug, Default, PartialEq, Eq)]
pub struct First {
    pub record: u64,
    pub position: u64,
}

/// Where a new card begins, and the records from there on that it knows from the card whose place it takes.
#[derive(Clone, Copy, Debug, PartialEq, Eq)]
pub struct Begins {
    pub first: First,
    pub open: Known,
    /// The checksum of the record before, where the other card left none open.
    pub before: Option<u64>,
}

impl From<First> for Begins {
    fn from(first: First) -> Begins {
        Begins { first, open: Known::none(), before: None }
    }
}

impl Label {
    fn encode(&self) -> String {
        let begins = |First { record, position }| format!("begins at record {record}, position {position}\n");
        format!("havdrims card {:016x}\n{}", self.number, self.first.map_or(String::new(), begins))
    }

    pub(crate) fn decode(bytes: &[u8]) -> Option<Label> {
        let (line, begins) = std::str::from_utf8(bytes).ok()?.split_once('\n')?;
        let number = u64::from_str_radix(line.strip_prefix("havdrims card ")?, 16).ok()?;
        let first = match begins {
            "" => None,
            begins => {
                let (record, position) =
                    begins.strip_prefix("begins at record ")?.trim_end().split_once(", position ")?;
                Some(First { record: record.parse().ok()?, position: position.parse().ok()? })
            }
        };
        let label = Label { number, first };
        (label.encode().as_bytes() == bytes).then_some(label)
    }
}

/// Makes a card for a rule, which begins at this place of its log. If it was cut, it may be made again.
pub fn new(disk: &mut impl Disk, number: u64, begins: Begins, rule: &[u8], letters: &Letters) -> Result<(), Fault> {
    let mut words = vec![0; measure(rule).map_err(Fault::Refused)?.words];
    open(rule, &mut words).map_err(Fault::Refused)?;
    if !may_be_made(disk)? {
        match disk.make_folder() {
            // Another `new` was faster: it has the lock, or has ended.
            Err(fault) if fault.kind() == ErrorKind::AlreadyExists => {}
            made => made.map_err(failed("make the folder"))?,
        }
    }
    take(disk, Lock::Making)?;
    may_be_made(disk)?;
    no_verdicts(disk)?;
    same_beginning(disk, begins.first)?;
    let label = Label { number, first: Some(begins.first) }.encode();
    let bound = bound_to(label.as_bytes(), rule);
    let row = Row::first(begins.open, begins.before).encode(bound);
    let names = letters.encode(bound);
    let mut files = vec![(CARD, label.as_bytes()), (RULE, rule), (SHEET, b""), (EVENINGS, &row)];
    match letters.is_empty() {
        false => files.push((LETTERS, &names)),
        // A `new` that was cut may have had others.
        true => remove_if_there(disk, LETTERS)?,
    }
    for (name, bytes) in files {
        disk.write(name, 0, bytes).map_err(failed("write the card's files"))?;
        disk.sync(name).map_err(failed("sync the card's files"))?;
    }
    // The names of these files, and the folder's own, before that of the checkpoint, with which the card begins.
    disk.sync_folder().map_err(failed("sync the folder"))?;
    disk.sync_parent().map_err(failed("sync the folder above"))?;
    let saved = Saved { owner: number, rule: checksum(rule), given: 0, sheet: checksum(b""), services: 0, words };
    write_point(disk, &saved)?;
    disk.rename(NEW_POINT, POINT).map_err(failed("put the point in its place"))?;
    disk.sync_folder().map_err(Fault::MadeUnsure)
}

/// Whether the folder is there: with nothing in it, or with what a `new` that was cut may have left.
fn may_be_made(disk: &mut impl Disk) -> Result<bool, Fault> {
    let Some(names) = disk.names().map_err(failed("read the folder"))? else { return Ok(false) };
    if names.iter().any(|name| name == POINT) {
        return Err(Fault::AlreadyThere);
    }
    if names.iter().any(|name| !OWN.contains(&name.as_str())) {
        return Err(Fault::NotEmpty);
    }
    Ok(true)
}

fn remove_if_there(disk: &mut impl Disk, name: &str) -> Result<(), Fault> {
    let names = disk.names().map_err(failed("read the folder"))?.unwrap_or_default();
    if names.iter().any(|there| there == name) {
        disk.remove(name).map_err(failed("take away the names of letters"))?;
    }
    Ok(())
}

/// A folder without a checkpoint: if there are verdicts, it is no `new` that was cut. The folder is taken already.
fn no_verdicts(disk: &mut impl Disk) -> Result<(), Fault> {
    match disk.read(SHEET) {
        Err(fault) if fault.kind() == ErrorKind::NotFound => Ok(()),
        Ok(sheet) if sheet.is_empty() => Ok(()),
        sheet => Err(Fault::PointMissing { has: sheet.map_err(failed("read the file `sheet`"))?.len() as u64 }),
    }
}

/// A `new` that was cut is made again as it was: one without its `--after` would read what may have been overwritten. Of a line that
/// was cut nothing is known. The folder is taken already.
fn same_beginning(disk: &mut impl Disk, first: First) -> Result<(), Fault> {
    let line = disk.read(CARD).map_err(failed("read the file `card.txt`"))?;
    match Label::decode(&line).and_then(|label| label.first).filter(|&was| was != first) {
        Some(was) => Err(Fault::OtherBeginning(was)),
        None => Ok(()),
    }
}

/// What is to be said of a folder with `card.txt` and without a checkpoint. While that file is empty no card was begun:
/// a `new` may have made it and not yet locked it.
fn without_point(disk: &mut impl Disk) -> Result<Fault, Fault> {
    no_verdicts(disk)?;
    let line = disk.read(CARD).map_err(failed("read the file `card.txt`"))?;
    Ok(if line.is_empty() { Fault::NoCard } else { Fault::Unfinished })
}

fn take(disk: &mut impl Disk, lock: Lock) -> Result<(), Fault> {
    let taken = disk.lock(CARD, lock).map_err(failed("lock the card"))?;
    taken.then_some(()).ok_or(Fault::InUse)
}

/// Writes a checkpoint beside the one that is there.
fn write_point(disk: &mut impl Disk, saved: &Saved) -> Result<(), Fault> {
    disk.write(NEW_POINT, 0, &saved.encode()).map_err(failed("write the point"))?;
    disk.sync(NEW_POINT).map_err(failed("sync the point"))
}

/// Whether `card.txt` and `point` are there.
fn has_files(disk: &mut impl Disk) -> Result<(bool, bool), Fault> {
    let names = disk.names().map_err(failed("read the folder"))?.unwrap_or_default();
    let has = |name: &str| names.iter().any(|n| n == name);
    Ok((has(CARD), has(POINT)))
}

/// The rows of the card, as they are, if there are any.
fn read_evenings(disk: &mut impl Disk) -> Result<Option<Vec<u8>>, Fault> {
    match disk.read(EVENINGS) {
        Err(fault) if fault.kind() == ErrorKind::NotFound => Ok(None),
        read => read.map(Some).map_err(failed("read the file `evenings`")),
    }
}

/// The cards that go on from the one that is bound to this.
fn read_followed(disk: &mut impl Disk, bound: u64) -> Result<Followed, Fault> {
    match disk.read(FOLLOWED) {
        Err(fault) if fault.kind() == ErrorKind::NotFound => Ok(Followed::default()),
        read => {
            let bytes = read.map_err(failed("read the file `followed`"))?;
            Followed::decode(&bytes, bound).ok_or(Fault::FollowedDamaged)
        }
    }
}

/// What the files of a card, which may be damaged, are bound to.
fn bound_of(disk: &mut impl Disk) -> Result<u64, Fault> {
    let card = disk.read(CARD).map_err(failed("read the file `card.txt`"))?;
    Ok(bound_to(&card, &disk.read(RULE).map_err(failed("read the file `rule.krl`"))?))
}

/// The cards that go on from a card, which may be damaged otherwise.
pub fn followed(disk: &mut impl Disk) -> Result<Followed, Fault> {
    let bound = bound_of(disk)?;
    read_followed(disk, bound)
}

/// Writes down in a card, which may be damaged, that another goes on from it. A cut leaves the file as it was, or with that one in it.
pub fn follow(disk: &mut impl Disk, follower: Follower) -> Result<(), Fault> {
    let doing = "write the file `followed`";
    take(disk, Lock::Alone)?;
    let bound = bound_of(disk)?;
    let bytes = read_followed(disk, bound)?.with(follower).encode(bound);
    let written = disk.write(NEW_FOLLOWED, 0, &bytes).and_then(|()| disk.sync(NEW_FOLLOWED));
    if written.is_err() {
        let _ = disk.remove(NEW_FOLLOWED);
        return written.map_err(failed(doing));
    }
    disk.rename(NEW_FOLLOWED, FOLLOWED).map_err(failed(doing))?;
    disk.sync_folder().map_err(failed("sync the folder"))
}

/// The last row of which this holds, and which it is.
fn last(rows: &[Option<Row>], holds: impl Fn(&Row) -> bool) -> Option<(usize, Row)> {
    rows.iter().copied().enumerate().rev().find_map(|(at, row)| row.filter(&holds).map(|row| (at, row)))
}

/// A card whose files fit together.
pub struct Card<'a, D: Disk> {
    disk: &'a mut D,
    number: u64,
    /// What its rows are bound to.
    bound: u64,
    /// Which row is that of the checkpoint. None in a card of an earlier program.
    row: Option<(usize, Row)>,
    rule: Vec<u8>,
    words: Vec<u64>,
    /// The verdicts that the checkpoint counts.
    verdicts: Vec<u8>,
    pub so_far: SoFar,
}

/// What one evening, or a closing, gave.
#[derive(Clone, Copy, Debug, PartialEq, Eq)]
pub struct Evening {
    /// The first position that got a verdict, if any did.
    pub first: u64,
    /// How many positions got one.
    pub new: u64,
    /// Their yes and no, formula by formula.
    pub counts: Tally,
    /// The records that were new.
    pub new_records: u64,
    /// The service records among them.
    pub passed_over: u64,
    /// The card, of an earlier program, could not tell whether the log is its own. From now on it can.
    pub unknown: bool,
    pub so_far: SoFar,
}

/// All evenings together.
#[derive(Clone, Copy, Debug, PartialEq, Eq)]
pub struct SoFar {
    pub summary: Summary,
    pub status: Status,
    /// The service records among the records seen.
    pub services: u64,
    /// Where the card begins: all other numbers here count from there.
    pub first: First,
}

impl SoFar {
    /// The first record still wanted, by its number in the log.
    pub fn wanted(&self) -> u64 {
        self.first.record + self.status.wanted
    }

    /// The records before this one may be overwritten. Of a card that has seen nothing yet the one before its first is kept: it may
    /// be all that is known of the log.
    pub fn released(&self) -> u64 {
        let behind = self.first.record + self.status.seen;
        self.wanted().min(behind.saturating_sub(1))
    }

    /// The positions of the records seen.
    pub fn positions(&self) -> u64 {
        self.status.seen - self.services
    }

    /// The positions that have no verdict yet.
    pub fn open(&self) -> u64 {
        self.positions() - self.status.given
    }
}

/// From which record on a card wants its log as it is: all that are still wanted, and the last one seen in any case, so that the next
/// log can be told from another kiosk's. So it is after a closing: the log may be brought to be closed again, or to be trimmed.
fn kept_from(status: &Status) -> u64 {
    status.wanted.min(status.seen.saturating_sub(1))
}

/// What the calls of an evening come to, before any of it is written.
struct Ahead {
    words: Vec<u64>,
    new: Vec<u8>,
    passed_over: u64,
    so_far: SoFar,
    row: Row,
}

impl<'a, D: Disk> Card<'a, D> {
    /// Takes a card, alone or beside others that only read it, and looks whether its files fit together.
    pub fn open(disk: &'a mut D, alone: bool) -> Result<Card<'a, D>, Fault> {
        let mut has = has_files(disk)?;
        if has.0 {
            // Looked at again when it is taken: a `new` may have been at work.
            take(disk, if alone { Lock::Alone } else { Lock::Shared })?;
            has = has_files(disk)?;
        }
        match has {
            (false, false) => return Err(Fault::NoCard),
            (true, false) => return Err(without_point(disk)?),
            (false, true) => return Err(Fault::Missing(CARD)),
            (true, true) => {}
        }
        let mut read = |name, doing| match disk.read(name) {
            Err(fault) if fault.kind() == ErrorKind::NotFound => Err(Fault::Missing(name)),
            read => read.map_err(failed(doing)),
        };
        let card = read(CARD, "read the file `card.txt`")?;
        let Label { number, first } = Label::decode(&card).ok_or(Fault::CardDamaged)?;
        let saved = Saved::decode(&read(POINT, "read the file `point`")?).map_err(Fault::PointUnreadable)?;
        let rule = read(RULE, "read the file `rule.krl`")?;
        let mut verdicts = read(SHEET, "read the file `sheet`")?;
        if saved.owner != number {
            return Err(Fault::PointOfAnotherCard);
        }
        if saved.rule != checksum(&rule) {
            return Err(Fault::AnotherRule);
        }
        if saved.given > verdicts.len() as u64 {
            return Err(Fault::SheetShort { given: saved.given, has: verdicts.len() as u64 });
        }
        // What stands behind was written by a run that was cut, and does not count.
        verdicts.truncate(saved.given as usize);
        if saved.sheet != checksum(&verdicts) {
            return Err(Fault::SheetDamaged);
        }
        let summary = summary(&rule, &saved.words).map_err(Fault::PointRefused)?;
        let status = status(&rule, &saved.words).map_err(Fault::PointRefused)?;
        if saved.given != status.given {
            return Err(Fault::PointCounts { given: saved.given, words: status.given });
        }
        let others = status.seen - status.given;
        if saved.services > others {
            return Err(Fault::PointServices { services: saved.services, others });
        }
        let so_far = SoFar { summary, status, services: saved.services, first: first.unwrap_or_default() };
        let bound = bound_to(&card, &rule);
        let all = read_evenings(disk)?;
        let fits = |row: &Row| (row.status, row.sheet, row.services) == (status, saved.sheet, saved.services);
        let row = all.as_ref().and_then(|all| last(&rows(all, bound), fits));
        match (row, &all, first) {
            (None, None, Some(_)) => return Err(Fault::Missing(EVENINGS)),
            (None, Some(_), Some(_)) => return Err(Fault::EveningsDamaged),
            _ => {}
        }
        Ok(Card { disk, number, bound, row, rule, words: saved.words, verdicts, so_far })
    }

    pub fn verdicts(&self) -> &[u8] {
        &self.verdicts
    }

    /// The number of formulas of the card's rule: so many answers has a verdict.
    pub fn formulas(&self) -> usize {
        self.so_far.summary.no().len()
    }

    pub fn rule(&self) -> &[u8] {
        &self.rule
    }

    /// The names of its letters: none where it has no such file.
    pub fn letters(&mut self) -> Result<Letters, Fault> {
        match self.disk.read(LETTERS) {
            Err(fault) if fault.kind() == ErrorKind::NotFound => Ok(Letters::default()),
            read => {
                let bytes = read.map_err(failed("read the file `letters`"))?;
                Letters::decode(&bytes, self.bound).ok_or(Fault::LettersDamaged)
            }
        }
    }

    /// The cards that go on from this one.
    pub fn followed(&mut self) -> Result<Followed, Fault> {
        read_followed(self.disk, self.bound)
    }

    /// Gives its letters these names, in place of others. When this returns, they survive a cut.
    pub fn name_letters(&mut self, letters: &Letters) -> Result<(), Fault> {
        let doing = "write the file `letters`";
        let bytes = letters.encode(self.bound);
        let written = self.disk.write(NEW_LETTERS, 0, &bytes).and_then(|()| self.disk.sync(NEW_LETTERS));
        if written.is_err() {
            let _ = self.disk.remove(NEW_LETTERS);
            return written.map_err(failed(doing));
        }
        self.disk.rename(NEW_LETTERS, LETTERS).map_err(unsure(doing))?;
        self.disk.sync_folder().map_err(unsure("sync the folder"))
    }

    /// Where a card goes on that takes the place of this one: at its first record still wanted.
    pub fn after(&self) -> Result<Begins, Fault> {
        let SoFar { status, services, first, .. } = self.so_far;
        let (position, open, before) = match self.row {
            Some((_, row)) => (row.position, row.wanted(), row.before_wanted()),
            None if services == 0 => (status.wanted, Known::none(), None),
            None => return Err(Fault::PositionUnknown),
        };
        let first = First { record: first.record + status.wanted, position: first.position + position };
        Ok(Begins { first, open, before })
    }

    /// The log from the card's first record on.
    pub fn own_part<'l>(&self, log: &'l [u8]) -> Result<Cow<'l, [u8]>, Fault> {
        let first = self.so_far.first.record;
        if first == 0 {
            return Ok(Cow::Borrowed(log));
        }
        let whole = Log::new(log).map_err(Fault::Refused)?;
        let before = || Fault::LogBefore { has: whole.len(), first };
        let from = usize::try_from(first).ok().filter(|&first| first <= whole.len()).ok_or_else(before)?;
        let kept = whole.record_bytes(from.max(whole.dropped())..whole.len()).ok_or_else(before)?;
        let dropped = (whole.dropped().saturating_sub(from) as u64).to_be_bytes();
        let dropped = if whole.version() == 3 { &dropped[..] } else { &[] };
        Ok(Cow::Owned([&log[..8], dropped, kept].concat()))
    }

    /// The part of a log that this card has seen, if the log is its own. What was released in it may be overwritten or dropped.
    pub fn seen_part(&self, log: &[u8]) -> Result<Vec<u8>, Fault> {
        let own = self.own_part(log)?;
        let parsed = Log::new(&own).map_err(Fault::Refused)?;
        let new = parsed.len().saturating_sub(self.so_far.status.seen as usize);
        if parsed.dropped() + new > parsed.len() {
            return Err(Fault::Refused(Refusal::RecordDropped));
        }
        let seen = &own[..own.len() - 8 * new];
        self.of_this_log(log, &own, self.calls(self.so_far.status.closed, seen))?;
        Ok(seen.to_vec())
    }

    /// The rows of its evenings up to that of the checkpoint, with nothing in the place of one that is damaged.
    pub fn evenings(&mut self) -> Result<Vec<Option<Row>>, Fault> {
        let count = self.row.map_or(0, |(at, _)| at + 1);
        let bytes = read_evenings(self.disk)?.unwrap_or_default();
        Ok(rows(&bytes, self.bound).into_iter().take(count).collect())
    }

    /// How far an evening with this log would come. Nothing is changed.
    pub fn look(&self, log: &[u8]) -> Result<SoFar, Fault> {
        Ok(self.ahead(false, log)?.so_far)
    }

    /// Whether the log has the records that are still wanted as they were seen: else it is that of another kiosk, or the card is an
    /// older one than the log. One that has dropped some of them is refused by the library.
    fn knows(&self, log: &[u8]) -> Result<(), Fault> {
        let (Some((_, row)), Ok(log)) = (self.row, Log::new(log)) else { return Ok(()) };
        let (from, to) = row.compared();
        let first = self.so_far.first.record;
        match Known::of(&log, from, to) {
            Some(known) if known != row.open => Err(Fault::OtherRecords { from: first + from, to: first + to }),
            // Of a card that has seen nothing itself: the library cannot miss them.
            None if (log.len() as u64) < to => Err(Fault::LogShort { has: first + log.len() as u64, seen: first + to }),
            _ => Ok(()),
        }
    }

    /// The same of the record before the card's first one, where that alone is known.
    fn follows(&self, whole: &[u8]) -> Result<(), Fault> {
        let (Some((_, row)), Ok(log)) = (self.row, Log::new(whole)) else { return Ok(()) };
        let to = self.so_far.first.record;
        let (Some(before), Some(from)) = (row.before(), to.checked_sub(1)) else { return Ok(()) };
        match Known::of(&log, from, to) {
            Some(known) if known.sum != before => Err(Fault::OtherRecords { from, to }),
            _ => Ok(()),
        }
    }

    /// The records that the next log must have. A log that the library itself has trimmed lacks the last one seen where that is no
    /// longer wanted: then none.
    fn known(&self, log: &Log<'_>, status: &Status) -> Known {
        Known::of(log, kept_from(status), status.seen).unwrap_or(Known::none())
    }

    /// What the library gave for the card's part of this log, if it is that of the card. What is wrong with the log as a whole comes
    /// first.
    fn of_this_log<T>(&self, whole: &[u8], own: &[u8], given: Result<T, Refusal>) -> Result<T, Fault> {
        if matches!(given, Ok(_) | Err(Refusal::TimeFalls | Refusal::PointRange)) {
            self.follows(whole)?;
            self.knows(own)?;
        }
        given.map_err(Fault::Refused)
    }

    /// The calls with this log, or closings, until caught up: the checkpoint after them, and the verdicts.
    fn calls(&self, closing: bool, log: &[u8]) -> Result<(Vec<u64>, Vec<u8>), Refusal> {
        let call = if closing { close } else { resume };
        let mut words = self.words.clone();
        let mut new = Vec::new();
        loop {
            let from = new.len();
            new.resize(from + ROOM, 0);
            let given = call(&self.rule, log, &mut words, &mut new[from..])?;
            new.truncate(from + given.verdicts);
            if !given.more {
                return Ok((words, new));
            }
        }
    }

    /// What an evening with this log, or a closing, comes to. Nothing is changed.
    fn ahead(&self, closing: bool, log: &[u8]) -> Result<Ahead, Fault> {
        let own = &self.own_part(log)?;
        let (words, new) = self.of_this_log(log, own, self.calls(closing, own))?;
        let summary = summary(&self.rule, &words).map_err(Fault::Refused)?;
        let status = status(&self.rule, &words).map_err(Fault::Refused)?;
        // Only the new records: those seen before were counted, and may be overwritten.
        let log = Log::new(own).map_err(Fault::Refused)?;
        let seen = self.so_far.status.seen;
        let passed_over = log.services(seen as usize) as u64;
        let services = self.so_far.services + passed_over;
        let so_far = SoFar { summary, status, services, first: self.so_far.first };
        if services > status.seen - status.given {
            return Err(Fault::LogAltered);
        }
        let records = Known::of(&log, seen, status.seen).ok_or(Fault::LogAltered)?.sum;
        // Closed before it has seen anything, it still knows the record before its first one.
        let before = self.row.and_then(|(_, row)| row.before()).filter(|_| status.seen == 0);
        let wanted = status.seen - status.wanted - log.services(status.wanted as usize) as u64;
        let row = Row {
            status,
            sheet: checksum_from(checksum(&self.verdicts), &new),
            services,
            // Below zero where a card of an earlier program counted services that the log no longer has.
            position: so_far.positions().checked_sub(wanted).ok_or(Fault::LogAltered)?,
            open: self.known(&log, &status),
            new: before.unwrap_or(records),
        };
        Ok(Ahead { words, new, passed_over, so_far, row })
    }

    /// Carries on with the log as far as it goes, or closes it, until caught up. When this returns, the verdicts and the
    /// checkpoint survive a cut.
    pub fn carry_on(&mut self, closing: bool, log: &[u8]) -> Result<Evening, Fault> {
        let Ahead { words, new, passed_over, so_far, row } = self.ahead(closing, log)?;
        let counts = tally(&new, self.formulas()).map_err(Fault::Refused)?;
        let first = self.verdicts.len() as u64;
        let unknown = self.row.is_none();
        let new_records = so_far.status.seen - self.so_far.status.seen;
        self.save(&new, words, row)?;
        self.so_far = so_far;
        Ok(Evening { first, new: new.len() as u64, counts, new_records, passed_over, unknown, so_far })
    }

    /// What is left of the log without the records that were released. When this returns, the card survives a cut: a checkpoint
    /// that came back after one might want what is dropped here. The point may be of a run that was killed before it could sync,
    /// or the card a copy.
    pub fn trim(&mut self, log: &[u8]) -> Result<Vec<u8>, Fault> {
        let own = &self.own_part(log)?;
        let mut left = vec![0; own.len() + 8];
        let length = self.of_this_log(log, own, trim(&self.rule, own, &self.words, &mut left))?;
        left.truncate(length);
        let (dropped, kept) = self.kept_back(&Log::new(log).map_err(Fault::Refused)?);
        left.splice(16..16, kept.iter().copied());
        left[8..16].copy_from_slice(&dropped.to_be_bytes());
        let evenings = self.row.map(|_| EVENINGS);
        for name in [CARD, RULE, SHEET].into_iter().chain(evenings).chain([POINT]) {
            self.disk.sync(name).map_err(failed("sync the card's files"))?;
        }
        self.disk.sync_folder().map_err(failed("sync the folder"))?;
        Ok(left)
    }

    /// How many records of the log are dropped, by its own numbers, and those before the first wanted one that are not: the one to
    /// know the log by, where the log has it still.
    fn kept_back<'l>(&self, log: &Log<'l>) -> (u64, &'l [u8]) {
        let (released, wanted) = (self.so_far.released(), self.so_far.wanted());
        match log.record_bytes(released as usize..wanted as usize) {
            Some(kept) => (released, kept),
            None => (wanted, &[]),
        }
    }

    /// Saves further verdicts, the evening's row, and the checkpoint that counts them. It does so too where nothing is new: what
    /// is there may be of a run that was killed before it could sync.
    fn save(&mut self, new: &[u8], words: Vec<u64>, row: Row) -> Result<(), Fault> {
        let before = self.verdicts.len();
        self.verdicts.extend(new);
        let Row { sheet, services, status: Status { given, .. }, .. } = row;
        let saved = Saved { owner: self.number, rule: checksum(&self.rule), given, sheet, services, words };
        let (at, row) = self.placed(row);
        let written = write_sheet(self.disk, before as u64, new)
            .and_then(|()| write_row(self.disk, at, &row.encode(self.bound)))
            .and_then(|()| write_point(self.disk, &saved));
        if written.is_err() {
            // The checkpoint is as it was. What was written besides does not count, and is taken away if that can be.
            self.verdicts.truncate(before);
            let _ = self.disk.write(SHEET, before as u64, b"");
            let _ = match self.row {
                Some((at, _)) => self.disk.write(EVENINGS, row_start(at + 1), b""),
                None => self.disk.remove(EVENINGS),
            };
            let _ = self.disk.remove(NEW_POINT);
            return written;
        }
        // From here on nothing is taken away: an operation may do its work and fail all the same.
        self.words = saved.words;
        self.row = Some((at, row));
        self.disk.rename(NEW_POINT, POINT).map_err(unsure("replace the point"))?;
        self.disk.sync_folder().map_err(unsure("sync the folder"))
    }

    /// Which row is that of an evening, and where it goes: behind that of the checkpoint, or, where it has seen and given nothing
    /// new, that one again.
    fn placed(&self, row: Row) -> (usize, Row) {
        match self.row {
            None => (0, row),
            Some((at, last)) if last.status == row.status => (at, last),
            Some((at, _)) => (at + 1, row),
        }
    }
}

/// The byte with which a row begins.
fn row_start(at: usize) -> u64 {
    (at * ROW) as u64
}

/// Writes a row in this place, and none behind it.
fn write_row(disk: &mut impl Disk, at: usize, row: &[u8]) -> Result<(), Fault> {
    disk.write(EVENINGS, row_start(at), row).map_err(failed("write the file `evenings`"))?;
    disk.sync(EVENINGS).map_err(failed("sync the file `evenings`"))
}

/// Writes verdicts behind those that count.
fn write_sheet(disk: &mut impl Disk, from: u64, verdicts: &[u8]) -> Result<(), Fault> {
    if from == 0 {
        // A `new` that was killed may not have synced the point's name: a sheet with verdicts is never without a point.
        disk.sync_folder().map_err(failed("sync the folder"))?;
    }
    disk.write(SHEET, from, verdicts).map_err(failed("write the sheet"))?;
    disk.sync(SHEET).map_err(failed("sync the sheet"))
}
