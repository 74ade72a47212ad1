//! Why a record has its verdict: the library's reason as it is, or in sentences.

use crate::card::First;
use crate::command::{warn, Failure};
use crate::named::{Judged, Named};
use crate::page::reasons::Missing;
use crate::telling::{word, Places, Teller};
use crate::{convert, wrong};
use havdrims::{Log, Refusal, Rule};

/// What `havdrims why` is asked.
pub struct Question<'a> {
    pub rule: &'a str,
    pub log: &'a str,
    pub record: &'a str,
    pub formula: Option<&'a str>,
    /// In sentences.
    pub words: bool,
}

pub fn answer(question: &Question) -> Result<String, Failure> {
    let Question { rule: asked, log, .. } = question;
    let record: usize = convert::number(question.record)?;
    let Named { rule, letters } = Named::of(asked)?;
    let formula = formula(&rule, question.formula)?;
    let bytes = convert::log(log).map_err(|fault| convert::unread(log, fault))?;
    convert::opened(log, &bytes)?;
    // A card judges the log from its first record on, and so is it explained.
    let judged = Named::judged(asked, log, &bytes)?;
    let first = judged.as_ref().map_or(First::default(), |judged| judged.first);
    let bytes = judged.as_ref().map_or(bytes.as_slice(), |judged| &judged.log);
    let bytes = convert::opened(log, bytes)?;
    let places = Places::of(&bytes, first.record as usize).map_err(|refusal| refused(log, &bytes, refusal))?;
    if judged.as_ref().is_some_and(|judged| judged.is_further(record, &bytes)) {
        return Err(Failure::fault(
            log,
            format!("record {record} came after the card was closed: its sheet has no verdict of it"),
        ));
    }
    let position = places.position(record).map_err(|fault| Failure::fault(log, fault))?;
    let given = judged.as_ref().and_then(|judged| judged.is_yes(position, formula));
    let reason = match (rule.explain(&bytes, formula, position), given) {
        (Err(Refusal::NoReason), Some(yes)) if judged.as_ref().is_some_and(|judged| judged.closed) => {
            return Err(Failure::fault(log, closed(record, yes)));
        }
        (Err(Refusal::NoReason), _) => return Err(Failure::fault(log, open(record, rule.formulas()))),
        (reason, _) => reason.map_err(|refusal| refused(log, &bytes, refusal))?,
    };
    let teller = Teller::new(&rule, &letters, places);
    let says = teller.is_yes(&reason);
    if given.is_some_and(|yes| yes != says) {
        return Err(Failure::fault(log, altered(record, says)));
    }
    if judged.as_ref().is_some_and(|judged| !judged.knows(record)) {
        warn(&unknown(record));
    }
    if !question.words {
        // The reason has the library's form, in which there is no such line.
        teller.begun_in(&reason).iter().for_each(|begun| warn(begun.trim_start_matches("; ")));
        return Ok(reason.to_string());
    }
    let number = first.position + position;
    let what = match number == record as u64 {
        true => format!("record {record}"),
        false => format!("record {record}, position {number},"),
    };
    Ok(teller.told(&reason, &what, (rule.formulas() > 1).then_some(formula)))
}

impl Judged {
    fn is_yes(&self, position: u64, formula: usize) -> Option<bool> {
        self.verdicts.get(position as usize).map(|verdict| verdict >> formula & 1 == 1)
    }

    /// Whether a record is as the card has seen it, or one that it has not seen.
    fn knows(&self, record: usize) -> bool {
        self.known.iter().any(|known| known.contains(&(record as u64 - self.first.record)))
    }

    /// Whether a record stands behind this part of the log, in which the card was closed.
    fn is_further(&self, record: usize, log: &Log<'_>) -> bool {
        let end = self.first.record as usize + log.len();
        (end..end + self.further).contains(&record)
    }
}

/// The card's sheet has a verdict that its log has not settled.
fn closed(record: usize, yes: bool) -> String {
    format!("record {record} is {} in the card's sheet: {}", word(yes), Missing::Closed.said())
}

/// The card's sheet has the other verdict.
fn altered(record: usize, says: bool) -> String {
    let [sheet, log] = [!says, says].map(word);
    format!(
        "record {record} is {sheet} in the card's sheet, and {log} on this log: records were overwritten or altered since\n\
         A reason needs the log as it was."
    )
}

/// The log may be another than the one that the card has judged, though the verdict is the same.
fn unknown(record: usize) -> String {
    format!(
        "record {record} may not be as the card has seen it: it or others of that evening were overwritten or altered since, or \
         this is another kiosk's log. The reason is that of the log as it is now."
    )
}

/// The number of the formula that is asked about. Of several it has to be said which.
fn formula(rule: &Rule, typed: Option<&str>) -> Result<usize, Failure> {
    let last = rule.formulas() - 1;
    match typed {
        None if last == 0 => Ok(0),
        None => Err(Failure::Use(format!("the rule has {} formulas: which of them? --formula 0 to {last}", last + 1))),
        Some(word) => match convert::number::<usize>(word)? {
            formula if formula <= last => Ok(formula),
            _ if last == 0 => Err(Failure::Use(format!("--formula {word}: the rule has one formula, 0"))),
            _ => Err(Failure::Use(format!("--formula {word}: the rule has {} formulas, 0 to {last}", last + 1))),
        },
    }
}

fn refused(path: &str, log: &Log<'_>, refusal: Refusal) -> Failure {
    if let Some(header) = wrong::Header::among(log, 0..log.len()).filter(|_| refusal == Refusal::TimeFalls) {
        return Failure::fault(
            path,
            format!("{}\n{}", wrong::numbered(&header.says(), refusal), header.hint().trim_end()),
        );
    }
    let (says, hint) = match (refusal, wrong::fall(log, 0)) {
        (Refusal::RecordDropped, _) => (wrong::dropped(log), "as it was before it was trimmed."),
        (Refusal::TimeFalls, Some(fall)) => (fall.says(), "with no record overwritten."),
        _ => return Failure::fault(path, refusal),
    };
    Failure::fault(path, format!("{}\nA reason needs the whole log, {hint}", wrong::numbered(&says, refusal)))
}

fn open(record: usize, formulas: usize) -> String {
    match formulas {
        1 => format!("record {record} is open: the log ends before it is settled"),
        _ => format!("record {record} is open: the log ends before every formula is settled there"),
    }
}
