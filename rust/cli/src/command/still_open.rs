//! What a log leaves open.

use super::brought::Brought;
use super::told::{open_line, position};
use super::{of_card, Answer, Given};
use crate::card::{Card, Fault};
use crate::disk::Folder;
use crate::waiting::{self, End, Open, Timed};
use havdrims::Log;
use std::fmt::Write;
use std::path::Path;

/// The words of `open`.
pub fn open(given: &Given) -> Answer {
    let [folder, path] = given.words();
    let brought = Brought::read(folder, path, "Nothing was printed")?;
    let mut disk = Folder::new(Path::new(folder));
    let mut card = Card::open(&mut disk, false).map_err(|fault| of_card(folder, &fault))?;
    let letters = card.letters().map_err(|fault| of_card(folder, &fault))?;
    if card.so_far.status.closed {
        return Ok(open_line(&card.so_far));
    }
    let failed = |fault: Fault| brought.failed(&fault, Some(&card.so_far));
    let so_far = card.look(&brought.bytes).map_err(failed)?;
    let log = Log::new(&brought.bytes).map_err(|refusal| failed(Fault::Refused(refusal)))?;
    let timed = Timed::of(card.rule());
    let end = End::of(&log);
    let mut text = open_line(&so_far);
    let begun = so_far.first.position;
    let open = waiting::open(&log, begun + so_far.status.given, begun + so_far.positions());
    let open = open.ok_or_else(|| failed(Fault::LogAltered))?;
    for open in open {
        let Open { position, record, seconds } = open;
        let settled = timed.map_or(String::new(), |timed| format!(": {}", timed.settled_by(seconds, &end, &letters)));
        let place = match self::position(&so_far) {
            "record" => String::new(),
            named => format!("{named} {position}, "),
        };
        let _ = writeln!(text, "{place}record {record}, second {seconds}{settled}");
    }
    if timed.is_none() && so_far.open() > 0 {
        text.push_str("what would settle them is told only where the rule is one next or until over letters\n");
    }
    text.push_str(&match so_far.status.given - card.so_far.status.given {
        0 => String::new(),
        1 => "1 verdict is not on the card yet: `havdrims evening` writes it\n".to_string(),
        new => format!("{new} verdicts are not on the card yet: `havdrims evening` writes them\n"),
    });
    Ok(text)
}
