//! The commands: what each was given, and what it prints. [`table`] has all of them.

mod brought;
mod change;
mod completions;
mod evening;
mod given;
mod help;
mod json;
mod man;
mod names;
pub(crate) mod near;
mod page;
mod paint;
mod reading;
mod sheet;
mod still_open;
pub mod table;
mod told;

use crate::{beside, card};
pub use given::Given;
pub use paint::Paint;
use std::fmt::Display;
use std::io::{self, Write};
use std::path::Path;

/// Why a command did not do all of what it was asked for.
#[derive(Debug, PartialEq, Eq)]
pub enum Failure {
    /// Wrong use: exit status 2.
    Use(String),
    /// A refusal or a fault: exit status 1.
    Fault(String),
    /// What could be printed all the same, and the fault: exit status 1.
    Partly { printed: String, fault: String },
}

impl Failure {
    /// What is wrong with the thing of this name.
    pub fn fault(name: &str, fault: impl Display) -> Failure {
        Failure::Fault(format!("{}: {fault}", called(name)))
    }

    /// What is wrong in a line of the file of this name: the fault begins with the line.
    pub fn in_line(name: &str, fault: impl Display) -> Failure {
        Failure::Fault(format!("{}, {fault}", called(name)))
    }

    /// The same, with a further line.
    pub fn and(self, line: &str) -> Failure {
        match self {
            Failure::Fault(text) => Failure::Fault(format!("{text}\n{line}")),
            other => other,
        }
    }
}

/// What a file is called.
fn called(name: &str) -> &str {
    match name {
        "-" => "standard input",
        name => name,
    }
}

/// What is wrong with a card.
pub(crate) fn of_card(folder: &str, fault: &card::Fault) -> Failure {
    let path = Path::new(folder);
    match fault {
        _ if path.is_file() => Failure::fault(folder, "this is a file, and a card is a folder"),
        card::Fault::NoCard if path.is_dir() => match beside::first_card(folder) {
            Some(card) => Failure::fault(folder, format!("this folder is no card; it holds cards, as {card}")),
            None => Failure::fault(folder, fault),
        },
        card::Fault::NoCard => match beside::or_card(folder) {
            none if none.is_empty() => Failure::fault(folder, fault),
            meant => Failure::fault(folder, format!("no card is here{meant}")),
        },
        _ if fault.is_damage() => Failure::fault(folder, fault).and(&checked(folder)),
        _ => Failure::fault(folder, fault),
    }
}

/// Where more is said of a card that is damaged.
pub(crate) fn checked(folder: &str) -> String {
    format!("`havdrims check {}` says what can be done.", reading::quoted(folder))
}

/// Says something besides on standard error. The command goes on.
pub fn warn(line: &str) {
    let _ = writeln!(io::stderr(), "{line}");
}

/// What a command prints.
pub type Answer = Result<String, Failure>;

/// What the words of a command line come to.
pub fn run(words: &[&str], paint: Paint) -> Answer {
    let Some((&name, rest)) = words.split_first() else { return Err(Failure::Use(help::overview())) };
    match name {
        "--help" | "-h" => return Ok(help::overview()),
        "--version" => return Ok(help::version()),
        _ => {}
    }
    let command = help::named(name, ["--help", "--version"])?;
    if rest.iter().take_while(|&&word| word != "--").any(|word| ["--help", "-h"].contains(word)) {
        return Ok(command.help());
    }
    let expected = |what: String| Failure::Use(format!("{what}\nexpected: {}\n", command.usage()));
    let given = Given::read(command, rest, paint).map_err(expected)?;
    (command.run)(&given).map_err(|failure| match failure {
        Failure::Use(what) => expected(what),
        other => other,
    })
}
