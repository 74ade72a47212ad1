//! Help: all commands, one of them, and how a rule is written.

use super::given::Given;
use super::near::did_you_mean;
use super::table::{Command, Group, COMMANDS};
use super::{Answer, Failure};
use std::fmt::Write;

pub fn version() -> String {
    format!("havdrims {}\n", env!("CARGO_PKG_VERSION"))
}

/// The words of `help`.
pub fn asked(given: &Given) -> Answer {
    match given.all() {
        [] => Ok(overview()),
        ["rules"] => Ok(rules()),
        [name, ..] => Ok(named(name, ["rules"])?.help()),
    }
}

/// The command of this name. The other words could have been meant too, and before a command that is as near.
pub fn named<const N: usize>(name: &str, others: [&str; N]) -> Result<&'static Command, Failure> {
    COMMANDS.iter().find(|command| command.name == name).ok_or_else(|| {
        let hint = did_you_mean(name, others.into_iter().chain(COMMANDS.iter().map(|command| command.name)));
        Failure::Use(format!("`{name}` is no command{hint}\n`havdrims help` prints all commands."))
    })
}

/// All commands, each with what it does.
pub fn overview() -> String {
    let mut text = "Checks the log of a kiosk against its rule, evening by evening.\n".to_string();
    let width = COMMANDS.iter().map(|command| command.name.len()).max().unwrap_or(0);
    for group in Group::ALL {
        let commands = COMMANDS.iter().filter(|command| command.group == group);
        let rows = commands.map(|command| (format!("{:width$}", command.name), command.does));
        let _ = write!(text, "\n{}:\n{}", group.heading(), columns(rows));
    }
    let more = "`havdrims help COMMAND` says more of a command, `havdrims help rules` how a rule is written.";
    text + "\n" + &wrapped(WORDS) + "\n" + &wrapped(more)
}

/// What holds of the words of every command.
pub const WORDS: &str = "In place of a file that is read `-` is standard input, once in a command. Behind `--` no word is an option, \
                         so that a name may begin with strokes. Options stand in any order, as `--from 5` or `--from=5`.";

impl Command {
    pub fn help(&self) -> String {
        let options = columns(self.options.iter().map(|option| (option.typed(), option.does)));
        let options = if options.is_empty() { options } else { format!("\n{options}") };
        let (does, more) = (capital(self.does), paragraphs(self.more).join("\n"));
        format!("{}\n\n{}{options}\n{more}\nExample:\n  {}\n", self.usage(), wrapped(&format!("{does}.")), self.example)
    }
}

/// Lines are no longer than this, but for what is to be typed.
const WIDTH: usize = 80;

/// The words of a text. What stands between two ` is one of them.
fn unbroken(text: &str) -> Vec<String> {
    let mut words: Vec<String> = Vec::new();
    let mut inside = false;
    for word in text.split_whitespace() {
        match words.last_mut().filter(|_| inside) {
            Some(last) => last.extend([" ", word]),
            None => words.push(word.to_string()),
        }
        inside ^= word.matches('`').count() % 2 == 1;
    }
    words
}

/// The words of a text in lines of this width.
fn wrapped_at(width: usize, text: &str) -> Vec<String> {
    let mut lines = vec![String::new()];
    for word in unbroken(text) {
        let line = lines.last_mut().expect("there is one");
        match line.len() {
            0 => line.push_str(&word),
            used if used + 1 + word.len() <= width => line.extend([" ", &word]),
            _ => lines.push(word),
        }
    }
    lines
}

fn wrapped(text: &str) -> String {
    wrapped_at(WIDTH, text).iter().map(|line| format!("{line}\n")).collect()
}

/// The paragraphs of a text, between which there are empty lines, each of them wrapped.
fn paragraphs(text: &str) -> Vec<String> {
    text.split("\n\n").map(wrapped).collect()
}

/// Lines of two columns.
fn columns<'a>(rows: impl Iterator<Item = (String, &'a str)> + Clone) -> String {
    let width = rows.clone().map(|(first, _)| first.len()).max().unwrap_or(0);
    let mut text = String::new();
    for (first, second) in rows {
        for (at, line) in wrapped_at(WIDTH - width - 5, second).iter().enumerate() {
            let first = if at == 0 { &first } else { "" };
            let _ = writeln!(text, "  {first:width$}   {line}");
        }
    }
    text
}

pub fn capital(text: &str) -> String {
    let mut letters = text.chars();
    letters.next().map_or(String::new(), |first| first.to_uppercase().chain(letters).collect())
}

/// Formulas to begin with, and what they say: the library accepts each of them.
pub const FORMULAS: [(&str, &str); 12] = [
    ("e0", "letter 0 stands in the record"),
    ("not e0", "letter 0 does not stand in it"),
    ("e0 or e1", "one of the two does, or both"),
    ("not (not e0 or not e1)", "both do"),
    ("not e2 or e0", "if letter 2 stands in it, so does letter 0"),
    ("prev[0,60] e0", "there is a record before, at most 60 seconds before, and letter 0 stands there"),
    ("prev[0,inf] e0", "the same, however long before"),
    ("next[5,60] e0", "the next record comes 5 to 60 seconds later, and letter 0 stands there"),
    ("e0 until[0,90] e1", "letter 1 comes within 90 seconds, and up to then every record has letter 0"),
    ("e0 since[0,90] e1", "letter 1 came within the last 90 seconds, and every record since has letter 0"),
    ("(e0 or not e0) until[0,60] e1", "letter 1 comes within 60 seconds, or is here, whatever else happens"),
    ("not e2 or e0 until[0,90] e1", "if letter 2 stands in it: letter 0 up to letter 1, within 90 seconds"),
];

/// How a rule is written, with the formulas behind the first paragraph.
const RULES: &str = "\
A rule is judged at every record of the log. Letters e0 to e31 are what a record may say; which letter stands for what is
for the shop to choose. The words not, or, prev, next, since and until make larger formulas of them:

[LOW,HIGH] are seconds, both ends included: whole numbers from 0 to 3600, LOW not above HIGH. In place of HIGH stands inf
where there is no upper end; until always has one.

not, prev and next bind tightest, then since and until, then or: `not e2 or e0 until[0,90] e1` reads as
`(not e2) or (e0 until[0,90] e1)`. Of several since and until the right one comes first, of several or the left one.
Brackets ( ) override. Spaces separate freely. There is no and: `not (not A or not B)` says it.

What holds of every record, as `e0 or not e0`, stands before an until of which only the end counts. So `not ((e0 or not e0)
until[0,60] e1)` says that letter 1 never comes for 60 seconds, and `not ((e0 or not e0) until[0,60] not e1)` that it always
stands there; with since they speak of the time before. `havdrims formula` says a formula in words.

A formula has at most 1024 characters, and 128 letters and operators. A checkpoint has at most 8192 words: until takes two
for each second of HIGH, since takes one. `havdrims new` and `havdrims formula` print how many a rule takes.";

fn rules() -> String {
    let formulas = columns(FORMULAS.iter().map(|&(formula, says)| (formula.to_string(), says)));
    let mut parts = paragraphs(RULES);
    parts.insert(1, formulas);
    format!("How a rule is written\n\n{}", parts.join("\n"))
}
