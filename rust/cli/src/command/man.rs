//! The man page, in the language of man(7), made from the table of commands.

use super::help::{capital, FORMULAS, WORDS};
use super::table::{Command, Group, COMMANDS};
use std::fmt::Write;

pub fn page() -> String {
    let version = env!("CARGO_PKG_VERSION");
    let mut text = format!(".TH HAVDRIMS 1 \"\" \"havdrims {version}\" \"User Commands\"\n");
    text.push_str(".SH NAME\nhavdrims \\- checks timing rules over the logs of photo kiosks\n");
    text.push_str(".SH SYNOPSIS\n.B havdrims\n.I COMMAND\n[\\fIWORDS\\fR..] [\\fIOPTIONS\\fR]\n");
    text.push_str(".SH DESCRIPTION\n");
    text.push_str(&plain(
        "Checks the log of a kiosk against its rule, evening by evening. What belongs to one kiosk, its rule, its checkpoint and \
         its sheet of verdicts, is kept in a folder, a card.",
    ));
    let _ = write!(text, ".PP\n{}", plain(WORDS));
    for group in Group::ALL {
        let _ = writeln!(text, ".SH {}", plain(&group.heading().to_uppercase()).trim_end());
        for command in COMMANDS.iter().filter(|command| command.group == group) {
            text.push_str(&section(command));
        }
    }
    text.push_str(".SH RULES\n");
    for (formula, says) in FORMULAS {
        let _ = write!(text, ".TP\n.B {}{}", plain(formula), plain(&format!("{}.", capital(says))));
    }
    let _ = write!(text, ".PP\n{}", plain("`havdrims help rules` says more."));
    text.push_str(".SH ENVIRONMENT\n.TP\n.B NO_COLOR\n");
    text.push_str(&plain("Set, and not empty: there is no colour on a terminal. Elsewhere there never is."));
    text.push_str(".SH EXIT STATUS\n");
    for (status, says) in STATUS {
        let _ = write!(text, ".TP\n.B {status}\n{}", plain(says));
    }
    text
}

const STATUS: [(&str, &str); 3] = [
    ("0", "The command has done what it was asked for."),
    ("1", "A refusal or a fault; what is wrong stands on standard error. Commands that read a damaged card print what they can."),
    ("2", "Wrong use: nothing was read or changed."),
];

fn section(command: &Command) -> String {
    let mut text = format!(".SS \"{}\"\n", plain(&command.usage()).trim_end());
    text.push_str(&plain(&format!("{}.", capital(command.does))));
    for option in command.options {
        let _ = write!(text, ".TP\n.B {}{}", plain(&option.typed()), plain(&format!("{}.", capital(option.does))));
    }
    for paragraph in command.more.split("\n\n") {
        let _ = write!(text, ".PP\n{}", plain(paragraph));
    }
    let _ = write!(text, ".PP\n.EX\n{}.EE\n", plain(command.example));
    text
}

/// A text in which nothing means anything to troff, with a line end behind it. Its own lines are run together.
fn plain(text: &str) -> String {
    let escaped = text.replace('\\', "\\e").replace('-', "\\-").replace('\'', "\\(aq").replace('`', "\\(ga");
    // A line that begins with a point would be a request.
    let line = |line: &str| if line.starts_with('.') { format!("\\&{line}\n") } else { format!("{line}\n") };
    escaped.replace('"', "\\(dq").lines().map(line).collect()
}
