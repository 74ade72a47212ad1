//! The program `havdrims`: a week of one log, rules and logs, from the command line.

use cli::command::{self, Failure, Paint};
use std::ffi::OsString;
use std::io::{self, ErrorKind, IsTerminal, Write};
use std::process::ExitCode;

/// What the words of the command line come to. A path that is not UTF-8 is not taken: it would become another.
fn answer() -> Result<String, Failure> {
    let arguments: Result<Vec<String>, OsString> = std::env::args_os().skip(1).map(OsString::into_string).collect();
    let arguments = arguments.map_err(|word| Failure::Use(format!("{word:?} is not UTF-8")))?;
    let words: Vec<&str> = arguments.iter().map(String::as_str).collect();
    command::run(&words, paint())
}

/// Colour on a terminal that has some, unless the variable NO_COLOR says otherwise.
fn paint() -> Paint {
    let set = |name| std::env::var_os(name).filter(|value| !value.is_empty());
    let colour =
        io::stdout().is_terminal() && set("NO_COLOR").is_none() && set("TERM").is_some_and(|term| term != "dumb");
    if colour {
        Paint::Colour
    } else {
        Paint::Plain
    }
}

/// Prints to standard output. A reader that has seen enough may close the pipe.
fn print(text: &str) -> Result<(), Failure> {
    let mut out = io::stdout();
    match out.write_all(text.as_bytes()).and_then(|()| out.flush()) {
        Err(fault) if fault.kind() != ErrorKind::BrokenPipe => {
            Err(Failure::Fault(format!("the command is done, but its output cannot be written: {fault}")))
        }
        _ => Ok(()),
    }
}

fn main() -> ExitCode {
    let (text, status) = match answer().and_then(|text| print(&text)) {
        Ok(()) => return ExitCode::SUCCESS,
        Err(Failure::Fault(text)) => (text, 1),
        Err(Failure::Partly { printed, fault }) => match print(&printed) {
            Err(Failure::Fault(text)) => (format!("{fault}\n{text}"), 1),
            _ => (fault, 1),
        },
        Err(Failure::Use(text)) => (text, 2),
    };
    let _ = writeln!(io::stderr(), "{}", text.trim_end());
    ExitCode::from(status)
}
