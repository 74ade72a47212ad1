//! The program `havdrims` on real folders: what it prints, its exit status, its faults, and runs that are killed.

mod change;
mod check;
mod convert;
mod documents;
mod faults;
mod help;
mod killed;
mod letters;
mod open;
mod output;
mod page;
mod service;
mod trim;
mod week;
mod why;

use std::collections::BTreeMap;
use std::io::ErrorKind;
use std::path::{Path, PathBuf};
use std::process::{Command, Output};
use std::sync::atomic::{AtomicUsize, Ordering};
use std::{fs, process};

/// The rule of examples/day.
const RULE: &str = "not e2 or e0 until[0,90] e1";

/// The words before card and log: an evening, and a closing.
const CARRY_ON: [&[&str]; 2] = [&["evening"], &["close", "--final"]];

/// What may be the cause where a log is not that of its card.
const OTHER_LOG: &str = "\
Is this the log of another kiosk? Were more records overwritten than the last evening named? Was the card put back from
an older copy? Behind records that are gone for good `havdrims new --from` begins a new card.";
const OLDER_LOG: &str = "\
Is it an older copy of the log, only a part of it, or another kiosk's? The whole log is wanted, old records too.
A log that the kiosk has begun anew needs a card of its own, made without --after and --from.";
/// What is said of a card that is to be made where one is.
const ALREADY: &str = "card: a card is here already\n\
                       A card keeps its rule: `havdrims new OTHER RULE --after card` goes on from it with another.\n";
/// Where more is said of a card that is damaged.
const CHECKED: &str = "`havdrims check card` says what can be done.\n";
const OTHER_CLOCK: &str = "Is this the log of another kiosk, or did its clock begin anew?";

/// What is said besides where the log can be divided, behind this many bytes.
fn divided(bytes: usize) -> String {
    format!(
        "\nIf the clock did, the log's first {bytes} bytes end with the last record before that: \
         close the card with these, and begin\na new log and a new card with what follows."
    )
}

/// A folder for one test, removed with it.
struct Place(PathBuf);

impl Place {
    fn new() -> Place {
        Place::new_in(Path::new(env!("CARGO_TARGET_TMPDIR")))
    }

    /// In this folder, under the next number that is free: one that was killed may have left some.
    fn new_in(folder: &Path) -> Place {
        static COUNT: AtomicUsize = AtomicUsize::new(0);
        loop {
            let path = folder.join(format!("havdrims-{}-{}", process::id(), COUNT.fetch_add(1, Ordering::Relaxed)));
            match fs::create_dir(&path) {
                Err(fault) if fault.kind() == ErrorKind::AlreadyExists => {}
                made => {
                    made.unwrap();
                    return Place(path);
                }
            }
        }
    }

    /// With a card for the rule of examples/day and its logs, as many evenings on.
    fn with_card(evenings: usize) -> Place {
        Place::with_card_in(Path::new(env!("CARGO_TARGET_TMPDIR")), evenings)
    }

    fn with_card_in(folder: &Path, evenings: usize) -> Place {
        let place = Place::new_in(folder);
        for name in ["day.klg", "tuesday.klg"] {
            fs::copy(example(name), place.path(name)).unwrap();
        }
        place.ok(&["new", "card", RULE]);
        for log in &["day.klg", "tuesday.klg"][..evenings] {
            place.ok(&["evening", "card", log]);
        }
        place
    }

    fn path(&self, name: &str) -> PathBuf {
        self.0.join(name)
    }

    fn program(&self) -> Command {
        let mut command = Command::new(env!("CARGO_BIN_EXE_havdrims"));
        command.current_dir(&self.0);
        command
    }

    /// The exit status, and what was printed to standard output and standard error.
    fn run(&self, words: &[&str]) -> (i32, String, String) {
        ended(self.program().args(words).output().unwrap())
    }

    /// What a command prints that ends well.
    fn ok(&self, words: &[&str]) -> String {
        let (status, out, err) = self.run(words);
        assert_eq!((status, err.as_str()), (0, ""), "{words:?}");
        out
    }

    /// The help of a command, all of it in one line.
    fn help(&self, command: &str) -> String {
        self.ok(&[command, "--help"]).split_whitespace().collect::<Vec<_>>().join(" ")
    }

    /// What a command says that ends with this exit status.
    fn fails(&self, status: i32, words: &[&str]) -> String {
        let (ended, out, err) = self.run(words);
        assert_eq!((ended, out.as_str()), (status, ""), "{words:?}: {err}");
        err
    }

    /// What a command prints, and what it says, that ends with exit status 1 and prints what it can.
    fn partly(&self, words: &[&str]) -> (String, String) {
        let (ended, out, err) = self.run(words);
        assert_eq!(ended, 1, "{words:?}: {out}{err}");
        (out, err)
    }

    /// Makes the card one as an earlier program wrote it: where it begins is not said, and there are no rows.
    fn make_old(&self) {
        let label = fs::read_to_string(self.path("card/card.txt")).unwrap();
        fs::write(self.path("card/card.txt"), format!("{}\n", label.lines().next().unwrap())).unwrap();
        fs::remove_file(self.path("card/evenings")).unwrap();
    }

    /// Every file of the card.
    fn card(&self) -> BTreeMap<String, Vec<u8>> {
        contents(&self.path("card"))
    }
}

impl Drop for Place {
    fn drop(&mut self) {
        let _ = fs::remove_dir_all(&self.0);
    }
}

fn ended(output: Output) -> (i32, String, String) {
    let text = |bytes: Vec<u8>| String::from_utf8(bytes).unwrap();
    (output.status.code().unwrap_or(-1), text(output.stdout), text(output.stderr))
}

fn contents(folder: &Path) -> BTreeMap<String, Vec<u8>> {
    let file = |entry: fs::DirEntry| (entry.file_name().into_string().unwrap(), fs::read(entry.path()).unwrap());
    fs::read_dir(folder).unwrap().map(|entry| file(entry.unwrap())).collect()
}

/// A file of examples/day.
fn example(name: &str) -> PathBuf {
    Path::new(env!("CARGO_MANIFEST_DIR")).join("../../examples/day").join(name)
}
