//! The table of commands. Parsing, help, the man page and the completions are all made from it, so that none falls behind.

use super::given::Given;
use super::{change, completions, evening, help, man, names, page, reading, sheet, still_open, Answer};
use crate::{convert, why};

/// A command.
pub struct Command {
    pub name: &'static str,
    pub group: Group,
    /// The words behind the name that are no options: `RULE..` is one or more, `[COMMAND]` may be left out.
    pub words: &'static [&'static str],
    pub options: &'static [Opt],
    /// What it does, in a line.
    pub does: &'static str,
    /// What else there is to say: an empty line stands between two paragraphs, and the others are wrapped anew.
    pub more: &'static str,
    /// A line to type. Tests run it beside `card`, `old` and the files of examples/day.
    pub example: &'static str,
    pub run: fn(&Given) -> Answer,
}

/// Under which heading a command stands.
#[derive(Clone, Copy, Debug, PartialEq, Eq)]
pub enum Group {
    Card,
    Files,
    Program,
}

impl Group {
    pub const ALL: [Group; 3] = [Group::Card, Group::Files, Group::Program];

    pub fn heading(self) -> &'static str {
        match self {
            Group::Card => "A card, evening by evening",
            Group::Files => "Rules and logs",
            Group::Program => "This program",
        }
    }
}

/// An option of a command.
pub struct Opt {
    pub name: &'static str,
    /// What stands behind it, as `N`.
    pub value: Option<&'static str>,
    /// What it does, as a part of a sentence.
    pub does: &'static str,
    pub needed: bool,
    /// The option of the same command that it excludes; it stands before it in the table.
    pub instead_of: Option<&'static str>,
}

const fn flag(name: &'static str, does: &'static str) -> Opt {
    Opt { name, value: None, does, needed: false, instead_of: None }
}

const fn valued(name: &'static str, value: &'static str, does: &'static str) -> Opt {
    Opt { name, value: Some(value), does, needed: false, instead_of: None }
}

impl Opt {
    const fn needed(self) -> Opt {
        Opt { needed: true, ..self }
    }

    const fn instead_of(self, other: &'static str) -> Opt {
        Opt { instead_of: Some(other), ..self }
    }
}

const JSON: Opt = flag("--json", "print for other programs, as docs/FORMATS.md says");
const FORCE: Opt = flag("--force", "replace a file that is there already");
const BOTH: Opt = flag("--both", "do it though another card goes on from this one");

pub const COMMANDS: [Command; 20] = [
    Command {
        name: "new",
        group: Group::Card,
        words: &["CARD", "RULE.."],
        options: &[
            valued("--after", "OLD", "begin at the first record that the card OLD still wants, whose place this one takes"),
            valued("--from", "N", "begin at record N, and number positions from N on").instead_of("--after"),
            valued("--letters", "FILE", "name the letters, as `havdrims letters` does; else OLD's names go over"),
        ],
        does: "make the folder CARD for one kiosk",
        more: "\
RULE is a text such as 'not e2 or e0 until[0,90] e1' (`havdrims help rules`), a .krl file, or `-` for one that comes from
standard input. Several of them, with up to eight formulas, are judged together: a position has its verdicts when every
formula has answered it. The folder must not be there yet, or be empty; if making it was cut short, it can be made again
with the same words. It is in no other card. Where CARD is a formula, or ends in .krl or .klg, its name seems to be
forgotten: such a folder is typed as ./e0.

The card begins at record 0 of its log, unless an option says otherwise. What stands before is never read: previous and
since find nothing there, so that the first verdicts of a rule that looks back may be others than on the whole log; then it
is said how far it looks. Where those records still stand as they were, --from with the number of an earlier one avoids it.
All commands go on speaking of the log's own records.

With --after it is written down in OLD that this card goes on from it: evening, close and trim of OLD are refused from then
on, unless --both says that they are meant. The file `followed` in OLD has it, and may be taken away with the new card.
Where another card goes on from OLD already it is said: what one of them releases the other may still want. Where that
file is damaged no card is made.",
        example: "havdrims new shop 'not e2 or e0 until[0,90] e1'",
        run: change::new,
    },
    Command {
        name: "evening",
        group: Group::Card,
        words: &["CARD", "LOG"],
        options: &[BOTH, JSON],
        does: "carry on with the log as far as it goes",
        more: "\
LOG is the kiosk's whole log, a .klg file, or what `havdrims trim` left of it, with new records behind. The records that
the last evening named may have been overwritten, the others not: the card has a checksum of those that are still wanted
and of the last one, and refuses a log in which they are others, as that of another kiosk. It compares no others: where
nothing is open, a log passes whose record of the last one's number is the same, whatever stands before it.

The new verdicts go into the card's sheet. Once this command has said so, and not before, the records that it names may
be overwritten. A run that was cut, for whatever reason, is simply repeated.

From log version 2 on service records are passed over: they are no positions and get no verdict. It is said how many
there were, the verdicts are then counted in positions, and what may be overwritten in records all the same.

A card from which another goes on (`havdrims new --after`) takes no log: that is for the other. With --both it does, and
as the other may still want them, no records are named that may be overwritten.

A log has at most 1000000 records, dropped ones included. From 900000 on it is said how many are left, and what to do.
While another command is at work on the card this one waits, for up to two seconds.",
        example: "havdrims evening card day.klg",
        run: |given| evening::carry_on(given, false),
    },
    Command {
        name: "close",
        group: Group::Card,
        words: &["CARD", "LOG"],
        // It is asked for by the command itself, which says what closing means.
        options: &[flag("--final", "say that it is meant").needed(), BOTH, JSON],
        does: "the month's end: no record will follow",
        more: "\
LOG is as for evening. Every remaining position gets its verdict on the log as it ends. From then on the card is closed:
it can be closed again with the same log, but takes no further records. It cannot be undone, so --final has to be there.",
        example: "havdrims close card tuesday.klg --final",
        run: |given| evening::carry_on(given, true),
    },
    Command {
        name: "trim",
        group: Group::Card,
        words: &["CARD", "LOG", "OUT"],
        options: &[BOTH, FORCE],
        does: "write a shorter log, without the records that the card no longer wants",
        more: "\
LOG is as for evening, of version 2 or 3. OUT becomes a log of version 3, which says how many records were dropped and
has the others, from the first on that the card still wants; the last one that it has seen is kept in any case, to know
the log by. From then on OUT may be brought in place of LOG, with new records behind it; records keep their numbers. The
card is not changed. It is synced before OUT is written.

OUT is written beside and renamed, so that it is whole or not there. A file that is there is replaced only with --force;
so OUT may be LOG itself, to which the kiosk must then add nothing meanwhile. A log with more records than LOG, dropped
ones included, is not replaced even then: the card may not have seen them. OUT is never a file in a card.",
        example: "havdrims trim visited visit.klg trimmed.klg",
        run: evening::trim,
    },
    Command {
        name: "summary",
        group: Group::Card,
        words: &["CARD"],
        options: &[JSON],
        does: "print how many verdicts were given, how many no, and the latest",
        more: "\
A card with several formulas has a line for each of them. Where service records were passed over it is said how many,
and the latest no is a position. The card is not changed. Commands that only read it may run beside each other; while
one is at work that writes it, they wait, for up to two seconds.

Of a card that is damaged it tells what the verdicts come to that a checksum vouches for, says what is wrong, and ends
with status 1. These are all of them where only names of letters, or the cards that go on from it, cannot be read.",
        example: "havdrims summary card",
        run: reading::summary,
    },
    Command {
        name: "open",
        group: Group::Card,
        words: &["CARD", "LOG"],
        options: &[],
        does: "print the records that have no verdict yet, and what would settle them",
        more: "\
LOG is as for evening. The card is not changed. Of a rule that is one next or until over letters it is said, for each
open record, what has to follow for yes and for no: one record can still settle it either way, so that no verdict could
have been given sooner. A letter that has not come in time is no as soon as a later record is there. Service records do
not count as the next record. Of other rules the open records alone are printed.",
        example: "havdrims open card day.klg",
        run: still_open::open,
    },
    Command {
        name: "sheet",
        group: Group::Card,
        words: &["CARD"],
        options: &[
            flag("--csv", "print for a spreadsheet, under the line `position,verdict`"),
            JSON.instead_of("--csv"),
            flag("--no", "only the positions where some formula is no"),
            valued("--from", "N", "begin with position N"),
            valued("--to", "N", "end with position N"),
        ],
        does: "print the verdicts, a line for each position",
        more: "\
A line has the position's number and then a word, yes or no, for each formula of the rule. Positions are numbered over
the records that are no service records, from 0, or from N for a card made with --from N: where the log has no service
records, a position is the record of the same number. A card made with --after goes on with the old card's numbers.
With --csv each of several formulas has its column, as in `position,formula 0,formula 1`. The card is not changed.

Where positions are asked for that have no verdict yet, or stand before the card's first one, that is said on standard
error: no line of --no is no all-clear there.

Of a card that is damaged the verdicts are printed that a checksum vouches for; what is wrong is said besides, and the
exit status is 1.",
        example: "havdrims sheet card --from 10 --csv",
        run: sheet::sheet,
    },
    Command {
        name: "page",
        group: Group::Card,
        words: &["CARD", "LOG", "PAGE"],
        options: &[
            valued("--start", "DATE", "the time of second 0 of the log, as 2026-11-09 or 2026-11-09T09:30"),
            FORCE,
        ],
        does: "write a page for people: the week in pictures, and the reason for each no",
        more: "\
PAGE is a file of HTML that any browser shows and prints. Nothing in it is fetched, and there is no script. It has the rule
in words, how many records are no and open, a strip for each day, and a line for each stretch of no with its records, its
time and its reason. The verdicts are those of the card's sheet; the card is not changed.

LOG is the kiosk's log, or what is left of it. Times and reasons are taken only from records that are as the card has seen
them, by the checksums of its evenings; where they were overwritten, dropped or altered, the line says so. So the page is
made before the records of the week are overwritten, or from a copy of the log. What the card has not seen yet is not on
the page, and is said. A log has no clock: without --start days are counted from its second 0.

A file that is there is replaced only with --force, a log or a rule not even then, and no file is put into a card.",
        example: "havdrims page card tuesday.klg friday.html --start 2026-11-09T09:00",
        run: page::page,
    },
    Command {
        name: "letters",
        group: Group::Card,
        words: &["CARD", "[FILE]"],
        options: &[],
        does: "give the letters of a card names, or print them",
        more: "\
FILE has a line for each letter, its number and its name, as `0 head warm`. A name has up to 80 characters, with one plain
space between its words, and no two letters have the same. Empty lines, and those that begin with a #, are passed over.
The names take the place of those that the card has. Without FILE those are printed, in the form of such a file. A FILE
without any name is refused: to go without names, take the file `letters` in the card away.

Names are for people: `new`, `formula`, `why`, `open` and `page` show them where they are given the card. Verdicts do not
depend on them.",
        example: "havdrims letters card letters.txt",
        run: names::letters,
    },
    Command {
        name: "check",
        group: Group::Card,
        words: &["CARD"],
        options: &[JSON],
        does: "look at every file of the card, and say what can be done where they do not fit together",
        more: "\
It says of each file whether it is good, whether all of them fit together, and if not, how many verdicts are vouched
for by a checksum and how to go on. The card is not changed. The exit status is 0 where all is good, and 1 where not.",
        example: "havdrims check card",
        run: reading::check,
    },
    Command {
        name: "why",
        group: Group::Card,
        words: &["RULE", "LOG", "RECORD"],
        options: &[
            valued("--formula", "K", "which of several formulas, from 0"),
            flag("--words", "say the same in sentences, with records in place of positions"),
        ],
        does: "print the reason for the yes or no of a record",
        more: "\
RULE is a .krl file, a formula, or a card, whose names for letters are shown then. LOG is the whole log, with no record overwritten or dropped. RECORD
is the record's number in it, from 0; a service record has no verdict, and an open record none yet.

The reason is a line for each part of the rule that counts: the number of its entry, a position, and what makes it yes
or no there. Positions are numbered over the records that are no service records.

A rule or formula is explained on the log from record 0 on; a card as it has judged: from its first record on, from which
its positions count, and where it is closed up to its last. A reason that looks back to a first record with others before
it says that the card has not read them. A verdict that came from closing alone has no reason, and none is given that the
card's sheet contradicts. Where the record may not be as the card has seen it, that is said on standard error.",
        example: "havdrims why card/rule.krl day.klg 5 --words",
        run: |given| {
            let [rule, log, record] = given.words();
            let (formula, words) = (given.value("--formula"), given.has("--words"));
            why::answer(&why::Question { rule, log, record, formula, words })
        },
    },
    Command {
        name: "rule",
        group: Group::Files,
        words: &["FORMULA..", "RULE"],
        options: &[FORCE],
        does: "write the rule file that the formula says, or several",
        more: "\
FORMULA is one argument, as in 'not e2 or e0 until[0,90] e1' (`havdrims help rules`). Several of them, up to eight, make
a rule of version 2: they are judged together. RULE is the .krl file to be written. A file that is there is replaced
only with --force, and no file is put into a card.",
        example: "havdrims rule 'e0 until[0,90] e1' 'not e1' both.krl",
        run: |given| {
            let (rule, formulas) = given.all().split_last().expect("the table has a word at the end");
            convert::rule(formulas, rule, given.has("--force"))
        },
    },
    Command {
        name: "formula",
        group: Group::Files,
        words: &["RULE"],
        options: &[],
        does: "print the formula of a rule file or a card, its words and its reach",
        more: "\
RULE is a .krl file, a card, or a formula. Each of several formulas has its line; of a card, and of a formula that is typed,
each has a second one, which says it in words, with the names of its letters.",
        example: "havdrims formula rule.krl",
        run: names::formula,
    },
    Command {
        name: "to-log",
        group: Group::Files,
        words: &["TEXT", "LOG"],
        options: &[FORCE],
        does: "write the log file that a text describes",
        more: "\
TEXT is a file with a line for each record, the seconds and then the letters, as in `12 e0 e3` or `12 none`.
What follows a # is passed over. The line `version 2` before the first record says that the log is of version 2: then
`12 service` is a service record, which is no position. A trimmed log has `version 3` and a line as `dropped 40` there.

A file that is there is replaced only with --force, TEXT itself or a rule not even then, and no file is put into a
card.",
        example: "havdrims to-log day.txt made.klg",
        run: |given| {
            let [text, log] = given.words();
            convert::to_log(text, log, given.has("--force"))
        },
    },
    Command {
        name: "to-text",
        group: Group::Files,
        words: &["LOG"],
        options: &[],
        does: "print a log file as text",
        more: "\
LOG is a .klg file. A log of version 2 begins with the line `version 2`, a trimmed log with `version 3` and a line with
the number of records dropped.",
        example: "havdrims to-text day.klg",
        run: |given| convert::to_text(given.only()),
    },
    Command {
        name: "worst",
        group: Group::Files,
        words: &["LOW", "HIGH", "N", "LOG"],
        options: &[FORCE],
        does: "write the log of N records that keeps most seconds waiting",
        more: "\
It does so for the rule e0 until[LOW,HIGH] e1. A file that is there is replaced only with --force, and no file is put
into a card.",
        example: "havdrims worst 0 90 200 worst.klg",
        run: |given| {
            let [low, high, records, log] = given.words();
            convert::worst(low, high, records, log, given.has("--force"))
        },
    },
    Command {
        name: "simulate",
        group: Group::Files,
        words: &["LOG"],
        options: &[
            valued("--seconds", "N", "how long, 0 to 3600 seconds").needed(),
            valued("--warm-up", "N", "how long the head takes to warm up, 1 to 600 seconds").needed(),
            valued("--print-time", "N", "how long a print takes, 1 to 600 seconds").needed(),
            valued("--switch-off", "N", "how long an idle head stays warm, 1 to 3600 seconds").needed(),
            valued("--mean-gap", "N", "how many seconds lie between two customers, 1 to 3600, on the average").needed(),
            valued("--seed", "N", "which customers come, 1 to 4294967295: the same seed, the same customers").needed(),
            FORCE,
        ],
        does: "write the log of a simulated kiosk, a record for each second",
        more: "\
Letter e0 stands in every second that ends with a warm head, e1 where a print begins, e2 where a customer joins, e3 where
a print ends. The options stand in any order. A file that is there is replaced only with --force, and no file is put into
a card.",
        example: "havdrims simulate try.klg --seconds 3600 --warm-up 45 --print-time 30 --switch-off 60 --mean-gap 120 --seed 7",
        run: convert::simulated,
    },
    Command {
        name: "help",
        group: Group::Program,
        words: &["[COMMAND]"],
        options: &[],
        does: "say more of a command, or with `rules` how a rule is written",
        more: "\
Without a word it prints all commands, a line each. `havdrims COMMAND --help` and `havdrims COMMAND -h` are the same as
`havdrims help COMMAND`. `havdrims --version` prints the version.",
        example: "havdrims help rules",
        run: help::asked,
    },
    Command {
        name: "man",
        group: Group::Program,
        words: &[],
        options: &[],
        does: "print the man page",
        more: "It is made for `man -l`, as in `havdrims man | man -l -`; `./install` puts it where `man havdrims` finds it.",
        example: "havdrims man",
        run: |_| Ok(man::page()),
    },
    Command {
        name: "completions",
        group: Group::Program,
        words: &["SHELL"],
        options: &[],
        does: "print what makes a shell complete the words of this program",
        more: "\
SHELL is bash. `./install` puts them where bash finds them; `source <(havdrims completions bash)` is for this shell
alone.",
        example: "havdrims completions bash",
        run: |given| completions::of(given.only()),
    },
];
