//! Help, the man page, the completions, wrong use, and what stands in the table of commands.

use crate::{ended, example, Place, RULE};
use cli::command::table::{Command, COMMANDS};
use std::fs;
use std::process;

/// A folder with what the examples of the table name.
fn place_for_examples() -> Place {
    let place = Place::with_card(1);
    for name in ["visit.klg", "day.txt", "rule.krl", "letters.txt"] {
        fs::copy(example(name), place.path(name)).unwrap();
    }
    place.ok(&["new", "visited", RULE]);
    place.ok(&["evening", "visited", "visit.klg"]);
    place
}

/// Runs a line in bash, with the program on the path.
fn bash(place: &Place, line: &str) -> (i32, String, String) {
    let program = std::path::Path::new(env!("CARGO_BIN_EXE_havdrims")).parent().unwrap();
    let path = format!("{}:{}", program.display(), std::env::var("PATH").unwrap());
    let mut command = process::Command::new("bash");
    ended(command.args(["-c", line]).env("PATH", path).current_dir(&place.0).output().unwrap())
}

/// What holds of the words of every command.
const ALL_WORDS: &str = "In place of a file that is read `-` is standard input, once in a command. Behind `--` no word is an option, \
                         so that a name may begin with strokes. Options stand in any order, as `--from 5` or `--from=5`.";

#[test]
fn all_commands() {
    let place = Place::new();
    let overview = place.ok(&["help"]);
    assert_eq!((place.ok(&["--help"]), place.ok(&["-h"])), (overview.clone(), overview.clone()));
    assert_eq!(place.fails(2, &[]), overview);
    assert!(overview.lines().all(|line| line.len() <= 80), "{overview}");
    let in_a_line = overview.split_whitespace().collect::<Vec<_>>().join(" ");
    for Command { name, does, .. } in &COMMANDS {
        assert!(
            overview.contains(&format!("\n  {name} ")) && in_a_line.contains(&format!(" {name} {does} ")),
            "{name}"
        );
    }
    assert!(in_a_line.contains(ALL_WORDS), "{overview}");
    for heading in ["A card, evening by evening", "Rules and logs", "This program"] {
        assert!(overview.contains(&format!("\n\n{heading}:\n")), "{overview}");
    }
}

#[test]
fn each_command() {
    let place = place_for_examples();
    for command in &COMMANDS {
        let Command { name, does, options, example, .. } = command;
        let help = place.ok(&["help", name]);
        assert_eq!((place.ok(&[name, "--help"]), place.ok(&[name, "more", "-h"])), (help.clone(), help.clone()));
        assert!(help.starts_with(&format!("{}\n\n", command.usage())), "{help}");
        assert!(help.to_lowercase().contains(&does[..does.len().min(60)].to_lowercase()), "{help}");
        for option in *options {
            assert!(help.contains(&format!("\n  {}  ", option.typed())), "{help}");
            let before = options.iter().take_while(|other| other.name != option.name);
            let names: Vec<&str> = before.map(|other| other.name).collect();
            assert!(!names.contains(&option.name) && option.instead_of.is_none_or(|other| names.contains(&other)));
        }
        let typed = |line: &str| line == command.usage() || line.trim() == *example;
        assert!(help.lines().all(|line| line.len() <= 80 || typed(line)), "{help}");
        assert!(help.ends_with(&format!("\nExample:\n  {example}\n")), "{help}");
        assert!(example.split(' ').take(2).eq(["havdrims", name]), "{example}");
        let (status, _, err) = bash(&place, example);
        assert_eq!((status, err.as_str()), (0, ""), "{example}");
    }
    assert_eq!(
        place.fails(2, &["help", "evenign"]),
        place.fails(2, &["evenign"]) + "expected: havdrims help [COMMAND]\n"
    );
    // behind -- nothing is an option
    assert_eq!(place.fails(1, &["summary", "--", "-h"]), "-h: no card is here; `havdrims new` makes one\n");
}

#[test]
fn the_version() {
    assert_eq!(Place::new().ok(&["--version"]), format!("havdrims {}\n", env!("CARGO_PKG_VERSION")));
}

#[test]
fn how_a_rule_is_written() {
    let place = Place::new();
    let text = place.ok(&["help", "rules"]);
    assert!(text.starts_with("How a rule is written\n\n"), "{text}");
    assert!(text.lines().all(|line| line.len() <= 80), "{text}");
    // the formulas, each of which is accepted
    let shown = text.lines().filter_map(|line| line.strip_prefix("  ")?.split_once("   "));
    let formulas: Vec<&str> = shown.map(|(formula, _)| formula).filter(|formula| !formula.is_empty()).collect();
    assert_eq!((formulas.len(), formulas[0], formulas[11]), (12, "e0", RULE));
    for formula in formulas {
        place.ok(&["rule", formula, "made.krl", "--force"]);
        assert!(place.ok(&["formula", "made.krl"]).starts_with(&format!("{formula}\n")), "{formula}");
    }
    // and those inside the text, with A and B put in
    for formula in text.split('`').skip(1).step_by(2).filter(|part| !part.starts_with("havdrims")) {
        let formula = formula.replace('A', "e0").replace('B', "e1").replace('\n', " ");
        place.ok(&["rule", &formula, "made.krl", "--force"]);
    }
}

#[test]
fn words_that_are_no_command() {
    let place = Place::new();
    let all = "\n`havdrims help` prints all commands.\n";
    assert_eq!(
        place.fails(2, &["help", "rulez"]),
        format!("`rulez` is no command; did you mean rules?{all}expected: havdrims help [COMMAND]\n")
    );
    assert_eq!(place.fails(2, &["rulez"]), format!("`rulez` is no command; did you mean rule?{all}"));
    assert_eq!(place.fails(2, &["evenings"]), format!("`evenings` is no command; did you mean evening?{all}"));
    assert_eq!(place.fails(2, &["sumary", "card"]), format!("`sumary` is no command; did you mean summary?{all}"));
    assert_eq!(place.fails(2, &["version"]), format!("`version` is no command; did you mean --version?{all}"));
    assert_eq!(place.fails(2, &["elephant"]), format!("`elephant` is no command{all}"));
    assert_eq!(place.fails(2, &["-x"]), format!("`-x` is no command{all}"));
}

/// The unit tests of `given` have every sentence; here they are printed, with what is expected behind them.
#[test]
fn wrong_use() {
    let place = Place::new();
    for command in COMMANDS.iter().filter(|command| command.words.first().is_some_and(|word| !word.starts_with('['))) {
        let missing = command.words[0].trim_end_matches("..");
        let text = format!("{missing} is missing\nexpected: {}\n", command.usage());
        assert_eq!(place.fails(2, &[command.name]), text);
    }
    for (words, text) in [
        (&["evening", "card"][..], "LOG is missing"),
        (&["evening", "card", "log", "more"], "`more` is one word too many"),
        (&["sheet", "card", "--xml"], "`--xml` is no option of `havdrims sheet`"),
        (&["trim", "card", "log", "out", "--force", "--force"], "--force is there twice"),
        (
            &["trim", "card", "log", "--forced", "out"],
            "`--forced` is no option of `havdrims trim`; did you mean --force?",
        ),
        (&["why", "rule", "log", "0", "--formula"], "--formula wants K behind it"),
        (&["sheet", "card", "--from", "x"], "--from: `x` is no number, or too large a one"),
        (&["evening", "", "log"], "CARD is empty"),
        (&["why", "e0", "", "5"], "LOG is empty"),
        (&["completions", "fish"], "there are no completions for `fish`, only for bash"),
    ] {
        let said = place.fails(2, words);
        assert!(said.starts_with(&format!("{text}\nexpected: havdrims {} ", words[0])), "{said}");
    }
}

/// Numbers are digits alone: `+5` could be meant as five more.
#[test]
fn numbers_with_a_sign() {
    let place = Place::with_card(1);
    let before = place.card();
    let settings = "--warm-up 45 --print-time 30 --switch-off 60 --mean-gap 120 --seed 7";
    for (line, option, number) in [
        ("sheet card --from +5", "--from: ", "+5"),
        ("sheet card --to=+5", "--to: ", "+5"),
        ("new more e0 --from +5", "--from: ", "+5"),
        ("why card day.klg +5", "", "+5"),
        ("why card day.klg 5 --formula +0", "", "+0"),
        ("worst +0 90 200 made.klg", "", "+0"),
        ("worst 0 +90 200 made.klg", "", "+90"),
        ("worst 0 90 +200 made.klg", "", "+200"),
        (&format!("simulate made.klg --seconds +36 {settings}"), "--seconds: ", "+36"),
    ] {
        let words: Vec<&str> = line.split(' ').collect();
        let said = place.fails(2, &words);
        let text = format!("{option}`{number}` is no number, or too large a one\nexpected: havdrims {} ", words[0]);
        assert!(said.starts_with(&text), "{line}: {said}");
    }
    assert_eq!((place.card(), place.path("more").exists(), place.path("made.klg").exists()), (before, false, false));
    assert_eq!(place.ok(&["sheet", "card", "--from", "004", "--to", "5"]), "4 yes\n5 no\n");
}

/// The man page has every command, option and formula, and the programs that print it find nothing wrong.
#[test]
fn the_man_page() {
    let place = Place::new();
    let page = place.ok(&["man"]);
    fs::write(place.path("havdrims.1"), &page).unwrap();
    let plain = page.replace("\\-", "-");
    assert!(plain.contains(&format!("\n{}\n", ALL_WORDS.replace('`', "\\(ga"))), "{plain}");
    for section in ["NAME", "SYNOPSIS", "DESCRIPTION", "RULES", "ENVIRONMENT", "EXIT STATUS"] {
        assert!(plain.contains(&format!("\n.SH {section}\n")), "{section}");
    }
    for command in &COMMANDS {
        assert!(plain.contains(&format!(".SS \"{}\"\n", command.usage())), "{}", command.name);
        for option in command.options {
            assert!(plain.contains(&format!(".B {}\n", option.typed())), "{}", option.name);
        }
    }
    let printed = "MANWIDTH=80 MAN_KEEP_FORMATTING= man --warnings=w -l havdrims.1 | col -b";
    for line in ["groff -man -Tutf8 -ww -z havdrims.1", printed] {
        let tool = line.split(' ').find(|word| ["groff", "man"].contains(word)).unwrap();
        if bash(&place, &format!("command -v {tool}")).0 != 0 {
            println!("{tool} is not here: the page is not tried with it");
            continue;
        }
        let (status, out, err) = bash(&place, line);
        assert_eq!((status, err.as_str()), (0, ""), "{line}");
        if tool == "man" {
            assert!(out.contains("havdrims new CARD RULE.. [--after OLD | --from N]"), "{out}");
            assert!(out.contains("not e2 or e0 until[0,90] e1"), "{out}");
        }
    }
}

/// Sourced in bash, they complete commands, options and files.
#[test]
fn completions_of_bash() {
    let place = place_for_examples();
    fs::write(place.path("completions"), place.ok(&["completions", "bash"])).unwrap();
    let complete = |line: &str| {
        let script = format!(
            "source completions; compopt() {{ :; }}; COMP_WORDS=({line}); [[ '{line}' != *' ' ]] || COMP_WORDS+=(''); \
             COMP_CWORD=$((${{#COMP_WORDS[@]}} - 1)); _havdrims; printf '%s\\n' \"${{COMPREPLY[@]}}\""
        );
        let (status, out, err) = bash(&place, &script);
        assert_eq!((status, err.as_str()), (0, ""), "{line}");
        let mut words: Vec<&str> = out.split_whitespace().collect();
        words.sort_unstable();
        words.join(" ")
    };
    let mut all: Vec<&str> = COMMANDS.iter().map(|command| command.name).chain(["--help", "--version"]).collect();
    all.sort_unstable();
    assert_eq!(complete("havdrims "), all.join(" "));
    assert_eq!(complete("havdrims s"), "sheet simulate summary");
    assert_eq!(complete("havdrims sheet card --f"), "--from");
    assert_eq!(complete("havdrims new card --"), "--after --from --help --letters");
    assert_eq!(complete("havdrims evening card d"), "day.klg day.txt");
    assert_eq!(complete("havdrims evening vis"), "visit.klg visited");
    assert_eq!(complete("havdrims help ru"), "rule rules");
    assert_eq!(complete("havdrims completions "), "bash");
    assert_eq!(complete("havdrims elephant d"), "");
    let (_, out, _) = bash(&place, "source completions; complete -p havdrims");
    assert_eq!(out, "complete -F _havdrims havdrims\n");
}
