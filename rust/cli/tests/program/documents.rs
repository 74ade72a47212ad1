//! Every example of README.md and docs/FLEET.md, run as it stands there and compared character by character.

use crate::{ended, example, Place, RULE};
use std::fs;
use std::os::unix::fs::symlink;
use std::path::{Path, PathBuf};
use std::process::Command;

fn repository() -> PathBuf {
    Path::new(env!("CARGO_MANIFEST_DIR")).join("../..").canonicalize().unwrap()
}

/// A command, in one or more lines, and what it prints.
struct Example {
    typed: String,
    printed: String,
}

/// The blocks of a document that stand four columns in, without these columns.
fn blocks(document: &str) -> Vec<Vec<String>> {
    let text = fs::read_to_string(repository().join(document)).unwrap();
    let mut blocks = vec![Vec::new()];
    for line in text.lines() {
        match line.strip_prefix("    ") {
            Some(line) => blocks.last_mut().unwrap().push(line.to_string()),
            None => blocks.push(Vec::new()),
        }
    }
    blocks.into_iter().filter(|block| !block.is_empty()).collect()
}

/// The examples of a document: blocks that begin with `$`. All others have to be these.
fn examples(document: &str, others: &[&str]) -> Vec<Example> {
    let (shown, rest): (Vec<_>, Vec<_>) = blocks(document).into_iter().partition(|block| block[0].starts_with("$ "));
    let rest: Vec<&str> = rest.iter().map(|block| block[0].as_str()).collect();
    assert_eq!(rest, others, "{document}: what is no example");
    let mut examples: Vec<Example> = Vec::new();
    for line in shown.into_iter().flatten() {
        let last = examples.last_mut();
        match (line.strip_prefix("$ "), line.strip_prefix("> "), last) {
            (Some(typed), ..) => examples.push(Example { typed: format!("{typed}\n"), printed: String::new() }),
            (_, Some(typed), Some(last)) if last.printed.is_empty() => last.typed += &format!("{typed}\n"),
            (_, _, Some(last)) => last.printed += &format!("{line}\n"),
            (_, _, None) => panic!("{document}: {line}"),
        }
    }
    examples
}

fn copy(from: &Path, to: &Path) {
    if !from.is_dir() {
        fs::copy(from, to).unwrap();
        return;
    }
    fs::create_dir_all(to).unwrap();
    for entry in fs::read_dir(from).unwrap() {
        let entry = entry.unwrap();
        copy(&entry.path(), &to.join(entry.file_name()));
    }
}

/// Every file below a folder.
fn files(folder: &Path) -> Vec<PathBuf> {
    let mut all = Vec::new();
    for entry in fs::read_dir(folder).unwrap() {
        let path = entry.unwrap().path();
        match path.is_dir() {
            true => all.extend(files(&path)),
            false => all.push(path),
        }
    }
    all.sort();
    all
}

/// What an example needs of the repository, and an empty folder for what is made on the way.
fn small_repository(place: &Place) -> PathBuf {
    let (from, to) = (repository(), place.path("repository"));
    for folder in ["target/staticlib", "rust/target/release"] {
        fs::create_dir_all(to.join(folder)).unwrap();
    }
    for part in ["examples/day", "examples/c/week.c", "examples/c/Makefile", "include", "install"] {
        fs::create_dir_all(to.join(part).parent().unwrap()).unwrap();
        copy(&from.join(part), &to.join(part));
    }
    copy(&from.join("target/staticlib/libhavdrims.a"), &to.join("target/staticlib/libhavdrims.a"));
    symlink(env!("CARGO_BIN_EXE_havdrims"), to.join("rust/target/release/havdrims")).unwrap();
    fs::create_dir(place.path("tmp")).unwrap();
    to
}

/// Runs all examples of a document in one shell.
fn run(document: &str, others: &[&str]) {
    const END: &str = "the end of an example\n";
    let place = Place::new();
    let repository = small_repository(&place);
    let before = files(&repository);
    let examples = examples(document, others);
    let lines: Vec<String> = examples.iter().map(|example| format!("{}printf '{END}'\n", example.typed)).collect();
    fs::write(place.path("script"), format!("exec 2>&1\n{}", lines.concat().replace(END, &END.replace('\n', "\\n"))))
        .unwrap();
    let mut shell = Command::new("bash");
    shell.arg(place.path("script")).current_dir(&repository).env("TMPDIR", place.path("tmp"));
    // What a make or a terminal around this test says is not meant for the examples.
    for name in ["MAKEFLAGS", "MFLAGS", "MAKELEVEL", "NO_COLOR"] {
        shell.env_remove(name);
    }
    let (status, out, _) = ended(shell.output().unwrap());
    let printed: Vec<&str> = out.split(END).collect();
    for (example, printed) in examples.iter().zip(&printed) {
        assert_eq!(*printed, example.printed, "{document}: {}", example.typed);
    }
    assert_eq!((status, printed.len()), (0, examples.len() + 1), "{out}");
    assert!(examples.len() > 20, "{document}: {} examples", examples.len());
    // Nothing is left behind.
    assert_eq!(fs::read_dir(place.path("tmp")).unwrap().count(), 0, "{document} leaves something behind");
    assert_eq!(files(&repository), before, "{document} leaves something in the repository");
}

const OF_README: [&str; 7] = [
    "(cd crates/kiosk && rt run > /dev/null) && (cd examples/day && ../../crates/kiosk/out/kiosk)",
    "verdicts 12 of 14",
    "bash .ci/run",
    "tools/archive && (cd rust && cargo build --release --offline -p cli)",
    "Monday       |#####----|",
    "#  verdict given this evening",
    "let mut monitor = Monitor::new(\"not e2 or e0 until[0,90] e1\".parse()?);",
];

#[test]
fn the_examples_of_the_readme() {
    run("README.md", &OF_README);
}

#[test]
fn the_examples_of_the_fleet() {
    run("docs/FLEET.md", &["PATH=$PWD/rust/target/release:$PATH examples/fleet/measure 1000 2"]);
}

/// The sample day as the program `kiosk` prints it has the verdicts of `havdrims`.
#[test]
fn the_sample_day_of_the_readme() {
    let place = Place::with_card(0);
    place.ok(&["evening", "card", "day.klg"]);
    let block = blocks("README.md").into_iter().find(|block| block[0] == OF_README[1]).unwrap();
    assert_eq!(block[1..].join("\n") + "\n", place.ok(&["sheet", "card"]));
    let kiosk = fs::read(example("rule.krl")).unwrap();
    assert_eq!(fs::read(place.path("card/rule.krl")).unwrap(), kiosk, "{RULE}");
}
