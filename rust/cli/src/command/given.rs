//! The words of a command line, read as the table of commands has them.

use super::near::did_you_mean;
use super::table::{Command, Opt, COMMANDS};
use super::{Failure, Paint};
use crate::convert::{between_quotes, digits, is_formula, is_rule, no_number};
use std::path::Path;
use std::str::FromStr;

/// What a command was given.
#[derive(Debug)]
pub struct Given<'a> {
    words: Vec<&'a str>,
    /// Each option that is there, with what stands behind it.
    options: Vec<(&'static str, &'a str)>,
    pub paint: Paint,
}

impl<'a> Given<'a> {
    /// The words that are no options; or what is wrong.
    pub fn read(command: &Command, typed: &[&'a str], paint: Paint) -> Result<Given<'a>, String> {
        let mut given = Given { words: Vec::new(), options: Vec::new(), paint };
        let mut typed = typed.iter().copied();
        while let Some(word) = typed.next() {
            match word {
                // Behind it nothing is an option.
                "--" => given.words.extend(typed.by_ref()),
                _ if word.starts_with("--") => given.take_option(command, word, &mut typed)?,
                // It would be taken for a name.
                _ if has_one_stroke(command, word) => {
                    return Err(format!("`{word}` is no option of `havdrims {}`; did you mean -{word}?", command.name))
                }
                _ => given.words.push(word),
            }
        }
        given.complete(command).map(|()| given)
    }

    /// An option, as `--from 5` or `--from=5`.
    fn take_option(
        &mut self,
        command: &Command,
        word: &'a str,
        rest: &mut impl Iterator<Item = &'a str>,
    ) -> Result<(), String> {
        let (name, joined) = match word.split_once('=') {
            Some((name, value)) => (name, Some(value)),
            None => (word, None),
        };
        let known = command.options.iter().find(|option| option.name == name);
        let option = known.ok_or_else(|| unknown(command, name))?;
        if self.has(option.name) {
            return Err(format!("{name} is there twice"));
        }
        let value = match (option.value, joined) {
            (None, None) => "",
            (None, Some(_)) => return Err(format!("nothing stands behind {name}")),
            (Some(_), Some(value)) => value,
            (Some(value), None) => rest.next().ok_or_else(|| format!("{name} wants {value} behind it"))?,
        };
        self.options.push((option.name, value));
        Ok(())
    }

    /// Whether all is there that has to be, and nothing else.
    fn complete(&self, command: &Command) -> Result<(), String> {
        let (needed, many) = (command.needed_words(), command.takes_many());
        if let Some(missing) = needed.get(self.words.len()) {
            // The rule may be there, and the word before it not.
            let before = self.words.last().filter(|word| *missing == "RULE.." && is_rule(word));
            let missing = before.map_or(*missing, |_| needed[self.words.len() - 1]);
            return Err(format!("{} is missing", missing.trim_end_matches("..")));
        }
        if self.words.len() > command.words.len() && !many {
            return Err(self.unquoted(command).unwrap_or_else(|| self.too_many(command)));
        }
        let fixed = command.words.iter().zip(&self.words).take_while(|(name, _)| !name.ends_with(".."));
        if let Some((name, _)) = fixed.into_iter().find(|(_, word)| word.is_empty()) {
            return Err(format!("{} is empty", name.trim_matches(['[', ']'])));
        }
        let values = self.options.iter().map(|(_, value)| value);
        if self.words.iter().chain(values).filter(|word| **word == "-").count() > 1 {
            return Err("`-` is there twice, and standard input is read once".to_string());
        }
        for option in command.options {
            if let Some(other) = option.instead_of.filter(|other| self.has(option.name) && self.has(other)) {
                return Err(format!("{other} and {} exclude each other", option.name));
            }
            // A flag that is needed is a question to the one who types: the command asks it in its own words.
            if option.needed && option.value.is_some() && !self.has(option.name) {
                return Err(format!("{} is missing", option.name));
            }
        }
        Ok(())
    }

    /// The word too many, which may be an option without its strokes.
    fn too_many(&self, command: &Command) -> String {
        let option = |word: &str| format!("--{}", word.trim_start_matches('-'));
        let meant = |word: &&&str| command.options.iter().any(|known| known.name == option(word));
        match self.words.iter().find(meant) {
            Some(word) => format!("`{word}` is one word too many; did you mean {}?", option(word)),
            None => format!("`{}` is one word too many", self.words[command.words.len()]),
        }
    }

    /// Of too many words: which of them are one, a formula or the name of something that is there.
    fn unquoted(&self, command: &Command) -> Option<String> {
        let (words, extra) = (&self.words, self.words.len() - command.words.len());
        let rule = command.words.iter().position(|&word| word == "RULE");
        if let Some(formula) = rule.map(|at| words[at..=at + extra].join(" ")).filter(|typed| is_formula(typed)) {
            return Some(between_quotes(&formula));
        }
        let ends = |from: usize| from + 1..words.len().min(from + extra + 1);
        let mut names = (0..words.len()).flat_map(|from| ends(from).map(move |to| words[from..=to].join(" ")));
        let name = names.find(|name| Path::new(name).exists())?;
        Some(format!("put the name between quotes: '{name}'"))
    }

    /// The words that are no options, as many as the command has.
    pub fn words<const N: usize>(&self) -> [&'a str; N] {
        self.words.as_slice().try_into().expect("the table says how many")
    }

    /// The one word of a command that has one.
    pub fn only(&self) -> &'a str {
        let [only] = self.words();
        only
    }

    pub fn all(&self) -> &[&'a str] {
        &self.words
    }

    pub fn has(&self, option: &str) -> bool {
        self.value(option).is_some()
    }

    /// What stands behind an option, if it is there.
    pub fn value(&self, option: &str) -> Option<&'a str> {
        self.options.iter().find(|(name, _)| *name == option).map(|&(_, value)| value)
    }

    /// The number behind an option.
    pub fn number<T: FromStr>(&self, option: &str) -> Result<Option<T>, Failure> {
        let number = |word: &str| digits(word).ok_or_else(|| Failure::Use(format!("{option}: {}", no_number(word))));
        self.value(option).map(number).transpose()
    }
}

/// Whether this is an option of the command but for its second stroke, as `-force`.
fn has_one_stroke(command: &Command, word: &str) -> bool {
    let name = word.split_once('=').map_or(word, |(name, _)| name);
    name.starts_with('-') && command.options.iter().any(|option| option.name == format!("-{name}"))
}

fn unknown(command: &Command, name: &str) -> String {
    let hint = match did_you_mean(name, command.options.iter().map(|option| option.name).chain(["--help"])) {
        none if none.is_empty() => {
            let others = COMMANDS.iter().filter(|other| other.options.iter().any(|option| option.name == name));
            let others: Vec<String> = others.map(|other| format!("`havdrims {}`", other.name)).collect();
            if others.is_empty() {
                none
            } else {
                format!("; it is one of {}", others.join(", "))
            }
        }
        hint => hint,
    };
    format!("`{name}` is no option of `havdrims {}`{hint}", command.name)
}

impl Command {
    /// The words that may not be left out.
    fn needed_words(&self) -> Vec<&'static str> {
        self.words.iter().copied().filter(|word| !word.starts_with('[')).collect()
    }

    fn takes_many(&self) -> bool {
        self.words.iter().any(|word| word.ends_with(".."))
    }

    /// How it is typed: `havdrims new CARD RULE.. [--after OLD | --from N]`.
    pub fn usage(&self) -> String {
        let mut parts = vec!["havdrims".to_string(), self.name.to_string()];
        parts.extend(self.words.iter().map(|word| word.to_string()));
        for option in self.options {
            match option.instead_of.and_then(|other| parts.iter().position(|part| part.contains(other))) {
                Some(at) => parts[at] = format!("{} | {}]", parts[at].trim_end_matches(']'), option.typed()),
                None if option.needed => parts.push(option.typed()),
                None => parts.push(format!("[{}]", option.typed())),
            }
        }
        parts.join(" ")
    }
}

impl Opt {
    /// How it is typed: `--from N`.
    pub fn typed(&self) -> String {
        match self.value {
            Some(value) => format!("{} {value}", self.name),
            None => self.name.to_string(),
        }
    }
}

#[cfg(test)]
mod tests {
    use super::{Given, Paint};
    use crate::command::table::COMMANDS;

    fn read(line: &str) -> Result<(String, String), String> {
        let words: Vec<&str> = line.split(' ').collect();
        let command = COMMANDS.iter().find(|command| command.name == words[0]).unwrap();
        let given = Given::read(command, &words[1..], Paint::Plain)?;
        let options: Vec<String> = given.options.iter().map(|(name, value)| format!("{name}:{value}")).collect();
        Ok((given.words.join(" "), options.join(" ")))
    }

    #[test]
    fn words_and_options() {
        let ok = |line: &str, words: &str, options: &str| {
            assert_eq!(read(line), Ok((words.to_string(), options.to_string())), "{line}");
        };
        ok("sheet card", "card", "");
        ok("sheet --from 5 card --csv", "card", "--from:5 --csv:");
        ok("sheet --from=5 card", "card", "--from:5");
        ok("sheet --from= card", "card", "--from:");
        ok("sheet -- --csv", "--csv", "");
        ok("sheet --csv -- --", "--", "--csv:");
        ok("sheet -", "-", "");
        ok("page card log ./-force", "card log ./-force", "");
        ok("page card log -- -force", "card log -force", "");
        ok("page card log -forced", "card log -forced", "");
        ok("new card e0 e1 e2 --after old", "card e0 e1 e2", "--after:old");
        ok("rule e0 e1 --force out.krl", "e0 e1 out.krl", "--force:");
        ok("help", "", "");
        ok("help sheet", "sheet", "");
        ok("close card log", "card log", "");
    }

    #[test]
    fn what_is_wrong() {
        let wrong = |line: &str, text: &str| assert_eq!(read(line), Err(text.to_string()), "{line}");
        wrong("sheet", "CARD is missing");
        wrong("new card", "RULE is missing");
        wrong("new e0", "CARD is missing");
        wrong("new rule.krl", "CARD is missing");
        wrong("new --from 3 e0", "CARD is missing");
        wrong("new ./e0", "RULE is missing");
        wrong("evening card", "LOG is missing");
        wrong("evening  log", "CARD is empty");
        wrong("evening card ", "LOG is empty");
        wrong("sheet card more", "`more` is one word too many");
        wrong("help sheet more", "`more` is one word too many");
        wrong("sheet card -no", "`-no` is no option of `havdrims sheet`; did you mean --no?");
        wrong("page card log -force", "`-force` is no option of `havdrims page`; did you mean --force?");
        wrong("close card -final", "`-final` is no option of `havdrims close`; did you mean --final?");
        wrong("new card e0 -from=5", "`-from=5` is no option of `havdrims new`; did you mean --from=5?");
        wrong("close card log final", "`final` is one word too many; did you mean --final?");
        wrong("why not e2 or e0 log 5", "put the formula between quotes: 'not e2 or e0'");
        wrong("why e0 log 5 --words more", "`more` is one word too many");
        wrong("formula e0 until[0,9] e1", "put the formula between quotes: 'e0 until[0,9] e1'");
        wrong("sheet card --from", "--from wants N behind it");
        wrong("sheet card --csv --csv", "--csv is there twice");
        wrong("sheet card --csv=yes", "nothing stands behind --csv");
        wrong("sheet card --cvs", "`--cvs` is no option of `havdrims sheet`; did you mean --csv?");
        wrong(
            "page card log out --letters n",
            "`--letters` is no option of `havdrims page`; it is one of `havdrims new`",
        );
        wrong("sheet card --elephant", "`--elephant` is no option of `havdrims sheet`");
        wrong("new card e0 --from 4 --after old", "--after and --from exclude each other");
        wrong("simulate log --seconds 4", "--warm-up is missing");
        wrong("why - - 5", "`-` is there twice, and standard input is read once");
        wrong("new card - --letters -", "`-` is there twice, and standard input is read once");
    }

    #[test]
    fn usages() {
        let usage = |name: &str| COMMANDS.iter().find(|command| command.name == name).unwrap().usage();
        assert_eq!(usage("evening"), "havdrims evening CARD LOG [--both] [--json]");
        assert_eq!(usage("sheet"), "havdrims sheet CARD [--csv | --json] [--no] [--from N] [--to N]");
        assert_eq!(usage("new"), "havdrims new CARD RULE.. [--after OLD | --from N] [--letters FILE]");
        assert_eq!(usage("close"), "havdrims close CARD LOG --final [--both] [--json]");
        assert_eq!(usage("man"), "havdrims man");
    }
}
