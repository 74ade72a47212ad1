//! Names of files and cards that were mistyped: what stands beside that may be meant.

use crate::card;
use crate::command::near::nearest;
use crate::disk::{Disk, Folder};
use crate::letters::is_hidden;
use std::fs;
use std::path::Path;

/// Whether this names the folder of a card. `-` is standard input.
pub fn is_card(path: &str) -> bool {
    let names = Folder::new(Path::new(path)).names().ok().filter(|_| path != "-");
    names.flatten().is_some_and(|names| card::is_card(&names))
}

/// What to say behind the name of a card that is not there: `; did you mean hall?`, or nothing.
pub fn or_card(path: &str) -> String {
    did_you_mean(near(path, is_card))
}

/// The same of a file that is read.
pub fn or_file(path: &str) -> String {
    did_you_mean(near(path, |path| Path::new(path).is_file()))
}

/// The same of a rule: a card or a .krl file.
pub fn or_rule(path: &str) -> String {
    let is_rule = |path: &str| is_card(path) || path.ends_with(".krl");
    did_you_mean(near(path, is_rule).or_else(|| near(&format!("{path}.krl"), is_rule)))
}

/// The same of a rule file.
pub fn or_rule_file(path: &str) -> String {
    let is_file = |path: &str| path.ends_with(".krl") && Path::new(path).is_file();
    did_you_mean(near(path, is_file).or_else(|| near(&format!("{path}.krl"), is_file)))
}

/// The first card in this folder, by name.
pub fn first_card(folder: &str) -> Option<String> {
    let mut all = names(&format!("{}/", folder.trim_end_matches('/')));
    all.sort();
    all.into_iter().find(|path| is_card(path))
}

fn did_you_mean(meant: Option<String>) -> String {
    meant.map_or(String::new(), |meant| format!("; did you mean {meant}?"))
}

/// The path in the same folder whose name differs least from this one, among those that are what is wanted.
fn near(path: &str, wanted: impl Fn(&str) -> bool) -> Option<String> {
    let path = path.trim_end_matches('/');
    let name = &path[folder_of(path).len()..];
    let own = |path: &String| path[folder_of(path).len()..].to_string();
    // Few are so near that it is worth looking at them.
    let near: Vec<String> =
        names(path).into_iter().filter(|other| nearest(name, [own(other).as_str()]).is_some()).collect();
    let near: Vec<String> = near.into_iter().filter(|other| wanted(other)).map(|other| own(&other)).collect();
    nearest(name, near.iter().map(String::as_str)).map(|meant| format!("{}{meant}", folder_of(path)))
}

/// The folder of a path as it is typed, with its stroke.
fn folder_of(path: &str) -> &str {
    &path[..path.rfind('/').map_or(0, |at| at + 1)]
}

/// The paths of what stands in the folder of this one, but for names that would disturb the line in which they stand.
fn names(path: &str) -> Vec<String> {
    let folder = folder_of(path);
    let entries = fs::read_dir(if folder.is_empty() { "." } else { folder });
    let shown = |name: &String| !name.chars().any(is_hidden);
    let named =
        |entry: fs::DirEntry| entry.file_name().into_string().ok().filter(shown).map(|name| format!("{folder}{name}"));
    entries.map_or(Vec::new(), |entries| entries.flatten().filter_map(named).collect())
}
