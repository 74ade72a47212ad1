//! Files outside of cards: written beside and renamed, so that a run that is cut leaves what was there, or the whole new file.

use crate::card;
use crate::command::Failure;
use crate::disk::{read_file, Disk, Folder};
use std::io::ErrorKind;
use std::os::unix::fs::MetadataExt;
use std::path::{Path, PathBuf};
use std::{fmt, fs, io};

/// Why a file was not written.
#[derive(Debug)]
pub enum Fault {
    /// A file with this name is there, and may not be replaced.
    There,
    /// What is there is a folder or a device.
    NoFile,
    /// The folder is a card.
    InCard,
    /// It would be written, as long as it is not whole, over a file that it is made from.
    OverItsSource,
    /// It would replace the file that it is made from.
    Itself,
    /// A log or a rule is here, which is not replaced by another kind of file.
    LogOrRule(&'static str),
    NoFolder,
    /// An operation failed: there is no new file.
    Disk {
        doing: &'static str,
        fault: io::Error,
    },
    /// The file may be the new one or what was there before, and may not survive a cut.
    Unsure {
        doing: &'static str,
        fault: io::Error,
    },
}

impl fmt::Display for Fault {
    fn fmt(&self, f: &mut fmt::Formatter<'_>) -> fmt::Result {
        match self {
            Fault::There => write!(f, "a file is here already; --force replaces it"),
            Fault::NoFile => write!(f, "what is here is no file, and is not replaced"),
            Fault::InCard => write!(f, "this would be a file in a card, which holds no others than its own"),
            Fault::OverItsSource => {
                write!(f, "until it is whole this file has the name of what it is made from; choose another name")
            }
            Fault::Itself => {
                write!(f, "this is the file that it is made from, and is not replaced; choose another name")
            }
            Fault::LogOrRule(what) => write!(f, "a {what} is here, and is not replaced; choose another name"),
            Fault::NoFolder => write!(f, "its folder is not there"),
            Fault::Disk { doing, fault } => write!(f, "cannot {doing}: {fault}; nothing was changed"),
            Fault::Unsure { doing, fault } => write!(f, "cannot {doing}: {fault}; it may be as it was before"),
        }
    }
}

/// Writes the file of this name, in place of one that is there only if so told.
pub fn write(path: &str, bytes: &[u8], replace: bool) -> Result<(), Failure> {
    write_at(path, named(path)?, bytes, replace)
}

/// The same where its place is known.
pub fn write_at(path: &str, (mut folder, name): (Folder, String), bytes: &[u8], replace: bool) -> Result<(), Failure> {
    let other = other_kind(path, bytes).map_err(|fault| Failure::fault(path, fault))?;
    put(&mut folder, &name, bytes, Replaces { any: replace, other }).map_err(|fault| Failure::fault(path, fault))
}

/// What is replaced.
#[derive(Clone, Copy, Default)]
pub struct Replaces {
    /// A file that is there.
    pub any: bool,
    /// A log or a rule that is there, and is not replaced even then.
    pub other: Option<&'static str>,
}

/// The folder of a file, and its name there. A link stands for the file that it leads to.
pub fn named(path: &str) -> Result<(Folder, String), Failure> {
    if path == "-" {
        return Err(Failure::Use("nothing is written to `-`; a file of this name is ./-".to_string()));
    }
    let no_name = || Failure::Use(format!("`{path}` is no name of a file"));
    Path::new(path)
        .file_name()
        .filter(|name| name.to_str().is_some_and(|name| path.ends_with(name)))
        .ok_or_else(no_name)?;
    let place = match fs::symlink_metadata(path) {
        Ok(there) if there.is_symlink() => fs::canonicalize(path).map_err(|fault| of_link(path, fault))?,
        _ => PathBuf::from(path),
    };
    if fs::metadata(&place).is_ok_and(|there| !there.is_file()) {
        return Err(Failure::fault(path, Fault::NoFile));
    }
    let folder = match place.parent() {
        Some(folder) if folder != Path::new("") => folder,
        _ => Path::new("."),
    };
    let name = place.file_name().and_then(|name| name.to_str()).ok_or_else(no_name)?;
    Ok((Folder::new(folder), name.to_string()))
}

/// What is wrong with a link where a file is to be written.
fn of_link(path: &str, fault: io::Error) -> Failure {
    match fault.kind() {
        ErrorKind::NotFound => Failure::fault(path, "this link leads to no file; take it away, or choose another name"),
        _ => Failure::fault(path, fault),
    }
}

/// The same of a file that is made from another, which it may replace when it is whole, but not pass over before.
pub fn named_apart(path: &str, source: &str) -> Result<(Folder, String), Failure> {
    let (folder, name) = named(path)?;
    let there = |place: &Path| fs::canonicalize(place).ok();
    let unfinished = there(&folder.path().join(beside(&name)));
    if unfinished.is_some() && unfinished == there(Path::new(source)) {
        return Err(Failure::fault(path, Fault::OverItsSource));
    }
    Ok((folder, name))
}

/// The same of a file that is of another kind than its source, and so never takes its place, under whatever name.
pub fn named_other(path: &str, source: &str) -> Result<(Folder, String), Failure> {
    let named = named_apart(path, source)?;
    // Who redirects standard input has named a file too.
    let source = if source == "-" { "/dev/stdin" } else { source };
    let number = |path: &str| fs::metadata(path).ok().map(|there| (there.dev(), there.ino()));
    match number(path).filter(|&there| Some(there) == number(source)) {
        Some(_) => Err(Failure::fault(path, Fault::Itself)),
        None => Ok(named),
    }
}

/// The log or rule that is here, of which another kind of file would take the place: nobody means to lose one so.
fn other_kind(path: &str, bytes: &[u8]) -> io::Result<Option<&'static str>> {
    match read_file(path, 2) {
        Err(_) if fs::metadata(path).is_err() => Ok(None),
        read => Ok(kind(&read?).filter(|&what| kind(bytes) != Some(what))),
    }
}

/// What a file is that begins so, where that can be told.
fn kind(begins: &[u8]) -> Option<&'static str> {
    match begins.get(..3) {
        Some(b"KLG") => Some("log"),
        Some(b"KRL") => Some("rule"),
        _ => None,
    }
}

/// The file as long as it is not whole: a name that nobody types, since it is replaced without a question.
fn beside(name: &str) -> String {
    format!(".{name}.havdrims-new")
}

fn failed(doing: &'static str) -> impl Fn(io::Error) -> Fault {
    move |fault| Fault::Disk { doing, fault }
}

/// Writes the file that is to be renamed, with the mode of the one that it replaces, if there is one.
fn write_beside(disk: &mut impl Disk, new: &str, bytes: &[u8], replaced: Option<&str>) -> Result<(), Fault> {
    disk.write(new, 0, bytes).map_err(failed("write it"))?;
    disk.sync(new).map_err(failed("sync it"))?;
    match replaced {
        Some(name) => disk.take_mode(new, name).map_err(failed("give it the mode of the file that it replaces")),
        None => Ok(()),
    }
}

/// Writes a file of a folder that is no card, in place of one that is there only if so told. When this returns, it survives a cut.
pub fn put(disk: &mut impl Disk, name: &str, bytes: &[u8], replaces: Replaces) -> Result<(), Fault> {
    let unsure = |doing| move |fault| Fault::Unsure { doing, fault };
    let names = disk.names().map_err(failed("read its folder"))?.ok_or(Fault::NoFolder)?;
    if card::is_card(&names) {
        return Err(Fault::InCard);
    }
    if let Some(what) = replaces.other {
        return Err(Fault::LogOrRule(what));
    }
    let is_there = |name: &str| names.iter().any(|there| there == name);
    let replaced = is_there(name).then_some(name);
    if !replaces.any && replaced.is_some() {
        return Err(Fault::There);
    }
    let new = beside(name);
    if is_there(&new) {
        // Left by a run that was cut; it may not be writable.
        disk.remove(&new).map_err(failed("write it"))?;
    }
    let written = write_beside(disk, &new, bytes, replaced);
    if written.is_err() {
        let _ = disk.remove(&new);
        return written;
    }
    let renamed = disk.rename(&new, name).map_err(unsure("put it in its place"));
    if renamed.is_err() {
        // Gone already, if the operation did its work and failed all the same.
        let _ = disk.remove(&new);
        return renamed;
    }
    disk.sync_folder().map_err(unsure("sync its folder"))
}
