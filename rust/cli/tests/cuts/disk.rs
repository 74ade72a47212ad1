//! A disk in memory that loses what was not synced: all of it, any part of it, or nothing, as when a process is killed.

use cli::disk::{Disk, Lock};
use evaluator::random::Random;
use std::collections::BTreeMap;
use std::io::{self, ErrorKind};

/// What is left after a cut.
#[derive(Clone, Copy, Debug, PartialEq)]
pub enum Way {
    /// Only what was synced.
    Synced,
    /// Besides, any part of what was not.
    Part,
    /// All: the process was killed, and what was not synced still is not.
    Killed,
}

/// How much of its work an operation does. Of another than a write, a part is nothing.
#[derive(Clone, Copy, Debug, PartialEq)]
pub enum Work {
    Nothing,
    Part,
    All,
}

/// What one operation does instead of its work.
#[derive(Clone, Copy, Debug, PartialEq)]
pub enum Trouble {
    /// The run is cut: the operation does so much of its work, and no other follows.
    Cut(Work),
    /// The disk is full: a write does a part of its work, another operation nothing, and fails.
    Full,
    /// The operation does its work, and then fails.
    Late,
    /// This operation and all after it fail.
    Broken,
}

/// The mode of a file that is made, and of one that stood there before.
pub const MADE: u32 = 0o644;
pub const OWN: u32 = 0o440;

/// The bytes of a file as programs see them, and as they survive a cut.
#[derive(Clone)]
struct File {
    now: Vec<u8>,
    synced: Vec<u8>,
    mode: u32,
}

type Names = BTreeMap<String, usize>;

/// A change of names that is not synced.
#[derive(Clone)]
enum Change {
    Made(String, usize),
    Renamed(String, String, usize),
    Removed(String),
}

fn apply(names: &mut Names, change: &Change) {
    match change {
        Change::Made(name, file) => {
            names.insert(name.clone(), *file);
        }
        Change::Renamed(name, to, file) => {
            names.remove(name);
            names.insert(to.clone(), *file);
        }
        Change::Removed(name) => {
            names.remove(name);
        }
    }
}

#[derive(Clone)]
pub struct Simulated {
    /// The folder is there; and so it is after a cut.
    folder: bool,
    folder_synced: bool,
    files: Vec<File>,
    names: Names,
    synced: Names,
    changes: Vec<Change>,
    /// The operations so far, those that only read left out.
    pub operations: usize,
    /// The operation that will not do its work, counted from the first.
    pub trouble: Option<(usize, Trouble)>,
    /// No process runs any more.
    dead: bool,
    r: Random,
}

impl Simulated {
    pub fn new(seed: u64) -> Simulated {
        Simulated {
            folder: false,
            folder_synced: false,
            files: Vec::new(),
            names: Names::new(),
            synced: Names::new(),
            changes: Vec::new(),
            operations: 0,
            trouble: None,
            dead: false,
            r: Random::new(seed),
        }
    }

    /// With a folder in which this file stands.
    pub fn with_file(seed: u64, name: &str, bytes: &[u8]) -> Simulated {
        let mut disk = Simulated { folder: true, folder_synced: true, ..Simulated::new(seed) };
        disk.files.push(File { now: bytes.to_vec(), synced: bytes.to_vec(), mode: OWN });
        disk.names.insert(name.to_string(), 0);
        disk.synced = disk.names.clone();
        disk
    }

    /// Another program changes a file, and what it wrote survives every cut.
    pub fn change(&mut self, name: &str, change: impl FnOnce(&mut Vec<u8>)) {
        let file = self.names[name];
        let file = &mut self.files[file];
        change(&mut file.now);
        file.synced = file.now.clone();
    }

    /// Another program takes a file away, for good.
    pub fn take_away(&mut self, name: &str) {
        self.changes.retain(|change| !matches!(change, Change::Made(made, _) if made == name));
        self.names.remove(name);
        self.synced.remove(name);
    }

    /// The cut that was due did come.
    pub fn was_cut(&self) -> bool {
        self.dead
    }

    /// Every file as a program would read it.
    pub fn contents(&self) -> BTreeMap<String, Vec<u8>> {
        self.names.iter().map(|(name, &file)| (name.clone(), self.files[file].now.clone())).collect()
    }

    pub fn mode(&self, name: &str) -> Option<u32> {
        self.names.get(name).map(|&file| self.files[file].mode)
    }

    /// What is left after a cut; from here on another process may run.
    pub fn cut(&mut self, way: Way) {
        (self.dead, self.trouble) = (false, None);
        if way == Way::Killed {
            return;
        }
        let part = way == Way::Part;
        self.folder = self.folder_synced || (part && self.folder && self.r.one_in(2));
        let mut names = self.synced.clone();
        for change in &self.changes {
            if part && self.r.one_in(2) {
                apply(&mut names, change);
            }
        }
        if !self.folder {
            names.clear();
        }
        for file in &mut self.files {
            let left = if part { mixed(&mut self.r, &file.synced, &file.now) } else { file.synced.clone() };
            *file = File { now: left.clone(), synced: left, mode: file.mode };
        }
        // What is on the disk now is there for good.
        self.folder_synced = self.folder;
        (self.names, self.synced) = (names.clone(), names);
        self.changes.clear();
    }

    /// One operation: its work, unless there is trouble. A write is told whether to do all of it or a part.
    fn operation(&mut self, is_write: bool, work: impl FnOnce(&mut Self, bool) -> io::Result<()>) -> io::Result<()> {
        if self.dead {
            return Err(io::Error::other("no process runs"));
        }
        let at = self.operations;
        self.operations += 1;
        match self.trouble {
            Some((when, Trouble::Cut(much))) if when == at => {
                if much == Work::All || (is_write && much == Work::Part) {
                    work(self, much == Work::All)?;
                }
                self.dead = true;
                Err(io::Error::other("cut"))
            }
            Some((when, Trouble::Full)) if when == at => {
                if is_write {
                    work(self, false)?;
                }
                Err(ErrorKind::StorageFull.into())
            }
            Some((when, Trouble::Late)) if when == at => {
                work(self, true)?;
                Err(ErrorKind::TimedOut.into())
            }
            Some((when, Trouble::Broken)) if when <= at => Err(ErrorKind::PermissionDenied.into()),
            _ => work(self, true),
        }
    }

    fn file(&self, name: &str) -> io::Result<usize> {
        self.names.get(name).copied().ok_or(ErrorKind::NotFound.into())
    }

    fn note(&mut self, change: Change) {
        apply(&mut self.names, &change);
        self.changes.push(change);
    }
}

/// Bytes that are some of the synced ones and some of those written since.
fn mixed(r: &mut Random, synced: &[u8], now: &[u8]) -> Vec<u8> {
    let (short, long) = (synced.len().min(now.len()), synced.len().max(now.len()));
    let length = r.from_to(short, long);
    let byte = |of: &[u8], at: usize| of.get(at).copied().unwrap_or(0);
    (0..length).map(|at| if r.one_in(2) { byte(synced, at) } else { byte(now, at) }).collect()
}

impl Disk for Simulated {
    fn names(&mut self) -> io::Result<Option<Vec<String>>> {
        Ok(self.folder.then(|| self.names.keys().cloned().collect()))
    }

    fn read(&mut self, name: &str) -> io::Result<Vec<u8>> {
        let file = self.file(name)?;
        Ok(self.files[file].now.clone())
    }

    fn make_folder(&mut self) -> io::Result<()> {
        self.operation(false, |disk, _| {
            assert!(!disk.folder);
            disk.folder = true;
            Ok(())
        })
    }

    fn lock(&mut self, name: &str, lock: Lock) -> io::Result<bool> {
        if lock == Lock::Making && self.file(name).is_err() {
            self.write(name, 0, b"")?;
        }
        self.file(name)?;
        Ok(true)
    }

    fn write(&mut self, name: &str, from: u64, bytes: &[u8]) -> io::Result<()> {
        self.operation(true, |disk, all| {
            assert!(disk.folder);
            if disk.file(name).is_err() {
                disk.files.push(File { now: Vec::new(), synced: Vec::new(), mode: MADE });
                disk.note(Change::Made(name.to_string(), disk.files.len() - 1));
            }
            let written = if all { bytes.len() } else { disk.r.below(bytes.len() + 1) };
            let file = disk.file(name)?;
            let file = &mut disk.files[file];
            if file.mode & 0o200 == 0 {
                return Err(ErrorKind::PermissionDenied.into());
            }
            let from = from as usize;
            assert!(from <= file.now.len(), "a hole in {name}");
            let end = from + written;
            file.now.resize(file.now.len().max(end), 0);
            file.now[from..end].copy_from_slice(&bytes[..written]);
            if all {
                file.now.truncate(end);
            }
            Ok(())
        })
    }

    fn sync(&mut self, name: &str) -> io::Result<()> {
        self.operation(false, |disk, _| {
            let file = disk.file(name)?;
            let file = &mut disk.files[file];
            file.synced = file.now.clone();
            Ok(())
        })
    }

    fn take_mode(&mut self, name: &str, of: &str) -> io::Result<()> {
        self.operation(false, |disk, _| {
            let (file, other) = (disk.file(name)?, disk.file(of)?);
            disk.files[file].mode = disk.files[other].mode;
            Ok(())
        })
    }

    fn rename(&mut self, name: &str, to: &str) -> io::Result<()> {
        self.operation(false, |disk, _| {
            let file = disk.file(name)?;
            disk.note(Change::Renamed(name.to_string(), to.to_string(), file));
            Ok(())
        })
    }

    fn remove(&mut self, name: &str) -> io::Result<()> {
        self.operation(false, |disk, _| {
            disk.file(name)?;
            disk.note(Change::Removed(name.to_string()));
            Ok(())
        })
    }

    fn sync_folder(&mut self) -> io::Result<()> {
        self.operation(false, |disk, _| {
            disk.synced = disk.names.clone();
            disk.changes.clear();
            Ok(())
        })
    }

    fn sync_parent(&mut self) -> io::Result<()> {
        self.operation(false, |disk, _| {
            disk.folder_synced = true;
            Ok(())
        })
    }
}
