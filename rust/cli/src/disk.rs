//! The operations on the files of a card's folder, few and small: a test puts a simulated disk in their place.

use std::fs::{self, File, OpenOptions, TryLockError};
use std::io::{self, ErrorKind, Read, Seek, SeekFrom, Write};
use std::path::{Path, PathBuf};
use std::thread;
use std::time::{Duration, Instant};

/// How long a command waits for another that is at work on the card: most are done by then.
pub const MOMENT: Duration = Duration::from_secs(2);

/// How a folder is taken.
#[derive(Clone, Copy, Debug, PartialEq, Eq)]
pub enum Lock {
    /// Beside others that only read.
    Shared,
    Alone,
    /// Alone; the file that is locked is made if it is not there.
    Making,
}

/// The folder of one card. Files are named by their name alone.
pub trait Disk {
    /// The names of what stands in the folder, or none if there is no folder.
    fn names(&mut self) -> io::Result<Option<Vec<String>>>;

    /// All bytes of a file.
    fn read(&mut self, name: &str) -> io::Result<Vec<u8>>;

    /// Makes the folder.
    fn make_folder(&mut self) -> io::Result<()>;

    /// Takes the folder for one command, by locking this file, until this disk is dropped. False if another has it, and, where it is
    /// not to be made, still has it after a moment.
    fn lock(&mut self, name: &str, lock: Lock) -> io::Result<bool>;

    /// From this byte on the file holds these bytes and no others. The file is made if it is not there.
    fn write(&mut self, name: &str, from: u64, bytes: &[u8]) -> io::Result<()>;

    /// What the file holds survives a cut, once its name does.
    fn sync(&mut self, name: &str) -> io::Result<()>;

    /// The file has the mode of another, who may read and write it, and this survives a cut.
    fn take_mode(&mut self, name: &str, of: &str) -> io::Result<()>;

    /// Another name for a file, in place of the file that has it.
    fn rename(&mut self, name: &str, to: &str) -> io::Result<()>;

    fn remove(&mut self, name: &str) -> io::Result<()>;

    /// The names survive a cut.
    fn sync_folder(&mut self) -> io::Result<()>;

    /// The folder's own name survives a cut.
    fn sync_parent(&mut self) -> io::Result<()>;
}

/// A folder of the machine's file system, which is synced as Unix does it: opened and synced like a file.
pub struct Folder {
    path: PathBuf,
    /// Held open: the lock ends with it, or with the process.
    lock: Option<File>,
}

impl Folder {
    pub fn new(path: &Path) -> Folder {
        Folder { path: path.to_path_buf(), lock: None }
    }

    pub fn path(&self) -> &Path {
        &self.path
    }

    fn parent(&self) -> &Path {
        match self.path.parent() {
            Some(parent) if parent != Path::new("") => parent,
            _ => Path::new("."),
        }
    }
}

impl Disk for Folder {
    fn names(&mut self) -> io::Result<Option<Vec<String>>> {
        let entries = match fs::read_dir(&self.path) {
            Err(fault) if fault.kind() == ErrorKind::NotFound => return Ok(None),
            entries => entries?,
        };
        let name = |entry: io::Result<fs::DirEntry>| Ok(entry?.file_name().to_string_lossy().into_owned());
        entries.map(name).collect::<io::Result<_>>().map(Some)
    }

    fn read(&mut self, name: &str) -> io::Result<Vec<u8>> {
        fs::read(self.path.join(name))
    }

    fn make_folder(&mut self) -> io::Result<()> {
        fs::create_dir(&self.path)
    }

    fn lock(&mut self, name: &str, lock: Lock) -> io::Result<bool> {
        let alone = lock != Lock::Shared;
        let making = lock == Lock::Making;
        let file = OpenOptions::new().read(true).write(alone).create(making).open(self.path.join(name))?;
        let begun = Instant::now();
        loop {
            let taken = if alone { file.try_lock() } else { file.try_lock_shared() };
            match taken {
                Ok(()) => break,
                // A `new` that finds another at work has nothing to wait for: the card will be there.
                Err(TryLockError::WouldBlock) if !making && begun.elapsed() < MOMENT => thread::sleep(MOMENT / 100),
                Err(TryLockError::WouldBlock) => return Ok(false),
                Err(TryLockError::Error(fault)) => return Err(fault),
            }
        }
        self.lock = Some(file);
        Ok(true)
    }

    fn write(&mut self, name: &str, from: u64, bytes: &[u8]) -> io::Result<()> {
        let mut file = OpenOptions::new().write(true).create(true).truncate(false).open(self.path.join(name))?;
        file.seek(SeekFrom::Start(from))?;
        file.write_all(bytes)?;
        file.set_len(from + bytes.len() as u64)
    }

    fn sync(&mut self, name: &str) -> io::Result<()> {
        OpenOptions::new().write(true).open(self.path.join(name))?.sync_all()
    }

    fn take_mode(&mut self, name: &str, of: &str) -> io::Result<()> {
        let mode = fs::metadata(self.path.join(of))?.permissions();
        let file = File::open(self.path.join(name))?;
        file.set_permissions(mode)?;
        file.sync_all()
    }

    fn rename(&mut self, name: &str, to: &str) -> io::Result<()> {
        fs::rename(self.path.join(name), self.path.join(to))
    }

    fn remove(&mut self, name: &str) -> io::Result<()> {
        fs::remove_file(self.path.join(name))
    }

    fn sync_folder(&mut self) -> io::Result<()> {
        File::open(&self.path)?.sync_all()
    }

    fn sync_parent(&mut self) -> io::Result<()> {
        File::open(self.parent())?.sync_all()
    }
}

/// A file outside of any card, or standard input for `-`.
fn source(path: &str) -> io::Result<Box<dyn Read>> {
    Ok(match path {
        "-" => Box::new(io::stdin()),
        _ => Box::new(File::open(path)?),
    })
}

/// The bytes of a file outside of any card, or of standard input for `-`.
pub fn read_all(path: &str) -> io::Result<Vec<u8>> {
    let mut bytes = Vec::new();
    source(path)?.read_to_end(&mut bytes)?;
    Ok(bytes)
}

/// The same, but not more than so many bytes and one.
pub fn read_file(path: &str, most: usize) -> io::Result<Vec<u8>> {
    let mut bytes = Vec::new();
    source(path)?.take(most as u64 + 1).read_to_end(&mut bytes)?;
    Ok(bytes)
}
