//! A file put in place in one instant, or not at all.
//!
//! The new bytes are written beside the final name and flushed; then the new file gets that name in
//! one step of the file system, and the folder is flushed. Before that step nothing has changed,
//! after it the new file stands whole, and whoever opens the name finds one of the two.

use crate::beside::{folder_of, in_use, is_named, lock, Beside};
use crate::files;
use crate::system;
use crate::trouble::Trouble;
use std::fs::{self, File, Metadata, OpenOptions};
use std::io::{self, Write};
use std::path::{Path, PathBuf};

/// A file that is to be replaced: open, and locked against other runs until it is dropped.
pub struct Held {
    /// The name that was asked for, for messages.
    named: PathBuf,
    /// The file's own name, where no link has to be followed.
    pub real: PathBuf,
    file: File,
    metadata: Metadata,
}

impl Held {
    /// Opens and locks a file, which has to be one that can be written.
    pub fn open(named: &Path) -> Result<Held, Trouble> {
        let fault = |error: io::Error| Trouble::file(named, "cannot be opened", error);
        let real = fs::canonicalize(named).map_err(fault)?;
        if !fs::metadata(&real).map_err(fault)?.is_file() {
            let why = "it is not a regular file";
            return Err(Trouble::file(named, "cannot be replaced", why));
        }
        let opened = OpenOptions::new().read(true).write(true).open(&real);
        let file = opened.map_err(fault)?;
        lock(&file).map_err(|error| Trouble::file(named, "cannot be replaced", error))?;
        let metadata = file.metadata().map_err(fault)?;
        let held = Held {
            named: named.to_path_buf(),
            real,
            file,
            metadata,
        };
        held.still_named().map_err(fault)?;
        Ok(held)
    }

    /// The file's bytes, up to one more than the limit.
    pub fn read(&mut self, limit: u64) -> Result<Vec<u8>, Trouble> {
        files::read_up_to(&self.named, &mut self.file, limit + 1)
    }

    /// The file's owner and permissions.
    pub fn metadata(&self) -> &Metadata {
        &self.metadata
    }

    /// The new file beside this one, whole and down to the disk, with its owner and permissions.
    pub fn prepare(&self, bytes: &[u8]) -> io::Result<Beside> {
        let mut new = Beside::file(&self.real, 0o600)?;
        new.file.write_all(bytes)?;
        new.like(&self.metadata)?;
        new.file.sync_all()?;
        Ok(new)
    }

    /// Puts new bytes in the file's place, and gives the folder, which is to be flushed.
    pub fn replace(&self, bytes: &[u8]) -> io::Result<File> {
        let new = self.prepare(bytes)?;
        let folder = folder(&self.real)?;
        self.still_named()?;
        new.replace()?;
        Ok(folder)
    }

    /// Whether the name still leads to the file that was locked.
    pub fn still_named(&self) -> io::Result<()> {
        match is_named(&self.real, &self.metadata)? {
            true => Ok(()),
            false => Err(in_use()),
        }
    }
}

/// A new file beside a name that nothing has yet, whole and down to the disk.
pub fn prepare(path: &Path, bytes: &[u8], mode: u32) -> io::Result<Beside> {
    let mut new = Beside::file(path, mode)?;
    new.file.write_all(bytes)?;
    new.file.sync_all()?;
    Ok(new)
}

/// Flushes the names of a folder to the disk, before anything is put in place there.
pub fn folder(path: &Path) -> io::Result<File> {
    let folder = File::open(folder_of(path))?;
    folder.sync_all()?;
    Ok(folder)
}

/// Writes a file whole: a new one, or in place of an old one. What is not a regular file, as a
/// device or a pipe, is written as it is.
pub fn write(path: &Path, bytes: &[u8]) -> Result<(), Trouble> {
    match fs::metadata(path) {
        Ok(there) if there.is_file() => {
            let held = Held::open(path)?;
            system::hold_signals();
            flushed(path, held.replace(bytes), "cannot be replaced")
        }
        Ok(_) => straight(path, bytes),
        Err(_) => create(path, bytes),
    }
}

/// Writes a new file whole. Nothing may have its name.
pub fn create(path: &Path, bytes: &[u8]) -> Result<(), Trouble> {
    system::hold_signals();
    let placed = prepare(path, bytes, 0o666).and_then(|new| {
        let folder = folder(path)?;
        new.place()?;
        Ok(folder)
    });
    flushed(path, placed, "cannot be written")
}

/// Flushes the folder where a file has been put in place, or tells why it was not.
pub fn flushed(path: &Path, placed: io::Result<File>, what: &str) -> Result<(), Trouble> {
    let folder = placed.map_err(|error| Trouble::file(path, what, error))?;
    folder.sync_all().map_err(|error| {
        let what = "is written, but its folder cannot be flushed to the disk";
        Trouble::file(path, what, error)
    })
}

fn straight(path: &Path, bytes: &[u8]) -> Result<(), Trouble> {
    let opened = OpenOptions::new().write(true).open(path);
    let written = opened.and_then(|mut file| file.write_all(bytes));
    written.map_err(|error| Trouble::file(path, "cannot be written", error))
}
