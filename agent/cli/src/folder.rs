//! A new folder that gets its name with all that is in it, or not at all.
//!
//! It is filled beside its name and flushed; then it gets the name in one step, and the folder that it
//! stands in is flushed.

use crate::beside::Beside;
use crate::replace;
use crate::trouble::Trouble;
use std::fs::{self, File, Metadata};
use std::io;
use std::path::{Path, PathBuf};

/// A folder that is to be made.
pub struct Folder {
    /// The name that was asked for, for messages.
    pub named: PathBuf,
    /// Its own name, where no link has to be followed.
    real: PathBuf,
    /// What stands there: nothing, or an empty folder.
    there: Option<Metadata>,
}

const CANNOT_BE_MADE: &str = "cannot be made";

impl Folder {
    /// Looks whether a folder of this name can be made: it is missing, or empty.
    pub fn at(named: &Path) -> Result<Folder, Trouble> {
        let fault = |error| Trouble::file(named, CANNOT_BE_MADE, error);
        let (real, there) = match fs::symlink_metadata(named) {
            Err(_) => (named.to_path_buf(), None),
            Ok(_) => {
                let real = fs::canonicalize(named).map_err(fault)?;
                let mut entries = fs::read_dir(&real).map_err(fault)?;
                if entries.next().is_some() {
                    let why = "it is there and not empty, and no file is written over";
                    return Err(Trouble::file(named, CANNOT_BE_MADE, why));
                }
                let there = fs::metadata(&real).map_err(fault)?;
                (real, Some(there))
            }
        };
        Ok(Folder {
            named: named.to_path_buf(),
            real,
            there,
        })
    }

    /// The empty folder beside the name.
    pub fn begin(&self) -> Result<Beside, Trouble> {
        Beside::folder(&self.real).map_err(|error| self.fault(error))
    }

    /// Gives the full folder the owner and the permissions of the one that is there, and flushes it so.
    pub fn flush(
        &self,
        beside: &Beside,
        flush: impl FnOnce(&File) -> io::Result<()>,
    ) -> Result<(), Trouble> {
        if let Some(there) = &self.there {
            beside.like(there).map_err(|error| self.fault(error))?;
        }
        flush(&beside.file).map_err(|error| self.fault(error))
    }

    /// Gives the folder its name.
    pub fn place(&self, beside: Beside) -> Result<(), Trouble> {
        self.flushed(self.rename(beside))
    }

    /// Gives the folder its name, and gives the one that it stands in, which is to be flushed.
    pub fn rename(&self, beside: Beside) -> io::Result<File> {
        let folder = replace::folder(&self.real)?;
        beside.replace()?;
        Ok(folder)
    }

    /// Flushes the folder's name, or tells why it has none.
    pub fn flushed(&self, placed: io::Result<File>) -> Result<(), Trouble> {
        replace::flushed(&self.named, placed, CANNOT_BE_MADE)
    }

    /// The fault of a folder that cannot be made.
    fn fault(&self, error: io::Error) -> Trouble {
        Trouble::file(&self.named, CANNOT_BE_MADE, error)
    }
}
