//! What is written beside its final name first: `.NAME.treskibben-new`.
//!
//! Every run that writes NAME has the same name beside it, and holds a lock on what stands there: a
//! second run ends at once, and what a killed run left, which nobody has locked, is taken away.

use crate::system;
use sha2::{Digest, Sha256};
use std::ffi::{OsStr, OsString};
use std::fs::{self, DirBuilder, File, Metadata, OpenOptions, Permissions, TryLockError};
use std::io;
use std::os::unix::ffi::{OsStrExt, OsStringExt};
use std::os::unix::fs::{fchown, DirBuilderExt, MetadataExt, OpenOptionsExt, PermissionsExt};
use std::path::{Path, PathBuf};

/// The longest name of a file.
const LONGEST_NAME: usize = 255;

/// A new file or folder that has not got its final name yet. Dropped before it has, it is removed.
pub struct Beside {
    target: PathBuf,
    path: PathBuf,
    pub file: File,
    is_folder: bool,
    placed: bool,
}

impl Beside {
    /// A new, empty file beside its final name.
    pub fn file(target: &Path, mode: u32) -> io::Result<Beside> {
        Beside::create(target, false, |path| {
            let mut options = OpenOptions::new();
            options.write(true).create_new(true).mode(mode).open(path)
        })
    }

    /// A new, empty folder beside its final name.
    pub fn folder(target: &Path) -> io::Result<Beside> {
        Beside::create(target, true, |path| {
            DirBuilder::new().mode(0o777).create(path)?;
            File::open(path)
        })
    }

    fn create(
        target: &Path,
        is_folder: bool,
        new: impl Fn(&Path) -> io::Result<File>,
    ) -> io::Result<Beside> {
        let path = with_name(target, ".", ".treskibben-new");
        let made = match new(&path) {
            Err(error) if error.kind() == io::ErrorKind::AlreadyExists => {
                remove_leftover(&path)?;
                new(&path)
            }
            made => made,
        };
        let file = match made {
            Err(error) if error.kind() == io::ErrorKind::AlreadyExists => return Err(in_use()),
            made => made?,
        };
        lock(&file)?;
        if !is_named(&path, &file.metadata()?)? {
            return Err(in_use());
        }
        Ok(Beside {
            target: target.to_path_buf(),
            path,
            file,
            is_folder,
            placed: false,
        })
    }

    /// Where it stands until it has its final name.
    pub fn path(&self) -> &Path {
        &self.path
    }

    /// Gives it the owner and the permissions of another file.
    pub fn like(&self, other: &Metadata) -> io::Result<()> {
        let own = self.file.metadata()?;
        if (own.uid(), own.gid()) != (other.uid(), other.gid()) {
            let (uid, gid) = (other.uid(), other.gid());
            fchown(&self.file, Some(uid), Some(gid)).map_err(|error| {
                let what = format!("its owner {uid} and group {gid} cannot be kept: {error}");
                io::Error::new(error.kind(), what)
            })?;
        }
        self.permissions_of(other)
    }

    /// Gives it the permissions of another file.
    pub fn permissions_of(&self, other: &Metadata) -> io::Result<()> {
        let mode = Permissions::from_mode(other.mode() & 0o7777);
        self.file.set_permissions(mode)
    }

    /// Gives it its final name in place of what has it.
    pub fn replace(mut self) -> io::Result<()> {
        fs::rename(&self.path, &self.target)?;
        self.placed = true;
        Ok(())
    }

    /// Gives it its final name, which nothing may have yet.
    pub fn place(mut self) -> io::Result<()> {
        system::rename_to_new(&self.path, &self.target)?;
        self.placed = true;
        Ok(())
    }
}

impl Drop for Beside {
    fn drop(&mut self) {
        if self.placed {
            return;
        }
        let _ = match self.is_folder {
            true => fs::remove_dir_all(&self.path),
            false => fs::remove_file(&self.path),
        };
    }
}

/// Takes away what a killed run left. What is locked belongs to a run that is still at work.
fn remove_leftover(path: &Path) -> io::Result<()> {
    let there = match fs::symlink_metadata(path) {
        Err(error) if error.kind() == io::ErrorKind::NotFound => return Ok(()),
        there => there?,
    };
    if !there.is_file() && !there.is_dir() {
        return fs::remove_file(path);
    }
    let file = match there.is_dir() {
        true => File::open(path)?,
        false => OpenOptions::new().write(true).open(path)?,
    };
    lock(&file)?;
    if !is_named(path, &file.metadata()?)? {
        return Err(in_use());
    }
    match there.is_dir() {
        true => fs::remove_dir_all(path),
        false => fs::remove_file(path),
    }
}

/// Locks a file against other runs, or says that another is at work on it.
pub fn lock(file: &File) -> io::Result<()> {
    match file.try_lock() {
        Ok(()) => Ok(()),
        Err(TryLockError::WouldBlock) => Err(in_use()),
        Err(TryLockError::Error(error)) => Err(error),
    }
}

/// Whether a name still leads to the file that was opened.
pub fn is_named(path: &Path, opened: &Metadata) -> io::Result<bool> {
    match fs::symlink_metadata(path) {
        Err(error) if error.kind() == io::ErrorKind::NotFound => Ok(false),
        there => {
            let there = there?;
            Ok((there.dev(), there.ino()) == (opened.dev(), opened.ino()))
        }
    }
}

pub fn in_use() -> io::Error {
    let why = "another process is at work on it";
    io::Error::new(io::ErrorKind::ResourceBusy, why)
}

/// The folder of a file.
pub fn folder_of(path: &Path) -> &Path {
    match path.parent() {
        Some(folder) if folder != Path::new("") => folder,
        Some(_) => Path::new("."),
        None => Path::new("/"),
    }
}

/// A name beside another that begins and ends so. Where it would be too long, the end of the name
/// is left out and a digest of it stands there.
pub fn with_name(path: &Path, before: &str, after: &str) -> PathBuf {
    let name = path.file_name().unwrap_or(OsStr::new("")).as_bytes();
    let mut text = before.as_bytes().to_vec();
    if before.len() + name.len() + after.len() <= LONGEST_NAME {
        text.extend(name);
    } else {
        let digest = &hexadecimal(&Sha256::digest(name))[..16];
        let mut kept = LONGEST_NAME - before.len() - after.len() - digest.len() - 1;
        // A character of several bytes is not cut in two.
        while name[kept] & 0xC0 == 0x80 && kept > 0 {
            kept -= 1;
        }
        text.extend(&name[..kept]);
        text.push(b'-');
        text.extend(digest.as_bytes());
    }
    text.extend(after.as_bytes());
    path.with_file_name(OsString::from_vec(text))
}

/// Bytes as hexadecimal digits.
pub fn hexadecimal(bytes: &[u8]) -> String {
    bytes.iter().map(|byte| format!("{byte:02x}")).collect()
}

#[cfg(test)]
mod tests {
    use super::*;

    #[test]
    fn names_beside() {
        let beside = |name: &str| with_name(Path::new(name), ".", ".treskibben-new");
        assert_eq!(beside("a/image"), Path::new("a/.image.treskibben-new"));
        let longest = "x".repeat(255 - 16);
        assert_eq!(beside(&longest).as_os_str().len(), 255);
        let names = ["x".repeat(240), "x".repeat(255), "\u{e9}".repeat(127)];
        for name in &names {
            let name = beside(name);
            assert!(name.as_os_str().len() <= 255 && name.to_str().is_some());
        }
        assert_ne!(beside(&names[0]), beside(&names[1]));
    }

    #[test]
    fn folders() {
        for (path, folder) in [("a", "."), ("a/b", "a"), ("/a", "/"), ("/", "/")] {
            assert_eq!(folder_of(Path::new(path)), Path::new(folder));
        }
    }
}
