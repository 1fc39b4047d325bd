//! A file that goes with a new image and has its name before it: a trace, or a report.
//!
//! It is written beside its name and flushed. When all else is ready it gets the name, and where the image then can't
//! be put in place it is taken away again: no new image stands without it. Who ends the program between the two
//! leaves the trace or the report of a restore that has not come about. It tells what the frames are answered on the
//! old image, and the next run, which has the same bytes for it, leaves it as it is. From first to last it is locked,
//! so that no other run goes by a file that is taken away again.

use super::left::Left;
use crate::beside::{in_use, is_named, lock, Beside};
use crate::names::shown;
use crate::replace;
use crate::trouble::Trouble;
use std::fs::{self, File, Metadata};
use std::io::{self, Read};
use std::path::{Path, PathBuf};

pub struct Ahead {
    what: &'static str,
    path: PathBuf,
    /// The file beside its name; none where it has the name.
    new: Option<Beside>,
    /// The file, which is locked as long as it is open.
    _held: File,
    /// Whether it has the name, and goes again where the image doesn't come.
    placed: bool,
}

impl Ahead {
    /// The file beside its name, whole and down to the disk. One that is like the old image has its permissions;
    /// else only its owner may read it.
    pub fn prepare(left: &Left, like: Option<&Metadata>) -> Result<Ahead, Trouble> {
        let (what, path) = (left.what.name(), left.path);
        let prepared = prepare(what, path, &left.bytes, like);
        let (new, held) =
            prepared.map_err(|error| Trouble::file(path, "cannot be written", error))?;
        Ok(Ahead {
            what,
            path: path.to_path_buf(),
            new,
            _held: held,
            placed: false,
        })
    }

    /// Gives the file its name, which nothing may have.
    pub fn place(&mut self) -> io::Result<()> {
        let Some(new) = self.new.take() else {
            return Ok(());
        };
        let placed = replace::folder(&self.path).and_then(|folder| {
            new.place()?;
            self.placed = true;
            folder.sync_all()
        });
        placed.map_err(|error| {
            let (own, path) = (self.what, shown(&self.path));
            let what = format!("its {own} {path} cannot be written: {error}");
            io::Error::new(error.kind(), what)
        })
    }

    /// The image is in place: the file stays.
    pub fn keep(mut self) {
        self.placed = false;
    }
}

impl Drop for Ahead {
    fn drop(&mut self) {
        if self.placed {
            let _ = fs::remove_file(&self.path);
        }
    }
}

/// The new file, none where the name has these very bytes already; and the file itself, locked.
fn prepare(
    what: &str,
    path: &Path,
    bytes: &[u8],
    like: Option<&Metadata>,
) -> io::Result<(Option<Beside>, File)> {
    match fs::symlink_metadata(path) {
        Err(error) if error.kind() == io::ErrorKind::NotFound => {}
        Err(error) => return Err(error),
        Ok(there) => {
            if let Some(held) = with_bytes(path, &there, bytes)? {
                return Ok((None, held));
            }
            let why = format!(
                "it exists already and is not this {what}, and --{what} writes no file over"
            );
            return Err(io::Error::new(io::ErrorKind::AlreadyExists, why));
        }
    }
    let new = replace::prepare(path, bytes, 0o600)?;
    if let Some(metadata) = like {
        new.permissions_of(metadata)?;
        new.file.sync_all()?;
    }
    let held = new.file.try_clone()?;
    Ok((Some(new), held))
}

/// The file that is there, locked, if it has these bytes.
fn with_bytes(path: &Path, there: &Metadata, bytes: &[u8]) -> io::Result<Option<File>> {
    if !there.is_file() || there.len() != bytes.len() as u64 {
        return Ok(None);
    }
    let mut file = File::open(path)?;
    lock(&file)?;
    if !is_named(path, &file.metadata()?)? {
        return Err(in_use());
    }
    let mut own = Vec::new();
    file.read_to_end(&mut own)?;
    Ok((own == bytes).then_some(file))
}
