//! Where a restore goes: an image by itself, or a folder with all that is new.

use super::ahead::Ahead;
use super::left::{Leaves, Left};
use super::single::Single;
use super::Arguments;
use crate::folder::Folder;
use crate::names::shown;
use crate::receipt::{self, Receipt};
use crate::trouble::Trouble;
use crate::{files, system};
use std::ffi::OsStr;
use std::fs::{File, Metadata, OpenOptions, Permissions};
use std::io::{self, Write};
use std::os::unix::fs::{MetadataExt, OpenOptionsExt, PermissionsExt};
use std::path::{Path, PathBuf};

/// The names of the files in a folder: the receipt's is that of an image of this name.
pub const IMAGE: &str = "image";
const FRAMES: &str = "frames";
const RECEIPT: &str = "image.receipt.json";

/// Where a restore goes.
pub enum Target<'a> {
    /// The new image is a file by itself. The registers are as they were.
    Single(Single<'a>),
    /// The new image, the frames with their registers and the receipt are in a new folder, which gets its
    /// name when all of them are in it and flushed: they are of one moment, whatever ends the program. The
    /// old image is only read.
    Folder(Folder, Old<'a>),
    /// Nothing is written.
    Nowhere(Old<'a>),
}

/// The old image, where it is only read.
pub struct Old<'a> {
    path: &'a Path,
    file: File,
    pub metadata: Option<Metadata>,
}

impl<'a> Old<'a> {
    pub fn open(path: &'a Path) -> Result<Old<'a>, Trouble> {
        let file = files::open(path)?;
        let metadata = file.metadata().ok().filter(|there| there.is_file());
        Ok(Old {
            path,
            file,
            metadata,
        })
    }

    /// The bytes of the old image, up to one more than the limit.
    pub fn read(&mut self) -> Result<Vec<u8>, Trouble> {
        files::read_up_to(self.path, &mut self.file, files::IMAGE + 1)
    }
}

impl<'a> Target<'a> {
    pub fn open(arguments: &'a Arguments) -> Result<Target<'a>, Trouble> {
        let image = &arguments.given.image;
        match &arguments.into {
            None if arguments.output.is_none() && !arguments.in_place => {
                Ok(Target::Nowhere(Old::open(image)?))
            }
            None => Ok(Target::Single(Single::open(arguments)?)),
            Some(folder) => {
                let folder = Folder::at(folder)?;
                Ok(Target::Folder(folder, Old::open(image)?))
            }
        }
    }

    /// The bytes of the old image, up to one more than the limit.
    pub fn read(&mut self) -> Result<Vec<u8>, Trouble> {
        match self {
            Target::Single(single) => single.read(),
            Target::Folder(_, old) | Target::Nowhere(old) => old.read(),
        }
    }

    /// The name that was asked for: of the new image, or of the folder.
    pub fn named(&self) -> &Path {
        match self {
            Target::Single(single) => single.named(),
            Target::Folder(folder, _) => &folder.named,
            Target::Nowhere(old) => old.path,
        }
    }

    /// The name of the new image.
    pub fn image(&self) -> PathBuf {
        match self {
            Target::Single(single) => single.named().to_path_buf(),
            Target::Folder(folder, _) => folder.named.join(IMAGE),
            Target::Nowhere(old) => old.path.to_path_buf(),
        }
    }

    /// The name of the list of the frames after the move, where it is written.
    pub fn frames(&self) -> Option<PathBuf> {
        match self {
            Target::Folder(folder, _) => Some(folder.named.join(FRAMES)),
            Target::Single(_) | Target::Nowhere(_) => None,
        }
    }

    /// The name of the receipt.
    pub fn receipt(&self) -> PathBuf {
        match self {
            Target::Folder(folder, _) => folder.named.join(RECEIPT),
            Target::Single(_) | Target::Nowhere(_) => receipt::path_of(self.named()),
        }
    }

    /// What is said of what is new where there is nothing.
    pub fn untouched(&self) -> String {
        match self {
            Target::Single(single) => single.untouched(),
            Target::Folder(folder, _) => format!("{}: is not made", shown(&folder.named)),
            Target::Nowhere(old) => format!("{}: is as it was", shown(old.path)),
        }
    }

    /// Puts image and receipt in place, in a folder the frames too, and before them what is left with them.
    pub fn put(
        &self,
        image: &[u8],
        frames: &str,
        receipt: &Receipt,
        left: &Leaves,
    ) -> Result<(), Trouble> {
        // From here on the program goes on to its end, with its message and its status.
        system::hold_signals();
        match self {
            Target::Single(single) => single.put(image, receipt, left),
            Target::Folder(folder, old) => fill(folder, old, image, frames, receipt, left),
            Target::Nowhere(_) => Ok(()),
        }
    }
}

/// Makes the folder with all that belongs in it.
fn fill(
    folder: &Folder,
    old: &Old,
    image: &[u8],
    frames: &str,
    receipt: &Receipt,
    left: &Leaves,
) -> Result<(), Trouble> {
    let mut ahead = left.prepare(old.metadata.as_ref())?;
    let beside = folder.begin()?;
    let put = |name: &OsStr, bytes: io::Result<&[u8]>, like: Option<&Old>| {
        let put = bytes.and_then(|bytes| write(&beside.path().join(name), bytes, like));
        let path = folder.named.join(name);
        put.map_err(|error| Trouble::file(&path, "cannot be written", error))
    };
    put(IMAGE.as_ref(), Ok(image), Some(old))?;
    put(FRAMES.as_ref(), Ok(frames.as_bytes()), Some(old))?;
    for (name, bytes) in left.iter().filter_map(Left::inside) {
        put(name, Ok(bytes), Some(old))?;
    }
    let receipt = receipt.text();
    put(
        RECEIPT.as_ref(),
        receipt.as_deref().map_err(|error| error.kind().into()),
        None,
    )?;
    folder.flush(&beside, File::sync_all)?;
    let placed = ahead.iter_mut().try_for_each(Ahead::place);
    let placed = placed.and_then(|()| folder.rename(beside));
    if placed.is_ok() {
        ahead.into_iter().for_each(Ahead::keep);
    }
    folder.flushed(placed)
}

/// Writes a new file, down to the disk. One that is to be like the old image has its permissions; where that
/// came from a pipe, only its owner may read it.
fn write(path: &Path, bytes: &[u8], like: Option<&Old>) -> io::Result<()> {
    let mode = if like.is_some() { 0o600 } else { 0o666 };
    let mut options = OpenOptions::new();
    let mut file = options.write(true).create_new(true).mode(mode).open(path)?;
    file.write_all(bytes)?;
    if let Some(there) = like.and_then(|old| old.metadata.as_ref()) {
        file.set_permissions(Permissions::from_mode(there.mode() & 0o7777))?;
    }
    file.sync_all()
}
