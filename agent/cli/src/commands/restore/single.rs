//! A new image that is a file by itself, and its receipt before it.
//!
//! Both are written beside their names and flushed. Then the receipt gets its name, the folder is
//! flushed, the image gets its name, and the folder is flushed again. Whoever ends the program
//! between the two leaves a receipt whose `after` is the digest of no image there, so that nothing
//! is taken for restored that is not; and no new image stands without its receipt.

use super::ahead::Ahead;
use super::left::Leaves;
use super::place::Old;
use super::Arguments;
use crate::beside::Beside;
use crate::files;
use crate::names::{shown, STANDARD_INPUT};
use crate::receipt::{self, Receipt};
use crate::replace::{self, Held};
use crate::trouble::Trouble;
use std::fs::{self, File, Metadata};
use std::io;
use std::path::Path;

/// What becomes of the new image.
pub enum Single<'a> {
    /// It takes the old one's place.
    InPlace(&'a Path, Held),
    /// It is a new file; the old one is only read.
    New(&'a Path, Old<'a>),
}

impl<'a> Single<'a> {
    pub fn open(arguments: &'a Arguments) -> Result<Single<'a>, Trouble> {
        let image = arguments.given.image.as_path();
        let Some(output) = &arguments.output else {
            if files::is_standard_input(image) {
                let why = "--in-place needs an image with a name: standard input has none";
                return Err(Trouble::Usage(why.to_string()));
            }
            return Ok(Single::InPlace(image, Held::open(image)?));
        };
        if output.as_os_str() == STANDARD_INPUT {
            let why = "--output needs a name: a receipt stands beside the new image";
            return Err(Trouble::Usage(why.to_string()));
        }
        is_free(output).map_err(|error| Trouble::file(output, CANNOT_BE_WRITTEN, error))?;
        if !arguments.again {
            // A receipt that stands there is replaced; what is none is somebody's file.
            receipt::beside(output)?;
        }
        Ok(Single::New(output, Old::open(image)?))
    }

    /// The bytes of the old image, up to one more than the limit.
    pub fn read(&mut self) -> Result<Vec<u8>, Trouble> {
        match self {
            Single::InPlace(_, held) => held.read(files::IMAGE),
            Single::New(_, old) => old.read(),
        }
    }

    /// The name of the new image.
    pub fn named(&self) -> &'a Path {
        match self {
            Single::InPlace(image, _) => image,
            Single::New(output, _) => output,
        }
    }

    /// What is said of the new image where there is none.
    pub fn untouched(&self) -> String {
        match self {
            Single::InPlace(image, _) => format!("{}: is as it was", shown(image)),
            Single::New(output, _) => format!("{}: is not written", shown(output)),
        }
    }

    /// Whose permissions new files get.
    fn metadata(&self) -> Option<&Metadata> {
        match self {
            Single::InPlace(_, held) => Some(held.metadata()),
            Single::New(_, old) => old.metadata.as_ref(),
        }
    }

    /// Puts what is left with the image, the receipt and the image in place.
    pub fn put(&self, image: &[u8], receipt: &Receipt, left: &Leaves) -> Result<(), Trouble> {
        let what = match self {
            Single::InPlace(..) => "cannot be replaced",
            Single::New(..) => CANNOT_BE_WRITTEN,
        };
        let mut ahead = left.prepare(self.metadata())?;
        let path = receipt::path_of(self.named());
        let placed = receipt
            .text()
            .and_then(|text| self.put_both(image, &path, &text, &mut ahead));
        if placed.is_ok() {
            ahead.into_iter().for_each(Ahead::keep);
        }
        replace::flushed(self.named(), placed, what)
    }

    fn put_both(
        &self,
        image: &[u8],
        path: &Path,
        receipt: &[u8],
        ahead: &mut [Ahead],
    ) -> io::Result<File> {
        let of_receipt = |error: io::Error| {
            let what = format!("its receipt {} cannot be written: {error}", shown(path));
            io::Error::new(error.kind(), what)
        };
        let new = self.prepare(image)?;
        let earlier = fs::read(path).ok();
        let beside = replace::prepare(path, receipt, 0o666).map_err(of_receipt)?;
        let folder = replace::folder(path)?;
        self.still_right()?;
        ahead.iter_mut().try_for_each(Ahead::place)?;
        beside.replace().map_err(of_receipt)?;
        let placed = folder.sync_all().and_then(|()| self.place(new));
        if placed.is_err() {
            put_back(path, earlier);
        }
        placed.map(|()| folder)
    }

    /// The new image beside its name, down to the disk.
    fn prepare(&self, image: &[u8]) -> io::Result<Beside> {
        match self {
            Single::InPlace(_, held) => held.prepare(image),
            Single::New(output, old) => {
                let new = replace::prepare(output, image, 0o600)?;
                if let Some(metadata) = &old.metadata {
                    new.permissions_of(metadata)?;
                    new.file.sync_all()?;
                }
                Ok(new)
            }
        }
    }

    /// Whether the name still is what it was when the work began.
    fn still_right(&self) -> io::Result<()> {
        match self {
            Single::InPlace(_, held) => held.still_named(),
            Single::New(output, _) => is_free(output),
        }
    }

    fn place(&self, new: Beside) -> io::Result<()> {
        match self {
            Single::InPlace(..) => new.replace(),
            Single::New(..) => new.place(),
        }
    }
}

const CANNOT_BE_WRITTEN: &str = "cannot be written";

/// Whether nothing has a name yet.
fn is_free(path: &Path) -> io::Result<()> {
    match fs::symlink_metadata(path) {
        Err(error) if error.kind() == io::ErrorKind::NotFound => Ok(()),
        Err(error) => Err(error),
        Ok(_) => {
            let why = "it exists already, and --output writes no file over";
            Err(io::Error::new(io::ErrorKind::AlreadyExists, why))
        }
    }
}

/// Puts the receipt back that stood there before, or takes the new one away.
fn put_back(path: &Path, earlier: Option<Vec<u8>>) {
    let _ = match earlier {
        Some(text) => replace::prepare(path, &text, 0o666).and_then(Beside::replace),
        None => fs::remove_file(path),
    };
}
