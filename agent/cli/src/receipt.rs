//! The receipt of a restore: a small JSON file beside the new image that tells what it was made from.
//!
//! Its digests are no part of what is proved. They tell an image that was restored from one that was
//! not, so that none is restored twice by accident.

use crate::beside::{hexadecimal, with_name};
use crate::json;
use crate::trouble::Trouble;
use serde::{Deserialize, Serialize};
use sha2::{Digest, Sha256};
use std::fs::{self, File};
use std::io::{self, Read};
use std::path::{Path, PathBuf};

/// No receipt is longer: names of files are its only part without a limit of ours.
const LONGEST: u64 = 1 << 20;

#[derive(Debug, Serialize, Deserialize)]
pub struct Receipt {
    /// The version of the library and the command.
    pub treskibben: String,
    pub section: Entry,
    /// The table that the frames were moved by. Where several were joined, it is in no file: these are its bytes
    /// as `join` writes them.
    pub moves: Entry,
    /// The files that it was joined of, in order; none where it is one file's.
    #[serde(default, skip_serializing_if = "Vec::is_empty")]
    pub joined: Vec<Entry>,
    pub frames: Entry,
    /// The machine that the frames are of. Receipts from before there were two have none.
    #[serde(default)]
    pub machine: String,
    /// The edition that was obeyed. Receipts from before there were editions have none.
    #[serde(default, skip_serializing_if = "Option::is_none")]
    pub edition: Option<Edition>,
    /// The address of the image's first byte.
    pub first: String,
    pub before: Entry,
    pub after: Entry,
    /// The list of the frames after the move, where it stands beside the image.
    #[serde(default, skip_serializing_if = "Option::is_none")]
    pub frames_after: Option<Entry>,
    /// The report that stands beside the image, where one was asked for.
    #[serde(default, skip_serializing_if = "Option::is_none")]
    pub report: Option<Entry>,
    /// The profile that the section was held against.
    #[serde(default, skip_serializing_if = "Option::is_none")]
    pub profile: Option<String>,
    /// The trace, where one was asked for.
    #[serde(default, skip_serializing_if = "Option::is_none")]
    pub trace: Option<Entry>,
    /// How many frames were moved, and how many pointers they have. Receipts from before pairs of several
    /// pointers name the pairs, each of which was one.
    pub moved_frames: u64,
    #[serde(alias = "moved_pairs")]
    pub moved_pointers: u64,
    /// How many registers of the frames hold another number than before. Receipts from before pointers in
    /// registers have none.
    #[serde(default)]
    pub moved_registers: u64,
}

/// A file by its name, its length and its digest.
#[derive(Clone, Debug, PartialEq, Eq, Serialize, Deserialize)]
pub struct Entry {
    pub file: String,
    pub bytes: u64,
    pub sha256: String,
}

/// The edition that a restore obeyed: its number, its settings, and the store that it stands in. A call that
/// names none has neither number nor store.
#[derive(Clone, Debug, PartialEq, Eq, Serialize, Deserialize)]
pub struct Edition {
    pub number: Option<u64>,
    pub pointers: u64,
    pub machine: String,
    pub versions: Vec<u8>,
    pub store: Option<Entry>,
}

impl Entry {
    pub fn of(path: &Path, bytes: &[u8]) -> Entry {
        Entry {
            file: json::name(path),
            bytes: bytes.len() as u64,
            sha256: digest(bytes),
        }
    }
}

/// The SHA-256 of bytes.
pub fn digest(bytes: &[u8]) -> String {
    hexadecimal(&Sha256::digest(bytes))
}

/// Where the receipt of an image stands: beside the file itself, where the image is a link.
pub fn path_of(image: &Path) -> PathBuf {
    let is_link = fs::symlink_metadata(image).is_ok_and(|there| there.is_symlink());
    let real = fs::canonicalize(image).ok().filter(|_| is_link);
    with_name(real.as_deref().unwrap_or(image), "", ".receipt.json")
}

impl Receipt {
    /// The bytes of the file.
    pub fn text(&self) -> io::Result<Vec<u8>> {
        let mut text = serde_json::to_vec_pretty(self)?;
        text.push(b'\n');
        Ok(text)
    }

    /// Whether this is the receipt of the restore that made these bytes. A restore that changed
    /// nothing makes none.
    pub fn made(&self, digest: &str) -> bool {
        self.after.sha256 == digest && self.before.sha256 != digest
    }

    /// Whether this is the receipt of the restore that made this list of frames, with registers that it
    /// changed.
    pub fn made_frames(&self, digest: &str) -> bool {
        let made = self.frames_after.as_ref();
        self.moved_registers > 0 && made.is_some_and(|made| made.sha256 == digest)
    }
}

/// The receipt beside an image, if there is one.
pub fn beside(image: &Path) -> Result<Option<Receipt>, Trouble> {
    let path = path_of(image);
    let fault = |error: io::Error| Trouble::file(&path, "cannot be read", error);
    let file = match File::open(&path) {
        Err(error) if error.kind() == io::ErrorKind::NotFound => return Ok(None),
        opened => opened.map_err(fault)?,
    };
    let mut text = Vec::new();
    file.take(LONGEST).read_to_end(&mut text).map_err(fault)?;
    let receipt = serde_json::from_slice(&text);
    receipt.map(Some).map_err(|error| {
        let why = format!("{error}; take it away, or say --again");
        Trouble::file(&path, "is no receipt", why)
    })
}
