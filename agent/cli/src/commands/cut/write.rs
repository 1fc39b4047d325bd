//! The parts of a file, written to a folder: all of them or none.
//!
//! The folder is filled beside its name and flushed in one pass; then it gets its name in one step. A
//! signal that asks for the end is obeyed between two parts, when what was written is taken away.

use super::Part;
use crate::folder::Folder;
use crate::names::shown;
use crate::progress::Progress;
use crate::system::{self, Watch};
use crate::trouble::Trouble;
use crate::{files, library};
use std::fs::File;
use std::io::{Seek, SeekFrom, Write};
use std::path::Path;

/// Writes the parts.
pub fn all(path: &Path, file: &mut File, parts: &[Part], target: &Folder) -> Result<(), Trouble> {
    let mut watch = Watch::begin();
    let beside = target.begin()?;
    let mut progress = Progress::of("parts written");
    let width = parts.len().saturating_sub(1).to_string().len();
    for (number, part) in parts.iter().enumerate() {
        obey(&mut watch, target)?;
        let bytes = bytes(path, file, part)?;
        let name = format!("part-{number:0width$}.section");
        let written = File::create_new(beside.path().join(&name));
        let written = written.and_then(|mut file| file.write_all(&bytes));
        written
            .map_err(|error| Trouble::file(&target.named.join(name), "cannot be written", error))?;
        progress.tell(number as u64 + 1, parts.len() as u64);
    }
    drop(progress);
    target.flush(&beside, system::flush_all)?;
    obey(&mut watch, target)?;
    target.place(beside)
}

/// The bytes of a part.
fn bytes(path: &Path, file: &mut File, part: &Part) -> Result<Vec<u8>, Trouble> {
    let sought = file.seek(SeekFrom::Start(part.first));
    sought.map_err(|error| files::unreadable(path, error))?;
    let bytes = files::read_up_to(path, file, part.length)?;
    if library::check(&bytes).is_err() {
        let why = "it has changed since it was checked";
        return Err(Trouble::file(path, "cannot be cut", why));
    }
    Ok(bytes)
}

/// Ends the work where a signal asks for it.
fn obey(watch: &mut Watch, target: &Folder) -> Result<(), Trouble> {
    match watch.signal() {
        None => Ok(()),
        Some(signal) => {
            let words = format!("{}: is not made: {signal}", shown(&target.named));
            Err(Trouble::Interrupted(signal, words))
        }
    }
}
