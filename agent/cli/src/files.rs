//! Reading of files, never much more of one than its limit.

use crate::names::STANDARD_INPUT;
use crate::trouble::Trouble;
use std::fs::File;
use std::io::{self, Read};
use std::os::fd::AsFd;
use std::path::{Path, PathBuf};

/// The longest section, in bytes.
pub const SECTION: u64 = 16_777_216;
/// The longest listing.
pub const LISTING: u64 = 33_554_432;
/// The longest stack image.
pub const IMAGE: u64 = 1_048_576;
/// The longest index: 16 bytes for each of the most records that a section of version 3 has.
pub const INDEX: u64 = 16 * 699_049;
/// The length of a store of editions.
pub const EDITIONS: u64 = 2_588;
/// The longest trace that is read.
pub const TRACE: u64 = 268_435_456;

/// The longest file of saved reports that is read.
pub const REPORT: u64 = 134_217_728;

/// Whether this name is that of standard input.
pub fn is_standard_input(path: &Path) -> bool {
    path.as_os_str() == STANDARD_INPUT
}

/// Standard input can be read once.
pub fn standard_input_once<'a>(files: impl Iterator<Item = &'a PathBuf>) -> Result<(), Trouble> {
    match files.filter(|file| is_standard_input(file)).count() {
        0 | 1 => Ok(()),
        _ => Err(Trouble::Usage(
            "'-' stands there twice: standard input can be read once".to_string(),
        )),
    }
}

/// Opens a file for reading; `-` is standard input.
pub fn open(path: &Path) -> Result<File, Trouble> {
    let opened = if is_standard_input(path) {
        let input = io::stdin().as_fd().try_clone_to_owned();
        input.map(File::from)
    } else {
        File::open(path)
    };
    opened.map_err(|error| unreadable(path, error))
}

/// The bytes of a file, up to one more than the limit: that one tells that there are too many.
pub fn read(path: &Path, limit: u64) -> Result<Vec<u8>, Trouble> {
    read_up_to(path, &mut open(path)?, limit + 1)
}

/// The bytes of a file, up to one more than the limit, in a buffer that is used again and again: what is beyond
/// them in it is of earlier files.
pub fn read_into<'a>(
    path: &Path,
    limit: u64,
    buffer: &'a mut Vec<u8>,
) -> Result<&'a [u8], Trouble> {
    const LEAST: u64 = 65_536;
    let mut file = open(path)?;
    let expected = file.metadata().map_or(0, |metadata| metadata.len());
    let mut length = 0;
    while length as u64 <= limit {
        if length == buffer.len() {
            // One byte more than expected tells that there are no more.
            let room = (2 * length as u64).max(expected.saturating_add(1));
            buffer.resize(room.clamp(LEAST, limit + 1) as usize, 0);
        }
        match file.read(&mut buffer[length..]) {
            Ok(0) => break,
            Ok(more) => length += more,
            Err(error) if error.kind() == io::ErrorKind::Interrupted => {}
            Err(error) => return Err(unreadable(path, error)),
        }
    }
    Ok(&buffer[..length])
}

/// The next bytes of a file, at most so many.
pub fn read_up_to(path: &Path, file: &mut File, most: u64) -> Result<Vec<u8>, Trouble> {
    let mut bytes = Vec::new();
    let read = file.take(most).read_to_end(&mut bytes);
    read.map_err(|error| unreadable(path, error))?;
    Ok(bytes)
}

/// The fault of a file that cannot be read.
pub fn unreadable(path: &Path, error: io::Error) -> Trouble {
    Trouble::file(path, "cannot be read", error)
}
