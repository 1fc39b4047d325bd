//! Traces of recorded restores: the files, and what is said of them.
//!
//! A trace has an item for each frame and one for its answer, and an end. What it says is the library's to tell,
//! which also says where it is broken.

mod broken;
pub mod objects;
pub mod text;

use crate::files;
use crate::library::{self, Refusal, Step};
use crate::trouble::Trouble;
use std::path::Path;

/// The bytes of a trace. Document 02 has no limit for them, and memory has: this is one of 945,195 frames.
pub fn read(path: &Path) -> Result<Vec<u8>, Trouble> {
    let trace = files::read(path, files::TRACE)?;
    if trace.len() as u64 > files::TRACE {
        let why = format!("a trace of at most {} bytes is read", files::TRACE);
        return Err(Trouble::file(path, "is too long", why));
    }
    Ok(trace)
}

/// What a trace says: each frame with its answer, or 35.
pub fn steps(path: &Path, trace: &[u8]) -> Result<Vec<Step>, Trouble> {
    library::steps_of(trace).map_err(|refusal| refused(path, trace, refusal))
}

/// What is said of a broken trace.
fn refused(path: &Path, trace: &[u8], refusal: Refusal) -> Trouble {
    let found = usize::try_from(refusal.place).ok();
    let found = found.map(|place| broken::there(trace, place));
    Trouble::refused(path, refusal, found)
}
