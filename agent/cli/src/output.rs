//! Standard output, or the file that stands in for it.

use crate::names::STANDARD_INPUT;
use crate::trouble::Trouble;
use crate::{replace, system};
use serde::Serialize;
use std::io::{self, BufWriter, IsTerminal, Write};
use std::path::{Path, PathBuf};

/// Standard output, if there is one.
fn standard() -> Result<io::StdoutLock<'static>, Trouble> {
    if system::standard_output_was_closed() {
        let why = io::Error::other("it is closed");
        return Err(Trouble::output(why));
    }
    Ok(io::stdout().lock())
}

/// Writes a line to standard output, at once.
pub fn line(text: &str) -> Result<(), Trouble> {
    let mut out = standard()?;
    let written = writeln!(out, "{text}").and_then(|()| out.flush());
    written.map_err(Trouble::output)
}

/// Writes a JSON object to standard output, on a line of its own.
pub fn object(object: &impl Serialize) -> Result<(), Trouble> {
    let text = serde_json::to_string(object).map_err(io::Error::from);
    line(&text.map_err(Trouble::output)?)
}

/// The file that `--output` names; `-` is standard output.
pub fn named(output: &Option<PathBuf>) -> Option<&Path> {
    let file = output.as_deref();
    file.filter(|file| file.as_os_str() != STANDARD_INPUT)
}

/// Bytes that are no text are not written to a terminal, unless `--output -` asks for it.
pub fn not_a_terminal(output: &Option<PathBuf>, instead: &str) -> Result<(), Trouble> {
    if output.is_none() && io::stdout().is_terminal() {
        let why = format!("standard output is a terminal, and {instead}");
        return Err(Trouble::Usage(why));
    }
    Ok(())
}

/// Hands `write` standard output, or what becomes the file's content.
pub fn to(
    file: Option<&Path>,
    write: impl FnOnce(&mut dyn Write) -> io::Result<()>,
) -> Result<(), Trouble> {
    let Some(file) = file else {
        let mut out = BufWriter::new(standard()?);
        let written = write(&mut out).and_then(|()| out.flush());
        // What could not be written is dropped here, and not tried again.
        let _ = out.into_parts();
        return written.map_err(Trouble::output);
    };
    let mut content = Vec::new();
    write(&mut content).map_err(|error| Trouble::file(file, "cannot be written", error))?;
    replace::write(file, &content)
}
