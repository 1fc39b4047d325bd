//! `index`: the address index of a section.

use crate::trouble::{Status, Trouble};
use crate::{files, found, index, library, output};
use std::path::PathBuf;

/// Write the address index of a section, for 'treskibben find --index'
///
/// The index has the address and the number of each record, ordered by address and then by number: 16
/// bytes a record, two numbers of 64 bits, little-endian, and nothing else. It is right for this
/// section alone, and whoever uses it tests that.
///
/// Only a section of version 3 has addresses: 27 is said of version 1.
#[derive(clap::Args)]
pub struct Arguments {
    /// The section
    #[arg(value_name = "FILE")]
    file: PathBuf,
    /// Write to a file, whole or not at all, instead of standard output
    #[arg(long, value_name = "FILE")]
    output: Option<PathBuf>,
}

pub fn run(arguments: &Arguments) -> Result<Status, Trouble> {
    let output = output::named(&arguments.output);
    let instead = "an index is bytes: --output FILE writes it";
    output::not_a_terminal(&arguments.output, instead)?;
    let file = &arguments.file;
    let section = files::read(file, files::SECTION)?;
    let filled = library::index_of(&section).map_err(|refusal| {
        let found = found::of_indexed(file, &section, refusal);
        Trouble::refused(file, refusal, found)
    })?;
    let bytes = index::bytes(filled.entries());
    output::to(output, |out| out.write_all(&bytes))?;
    Ok(Status::Done)
}
