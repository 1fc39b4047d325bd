//! `build`: the section of a listing.

use crate::found;
use crate::trouble::{Status, Trouble};
use crate::{files, library, output};
use std::path::PathBuf;

/// Write the section of a raw listing
///
/// It is of version 1 where the listing begins with an item 7, else of version 3. 22 is said at the
/// listing's byte where its grammar is broken, 23 at the record with too many locations or
/// live-outs, 28 at what a section of version 1 cannot hold: a record count that isn't 0, or a size
/// over 255. 5 to 8 are what the section would be refused by, at the place in the section.
#[derive(clap::Args)]
pub struct Arguments {
    /// The raw listing
    #[arg(value_name = "LISTING")]
    listing: PathBuf,
    /// Write to a file, whole or not at all, instead of standard output
    #[arg(long, value_name = "FILE")]
    output: Option<PathBuf>,
}

pub fn run(arguments: &Arguments) -> Result<Status, Trouble> {
    let output = output::named(&arguments.output);
    output::not_a_terminal(
        &arguments.output,
        "a section is bytes: --output FILE writes it",
    )?;
    let file = &arguments.listing;
    let listing = files::read(file, files::LISTING)?;
    let section = library::section_of(&listing).map_err(|refusal| {
        let found = found::of_listing(file, &listing, refusal);
        Trouble::refused(file, refusal, found)
    })?;
    output::to(output, |out| out.write_all(&section))?;
    Ok(Status::Done)
}
