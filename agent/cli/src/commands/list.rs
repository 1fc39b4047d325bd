//! `list`: the listing of a section, raw, for people or for programs.

use crate::json;
use crate::library::{self, Map, Refusal};
use crate::listing::Listing;
use crate::numbers::count;
use crate::registers::Machine;
use crate::trouble::{Status, Trouble, Voice};
use crate::{files, found, linked, output, text};
use std::io::{self, Write};
use std::path::PathBuf;

/// Write the listing of a section: raw, as text or as JSON
///
/// Without --text or --json it is the raw bytes that 'treskibben build' makes the section from
/// again.
///
/// A linker puts the maps of several objects one after the other. --text and --json tell each of them, with
/// its number, its first byte and its length; the raw listing is of one map.
#[derive(clap::Args)]
#[command(group = clap::ArgGroup::new("readable").args(["text", "json"]))]
pub struct Arguments {
    /// The section
    #[arg(value_name = "FILE")]
    file: PathBuf,
    /// For people: functions, records with addresses, locations by kind and register
    ///
    /// Locations are shown with what they are for in a statepoint; then come live-outs and constants. A
    /// section of version 1 doesn't say which function has a record: all records come after the
    /// functions there, with their offsets alone.
    #[arg(long)]
    text: bool,
    /// For programs: one JSON object a line
    #[arg(long)]
    pub json: bool,
    /// Whose register names the text has [default: x86-64]
    #[arg(long, value_name = "NAME", value_enum, requires = "readable")]
    machine: Option<Machine>,
    /// Write to a file, whole or not at all, instead of standard output
    #[arg(long, value_name = "FILE")]
    output: Option<PathBuf>,
}

pub fn run(arguments: &Arguments, voice: Voice) -> Result<Status, Trouble> {
    let (file, output) = (&arguments.file, output::named(&arguments.output));
    let readable = arguments.text || arguments.json;
    if !readable {
        let instead =
            "a raw listing is bytes: --text writes it for people, --output FILE to a file";
        output::not_a_terminal(&arguments.output, instead)?;
    }
    let section = files::read(file, files::SECTION)?;
    if !readable {
        let listing = library::listing_of(&section).map_err(|refusal| {
            let found = found::of_section(file, &section, refusal);
            Trouble::refused(file, refusal, found)
        })?;
        output::to(output, |out| out.write_all(&listing))?;
        return Ok(Status::Done);
    }
    let told = |refusal| linked::refused(file, &section, refusal);
    let maps = library::maps(&section).map_err(told)?;
    let listing_of = |map: &Map| library::listing_of(linked::bytes(&section, *map));
    let listings: Result<Vec<Vec<u8>>, Refusal> = maps.iter().map(listing_of).collect();
    let listings = listings.map_err(told)?;
    if linked::all_at_zero(&section, &maps) {
        found::warn_of_zeros(file, voice);
    }
    output::to(output, |out| {
        if maps.len() > 1 && voice == Voice::Text {
            let bytes = count(section.len() as u64, "byte");
            writeln!(out, "section: {bytes}, {}", count(maps.len() as u64, "map"))?;
        }
        let mut all = (0..).zip(&maps).zip(&listings);
        all.try_for_each(|((number, map), listing)| {
            let own = (maps.len() > 1).then_some((number, map.first as u64));
            arguments.map(out, own, &Listing::read(listing), map.length)
        })
    })?;
    Ok(Status::Done)
}

impl Arguments {
    /// Writes what a map says; of several with its number and its first byte.
    fn map(
        &self,
        out: &mut dyn Write,
        own: Option<(u64, u64)>,
        listing: &Listing,
        length: usize,
    ) -> io::Result<()> {
        let machine = self.machine.unwrap_or_default();
        if self.json {
            return json::section(out, &self.file, own, listing, length, machine);
        }
        let called = own.map(|(number, first)| linked::name(number, first));
        let called = called.as_deref().unwrap_or("section");
        text::section(out, called, listing, length, machine)
    }
}
