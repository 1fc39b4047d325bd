//! `find`: the record at an address, or at an offset in a function; or those at many addresses.

mod many;
mod over_maps;

use crate::library::{Found, Index, LinkedFound, Refusal};
use crate::listing::Listing;
use crate::numbers::{address, in_function};
use crate::registers::Machine;
use crate::text::{self, Title};
use crate::trouble::{Status, Trouble, Voice};
use crate::{files, found, index, json, library, linked, output};
use std::fmt;
use std::io::{self, Write};
use std::path::{Path, PathBuf};

/// Say which record has an address, and what it says
///
/// Looks for the first record of a section that has the address, and tells how many have it; then
/// what the section says of the record and of its function. 10 is said where no record has it.
///
/// With --addresses all addresses of a list are looked up at once, through an index of the section. A
/// line tells what is found at each; where there is no record, 10 is said on standard error, with the
/// record that lies nearest. The worst answer is the exit status.
///
/// A section of version 1 is asked by the number of a function, in decimal, and an offset, in
/// hexadecimal: 0+0x20. It doesn't say which function has a record, so that every function finds the
/// same; 10 is said where there is no such function, or no record at the offset. 27 is said where
/// the question is that of the other version.
///
/// A linker puts the maps of several objects one after the other. An address is looked for in all of
/// them: the first record in their order is told, with its map, and how many of all maps have it. An
/// index, and FUNCTION+OFFSET, are of one map.
#[derive(clap::Args)]
pub struct Arguments {
    /// The section
    #[arg(value_name = "FILE")]
    file: PathBuf,
    /// An address, hexadecimal with or without 0x; of version 1 FUNCTION+OFFSET
    #[arg(value_name = "ADDRESS", value_parser = asked, required_unless_present = "addresses")]
    asked: Option<Asked>,
    /// A list of addresses, one a line, instead of the one; '-' is standard input
    #[arg(long, value_name = "LIST", conflicts_with_all = ["asked", "machine"])]
    addresses: Option<PathBuf>,
    /// An index of the section, as 'treskibben index' writes it; 29 is said of any other
    #[arg(long, value_name = "INDEX")]
    index: Option<PathBuf>,
    /// Whose register names the text has [default: x86-64]
    #[arg(long, value_name = "NAME", value_enum)]
    machine: Option<Machine>,
    /// Tell the answer on standard output as one JSON object, and of a list one a line
    #[arg(long)]
    pub json: bool,
}

pub fn run(arguments: &Arguments, voice: Voice) -> Result<Status, Trouble> {
    let (file, kept) = (&arguments.file, arguments.index.as_ref());
    let list = arguments.addresses.as_ref();
    files::standard_input_once([Some(file), kept, list].into_iter().flatten())?;
    let kept = kept.map(PathBuf::as_path);
    match (&arguments.asked, list) {
        (_, Some(list)) => many::run(file, kept, list, voice),
        (Some(asked), None) => one(arguments, kept, asked, voice),
        (None, None) => Err(Trouble::Usage("no address".to_string())),
    }
}

/// Tells all of the record that is asked for.
fn one(
    arguments: &Arguments,
    kept: Option<&Path>,
    asked: &Asked,
    voice: Voice,
) -> Result<Status, Trouble> {
    let file = &arguments.file;
    let machine = arguments.machine.unwrap_or_default();
    let section = files::read(file, files::SECTION)?;
    let index = kept.map(|kept| asked.index(&section, kept)).transpose()?;
    let told = |refusal: Refusal| match refusal.number {
        10 => {
            let none = asked.not_there(&section, index.as_ref());
            Trouble::refused(file, refusal, Some(none))
        }
        _ if index.is_some() => refused(file, kept.zip(index.as_ref()), &section, refusal),
        _ => asked.refused(file, &section, refusal),
    };
    let there = asked.find(&section, index.as_ref()).map_err(told)?;
    let listing = library::listing_of(there.bytes).map_err(told)?;
    let listing = Listing::read(&listing);
    output::to(None, |out| match voice {
        Voice::Text => describe(out, &listing, asked, &there, machine),
        Voice::Json => {
            let (asked, found) = (asked.to_string(), &there.found);
            json::found(out, file, &asked, there.map, &listing, found, machine)
        }
    })?;
    Ok(Status::Done)
}

/// Where a record is: in these bytes, which are a map of the section; of several with its number.
struct There<'a> {
    found: Found,
    map: Option<u64>,
    bytes: &'a [u8],
}

impl<'a> There<'a> {
    /// In a section that is one map.
    fn alone(section: &'a [u8], found: Found) -> There<'a> {
        There {
            found,
            map: None,
            bytes: section,
        }
    }

    /// In one of the maps.
    fn among(section: &'a [u8], found: LinkedFound) -> Result<There<'a>, Refusal> {
        let maps = library::maps(section)?;
        let own = usize::try_from(found.map)
            .ok()
            .and_then(|map| maps.get(map));
        Ok(There {
            found: library::found_in_map(found),
            map: (maps.len() > 1).then_some(found.map),
            bytes: own.map_or(section, |own| linked::bytes(section, *own)),
        })
    }
}

/// A file that holds an index, and what it holds.
type Kept<'a> = Option<(&'a Path, &'a Index<'a>)>;

/// The refusal of a section that is asked through an index, or by 29 of the index.
fn refused(file: &Path, kept: Kept, section: &[u8], refusal: Refusal) -> Trouble {
    match (refusal.number, kept) {
        (29, Some((kept, index))) => Trouble::refused(kept, refusal, found::of_index(index)),
        _ => Trouble::refused(file, refusal, found::of_indexed(file, section, refusal)),
    }
}

/// Where a record is looked for: each version of a section has its own question.
#[derive(Clone, Copy, Debug)]
pub enum Asked {
    At(u64),
    In { function: u64, offset: u64 },
}

/// What an argument asks for.
fn asked(text: &str) -> Result<Asked, &'static str> {
    if text.contains('+') {
        let asked = in_function(text.as_bytes());
        let why = "not a decimal number, '+' and a hexadecimal one of at most 64 bits";
        return asked
            .map(|(function, offset)| Asked::In { function, offset })
            .ok_or(why);
    }
    address(text).map(Asked::At)
}

impl fmt::Display for Asked {
    fn fmt(&self, f: &mut fmt::Formatter<'_>) -> fmt::Result {
        match self {
            Asked::At(address) => write!(f, "{address:#x}"),
            Asked::In { function, offset } => write!(f, "{function}+{offset:#x}"),
        }
    }
}

impl Asked {
    /// The index that a file holds, which is for addresses alone.
    fn index<'a>(&self, section: &'a [u8], kept: &Path) -> Result<Index<'a>, Trouble> {
        match self {
            Asked::At(_) => Ok(Index::from_entries(section, index::read(kept)?)),
            Asked::In { .. } => {
                let why = "an index is for addresses, and not for FUNCTION+OFFSET";
                Err(Trouble::Usage(why.to_string()))
            }
        }
    }

    /// Asks the library, by the index where there is one.
    fn find<'a>(&self, section: &'a [u8], index: Option<&Index>) -> Result<There<'a>, Refusal> {
        let found = match (*self, index) {
            (Asked::At(address), Some(index)) => library::find_by_index(index, address)?,
            (Asked::At(address), None) => {
                return There::among(section, library::find_linked(section, address)?)
            }
            (Asked::In { function, offset }, _) => {
                library::find_in_function(section, function, offset)?
            }
        };
        Ok(There::alone(section, found))
    }

    /// The refusal of a section that is asked without an index: of all maps, or of the one.
    fn refused(&self, file: &Path, section: &[u8], refusal: Refusal) -> Trouble {
        match self {
            Asked::At(_) => linked::refused(file, section, refusal),
            Asked::In { .. } => {
                Trouble::refused(file, refusal, found::of_section(file, section, refusal))
            }
        }
    }

    /// What 10 is about, as it was read; by an index, with what lies nearest.
    fn not_there(&self, section: &[u8], index: Option<&Index>) -> String {
        match *self {
            Asked::At(address) => {
                let none = format!("no record at address {address:#x}");
                let near = index.map(|index| index::nearest_records(index, &[address]));
                [vec![none], near.unwrap_or_default()].concat().join(": ")
            }
            Asked::In { function, offset } => found::not_in_function(section, function, offset),
        }
    }
}

/// Which record is found, in one line; of several maps with its own.
fn first_line(asked: &Asked, found: &Found, map: Option<u64>) -> String {
    let (record, place) = match asked {
        Asked::At(_) => (linked::record(found, map), "address"),
        Asked::In { .. } => (format!("record {}", found.record), "offset"),
    };
    let which = match found.sharing {
        1 => "the only record".to_string(),
        sharing => format!("the first of {sharing} records"),
    };
    format!("{asked}: {record}, {which} at this {place}")
}

fn describe(
    out: &mut dyn Write,
    listing: &Listing,
    asked: &Asked,
    there: &There,
    machine: Machine,
) -> io::Result<()> {
    let (index, function) = (there.found.record, there.found.function);
    let address = match *asked {
        Asked::At(address) => Some(address),
        Asked::In { .. } => None,
    };
    writeln!(out, "{}", first_line(asked, &there.found, there.map))?;
    let at = |number: u64| usize::try_from(number).unwrap_or(usize::MAX);
    let Some((_, record)) = listing.records().nth(at(index)) else {
        return Ok(());
    };
    text::function(out, listing, at(function))?;
    text::record(out, listing, &Title { index, address }, &record, machine)
}
