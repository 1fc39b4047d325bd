//! `flat`: sections of the flat proposal, version 2.

use crate::flat::{self, Flat};
use crate::json;
use crate::library::Refusal;
use crate::names::shown;
use crate::numbers::address;
use crate::registers::Machine;
use crate::trouble::{Status, Trouble, Voice};
use crate::{files, found, library, output};
use std::path::{Path, PathBuf};

/// Check, list and search flat sections, a proposal of version 2
///
/// A flat section begins with a byte 2. Its arrays hold entries of fixed lengths, and its frames may
/// share records. The other commands refuse it by 2.
#[derive(clap::Args)]
pub struct Arguments {
    #[command(subcommand)]
    part: Part,
}

#[derive(clap::Subcommand)]
enum Part {
    Check(Check),
    List(List),
    Find(Find),
}

/// Say of each file whether it is a whole flat section
///
/// 'FILE: accepted' goes to standard output, and to standard error 'FILE: refused NUMBER at 0: ..', by
/// 36 to 40. All files are looked at, and the worst answer is the exit status.
#[derive(clap::Args)]
struct Check {
    /// The sections
    #[arg(value_name = "FILE", required = true)]
    files: Vec<PathBuf>,
    /// Tell all answers on standard output, one JSON object a line
    #[arg(long)]
    json: bool,
}

/// Write all that a flat section says, array after array
#[derive(clap::Args)]
struct List {
    /// The section
    #[arg(value_name = "FILE")]
    file: PathBuf,
    /// Whose register names the text has [default: x86-64]
    #[arg(long, value_name = "NAME", value_enum)]
    machine: Option<Machine>,
    /// For programs: one JSON object a line
    #[arg(long)]
    json: bool,
}

/// Say which record of which frame is at an address
///
/// The first match in frame order, then record order; 41 is said where there is none.
#[derive(clap::Args)]
struct Find {
    /// The section
    #[arg(value_name = "FILE")]
    file: PathBuf,
    /// An address, hexadecimal with or without 0x
    #[arg(value_name = "ADDRESS", value_parser = address)]
    address: u64,
    /// Whose register names the text has [default: x86-64]
    #[arg(long, value_name = "NAME", value_enum)]
    machine: Option<Machine>,
    /// Tell the answer on standard output as one JSON object
    #[arg(long)]
    json: bool,
}

impl Arguments {
    /// Whether answers are for programs.
    pub fn json(&self) -> bool {
        match &self.part {
            Part::Check(check) => check.json,
            Part::List(list) => list.json,
            Part::Find(find) => find.json,
        }
    }
}

pub fn run(arguments: &Arguments, voice: Voice) -> Result<Status, Trouble> {
    match &arguments.part {
        Part::Check(arguments) => check_all(&arguments.files, voice),
        Part::List(arguments) => list(arguments, voice),
        Part::Find(arguments) => find(arguments, voice),
    }
}

/// The refusal of a file.
fn refused(file: &Path, section: &[u8], refusal: Refusal) -> Trouble {
    Trouble::refused(file, refusal, found::of_flat(file, section, refusal))
}

fn check_all(files: &[PathBuf], voice: Voice) -> Result<Status, Trouble> {
    files::standard_input_once(files.iter())?;
    let mut worst = Status::Done;
    for file in files {
        match check(file, voice) {
            // Where nobody listens any more, the files are looked at all the same: the status counts.
            Ok(()) | Err(Trouble::Closed) => {}
            Err(trouble) => worst = worst.max(trouble.tell(voice)),
        }
    }
    Ok(worst)
}

fn check(file: &Path, voice: Voice) -> Result<(), Trouble> {
    let section = files::read(file, files::SECTION)?;
    library::flat_check(&section).map_err(|refusal| refused(file, &section, refusal))?;
    match voice {
        Voice::Text => output::line(&format!("{}: accepted", shown(file))),
        Voice::Json => output::object(&json::Answer::Accepted {
            file: &json::name(file),
            profile: None,
            maps: None,
        }),
    }
}

fn list(arguments: &List, voice: Voice) -> Result<Status, Trouble> {
    let file = &arguments.file;
    let section = files::read(file, files::SECTION)?;
    library::flat_check(&section).map_err(|refusal| refused(file, &section, refusal))?;
    let flat = Flat::read(&section);
    let machine = arguments.machine.unwrap_or_default();
    output::to(None, |out| match voice {
        Voice::Text => flat::text::section(out, &flat, machine),
        Voice::Json => flat::objects(out, &json::name(file), &flat),
    })?;
    Ok(Status::Done)
}

fn find(arguments: &Find, voice: Voice) -> Result<Status, Trouble> {
    let (file, asked) = (&arguments.file, arguments.address);
    let section = files::read(file, files::SECTION)?;
    let numbers = library::flat_find(&section, asked).map_err(|refusal| {
        let found = match refusal.number {
            41 => Some(format!("no record at address {asked:#x}")),
            _ => found::of_flat(file, &section, refusal),
        };
        Trouble::refused(file, refusal, found)
    })?;
    let flat = Flat::read(&section);
    let machine = arguments.machine.unwrap_or_default();
    output::to(None, |out| match voice {
        Voice::Text => flat::text::found(out, asked, &flat, numbers, machine),
        Voice::Json => flat::found_object(out, &json::name(file), asked, &flat, numbers),
    })?;
    Ok(Status::Done)
}
