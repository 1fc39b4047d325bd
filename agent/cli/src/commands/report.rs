//! `report`: totals over many sections.

use crate::numbers::whole;
use crate::report::count::{self, Told};
use crate::report::{gather, saved, Report};
use crate::trouble::{Status, Trouble, Voice};
use crate::{files, output};
use std::path::PathBuf;
use std::thread;

/// Count over many sections: the monthly report
///
/// Writes nine lines: sections, the refused among them (which add nothing else), functions, records,
/// statepoints, pairs, locations of the kinds 1 to 5, the sum of known stack sizes, and how many are
/// unknown. A folder stands for all files in it and in the folders below. A file that cannot be read
/// counts as refused, is named on standard error, and makes the exit status 2.
///
/// A linker puts the maps of several objects one after the other: each map of such a file counts as one
/// section. Where one is refused, the file counts as one refused section and adds nothing else.
///
/// Sums are exact. Where one would pass 2^64 - 1, 34 is said at that section's position, and no totals
/// are written. The answer does not depend on the number of threads.
#[derive(clap::Args)]
pub struct Arguments {
    /// The sections, and folders of sections
    #[arg(value_name = "PATH", required_unless_present = "add")]
    paths: Vec<PathBuf>,
    /// Add saved reports, as --json writes them
    ///
    /// They are added before the sections. To name sections after them, put '--' between.
    #[arg(long, value_name = "REPORT", num_args = 1..)]
    add: Vec<PathBuf>,
    /// Name the machine that all sections are of, instead of one for each folder
    #[arg(long, value_name = "NAME")]
    name: Option<String>,
    /// How many threads count [default: as many as there are cores]
    #[arg(long, value_name = "NUMBER", value_parser = threads)]
    threads: Option<usize>,
    /// Tell each refused section, with its cause, too
    #[arg(long)]
    refused: bool,
    /// Tell all answers on standard output: one JSON object, with the totals of each machine
    #[arg(long)]
    pub json: bool,
}

/// The most threads that are started.
const MOST_THREADS: u64 = 1_024;

fn threads(text: &str) -> Result<usize, String> {
    match whole(text)? {
        number @ 1..=MOST_THREADS => Ok(number as usize),
        _ => Err(format!("not 1 to {MOST_THREADS}")),
    }
}

pub fn run(arguments: &Arguments, voice: Voice) -> Result<Status, Trouble> {
    files::standard_input_once(arguments.add.iter().chain(&arguments.paths))?;
    let mut report = Report::default();
    for file in &arguments.add {
        saved::add(&mut report, file)?;
    }
    let entries = gather::all(&arguments.paths, arguments.name.as_deref(), &mut report);
    let cores = || thread::available_parallelism().map_or(1, usize::from);
    let threads = arguments.threads.unwrap_or_else(cores);
    let told = Told {
        voice,
        refused: arguments.refused,
    };
    let (worst, refused) = count::all(&mut report, &entries, threads, told);
    if let Some(refused) = refused {
        return Ok(worst.max(refused.tell(voice)));
    }
    match voice {
        Voice::Text => output::to(None, |out| write!(out, "{}", report.totals()))?,
        Voice::Json => output::object(&saved::object(&report))?,
    }
    Ok(worst)
}
