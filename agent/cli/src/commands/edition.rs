//! `edition`: settings by edition, in a store that is a file.

use crate::editions::{self, Answer, Locked, Told};
use crate::library::{self, Editions, Refusal, Settings};
use crate::names::shown;
use crate::numbers::whole;
use crate::registers::Machine;
use crate::trouble::{say, Status, Trouble, Voice};
use crate::{json, output};
use std::path::{Path, PathBuf};

/// Make, retire and list editions of a site's settings
///
/// An edition is a number and settings: the largest pointer count of a move, the machine, and the
/// versions of sections that are allowed. They never change. Numbers begin with 1, and none is given
/// twice, whatever is retired. A store has 64 places.
///
/// The store is a file. It is changed by one process at a time: a second one ends at once, with status
/// 2. It is replaced in one step, and what is no whole store is refused and left as it is.
#[derive(clap::Args)]
pub struct Arguments {
    #[command(subcommand)]
    part: Part,
}

#[derive(clap::Subcommand)]
enum Part {
    Make(Make),
    Retire(Retire),
    List(List),
}

/// Make an edition, and tell its number
///
/// Refusals come in this order: 51 for a pointer count that isn't 1 to 256, 32 where the number would be
/// over 2^32 - 1, 30 where 64 editions are live.
#[derive(clap::Args)]
struct Make {
    /// The store
    #[arg(long, value_name = "FILE")]
    store: PathBuf,
    /// Begin a store with this edition, in a file that must not exist yet
    #[arg(long)]
    new: bool,
    /// The largest pointer count of a move
    #[arg(long, value_name = "NUMBER", value_parser = whole, default_value = "256")]
    pointers: u64,
    /// The machine
    #[arg(long, value_name = "NAME", value_enum)]
    machine: Machine,
    /// The versions of sections that are allowed
    #[arg(long, value_name = "LIST", value_enum, default_value = "1,3")]
    versions: Versions,
    /// Tell the answer on standard output as one JSON object
    #[arg(long)]
    json: bool,
}

/// Retire an edition, whose number is never given again
///
/// 31 is said of a number that was never given, or is retired.
#[derive(clap::Args)]
struct Retire {
    /// The store
    #[arg(long, value_name = "FILE")]
    store: PathBuf,
    /// The edition's number
    #[arg(value_name = "EDITION", value_parser = whole)]
    edition: u64,
    /// Tell the answer on standard output as one JSON object
    #[arg(long)]
    json: bool,
}

/// Tell the live editions of a store, in the order of their numbers
#[derive(clap::Args)]
struct List {
    /// The store
    #[arg(long, value_name = "FILE")]
    store: PathBuf,
    /// For programs: one JSON object a line
    #[arg(long)]
    json: bool,
}

/// The versions that an edition allows.
#[derive(Clone, Copy, clap::ValueEnum)]
enum Versions {
    #[value(name = "1")]
    One,
    #[value(name = "3")]
    Three,
    #[value(name = "1,3")]
    Both,
}

impl Arguments {
    /// Whether answers are for programs.
    pub fn json(&self) -> bool {
        match &self.part {
            Part::Make(make) => make.json,
            Part::Retire(retire) => retire.json,
            Part::List(list) => list.json,
        }
    }
}

pub fn run(arguments: &Arguments, voice: Voice) -> Result<Status, Trouble> {
    match &arguments.part {
        Part::Make(arguments) => make(arguments, voice),
        Part::Retire(arguments) => retire(arguments, voice),
        Part::List(arguments) => list(arguments, voice),
    }
}

impl Make {
    fn settings(&self) -> Settings {
        Settings {
            pointers: self.pointers,
            machine: library::machine(self.machine),
            versions: match self.versions {
                Versions::One => library::Versions::One,
                Versions::Three => library::Versions::Three,
                Versions::Both => library::Versions::Both,
            },
        }
    }

    /// Makes the edition in a store, or says why not.
    fn made(&self, editions: &mut Editions) -> Result<u64, Trouble> {
        let made = library::make_edition(editions, self.settings());
        made.map_err(|refusal| {
            let found = match refusal.number {
                51 => Some(format!("--pointers is {}", self.pointers)),
                30 => Some("'treskibben edition retire' frees a place".to_string()),
                _ => None,
            };
            Trouble::refused(&self.store, refusal, found)
        })
    }
}

fn make(arguments: &Make, voice: Voice) -> Result<Status, Trouble> {
    let file = &arguments.store;
    let edition = if arguments.new {
        let mut editions = Editions::new();
        let edition = arguments.made(&mut editions)?;
        editions::create(file, &editions)?;
        edition
    } else {
        let mut store = Locked::open(file)?;
        let edition = arguments.made(&mut store.editions)?;
        store.put(file)?;
        edition
    };
    let settings = arguments.settings();
    let words = format!("edition {edition} made: {}", editions::words(&settings));
    let object = Answer::Made {
        file: &json::name(file),
        edition: Told::of(edition, &settings),
    };
    tell(file, &words, &object, voice);
    Ok(Status::Done)
}

fn retire(arguments: &Retire, voice: Voice) -> Result<Status, Trouble> {
    let (file, edition) = (&arguments.store, arguments.edition);
    let mut store = Locked::open(file)?;
    library::retire_edition(&mut store.editions, edition)
        .map_err(|refusal| unknown(file, &store.editions, edition, refusal))?;
    store.put(file)?;
    let object = Answer::Retired {
        file: &json::name(file),
        edition,
    };
    let words = format!("edition {edition} retired");
    tell(file, &words, &object, voice);
    Ok(Status::Done)
}

/// 31, with what the store tells of the number.
fn unknown(file: &Path, editions: &Editions, edition: u64, refusal: Refusal) -> Trouble {
    let found = editions::unknown(editions, edition);
    Trouble::refused(file, refusal, Some(found))
}

/// Tells what was done. It is done, whether anybody can be told on standard output or not.
fn tell(file: &Path, words: &str, object: &Answer, voice: Voice) {
    let line = format!("{}: {words}", shown(file));
    let told = match voice {
        Voice::Text => output::line(&line),
        Voice::Json => output::object(object),
    };
    if let Err(Trouble::File(_)) = told {
        say(&format!("{line}; standard output cannot be written"));
    }
}

fn list(arguments: &List, voice: Voice) -> Result<Status, Trouble> {
    let file = &arguments.store;
    let editions = editions::read(file)?;
    let lines = match voice {
        Voice::Text => editions::lines(&editions),
        Voice::Json => {
            let name = json::name(file);
            let objects = editions::objects(&name, &editions);
            let text = |object: &Answer| serde_json::to_string(object).unwrap_or_default();
            objects.iter().map(text).collect()
        }
    };
    output::to(None, |out| {
        lines.iter().try_for_each(|line| writeln!(out, "{line}"))
    })?;
    Ok(Status::Done)
}
