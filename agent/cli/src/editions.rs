//! A store of editions in a file, and what is said of it.
//!
//! A store is changed by one process at a time: the file is locked from before it is read until the new one
//! has its name, so that no number is given twice. It is replaced in one step.

use crate::library::{self, Damage, Editions, LiveEdition, Settings};
use crate::numbers::count;
use crate::replace::{self, Held};
use crate::trouble::Trouble;
use crate::{files, system};
use serde::Serialize;
use std::fs;
use std::io;
use std::path::Path;

/// What a file is refused by that is no whole store.
const DAMAGED: &str = "not a store of editions, or a damaged one";

/// The store that a file's bytes say. Of a file that is longer than a store only one byte more is read.
pub fn decode(path: &Path, bytes: &[u8]) -> Result<Editions, Trouble> {
    let longer = bytes.len() as u64 > files::EDITIONS;
    library::editions_of(bytes).map_err(|damage| {
        let found = match damage {
            Damage::Length(_) if longer => format!("it has over {} bytes", files::EDITIONS),
            damage => damage.to_string(),
        };
        Trouble::declined(path, DAMAGED, found)
    })
}

/// The store in a file, which is only read. It is that of one moment, whoever replaces it meanwhile.
pub fn read(path: &Path) -> Result<Editions, Trouble> {
    decode(path, &files::read(path, files::EDITIONS)?)
}

/// A store in a file that is to be changed: nobody else can change it until this is dropped.
pub struct Locked {
    held: Held,
    pub editions: Editions,
}

impl Locked {
    pub fn open(path: &Path) -> Result<Locked, Trouble> {
        not_standard_input(path)?;
        let mut held = Held::open(path)?;
        let editions = decode(path, &held.read(files::EDITIONS)?)?;
        Ok(Locked { held, editions })
    }

    /// Puts the store in the place of the one that was read.
    pub fn put(self, path: &Path) -> Result<(), Trouble> {
        system::hold_signals();
        let replaced = self.held.replace(&self.editions.to_bytes());
        replace::flushed(path, replaced, "cannot be replaced")
    }
}

/// Writes a store to a new file.
pub fn create(path: &Path, editions: &Editions) -> Result<(), Trouble> {
    not_standard_input(path)?;
    match fs::symlink_metadata(path) {
        Err(error) if error.kind() == io::ErrorKind::NotFound => {}
        Err(error) => return Err(Trouble::file(path, "cannot be written", error)),
        Ok(_) => {
            let why = "it exists already, and --new begins a store";
            return Err(Trouble::file(path, "cannot be written", why));
        }
    }
    replace::create(path, &editions.to_bytes())
}

fn not_standard_input(path: &Path) -> Result<(), Trouble> {
    match files::is_standard_input(path) {
        true => Err(Trouble::Usage(
            "--store needs a file with a name: the store is replaced".to_string(),
        )),
        false => Ok(()),
    }
}

/// Its name.
fn name(machine: library::Machine) -> &'static str {
    library::machine_of(machine).name()
}

/// What a store tells of a number that 31 is said of.
pub fn unknown(editions: &Editions, edition: u64) -> String {
    let greatest = editions.greatest();
    match edition {
        edition if (1..=greatest).contains(&edition) => format!("edition {edition} was retired"),
        _ => format!("edition {edition} was never made: the greatest number is {greatest}"),
    }
}

/// The versions that are allowed, by their numbers.
pub fn versions(settings: &Settings) -> Vec<u8> {
    let (one, three) = (settings.versions.one(), settings.versions.three());
    let allowed = [(1, one), (3, three)].into_iter().filter(|own| own.1);
    allowed.map(|own| own.0).collect()
}

/// Settings in words.
pub fn words(settings: &Settings) -> String {
    let pointers = count(settings.pointers, "pointer");
    let machine = name(settings.machine);
    let versions = match versions(settings).as_slice() {
        [only] => format!("version {only}"),
        _ => "versions 1 and 3".to_string(),
    };
    format!("at most {pointers}, {machine}, {versions}")
}

/// A store in words, a line an edition.
pub fn lines(editions: &Editions) -> Vec<String> {
    let live = count(editions.len() as u64, "live edition");
    let greatest = editions.greatest();
    let head = format!("store: {live} of 64, greatest number {greatest}");
    let line = |own: LiveEdition| format!("edition {}: {}", own.number, words(&own.settings));
    [head]
        .into_iter()
        .chain(editions.iter().map(line))
        .collect()
}

/// One object, for programs.
#[derive(Serialize)]
#[serde(tag = "answer", rename_all = "lowercase")]
pub enum Answer<'a> {
    /// `edition list`: the store as a whole, before its editions.
    Store {
        file: &'a str,
        live: usize,
        greatest: u64,
    },
    /// `edition list`: a live edition.
    Edition(Told),
    /// `edition make`.
    Made {
        file: &'a str,
        #[serde(flatten)]
        edition: Told,
    },
    /// `edition retire`.
    Retired { file: &'a str, edition: u64 },
}

/// An edition and its settings.
#[derive(Serialize)]
pub struct Told {
    edition: u64,
    pointers: u64,
    machine: &'static str,
    versions: Vec<u8>,
}

impl Told {
    pub fn of(edition: u64, settings: &Settings) -> Told {
        Told {
            edition,
            pointers: settings.pointers,
            machine: name(settings.machine),
            versions: versions(settings),
        }
    }
}

/// A store as objects, the store first.
pub fn objects<'a>(file: &'a str, editions: &Editions) -> Vec<Answer<'a>> {
    let head = Answer::Store {
        file,
        live: editions.len(),
        greatest: editions.greatest(),
    };
    let object = |own: LiveEdition| Answer::Edition(Told::of(own.number, &own.settings));
    [head]
        .into_iter()
        .chain(editions.iter().map(object))
        .collect()
}
