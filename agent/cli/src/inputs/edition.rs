//! The edition that a restore names, and what is said of it.

use super::Given;
use crate::library::{self, Edition, Editions, Settings, Versions};
use crate::numbers::ranges;
use crate::registers::Machine;
use crate::trouble::Trouble;
use crate::{editions, files, receipt};
use std::path::Path;

/// The edition that a restore names; where it names none, one that allows all that it can be asked for.
pub struct Chosen<'a> {
    /// The file that the store is in, and its bytes.
    store: Option<(&'a Path, Vec<u8>)>,
    editions: Editions,
    number: u64,
    /// Its settings; none where it is unknown or retired.
    settings: Option<Settings>,
}

impl<'a> Chosen<'a> {
    pub fn read(given: &'a Given) -> Result<Chosen<'a>, Trouble> {
        let machine = given.machine.unwrap_or_default();
        Chosen::of(given.store.as_deref(), given.edition, machine)
    }

    /// An edition of a store; where none is named, one that allows all that it can be asked for on a machine.
    pub fn of(
        store: Option<&'a Path>,
        edition: Option<u64>,
        machine: Machine,
    ) -> Result<Chosen<'a>, Trouble> {
        let (editions, number, store) = match (store, edition) {
            (Some(path), Some(number)) => {
                let bytes = files::read(path, files::EDITIONS)?;
                let editions = editions::decode(path, &bytes)?;
                (editions, number, Some((path, bytes)))
            }
            _ => {
                let (editions, number) = allows_all(machine);
                (editions, number, None)
            }
        };
        let settings = library::settings_of(editions.edition(number));
        Ok(Chosen {
            store,
            editions,
            number,
            settings,
        })
    }

    /// The edition, as the library's calls name it.
    pub fn edition(&self) -> Edition<'_> {
        self.editions.edition(self.number)
    }

    /// The machine that is asked for, or else the edition's; none where neither is known.
    pub fn machine(&self, asked: Option<Machine>) -> Option<Machine> {
        asked.or_else(|| {
            let settings = self.settings?;
            Some(library::machine_of(settings.machine))
        })
    }

    /// The file of the store, if the call names one.
    pub fn file(&self) -> Option<&'a Path> {
        self.store.as_ref().map(|(path, _)| *path)
    }

    /// The number, if the call names one.
    pub fn number(&self) -> Option<u64> {
        self.store.as_ref().map(|_| self.number)
    }

    /// What 31 found: what became of the edition, and which ones are live.
    pub fn unknown(&self) -> String {
        let live: Vec<u64> = self.editions.iter().map(|edition| edition.number).collect();
        let live = match live.len() {
            0 => "no edition is live".to_string(),
            1 => format!("edition {} is live", live[0]),
            _ => format!("live are {}", ranges(&live)),
        };
        let words = editions::unknown(&self.editions, self.number);
        format!("{words}; {live}")
    }

    /// What 33 found: what the edition allows, and what it was asked for.
    pub fn not_allowed(&self, section: &[u8], machine: Machine) -> Option<String> {
        let settings = self.settings?;
        let version = *section.first()?;
        let allowed = match version {
            1 => settings.versions.one(),
            _ => settings.versions.three(),
        };
        let version = (!allowed).then(|| format!("the section is of version {version}"));
        let own = library::machine_of(settings.machine) == machine;
        let frames = (!own).then(|| format!("the frames are of {}", machine.name()));
        let asked: Vec<String> = version.into_iter().chain(frames).collect();
        let (words, asked) = (self.words(), asked.join(", and "));
        Some(format!("{words}; {asked}"))
    }

    /// What the edition allows, in words.
    pub fn words(&self) -> String {
        let settings = self.allowed();
        match self.store {
            Some(_) => format!("edition {} allows {settings}", self.number),
            None => format!("no edition is named, which allows {settings}"),
        }
    }

    /// The edition and what it allows, after its name.
    pub fn line(&self) -> String {
        let settings = self.allowed();
        match self.store {
            Some(_) => format!("{}: {settings}", self.number),
            None => format!("none named: {settings}"),
        }
    }

    fn allowed(&self) -> String {
        let settings = self.settings.as_ref().map(editions::words);
        settings.unwrap_or_default()
    }

    /// The edition as a receipt tells it; none where it is unknown.
    pub fn told(&self) -> Option<receipt::Edition> {
        let settings = self.settings.as_ref()?;
        let store = self.store.as_ref();
        Some(receipt::Edition {
            number: self.number(),
            pointers: settings.pointers,
            machine: library::machine_of(settings.machine).name().to_string(),
            versions: editions::versions(settings),
            store: store.map(|(path, bytes)| receipt::Entry::of(path, bytes)),
        })
    }
}

/// A store with one edition, for calls that name none: 256 pointers, this machine, both versions.
fn allows_all(machine: Machine) -> (Editions, u64) {
    let mut editions = Editions::new();
    let settings = Settings {
        pointers: 256,
        machine: library::machine(machine),
        versions: Versions::Both,
    };
    let number = library::make_edition(&mut editions, settings);
    let number = number.expect("these settings are allowed, and the store is empty");
    (editions, number)
}
