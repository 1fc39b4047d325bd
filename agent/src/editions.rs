//! Settings by edition: what a site sets for its moves, kept in a store of 64 editions.
//!
//! An edition is a number and the [`Settings`] that it was made with, which never change. The first
//! edition is 1, and a new one gets one more than the greatest number ever used. A retired edition's
//! place is used again, its number never. Any sequence of calls from an empty store is answered as the
//! plain list of what was made and retired says; that is proved.
//!
//! A restore names an edition: [`Editions::edition`] gives an [`Edition`], which has the calls that move frames
//! or tell why they move, and keeps them to its settings.
//!
//! [`Editions`] owns a store. Its bytes can be kept in a file: [`Editions::to_bytes`] and
//! [`Editions::from_bytes`], which refuses what is damaged.
//!
//! ```
//! use treskibben::editions::{Editions, MakeRefusal, Machine, Settings, Versions};
//! # fn main() -> Result<(), Box<dyn std::error::Error>> {
//! let settings = Settings { pointers: 256, machine: Machine::Amd64, versions: Versions::Three };
//! let mut editions = Editions::new();
//! assert_eq!(editions.make(settings)?, 1);
//! assert_eq!(editions.make(Settings { pointers: 8, ..settings })?, 2);
//! editions.retire(1)?;
//! assert_eq!(editions.read(1).unwrap_err().to_string(), "refused 31 at 0: edition unknown or retired");
//! assert_eq!(editions.read(2)?.pointers, 8);
//! // A retired number is not given again.
//! assert_eq!(editions.make(settings)?, 3);
//!
//! let wrong = Settings { pointers: 257, ..settings };
//! assert_eq!(editions.make(wrong), Err(MakeRefusal::Settings));
//!
//! let kept = editions.to_bytes();
//! assert_eq!(Editions::from_bytes(&kept)?, editions);
//! # Ok(())
//! # }
//! ```

mod explain;
mod file;
mod replay;
mod restore;
#[cfg(test)]
mod tests;

pub use file::Damage;
pub use restore::Edition;

use crate::ffi::editions as ffi;
use crate::Refusal;
use std::error::Error;
use std::fmt;

pub use crate::Machine;

/// The versions of sections that are allowed.
#[derive(Clone, Copy, Debug, PartialEq, Eq, Hash)]
pub enum Versions {
    /// Version 1 alone.
    One,
    /// Version 3 alone.
    Three,
    /// Versions 1 and 3.
    Both,
}

impl Versions {
    /// Whether sections of version 1 are allowed.
    pub fn one(self) -> bool {
        self != Versions::Three
    }

    /// Whether sections of version 3 are allowed.
    pub fn three(self) -> bool {
        self != Versions::One
    }
}

/// What a site sets for its moves.
#[derive(Clone, Copy, Debug, PartialEq, Eq, Hash)]
pub struct Settings {
    /// The largest pointer count of a move, 1 to 256. [`Editions::make`] refuses any other.
    pub pointers: u64,
    /// The machine.
    pub machine: Machine,
    /// The versions that are allowed.
    pub versions: Versions,
}

impl Settings {
    /// The numbers that cross to the library.
    fn numbers(self) -> ffi::Settings {
        ffi::Settings {
            most: self.pointers,
            machine: self.machine.number(),
            version_1: self.versions.one().into(),
            version_3: self.versions.three().into(),
        }
    }

    /// The settings that such numbers say; none where an edition can't be made with them.
    fn of_numbers(numbers: ffi::Settings) -> Option<Settings> {
        let machine = match numbers.machine {
            0 => Machine::Amd64,
            1 => Machine::Aarch64,
            _ => return None,
        };
        let versions = match (numbers.version_1, numbers.version_3) {
            (1, 0) => Versions::One,
            (0, 1) => Versions::Three,
            (1, 1) => Versions::Both,
            _ => return None,
        };
        let pointers = numbers.most;
        (1..=256).contains(&pointers).then_some(Settings {
            pointers,
            machine,
            versions,
        })
    }
}

/// An edition that is live: its number and its settings.
#[derive(Clone, Copy, Debug, PartialEq, Eq, Hash)]
pub struct LiveEdition {
    /// The number, 1 to 2^32 - 1.
    pub number: u64,
    /// The settings that it was made with.
    pub settings: Settings,
}

/// Why an edition was not made. The first that holds is given, in this order.
#[derive(Clone, Copy, Debug, PartialEq, Eq, Hash)]
pub enum MakeRefusal {
    /// 51: the pointer count is not 1 to 256.
    Settings,
    /// 32: the new number would be over 2^32 - 1.
    NumbersUsedUp,
    /// 30: 64 editions are live.
    Full,
}

impl MakeRefusal {
    /// The number of the refusal.
    pub fn number(self) -> u64 {
        match self {
            MakeRefusal::Settings => 51,
            MakeRefusal::NumbersUsedUp => 32,
            MakeRefusal::Full => 30,
        }
    }

    /// The library gives no other numbers than these.
    fn of(refusal: Refusal) -> MakeRefusal {
        match refusal.number() {
            30 => MakeRefusal::Full,
            32 => MakeRefusal::NumbersUsedUp,
            _ => MakeRefusal::Settings,
        }
    }
}

impl From<MakeRefusal> for Refusal {
    fn from(refusal: MakeRefusal) -> Refusal {
        Refusal::new(refusal.number(), 0)
    }
}

impl fmt::Display for MakeRefusal {
    fn fmt(&self, f: &mut fmt::Formatter<'_>) -> fmt::Result {
        Refusal::from(*self).fmt(f)
    }
}

impl Error for MakeRefusal {}

/// 31: no edition of this number was ever made, or it was retired.
#[derive(Clone, Copy, Debug, PartialEq, Eq, Hash)]
pub struct UnknownEdition {
    /// The number that was asked for.
    pub edition: u64,
}

impl From<UnknownEdition> for Refusal {
    fn from(_: UnknownEdition) -> Refusal {
        Refusal::new(31, 0)
    }
}

impl fmt::Display for UnknownEdition {
    fn fmt(&self, f: &mut fmt::Formatter<'_>) -> fmt::Result {
        Refusal::from(*self).fmt(f)
    }
}

impl Error for UnknownEdition {}

/// A store of editions, as calls from an empty one leave it.
#[derive(Clone, Debug, PartialEq, Eq)]
pub struct Editions {
    store: ffi::Store,
}

impl Editions {
    /// How many editions can be live at a time.
    pub const PLACES: usize = ffi::PLACES;

    /// The greatest number that an edition can have.
    pub const LAST: u64 = u32::MAX as u64;

    /// An empty store, in which nothing was ever made.
    pub fn new() -> Editions {
        Editions {
            store: ffi::empty(),
        }
    }

    /// Makes an edition of these settings, and gives its number.
    ///
    /// # Errors
    ///
    /// [`MakeRefusal`]: 51, 32, 30. The store is unchanged then.
    pub fn make(&mut self, settings: Settings) -> Result<u64, MakeRefusal> {
        let made = ffi::make(&self.store, settings.numbers());
        made.verdict.accepted().map_err(MakeRefusal::of)?;
        self.store = made.store;
        Ok(made.edition)
    }

    /// Retires an edition. Its place is free then, and its number is never given again.
    ///
    /// # Errors
    ///
    /// 31 where there is none of that number, or it was retired. The store is unchanged then.
    pub fn retire(&mut self, edition: u64) -> Result<(), UnknownEdition> {
        let retired = ffi::retire(&self.store, edition);
        let accepted = retired.verdict.accepted();
        accepted.map_err(|_| UnknownEdition { edition })?;
        self.store = retired.store;
        Ok(())
    }

    /// The settings of an edition.
    ///
    /// # Errors
    ///
    /// 31 where there is none of that number, or it was retired.
    pub fn read(&self, edition: u64) -> Result<Settings, UnknownEdition> {
        let read = ffi::read(&self.store, edition);
        let unknown = UnknownEdition { edition };
        read.verdict.accepted().map_err(|_| unknown)?;
        Settings::of_numbers(read.settings).ok_or(unknown)
    }

    /// The greatest number ever used, 0 where none was.
    pub fn greatest(&self) -> u64 {
        self.store.greatest
    }

    /// How many editions are live.
    pub fn len(&self) -> usize {
        self.live().count()
    }

    /// Whether none is live.
    pub fn is_empty(&self) -> bool {
        self.live().next().is_none()
    }

    /// The live editions, in the order of their numbers.
    pub fn iter(&self) -> impl Iterator<Item = LiveEdition> {
        let mut live: Vec<LiveEdition> = self.live().collect();
        live.sort_by_key(|edition| edition.number);
        live.into_iter()
    }

    /// The live editions, in the order of their places.
    fn live(&self) -> impl Iterator<Item = LiveEdition> + '_ {
        self.store.places.iter().filter_map(edition)
    }
}

/// The edition in a place.
fn edition(place: &ffi::Place) -> Option<LiveEdition> {
    let number = Some(place.number).filter(|number| *number != 0)?;
    let settings = Settings::of_numbers(place.settings)?;
    Some(LiveEdition { number, settings })
}

impl Default for Editions {
    fn default() -> Editions {
        Editions::new()
    }
}
