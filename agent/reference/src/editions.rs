//! Editions of a site's settings, in a store of 64 places.
//!
//! An edition is a number and the settings that it was made with, which never
//! change. The first edition is 1, and a new one gets one more than the
//! greatest number ever used. A retired edition's place is used again, its
//! number never.
//!
//! [`Store::make`] gives the first refusal in the order of the papers: 51 for
//! settings that can't be, 32 where the new number would be over 2^32 - 1, 30
//! where all places are taken. [`Store::retire`] and [`Store::read`] give 31
//! for an edition that is unknown or retired: 0 and numbers over 2^32 - 1 are
//! never known. All these are at place 0. A refused call leaves the store as it
//! was, the greatest number included.
//!
//! Which place an edition takes can't be seen from outside. The same calls are
//! answered from a plain list of events in [`crate::history`].

#[cfg(test)]
mod tests;
#[cfg(test)]
mod tests_set_up;

use crate::Refusal;

/// How many editions a store holds at a time.
pub const PLACES: usize = 64;

/// The last number that an edition can have, 2^32 - 1.
pub const LAST: u64 = 0xFFFF_FFFF;

/// The greatest pointer count that settings can allow.
pub const MAX_COUNT: u64 = 256;

/// The number of the machine AMD64.
pub const AMD64: u64 = 0;

/// The number of the machine AArch64.
pub const AARCH64: u64 = 1;

/// What a site sets, as it is handed in: any numbers.
#[derive(Clone, Copy, Debug, PartialEq, Eq)]
pub struct Settings {
    /// The largest pointer count of a move, 1 to 256.
    pub largest_count: u64,
    /// The machine, [`AMD64`] or [`AARCH64`].
    pub machine: u64,
    /// Whether sections of version 1 are allowed.
    pub version_1: bool,
    /// Whether sections of version 3 are allowed.
    pub version_3: bool,
}

impl Settings {
    /// Refusal 51: a count outside its range, a machine not known, or no
    /// version allowed.
    pub fn check(&self) -> Result<(), Refusal> {
        let count = 1 <= self.largest_count && self.largest_count <= MAX_COUNT;
        let machine = self.machine == AMD64 || self.machine == AARCH64;
        let version = self.version_1 || self.version_3;
        match count && machine && version {
            true => Ok(()),
            false => Err(Refusal::at(51, 0)),
        }
    }
}

/// An edition that has been made: its number and its settings.
#[derive(Clone, Copy, Debug, PartialEq, Eq)]
pub struct Edition {
    /// The number, 1 to 2^32 - 1.
    pub number: u64,
    /// The settings that it was made with.
    pub settings: Settings,
}

/// A store of editions: what its 64 places hold, and the greatest number ever
/// used.
#[derive(Clone, Debug, PartialEq, Eq)]
pub struct Store {
    greatest: u64,
    places: [Option<Edition>; PLACES],
}

impl Store {
    /// The empty store, on which no number has been used.
    pub fn empty() -> Store {
        Store {
            greatest: 0,
            places: [None; PLACES],
        }
    }

    /// A store with a past, without the calls that led to it: these editions
    /// are live, and `greatest` is the greatest number ever used. None where no
    /// sequence of calls from the empty store leaves such a store.
    pub fn set_up(greatest: u64, live: &[Edition]) -> Option<Store> {
        if greatest > LAST || live.len() > PLACES {
            return None;
        }
        let mut store = Store::empty();
        for (&edition, place) in live.iter().zip(&mut store.places) {
            *place = Some(edition);
        }
        store.greatest = greatest;
        let own = store.editions();
        let in_range = |own: &Edition| 1 <= own.number && own.number <= greatest;
        let right = own
            .iter()
            .all(|own| in_range(own) && own.settings.check().is_ok());
        let distinct = own.windows(2).all(|two| two[0].number < two[1].number);
        // The greatest took a place when it was made: were it retired since, then
        // at most 63 of those before it could be left.
        let has_greatest = own.last().is_some_and(|own| own.number == greatest);
        let had_place = own.len() < PLACES || has_greatest;
        (right && distinct && had_place).then_some(store)
    }

    /// The greatest number ever used, 0 where none has been.
    pub fn greatest(&self) -> u64 {
        self.greatest
    }

    /// The live editions in the order of their numbers.
    pub fn editions(&self) -> Vec<Edition> {
        let mut editions: Vec<Edition> = self.places.iter().flatten().copied().collect();
        editions.sort_by_key(|edition| edition.number);
        editions
    }

    /// Makes an edition of these settings, and gives its number.
    ///
    /// The order of refusals: 51, 32, 30.
    pub fn make(&mut self, settings: Settings) -> Result<u64, Refusal> {
        settings.check()?;
        if self.greatest >= LAST {
            return Err(Refusal::at(32, 0));
        }
        let mut places = self.places.iter_mut();
        let free = places.find(|place| place.is_none());
        let free = free.ok_or(Refusal::at(30, 0))?;
        self.greatest += 1;
        *free = Some(Edition {
            number: self.greatest,
            settings,
        });
        Ok(self.greatest)
    }

    /// Retires an edition, or gives refusal 31.
    pub fn retire(&mut self, number: u64) -> Result<(), Refusal> {
        let mut places = self.places.iter_mut();
        let own = places.find(|place| place.is_some_and(|own| own.number == number));
        *own.ok_or(Refusal::at(31, 0))? = None;
        Ok(())
    }

    /// The settings of an edition, or refusal 31.
    pub fn read(&self, number: u64) -> Result<Settings, Refusal> {
        let mut live = self.places.iter().flatten();
        let own = live.find(|own| own.number == number);
        own.map(|own| own.settings).ok_or(Refusal::at(31, 0))
    }
}
