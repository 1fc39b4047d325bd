//! The plain history of a store of editions: the list of all that has
//! happened, from which nothing is taken.
//!
//! Every accepted call that changes something adds one event at the end, and
//! nothing else changes the list. What an edition is, and what a call is
//! answered, is read off the whole list each time. Any sequence of calls is
//! answered as the store of [`crate::editions`] answers it.

#[cfg(test)]
mod tests;

use crate::editions::{Edition, Settings, Store, AMD64, LAST, PLACES};
use crate::Refusal;

/// One thing that has happened.
#[derive(Clone, Copy, Debug, PartialEq, Eq)]
pub enum Event {
    /// This edition was made.
    Made(Edition),
    /// The edition of this number was retired.
    Retired(u64),
}

/// All that has happened, the first first.
#[derive(Clone, Debug, PartialEq, Eq)]
pub struct History {
    events: Vec<Event>,
}

impl History {
    /// The history in which nothing has happened yet.
    pub fn empty() -> History {
        History { events: vec![] }
    }

    /// A history that leaves this store: its live editions were made, and so
    /// was the greatest, which was retired where it is no longer live. What
    /// else was made and retired before is left out of the list.
    pub fn that_leaves(store: &Store) -> History {
        let live = store.editions();
        let mut events: Vec<Event> = live.iter().copied().map(Event::Made).collect();
        let number = store.greatest();
        if number > 0 && live.iter().all(|own| own.number != number) {
            let settings = Settings {
                largest_count: 1,
                machine: AMD64,
                version_1: false,
                version_3: true,
            };
            events.push(Event::Made(Edition { number, settings }));
            events.push(Event::Retired(number));
        }
        History { events }
    }

    /// All that has happened.
    pub fn events(&self) -> &[Event] {
        &self.events
    }

    /// The editions that have ever been made, in the order of their making.
    fn made(&self) -> impl Iterator<Item = Edition> + '_ {
        self.events.iter().filter_map(|event| match event {
            Event::Made(edition) => Some(*edition),
            Event::Retired(_) => None,
        })
    }

    /// Whether the edition of this number has been retired.
    fn is_retired(&self, number: u64) -> bool {
        self.events.contains(&Event::Retired(number))
    }

    /// The greatest number ever used, 0 where none has been.
    pub fn greatest(&self) -> u64 {
        self.made().map(|edition| edition.number).max().unwrap_or(0)
    }

    /// The live editions: those that have been made and not retired.
    pub fn editions(&self) -> Vec<Edition> {
        self.made()
            .filter(|edition| !self.is_retired(edition.number))
            .collect()
    }

    /// Makes an edition of these settings, and gives its number: one more than
    /// the greatest ever used.
    ///
    /// The order of refusals: 51, 32, 30.
    pub fn make(&mut self, settings: Settings) -> Result<u64, Refusal> {
        settings.check()?;
        let number = self.greatest() + 1;
        if number > LAST {
            return Err(Refusal::at(32, 0));
        }
        if self.editions().len() >= PLACES {
            return Err(Refusal::at(30, 0));
        }
        self.events.push(Event::Made(Edition { number, settings }));
        Ok(number)
    }

    /// Retires an edition, or gives refusal 31.
    pub fn retire(&mut self, number: u64) -> Result<(), Refusal> {
        self.read(number)?;
        self.events.push(Event::Retired(number));
        Ok(())
    }

    /// The settings of an edition, or refusal 31 where it was never made or has
    /// been retired.
    pub fn read(&self, number: u64) -> Result<Settings, Refusal> {
        let own = self.made().find(|edition| edition.number == number);
        match own {
            Some(edition) if !self.is_retired(number) => Ok(edition.settings),
            _ => Err(Refusal::at(31, 0)),
        }
    }
}
