//! Where the slots of a frame are, as the section's record tells it. It is for wording, and decides nothing.

use super::Inputs;
use crate::frames::{Line, Naming};
use crate::library;
use crate::listing::{Listing, Location, Record};
use crate::registers::Machine;
use std::collections::{HashMap, HashSet};

/// A record where a frame stands.
pub struct At<'a> {
    pub listing: &'a Listing<'a>,
    /// The record's number, and that of its function, which version 1 doesn't tell.
    pub number: u64,
    pub owner: Option<usize>,
    pub record: &'a Record,
}

/// A pair that is not null: its number, its two locations, base first, and how many pointers it has.
#[derive(Clone, Copy)]
pub struct Pair {
    pub number: usize,
    pub locations: [Location; 2],
    pub pointers: u16,
}

/// A slot: eight bytes by the address of their first, or a register by its number.
#[derive(Clone, Copy, Debug, PartialEq, Eq, Hash)]
pub enum Slot {
    Memory(i128),
    Register(u16),
}

/// How a record names a slot: a register, and of memory the distance from what the register holds.
#[derive(Clone, Copy, Debug, PartialEq, Eq)]
pub struct Place {
    pub register: u16,
    pub offset: Option<i64>,
}

impl Inputs<'_> {
    /// What the records say at the addresses, or of version 1 at the offsets, of the frames: nothing where more
    /// than one record is there, which the library refuses by 15. The section is gone through once.
    pub fn at_frames<T>(&self, say: impl Fn(&At) -> T) -> HashMap<u64, Option<T>> {
        let mut listed: HashMap<u64, Option<T>> = HashMap::new();
        let frames = self.frames().into_iter();
        let asked: HashSet<u64> = frames.map(|frame| frame.address).collect();
        let listing = library::listing_of(&self.section).unwrap_or_default();
        let listing = &Listing::read(&listing);
        for (number, (owner, record)) in (0..).zip(listing.records()) {
            let start = match (self.naming, owner) {
                (Naming::Address, Some(owner)) => listing.functions[owner].address,
                _ => 0,
            };
            let place = start.wrapping_add(record.offset.into());
            if asked.contains(&place) {
                let record = &record;
                let own = say(&At {
                    listing,
                    number,
                    owner,
                    record,
                });
                let there = listed.entry(place);
                there.and_modify(|there| *there = None).or_insert(Some(own));
            }
        }
        listed
    }
}

/// The pairs of a statepoint that are not null.
pub fn pairs(at: &At) -> Vec<Pair> {
    let (record, listing) = (at.record, at.listing);
    let (Some(deopt), Some(pairs)) = (record.deopt_count(), record.pairs()) else {
        return Vec::new();
    };
    let is_zero = |location: &Location| listing.constant(location) == Some(0);
    let pair = |number: usize| {
        let locations: [Location; 2] = record.pair(number, deopt).try_into().ok()?;
        let pointers = match listing.version_1 {
            true => 1,
            false => locations[0].size / 8,
        };
        let pair = Pair {
            number,
            locations,
            pointers,
        };
        (!locations.iter().all(is_zero)).then_some(pair)
    };
    (0..pairs).filter_map(pair).collect()
}

impl Pair {
    /// The slots of each pointer, base first, in a frame with the registers of a line.
    pub fn slots<'a>(&'a self, line: &'a Line) -> impl Iterator<Item = [Slot; 2]> + use<'a> {
        let slots = |nth| self.locations.map(|location| slot(&location, nth, line));
        (0..self.pointers).map(slots)
    }

    /// How the record names the slots of a pointer, base first.
    pub fn places(&self, nth: u16) -> [Place; 2] {
        self.locations.map(|location| place(&location, nth))
    }
}

/// The slot of this number of a location, in a frame with the registers of a line.
fn slot(location: &Location, nth: u16, line: &Line) -> Slot {
    if location.kind == 1 {
        return Slot::Register(location.register);
    }
    let register = line.registers.get(usize::from(location.register));
    let from = i128::from(register.copied().unwrap_or_default());
    Slot::Memory(from + i128::from(location.offset) + 8 * i128::from(nth))
}

/// How a record names the slot of this number of a location.
fn place(location: &Location, nth: u16) -> Place {
    let offset = i64::from(location.offset) + 8 * i64::from(nth);
    Place {
        register: location.register,
        offset: (location.kind != 1).then_some(offset),
    }
}

impl Place {
    /// In words: `RSP+0x10`, `RBP-0x8`, `RBX`.
    pub fn words(self, machine: Machine) -> String {
        let register = machine.register(self.register);
        match self.offset {
            None => register,
            Some(offset @ ..0) => format!("{register}-{:#x}", offset.unsigned_abs()),
            Some(offset) => format!("{register}+{offset:#x}"),
        }
    }
}

#[cfg(test)]
mod tests {
    use super::*;

    #[test]
    fn places_in_words() {
        for (register, offset, words) in [
            (7, Some(16), "RSP+0x10"),
            (6, Some(-8), "RBP-0x8"),
            (7, Some(0), "RSP+0x0"),
            (6, Some(i64::from(i32::MIN)), "RBP-0x80000000"),
            (3, None, "RBX"),
        ] {
            let place = Place { register, offset };
            assert_eq!(place.words(Machine::X86_64), words);
        }
    }
}
