//! The bench controller's profile: what a section breaks where the library refuses it by 50. The library tells the
//! record, and this is the wording: which of the rules the record breaks.

use crate::frames::Naming;
use crate::library;
use crate::listing::{Listing, Location, Record};
use crate::numbers::count;
use crate::registers::Machine;

/// A profile that sections can be held against.
#[derive(Clone, Copy, Debug, PartialEq, Eq, clap::ValueEnum)]
pub enum Profile {
    /// The bench controller's
    Bench,
}

impl Profile {
    /// How it is called.
    pub fn name(self) -> &'static str {
        match self {
            Profile::Bench => "bench",
        }
    }
}

/// The machine that the profile takes.
const MACHINE: Machine = Machine::X86_64;
/// The most records of a section, and the most pointers of a record.
const MOST_RECORDS: u64 = 64;
const MOST_POINTERS: u64 = 16;

/// What 50 found of the machine of the frames, where the section is of the right version and that machine is not.
pub fn of_machine(naming: Naming, machine: Machine) -> Option<String> {
    (naming == Naming::Address && machine != MACHINE).then(|| {
        let (is, takes) = (machine.name(), MACHINE.name());
        format!("the frames are of {is}, and the profile takes {takes}")
    })
}

/// What 50 found in a section: the version, or what is wrong with the record of this number.
pub fn of_section(section: &[u8], number: u64) -> Option<String> {
    let listing = library::listing_of(section).ok()?;
    let listing = Listing::read(&listing);
    if listing.version_1 {
        return Some("it is of version 1, and the profile takes version 3".to_string());
    }
    let mut records = listing.records().map(|(owner, record)| {
        let start = owner.map_or(0, |owner| listing.functions[owner].address);
        (start.wrapping_add(record.offset.into()), record)
    });
    let nth = usize::try_from(number).ok()?;
    let before = nth.checked_sub(1).and_then(|before| records.nth(before));
    let (address, record) = records.next()?;
    let mut breaches = Vec::new();
    if number >= MOST_RECORDS {
        breaches.push(format!("the profile takes {MOST_RECORDS} records"));
    }
    if let Some((below, _)) = before.filter(|(below, _)| *below >= address) {
        let last = number - 1;
        breaches.push(format!(
            "its address is not above {below:#x}, that of record {last}"
        ));
    }
    breaches.extend(of_record(&listing, &record));
    let breaches = breaches.join("; ");
    Some(format!("record {number} at {address:#x}: {breaches}"))
}

/// What is wrong with a record by itself.
fn of_record(listing: &Listing, record: &Record) -> Option<String> {
    let (Some(deopt), Some(pairs)) = (record.deopt_count(), record.pairs()) else {
        return Some("it is not a statepoint".to_string());
    };
    let mut pointers = 0;
    for pair in 0..pairs {
        match pointers_of(listing, record.pair(pair, deopt), MACHINE) {
            Some(own) => pointers += own,
            None => return Some(format!("pair {pair} is of wrong form, as 18 says")),
        }
    }
    let has = count(pointers, "pointer");
    (pointers > MOST_POINTERS)
        .then(|| format!("it has {has}, and the profile takes {MOST_POINTERS}"))
}

/// How many pointers a pair of version 3 has on a machine: a null pair one, another as many as its two equal sizes
/// have room for; nothing where it is of wrong form.
fn pointers_of(listing: &Listing, pair: &[Location], machine: Machine) -> Option<u64> {
    let is_null = pair.iter().all(|one| listing.constant(one) == Some(0));
    if is_null {
        return Some(1);
    }
    let is_slot = |one: &Location| match one.kind {
        1 => one.size == 8 && one.offset == 0 && library::is_slot(machine, one.register),
        3 => library::pointers_of(machine).contains(&one.register),
        _ => false,
    };
    let size = pair.first()?.size;
    let right = size.is_multiple_of(8) && (8..=2_048).contains(&size);
    let slots = pair.iter().all(|one| one.size == size && is_slot(one));
    (right && slots).then_some(u64::from(size / 8))
}
