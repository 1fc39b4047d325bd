//! All that is asked of the library, and nothing else.
//!
//! Every answer on a section, a listing or a frame comes from the crate `treskibben`.

mod linked;
mod profiles;
mod restore;
mod traces;

use crate::registers;
pub use linked::{find_linked, found_in_map, map_at_fault, maps, LinkedFound, Map};
pub use profiles::check_profile;
pub use restore::Restore;
pub use traces::{outcome, steps_of, trace_of, Difference, Recorded, Step};
use treskibben::MoveTable;

/// Why a call was refused: number, place and cause.
#[derive(Clone, Copy, Debug, PartialEq, Eq)]
pub struct Refusal {
    pub number: u64,
    pub place: u64,
    pub cause: &'static str,
}

/// The record that is found, a stopped frame and its registers, and an index with its section.
pub use treskibben::{Found, Frame, Index, Registers};

/// Why a slot moves or does not, and all slots of some frames.
pub use treskibben::{ExplainedPointer, ExplainedSlot, Reason, Slot};

impl Refusal {
    /// Whether it is said of a frame, and not of what all frames share.
    pub fn is_of_frame(&self) -> bool {
        matches!(self.number, 10 | 12 | 15..=21)
    }
}

impl From<treskibben::Refusal> for Refusal {
    fn from(refusal: treskibben::Refusal) -> Refusal {
        Refusal {
            number: refusal.number(),
            place: refusal.place(),
            cause: refusal.cause(),
        }
    }
}

/// The version of the library, which the command shares.
pub const VERSION: &str = env!("CARGO_PKG_VERSION");

/// The check of a section: refusals 1 to 9.
pub fn check(section: &[u8]) -> Result<(), Refusal> {
    Ok(treskibben::check(section)?)
}

/// The question by function and offset: 27 of a version 3 section, 10 where there is no such function or
/// no record at the offset.
pub fn find_in_function(section: &[u8], function: u64, offset: u64) -> Result<Found, Refusal> {
    Ok(treskibben::find_in_function(section, function, offset)?)
}

/// The index of a section: 27 of version 1.
pub fn index_of(section: &[u8]) -> Result<Index<'_>, Refusal> {
    Ok(Index::of(section)?)
}

/// The question by address through an index: 27 of a version 1 section, 29 of a list that is no index of
/// it, 10 where no record has the address.
pub fn find_by_index(index: &Index, address: u64) -> Result<Found, Refusal> {
    Ok(index.find(address)?)
}

/// The same for many addresses; none where no record has one.
pub fn find_all(index: &Index, addresses: &[u64]) -> Result<Vec<Option<Found>>, Refusal> {
    Ok(index.find_all(addresses)?)
}

/// The listing of a section.
pub fn listing_of(section: &[u8]) -> Result<Vec<u8>, Refusal> {
    Ok(treskibben::listing_of(section)?)
}

/// The section of a listing: refusals 1, 22, 23, 28, and 5 to 8 of the section to be built.
pub fn section_of(listing: &[u8]) -> Result<Vec<u8>, Refusal> {
    Ok(treskibben::section_of(listing)?)
}

/// The check of a flat section: refusals 36 to 40.
pub fn flat_check(section: &[u8]) -> Result<(), Refusal> {
    Ok(treskibben::flat::check(section)?)
}

/// The numbers of frame and record at an address in a flat section: 41 where there is none.
pub fn flat_find(section: &[u8], address: u64) -> Result<[usize; 2], Refusal> {
    let found = treskibben::flat::find(section, address)?;
    Ok([found.frame as usize, found.record as usize])
}

/// A machine as the library knows it.
pub fn machine(machine: registers::Machine) -> Machine {
    match machine {
        registers::Machine::X86_64 => Machine::Amd64,
        registers::Machine::Aarch64 => Machine::Aarch64,
    }
}

/// A machine of the library's as the command knows it.
pub fn machine_of(machine: Machine) -> registers::Machine {
    match machine {
        Machine::Amd64 => registers::Machine::X86_64,
        Machine::Aarch64 => registers::Machine::Aarch64,
    }
}

/// The DWARF numbers of a machine's frame pointer and stack pointer.
pub fn pointers_of(machine: registers::Machine) -> [u16; 2] {
    let machine = self::machine(machine);
    [machine.frame_pointer(), machine.stack_pointer()]
}

/// Whether a register can hold a pointer of a pair.
pub fn is_slot(machine: registers::Machine, register: u16) -> bool {
    self::machine(machine).is_slot(register)
}

/// Where each object was and where it is now, entry by entry.
#[derive(Clone, Debug, Default)]
pub struct Table {
    pub old: Vec<u64>,
    pub new: Vec<u64>,
}

/// Whether a move takes a table: else 14.
pub fn check_table(table: &Table) -> Result<(), Refusal> {
    Ok(MoveTable::new(&table.old, &table.new).check()?)
}

/// The joined table of two: 14 of either.
pub fn joined(first: &Table, second: &Table) -> Result<Table, Refusal> {
    let [first, second] = [first, second].map(|table| MoveTable::new(&table.old, &table.new));
    let (old, new) = treskibben::join(first, second)?;
    Ok(Table { old, new })
}

/// The totals of a report.
pub use treskibben::report::{Kinds, Totals};

/// What one section adds to a report: 34 where its own sums pass 2^64 - 1.
pub fn totals_of(section: &[u8]) -> Result<Totals, Refusal> {
    Ok(Totals::of([section])?)
}

/// Adds the totals of another report: 34 at 0, which leaves them as they are.
pub fn join(totals: &mut Totals, other: Totals) -> Result<(), Refusal> {
    Ok(totals.join(other)?)
}

/// A store of editions, what it is made with, and what is wrong with one that is damaged.
pub use treskibben::editions::{
    Damage, Edition, Editions, LiveEdition, Machine, Settings, Versions,
};

/// The store that a file's bytes say, or what is wrong with them.
pub fn editions_of(bytes: &[u8]) -> Result<Editions, Damage> {
    Editions::from_bytes(bytes)
}

/// A new edition: 51, 32, 30.
pub fn make_edition(editions: &mut Editions, settings: Settings) -> Result<u64, Refusal> {
    let made = editions.make(settings).map_err(treskibben::Refusal::from);
    Ok(made?)
}

/// The settings of an edition; none where 31 is said of it.
pub fn settings_of(edition: Edition) -> Option<Settings> {
    edition.store().read(edition.number()).ok()
}

/// The retirement of an edition: 31.
pub fn retire_edition(editions: &mut Editions, edition: u64) -> Result<(), Refusal> {
    let retired = editions.retire(edition);
    Ok(retired.map_err(treskibben::Refusal::from)?)
}
