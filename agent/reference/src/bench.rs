//! The bench controller: restores of one product, whose sections keep a
//! profile.
//!
//! The profile takes version 3 and AMD64 only; at most 64 records; every record
//! a statepoint whose pairs pass 18, with at most 16 pointers, null pairs
//! counting one each; and record addresses that strictly rise. A breach is 50
//! at the lowest record that has one, or at 0 for the version or the machine,
//! which are tested before the records. It comes after 31 and the section's own
//! refusal, and before 33 and the rest. What the profile takes is restored
//! exactly as without it.

#[cfg(test)]
mod tests;

use crate::editions::AMD64;
use crate::machine::Machine;
use crate::relocate::{pointers_of, statepoint_pairs, Frame};
use crate::restore::Restore;
use crate::section::{read, Record, Section, Version};
use crate::Refusal;

/// The most records of a section.
pub const MAX_RECORDS: usize = 64;

/// The most pointers of a record.
pub const MAX_RECORD_POINTERS: usize = 16;

/// Relocates one frame as [`Restore::relocate`] does, where the section keeps
/// the profile.
///
/// The order of refusals: 31, 1 to 9, 50, 33, 13, 14, 25, and the frame's own.
pub fn relocate(
    restore: &Restore,
    image: &mut [u8],
    machine: u64,
    frame: Frame,
    registers: &mut [u64],
) -> Result<u64, Refusal> {
    restore.under(machine, profile, |shared| {
        let plan = shared.judge_one(image, frame, registers)?;
        plan.write(image, registers);
        Ok(plan.pointers)
    })
}

/// Relocates a thread as [`Restore::thread`] does, where the section keeps the
/// profile.
///
/// The order of refusals: 31, 1 to 9, 50, 33, 13, 14, 27 and 29 where an index
/// is handed in, 25, the first refused frame's own at its position, 26.
pub fn thread(
    restore: &Restore,
    image: &mut [u8],
    machine: u64,
    list: &[u64],
    registers: &mut [u64],
    index: Option<&[u64]>,
) -> Result<u64, Refusal> {
    restore.under(machine, profile, |shared| {
        shared.move_all(image, list, registers, index)
    })
}

/// Checks that a section is whole and keeps the profile: 1 to 9, 50.
pub fn check(section: &[u8]) -> Result<(), Refusal> {
    profile(&read(section)?, AMD64)
}

/// Refusal 50.
fn profile(section: &Section, machine: u64) -> Result<(), Refusal> {
    if section.version != Version::Three || machine != AMD64 {
        return Err(Refusal::at(50, 0));
    }
    let breach = (0..section.records.len()).find(|number| is_breach(section, *number));
    match breach {
        Some(number) => Err(Refusal::at(50, number)),
        None => Ok(()),
    }
}

/// Whether the record of this number breaks the profile.
fn is_breach(section: &Section, number: usize) -> bool {
    let records: &[Record] = &section.records;
    let record = &records[number];
    let pairs = statepoint_pairs(record);
    let pointers = pairs.and_then(|pairs| pointers_of(section, pairs, Machine::Amd64));
    let small = pointers.is_some_and(|pointers| pointers <= MAX_RECORD_POINTERS);
    let before = number.checked_sub(1).map(|before| records[before].address);
    let rises = before.is_none_or(|before| before < record.address);
    number >= MAX_RECORDS || !small || !rises
}
