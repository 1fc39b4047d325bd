//! The flat proposal: version 2 of the section, as source document 002 has it.
//!
//! A header names the offsets of six arrays, which follow it in this order:
//! constants, frames, frame registers, records, locations and live-outs. Every
//! entry has a fixed length. A frame names its frame registers and its records,
//! and a record its locations and live-outs, by an index and a count; entries
//! may be shared. Entries are numbered in their whole array, from 0.
//!
//! [`check`] gives the first refusal in the order of the papers, all at place
//! 0: 36 for the length, 37 for the version, 38 for an offset or the end, 39
//! for an index plus count past its array, 40 for a padding or reserved bit.
//! Nothing else is judged: location kinds, sizes and used flags may hold
//! anything, and so may the number of a constant.
//!
//! Every question first gives the section's own refusal, if any. An address
//! that no record has is 41. A frame or record that isn't there is 10, and a
//! frame register, location or live-out that isn't there is 11, all at place 0.

mod arrays;
mod entries;

#[cfg(test)]
mod fixtures;
#[cfg(test)]
mod tests;
#[cfg(test)]
mod tests_document;
#[cfg(test)]
mod tests_readings;
#[cfg(test)]
mod tests_refusals;

pub use crate::section::{LiveOut, MAX_SECTION};
pub use entries::{Flat, Frame, FrameRegister, Location, Record};

use crate::Refusal;
use arrays::Arrays;

/// The length of the shortest section: a header and its padding.
pub const MIN_SECTION: usize = 32;

/// The number that a flat section begins with.
pub const VERSION: u8 = 2;

/// The answer to the question by address.
#[derive(Clone, Copy, Debug, PartialEq, Eq)]
pub struct Found {
    /// The number of the first frame that has a record at the address.
    pub frame: u64,
    /// The number of the first such record of that frame, in the whole array.
    pub record: u64,
}

/// Checks a flat section: refusals 36 to 40, in this order.
pub fn check(section: &[u8]) -> Result<(), Refusal> {
    judge(section).map(|_| ())
}

/// Decodes a flat section, or gives the section's own refusal.
pub fn read(section: &[u8]) -> Result<Flat, Refusal> {
    judge(section).map(|arrays| entries::decode(&arrays))
}

/// The arrays of a section that passes the check.
fn judge(section: &[u8]) -> Result<Arrays<'_>, Refusal> {
    if section.len() < MIN_SECTION || section.len() > MAX_SECTION {
        return Err(Refusal::at(36, 0));
    }
    if section[0] != VERSION {
        return Err(Refusal::at(37, 0));
    }
    let arrays = Arrays::of(section).ok_or(Refusal::at(38, 0))?;
    if !arrays.ranges_are_inside() {
        return Err(Refusal::at(39, 0));
    }
    if !arrays.reserved_bits_are_clear() {
        return Err(Refusal::at(40, 0));
    }
    Ok(arrays)
}

/// The first match of an address: frame after frame, and in a frame record
/// after record, a record whose instruction offset added to the frame's
/// function address is the address. A sum over 2^64 - 1 matches nothing.
pub fn lookup(section: &[u8], address: u64) -> Result<Found, Refusal> {
    let flat = read(section)?;
    for (frame_number, frame) in flat.frames.iter().enumerate() {
        for record_number in frame.records() {
            let offset = flat.records[record_number].offset;
            if u128::from(frame.address) + u128::from(offset) == u128::from(address) {
                return Ok(Found {
                    frame: frame_number as u64,
                    record: record_number as u64,
                });
            }
        }
    }
    Err(Refusal::at(41, 0))
}

/// The frame of a number, or refusal 10.
pub fn frame(section: &[u8], number: u64) -> Result<Frame, Refusal> {
    entry(&read(section)?.frames, number, 10)
}

/// The frame register of a number, or refusal 11.
pub fn frame_register(section: &[u8], number: u64) -> Result<FrameRegister, Refusal> {
    entry(&read(section)?.frame_registers, number, 11)
}

/// The record of a number, or refusal 10.
pub fn record(section: &[u8], number: u64) -> Result<Record, Refusal> {
    entry(&read(section)?.records, number, 10)
}

/// The location of a number, or refusal 11.
pub fn location(section: &[u8], number: u64) -> Result<Location, Refusal> {
    entry(&read(section)?.locations, number, 11)
}

/// The live-out of a number, or refusal 11.
pub fn live_out(section: &[u8], number: u64) -> Result<LiveOut, Refusal> {
    entry(&read(section)?.live_outs, number, 11)
}

/// The entry of a number in its array, whatever the number, or a refusal.
fn entry<T: Clone>(entries: &[T], number: u64, refusal: u64) -> Result<T, Refusal> {
    let index = usize::try_from(number).ok();
    index
        .and_then(|index| entries.get(index).cloned())
        .ok_or(Refusal::at(refusal, 0))
}
