//! Questions on a section.
//!
//! Each first gives the section's own refusal, if any. A record that isn't
//! there (10) is refused before a location or live-out that isn't (11), both
//! at place 0. Version 1 doesn't say which function owns a record, so that its
//! records have no address: they are asked for by function number and offset,
//! those of version 3 by address, and either question on the other version is
//! refused by 27.

use crate::section::{read, LiveOut, Location, Record, Section, Version};
use crate::Refusal;

#[cfg(test)]
mod tests;
#[cfg(test)]
mod tests_version_1;

/// The answer to the question by address, or by function number and offset.
#[derive(Clone, Copy, Debug, PartialEq, Eq)]
pub struct Found {
    /// The number of the first record with the address or offset, in section
    /// order.
    pub record: u64,
    /// The number of that record's function, or the one that was asked for.
    pub function: u64,
    /// How many records have the address or offset, the first one included.
    pub sharing: u64,
}

/// The answer to the question by record and location number.
#[derive(Clone, Copy, Debug, PartialEq, Eq)]
pub struct LocationAnswer {
    /// The location's kind, 1 to 5.
    pub kind: u8,
    /// The size in bytes.
    pub size: u16,
    /// The register's DWARF number.
    pub register: u16,
    /// The signed offset field, for all kinds.
    pub offset: i32,
    /// The constant of kinds 4 and 5; 0 for kinds 1 to 3.
    pub constant: u64,
    /// Where the content is.
    pub content: Content,
}

/// The content place of a location, which follows from its kind alone.
#[derive(Clone, Copy, Debug, PartialEq, Eq)]
pub enum Content {
    /// Nowhere: kinds 2, 4 and 5.
    None,
    /// In a register: kind 1.
    Register,
    /// In memory: kind 3.
    Memory,
}

impl Content {
    /// The content place of a location of this kind.
    fn of(kind: u8) -> Content {
        match kind {
            1 => Content::Register,
            3 => Content::Memory,
            _ => Content::None,
        }
    }

    /// The number that the answer has for it: 0 none, 1 register, 2 memory.
    pub fn number(self) -> u8 {
        match self {
            Content::None => 0,
            Content::Register => 1,
            Content::Memory => 2,
        }
    }
}

/// The first record with an address, its function, and how many share it.
pub fn by_address(section: &[u8], address: u64) -> Result<Found, Refusal> {
    let section = read(section)?;
    if section.version != Version::Three {
        return Err(Refusal::at(27, 0));
    }
    let (number, first, sharing) = find(&section, |record| record.address == address)?;
    Ok(Found {
        record: number,
        function: first.function as u64,
        sharing,
    })
}

/// The first record of a version 1 section with an offset, and how many have
/// it. The function has to be there; whose the records are isn't known.
pub fn by_function(section: &[u8], function: u64, offset: u64) -> Result<Found, Refusal> {
    let section = read(section)?;
    if section.version != Version::One {
        return Err(Refusal::at(27, 0));
    }
    if function >= section.functions.len() as u64 {
        return Err(Refusal::at(10, 0));
    }
    let (record, _, sharing) = find(&section, |record| u64::from(record.offset) == offset)?;
    Ok(Found {
        record,
        function,
        sharing,
    })
}

/// The first record that is so, its number, and how many are; refusal 10 if
/// none is.
fn find(section: &Section, is: impl Fn(&Record) -> bool) -> Result<(u64, &Record, u64), Refusal> {
    let records = section.records.iter().enumerate();
    let mut found = records.filter(|(_, record)| is(record));
    let (number, first) = found.next().ok_or(Refusal::at(10, 0))?;
    Ok((number as u64, first, 1 + found.count() as u64))
}

/// The bytes of a record, a part of the lent section.
pub fn record(section: &[u8], number: u64) -> Result<&[u8], Refusal> {
    let decoded = read(section)?;
    let record = record_of(&decoded, number)?;
    let bytes = section
        .get(record.first..)
        .and_then(|rest| rest.get(..record.length));
    bytes.ok_or(Refusal::at(10, 0))
}

/// What a record's location says.
pub fn location(section: &[u8], record: u64, number: u64) -> Result<LocationAnswer, Refusal> {
    let section = read(section)?;
    let location = entry(&record_of(&section, record)?.locations, number)?;
    Ok(LocationAnswer {
        kind: location.kind,
        size: location.size,
        register: location.register,
        offset: location.offset,
        constant: constant(&section, location).unwrap_or(0),
        content: Content::of(location.kind),
    })
}

/// What a record's live-out says.
pub fn live_out(section: &[u8], record: u64, number: u64) -> Result<LiveOut, Refusal> {
    let section = read(section)?;
    entry(&record_of(&section, record)?.live_outs, number).cloned()
}

/// The 64-bit constant of a location: the offset sign-extended (kind 4) or the
/// pool entry of that number (kind 5).
pub(crate) fn constant(section: &Section, location: &Location) -> Option<u64> {
    match location.kind {
        4 => Some(i64::from(location.offset) as u64),
        5 => section
            .constants
            .get(usize::try_from(location.offset).ok()?)
            .copied(),
        _ => None,
    }
}

/// The record of a number, or refusal 10.
fn record_of(section: &Section, number: u64) -> Result<&Record, Refusal> {
    let index = usize::try_from(number).ok();
    index
        .and_then(|index| section.records.get(index))
        .ok_or(Refusal::at(10, 0))
}

/// The location or live-out of a number, or refusal 11.
fn entry<T>(entries: &[T], number: u64) -> Result<&T, Refusal> {
    let index = usize::try_from(number).ok();
    index
        .and_then(|index| entries.get(index))
        .ok_or(Refusal::at(11, 0))
}
