//! A linked section: the maps of several objects, one after the other, as a
//! linker puts them.
//!
//! Where the check of what is left gives 9 at some byte, the bytes before it are
//! a map, and the rest is cut in the same way. Any other refusal is that of the
//! whole, at its place in the whole; so 9 is none of a linked section, and bytes
//! left over that are fewer than a header has are 1 at the first of them. The
//! whole is at most as long as a section (1 at 0).
//!
//! A record is numbered in its own map, as its function is. Whether there is a
//! record at an address, and how many there are, is said of all maps together.
//! Addresses are of version 3 alone: where they are asked for, the first map of
//! version 1 is refused by 27, at its first byte.

mod thread;

#[cfg(test)]
mod tests;
#[cfg(test)]
mod tests_find;
#[cfg(test)]
mod tests_thread;

pub(crate) use thread::move_linked;
pub use thread::thread;

use crate::section::{check, read, Section, Version, MAX_SECTION};
use crate::Refusal;

/// A map of a linked section: where its bytes stand.
#[derive(Clone, Copy, Debug, PartialEq, Eq)]
pub struct Map {
    /// Its first byte in the whole.
    pub first: usize,
    /// The number of its bytes.
    pub length: usize,
}

/// The answer to the question by address over all maps.
#[derive(Clone, Copy, Debug, PartialEq, Eq)]
pub struct Found {
    /// The number of the map that has the first record with the address, in
    /// section order.
    pub map: u64,
    /// The number of that record in its map.
    pub record: u64,
    /// The number of the record's function in its map.
    pub function: u64,
    /// How many records have the address over all maps, the first one included.
    pub sharing: u64,
}

/// The maps of a linked section, in their order: refusals 1 to 8.
pub fn maps(section: &[u8]) -> Result<Vec<Map>, Refusal> {
    if section.len() > MAX_SECTION {
        return Err(Refusal::at(1, 0));
    }
    let mut maps = Vec::new();
    let mut first = 0;
    loop {
        let rest = &section[first..];
        let length = map_length(rest).map_err(|refusal| Refusal {
            place: first as u64 + refusal.place,
            ..refusal
        })?;
        maps.push(Map { first, length });
        first += length;
        if first == section.len() {
            return Ok(maps);
        }
    }
}

/// The length of the map at the front of what is left, or the refusal there.
fn map_length(rest: &[u8]) -> Result<usize, Refusal> {
    match check(rest) {
        Ok(()) => Ok(rest.len()),
        Err(Refusal { number: 9, place }) => Ok(place as usize),
        Err(refusal) => Err(refusal),
    }
}

/// Fills a list with two numbers a map, its first byte and its length, and gives
/// how many maps there are. Numbers beyond stay as they are, and all do where
/// the call is refused.
///
/// The order of refusals: 1 to 8, 24.
pub fn fill_maps(section: &[u8], list: &mut [u64]) -> Result<u64, Refusal> {
    let maps = maps(section)?;
    let needed = 2 * maps.len();
    let room = list.get_mut(..needed).ok_or(Refusal::at(24, 0))?;
    let (rows, _) = room.as_chunks_mut::<2>();
    for (row, map) in rows.iter_mut().zip(&maps) {
        *row = [map.first as u64, map.length as u64];
    }
    Ok(maps.len() as u64)
}

/// The first record with an address over all maps in their order, and how many
/// share the address.
///
/// The order of refusals: 1 to 8, 27, 10.
pub fn find(section: &[u8], address: u64) -> Result<Found, Refusal> {
    let maps = read_maps(section)?;
    let mut first: Option<Found> = None;
    let mut sharing = 0;
    for (map, own) in maps.iter().enumerate() {
        for (number, record) in own.records.iter().enumerate() {
            if record.address == address {
                sharing += 1;
                first.get_or_insert(Found {
                    map: map as u64,
                    record: number as u64,
                    function: record.function as u64,
                    sharing: 0,
                });
            }
        }
    }
    let first = first.ok_or(Refusal::at(10, 0))?;
    Ok(Found { sharing, ..first })
}

/// The maps of a linked section, read: refusals 1 to 8, then 27.
fn read_maps(section: &[u8]) -> Result<Vec<Section>, Refusal> {
    let maps = maps(section)?;
    let mut sections = Vec::new();
    for map in maps {
        let own = read(&section[map.first..][..map.length])?;
        if own.version != Version::Three {
            return Err(Refusal::at(27, map.first));
        }
        sections.push(own);
    }
    Ok(sections)
}
