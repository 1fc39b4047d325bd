//! The file of an address index, and what lies nearest to an address that no record has.
//!
//! The file has the entries as the library fills them and nothing else: numbers of eight bytes,
//! little-endian, two a record, its address and its number.

use crate::files::{self, INDEX};
use crate::library::{self, Index, Map};
use crate::linked;
use crate::numbers::count;
use crate::trouble::Trouble;
use std::path::Path;

/// The bytes of an entry.
const ENTRY: usize = 8;

/// The content of an index's file.
pub fn bytes(entries: &[u64]) -> Vec<u8> {
    entries
        .iter()
        .flat_map(|entry| entry.to_le_bytes())
        .collect()
}

/// The entries that a file holds. Of one that is too long for any section, as many are read as tell it.
pub fn read(path: &Path) -> Result<Vec<u64>, Trouble> {
    let bytes = files::read(path, INDEX + ENTRY as u64 - 1)?;
    let (entries, rest) = bytes.as_chunks::<ENTRY>();
    if !rest.is_empty() {
        let why = format!(
            "it has {}, and an entry has 8",
            count(bytes.len() as u64, "byte")
        );
        return Err(Trouble::file(path, "is not an index", why));
    }
    Ok(entries
        .iter()
        .map(|bytes| u64::from_le_bytes(*bytes))
        .collect())
}

/// The address in the entries of an index that is nearest to this one; of two, the lower.
fn nearest(entries: &[u64], address: u64) -> Option<u64> {
    let (pairs, _) = entries.as_chunks::<2>();
    let above = pairs.partition_point(|[own, _]| *own < address);
    let own = |nth: usize| pairs.get(nth).map(|[own, _]| *own);
    let (below, above) = (above.checked_sub(1).and_then(own), own(above));
    let pair = below.into_iter().chain(above);
    pair.min_by_key(|own| own.abs_diff(address))
}

/// What lies nearest to each of these addresses, in words. The records are the library's answer.
pub fn nearest_records(index: &Index, addresses: &[u64]) -> Vec<String> {
    let near: Option<Vec<u64>> = addresses
        .iter()
        .map(|address| nearest(index.entries(), *address))
        .collect();
    let near = near.unwrap_or_default();
    let found = index.find_all(&near).unwrap_or_default();
    let words = |nth: usize, address: &u64| match (near.get(nth), found.get(nth)) {
        (Some(near), Some(Some(found))) => words(*near, *address, &linked::record(found, None)),
        _ => NO_RECORDS.to_string(),
    };
    let asked = addresses.iter().enumerate();
    asked.map(|(nth, address)| words(nth, address)).collect()
}

/// What is said where nothing can be near.
const NO_RECORDS: &str = "the section has no records";

fn words(near: u64, address: u64, record: &str) -> String {
    let away = count(near.abs_diff(address), "byte");
    let side = if near < address { "below" } else { "above" };
    format!("the nearest is {record} at {near:#x}, {away} {side}")
}

/// The records of all maps of a linked section, by their addresses.
pub struct Nearest<'a> {
    section: &'a [u8],
    /// The entries of the maps' indexes, ordered by address.
    entries: Vec<[u64; 2]>,
}

impl<'a> Nearest<'a> {
    pub fn of(section: &'a [u8], maps: &[Map]) -> Nearest<'a> {
        let mut entries = Vec::new();
        for map in maps {
            let index = library::index_of(linked::bytes(section, *map));
            let own = index.map(Index::into_entries).unwrap_or_default();
            entries.extend_from_slice(own.as_chunks::<2>().0);
        }
        entries.sort_unstable();
        Nearest { section, entries }
    }

    /// What lies nearest to an address, in words. The record is the library's answer.
    pub fn to(&self, address: u64) -> String {
        let near = nearest(self.entries.as_flattened(), address);
        let found = near.and_then(|near| library::find_linked(self.section, near).ok());
        match (near, found) {
            (Some(near), Some(found)) => {
                let own = library::found_in_map(found);
                words(near, address, &linked::record(&own, Some(found.map)))
            }
            _ => NO_RECORDS.to_string(),
        }
    }
}

#[cfg(test)]
mod tests {
    use super::*;

    #[test]
    fn the_nearest_address() {
        const LAST: u64 = u64::MAX;
        let entries = [4, 1, 10, 0, 10, 2, LAST - 1, 3];
        for (address, near) in [
            (0, 4),
            (3, 4),
            (5, 4),
            (6, 4),
            (7, 4),
            (8, 10),
            (11, 10),
            (LAST / 2, 10),
            (LAST / 2 + 6, LAST - 1),
            (LAST, LAST - 1),
        ] {
            assert_eq!(nearest(&entries, address), Some(near), "{address}");
        }
        assert_eq!(nearest(&[], 0), None);
    }

    #[test]
    fn numbers_become_bytes() {
        assert_eq!(bytes(&[]), b"");
        let eight = [8, 7, 6, 5, 4, 3, 2, 1];
        assert_eq!(bytes(&[0x0102_0304_0506_0708, 0]), [eight, [0; 8]].concat());
    }
}
