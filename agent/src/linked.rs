//! Linked sections: the maps of several objects, one after the other, as a linker leaves them.
//!
//! [`check`](crate::check) refuses such a section by 9 where its second map begins. A linked section is cut
//! there: where the check gives 9 at p, the first p bytes are a map, and the rest is cut in the same way; where
//! it accepts the rest, that is the last map. Any other refusal of a rest is that of the whole, with its place
//! counted from the first byte of the whole. A section that the check accepts is a linked one of one map.
//!
//! Maps are numbered from 0 in their order, and may be of either version each. The whole has at most
//! 16,777,216 bytes.
//!
//! The frames of a thread are moved over such a section by
//! [`Edition::relocate_linked_thread`](crate::editions::Edition::relocate_linked_thread).
//!
//! ```
//! use treskibben::linked;
//! # fn main() -> Result<(), Box<dyn std::error::Error>> {
//! // A record at 0x1020, once in each of two objects.
//! let map = std::fs::read("../samples/h-statepoint.section")?;
//! let section = [&map[..], &map].concat();
//! assert_eq!(treskibben::check(&section).unwrap_err().number(), 9);
//!
//! assert_eq!(linked::cut(&section)?, [&map[..], &map]);
//! let found = linked::find(&section, 0x1020)?;
//! assert_eq!((found.map, found.record, found.sharing), (0, 0, 2));
//! # Ok(())
//! # }
//! ```

use crate::{ffi, Refusal};
use std::ops::Range;

#[cfg(test)]
mod tests;

/// How many numbers a map has in a list of maps, and the fewest bytes of one.
const NUMBERS: usize = 2;
const MAP_LEAST: usize = 16;

/// How many maps there is room for at first: more than most programs have.
const FEW: usize = 64;

/// The refusal of a list that is too short.
const TOO_SHORT: u64 = 24;

/// A map of a linked section.
#[derive(Clone, Copy, Debug, PartialEq, Eq, Hash)]
pub struct Map {
    /// Its first byte in the section.
    pub first: usize,
    /// How many bytes it has.
    pub length: usize,
}

impl Map {
    /// Where its bytes are in the section.
    ///
    /// ```
    /// # fn main() -> Result<(), Box<dyn std::error::Error>> {
    /// let map = std::fs::read("../samples/h-statepoint.section")?;
    /// let section = [&[3, 0, 0, 0, 0, 0, 0, 0, 0, 0, 0, 0, 0, 0, 0, 0], &map[..]].concat();
    /// let maps = treskibben::linked::maps(&section)?;
    /// assert_eq!(section[maps[1].range()], map);
    /// # Ok(())
    /// # }
    /// ```
    pub fn range(self) -> Range<usize> {
        self.first..self.first.saturating_add(self.length)
    }
}

/// The answer to the question by address over all maps, [`find`].
#[derive(Clone, Copy, Debug, PartialEq, Eq, Hash)]
pub struct Found {
    /// The number of the first map that has a record with the address.
    pub map: u64,
    /// The number of the first such record in that map, counted in it alone.
    pub record: u64,
    /// The number of that record's function in that map.
    pub function: u64,
    /// How many records of all maps have the address, the first one included.
    pub sharing: u64,
}

/// The maps of a linked section, in their order. They follow one upon the other, from the section's first byte
/// to its last.
///
/// [`maps_into`] writes them to a list that is lent, and [`cut`] gives their bytes.
///
/// # Errors
///
/// 1 at 0 if the whole has over 16,777,216 bytes; then the refusal that [`check`](crate::check) gives the rest
/// from a map on, of the first map where it is not 9, at its place in the whole: 1 to 8.
///
/// # Examples
///
/// ```
/// use treskibben::linked::{maps, Map};
/// // Two maps of nothing.
/// let section = [3, 0, 0, 0, 0, 0, 0, 0, 0, 0, 0, 0, 0, 0, 0, 0].repeat(2);
/// let found = maps(&section);
/// assert_eq!(found, Ok(vec![Map { first: 0, length: 16 }, Map { first: 16, length: 16 }]));
///
/// // 15 bytes are fewer than a map has.
/// let refusal = maps(&section[..31]).unwrap_err();
/// assert_eq!((refusal.number(), refusal.place()), (1, 16));
/// ```
pub fn maps(section: &[u8]) -> Result<Vec<Map>, Refusal> {
    // No more maps than this can be there.
    let most = section.len() / MAP_LEAST;
    let mut list = vec![0; NUMBERS * most.min(FEW)];
    let count = match maps_into(section, &mut list) {
        Err(refusal) if refusal.number() == TOO_SHORT => {
            list = vec![0; NUMBERS * most];
            maps_into(section, &mut list)
        }
        answer => answer,
    }?;
    let (pairs, _) = list.as_chunks::<NUMBERS>();
    Ok(pairs[..count]
        .iter()
        .map(|pair| map(section, *pair))
        .collect())
}

/// Writes the maps of a linked section to the start of `list`, and gives how many there are: two numbers a map
/// are written, its first byte and its length. Numbers beyond them are unchanged.
///
/// # Errors
///
/// Those of [`maps`], and then 24 if the list is shorter than twice the number of maps. A refusal leaves all of
/// the list unchanged.
///
/// # Examples
///
/// ```
/// use treskibben::linked::maps_into;
/// # fn main() -> Result<(), Box<dyn std::error::Error>> {
/// let section = [3, 0, 0, 0, 0, 0, 0, 0, 0, 0, 0, 0, 0, 0, 0, 0].repeat(2);
/// let mut list = [9; 5];
/// assert_eq!(maps_into(&section, &mut list)?, 2);
/// assert_eq!(list, [0, 16, 16, 16, 9]);
///
/// assert_eq!(maps_into(&section, &mut list[..3]).unwrap_err().number(), 24);
/// # Ok(())
/// # }
/// ```
pub fn maps_into(section: &[u8], list: &mut [u64]) -> Result<usize, Refusal> {
    let count = ffi::linked::maps(section, list).outcome()?;
    Ok(inside(count, list))
}

/// The bytes of each map of a linked section, in their order: parts of `section` itself, which are the whole of
/// it one after the other.
///
/// # Errors
///
/// Those of [`maps`].
///
/// # Examples
///
/// ```
/// # fn main() -> Result<(), Box<dyn std::error::Error>> {
/// let map = std::fs::read("../samples/h-statepoint.section")?;
/// let older = std::fs::read("../samples/h-version-1.section")?;
/// let section = [&map[..], &older].concat();
///
/// let parts = treskibben::linked::cut(&section)?;
/// assert_eq!(parts, [&map[..], &older]);
/// assert_eq!(parts.concat(), section);
/// # Ok(())
/// # }
/// ```
pub fn cut(section: &[u8]) -> Result<Vec<&[u8]>, Refusal> {
    let maps = maps(section)?;
    Ok(maps.into_iter().map(|map| &section[map.range()]).collect())
}

/// The first record with this address, in the order of the maps and of the records in each.
///
/// Where there is one map, it is what [`find`](crate::find()) answers. The question is for maps of version 3.
///
/// # Errors
///
/// Those of [`maps`]; 27 if a map is of version 1, at the first such map's first byte; and 10 at 0 exactly if no
/// record of any map has the address.
///
/// # Examples
///
/// ```
/// use treskibben::linked::find;
/// # fn main() -> Result<(), Box<dyn std::error::Error>> {
/// // No records, and then one at 0x1020.
/// let map = std::fs::read("../samples/h-statepoint.section")?;
/// let empty = [3, 0, 0, 0, 0, 0, 0, 0, 0, 0, 0, 0, 0, 0, 0, 0];
/// let section = [&empty, &map[..]].concat();
///
/// let found = find(&section, 0x1020)?;
/// assert_eq!((found.map, found.record, found.function, found.sharing), (1, 0, 0, 1));
///
/// let refusal = find(&section, 0x1021).unwrap_err();
/// assert_eq!((refusal.number(), refusal.place()), (10, 0));
///
/// let older = std::fs::read("../samples/h-version-1.section")?;
/// let refusal = find(&[&map[..], &older].concat(), 0x1020).unwrap_err();
/// assert_eq!((refusal.number(), refusal.place()), (27, 152));
/// # Ok(())
/// # }
/// ```
pub fn find(section: &[u8], address: u64) -> Result<Found, Refusal> {
    let answer = ffi::linked::find(section, address);
    answer.verdict.accepted()?;
    Ok(Found {
        map: answer.map,
        record: answer.index,
        function: answer.function,
        sharing: answer.sharing,
    })
}

/// A number of maps that a list has room for. The library is proved to write no more.
fn inside(count: u64, list: &[u64]) -> usize {
    match usize::try_from(count) {
        Ok(number) if number <= list.len() / NUMBERS => number,
        _ => panic!(
            "libtreskibben answers that it wrote {count} maps to a list of {} numbers",
            list.len()
        ),
    }
}

/// A map of these numbers, which lies inside the section. The library is proved to answer no others.
fn map(section: &[u8], [first, length]: [u64; NUMBERS]) -> Map {
    let end = first.checked_add(length);
    match end.filter(|end| *end <= section.len() as u64) {
        // Both are at most the section's length.
        Some(_) => Map {
            first: first as usize,
            length: length as usize,
        },
        None => panic!(
            "libtreskibben answers a map of {length} bytes from byte {first}, outside the section of {} bytes",
            section.len()
        ),
    }
}
