//! An address index of a section: the address and the number of each record in
//! one list, in an order that lets an address be found by halving.
//!
//! Only version 3 has addresses; version 1 is refused by 27, whatever else is
//! handed in. An index that is handed in is refused by 29 unless it is exactly
//! the list that its section yields. What is found through an index is what
//! the question by address gives.

#[cfg(test)]
mod tests;
#[cfg(test)]
mod tests_many;

use crate::questions::Found;
use crate::section::{read, Section, Version};
use crate::Refusal;

/// How many numbers one answer takes in a list of answers: number, place,
/// record, function and sharing.
pub const ANSWER: usize = 5;

/// Fills a list with two entries a record, its address and its number, ordered
/// by address and then by number. Gives how many entries are written; those
/// beyond stay as they are, and all do where the call is refused.
///
/// The order of refusals: 1 to 9, 27, 24.
pub fn fill_index(section: &[u8], index: &mut [u64]) -> Result<u64, Refusal> {
    let section = read(section)?;
    check_version(&section)?;
    let entries = entries(&section);
    let room = index.get_mut(..entries.len()).ok_or(Refusal::at(24, 0))?;
    room.copy_from_slice(&entries);
    Ok(entries.len() as u64)
}

/// The question by address, asked through an index.
///
/// The order of refusals: 1 to 9, 27, 29, 10.
pub fn by_index(section: &[u8], index: &[u64], address: u64) -> Result<Found, Refusal> {
    let section = read(section)?;
    check_index(&section, index)?;
    look_up(&section, index, address)
}

/// The question by address of each address of a list, asked through an index.
/// Writes five numbers an address, and gives how many are written: the
/// refusal's number and place, both 0 where there is none, the record, its
/// function and how many share the address, all 0 where none has it. Numbers
/// beyond stay as they are, and all do where the call is refused.
///
/// The order of refusals: 1 to 9, 27, 29, 24. An address that no record has is
/// no refusal of the call: 10 stands in the list.
pub fn all_by_index(
    section: &[u8],
    index: &[u64],
    addresses: &[u64],
    answers: &mut [u64],
) -> Result<u64, Refusal> {
    let section = read(section)?;
    check_index(&section, index)?;
    let needed = ANSWER * addresses.len();
    let room = answers.get_mut(..needed).ok_or(Refusal::at(24, 0))?;
    let (rows, _) = room.as_chunks_mut::<ANSWER>();
    for (row, &address) in rows.iter_mut().zip(addresses) {
        *row = match look_up(&section, index, address) {
            Ok(found) => [0, 0, found.record, found.function, found.sharing],
            Err(refusal) => [refusal.number, refusal.place, 0, 0, 0],
        };
    }
    Ok(needed as u64)
}

/// Refusals 27 and 29.
pub(crate) fn check_index(section: &Section, index: &[u64]) -> Result<(), Refusal> {
    check_version(section)?;
    if index != entries(section) {
        return Err(Refusal::at(29, 0));
    }
    Ok(())
}

/// Refusal 27.
fn check_version(section: &Section) -> Result<(), Refusal> {
    match section.version {
        Version::One => Err(Refusal::at(27, 0)),
        Version::Three => Ok(()),
    }
}

/// The entries that a section of version 3 yields.
fn entries(section: &Section) -> Vec<u64> {
    let records = section.records.iter().zip(0..);
    let mut pairs: Vec<[u64; 2]> = records
        .map(|(record, number)| [record.address, number])
        .collect();
    pairs.sort();
    pairs.concat()
}

/// What the right index of a section says of an address, or refusal 10.
fn look_up(section: &Section, index: &[u64], address: u64) -> Result<Found, Refusal> {
    let none = Refusal::at(10, 0);
    let (pairs, _) = index.as_chunks::<2>();
    let from = pairs.partition_point(|&[own, _]| own < address);
    let to = pairs.partition_point(|&[own, _]| own <= address);
    let sharing = pairs.get(from..to).unwrap_or_default();
    let &[_, record] = sharing.first().ok_or(none)?;
    let nth = usize::try_from(record).ok();
    let owner = nth.and_then(|nth| section.records.get(nth)).ok_or(none)?;
    Ok(Found {
        record,
        function: owner.function as u64,
        sharing: sharing.len() as u64,
    })
}
