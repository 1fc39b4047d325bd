//! Listings, and the conversion of a section to its listing and back.
//!
//! A listing is a row of items: one byte of kind, then a body whose length the
//! kind fixes. Functions come first, then constants, then each record with its
//! locations and then its live-outs, then one end and nothing after it. The
//! listing of a version 1 section has one item before all others, of kind 7
//! with body byte 1.

mod grammar;

#[cfg(test)]
mod tests;
#[cfg(test)]
mod tests_version_1;

use crate::section::{check, read, write, Section, Version};
use crate::Refusal;
use grammar::{parse, Parsed};

/// The greatest length of a listing, in bytes.
pub const MAX_LISTING: usize = 33_554_432;

/// The most locations, and the most live-outs, of a record.
const MAX_ENTRIES: usize = 65_535;

/// Writes the listing of a section to the start of `out`, and gives its length.
///
/// Refused are a section that is refused itself, by its own refusal, and an
/// output shorter than the listing, by 24. Output beyond the listing, and all
/// of it on a refusal, keeps its bytes.
pub fn to_listing(section: &[u8], out: &mut [u8]) -> Result<usize, Refusal> {
    deliver(&listing_of(&read(section)?), out)
}

/// Writes the section of a listing to the start of `out`, and gives its length.
///
/// Refused are a listing that is too long (1), breaks its grammar (22) or has
/// too many locations or live-outs in a record (23), a version 1 listing with a
/// record count other than 0 or a size over 255 (28), one whose section would
/// be refused, by that refusal at its place in the section, and an output
/// shorter than the section (24). Output beyond the section, and all of it on
/// a refusal, keeps its bytes.
pub fn to_section(listing: &[u8], out: &mut [u8]) -> Result<usize, Refusal> {
    if listing.len() > MAX_LISTING {
        return Err(Refusal::at(1, 0));
    }
    let parsed = parse(listing).map_err(|place| Refusal::at(22, place))?;
    if let Some(place) = first_overfull(&parsed) {
        return Err(Refusal::at(23, place));
    }
    if let (Version::One, Some(place)) = (parsed.version, parsed.first_beyond_1) {
        return Err(Refusal::at(28, place));
    }
    let section = write(
        parsed.version,
        &parsed.functions,
        &parsed.constants,
        &parsed.records,
    );
    check(&section)?;
    deliver(&section, out)
}

/// The place of the first record item with too many locations or live-outs.
fn first_overfull(parsed: &Parsed) -> Option<usize> {
    let mut records = parsed.records.iter().zip(&parsed.record_places);
    let overfull = records.find(|(record, _)| {
        record.locations.len() > MAX_ENTRIES || record.live_outs.len() > MAX_ENTRIES
    });
    overfull.map(|(_, place)| *place)
}

/// Copies a whole result to the start of the output, or refuses with 24.
fn deliver(result: &[u8], out: &mut [u8]) -> Result<usize, Refusal> {
    let target = out.get_mut(..result.len()).ok_or(Refusal::at(24, 0))?;
    target.copy_from_slice(result);
    Ok(result.len())
}

/// The listing of an accepted section.
pub(crate) fn listing_of(section: &Section) -> Vec<u8> {
    let mut listing = match section.version {
        Version::One => vec![7, 1],
        Version::Three => vec![],
    };
    for function in &section.functions {
        listing.push(1);
        listing.extend(function.address.to_le_bytes());
        listing.extend(function.stack_size.to_le_bytes());
        listing.extend(function.record_count.to_le_bytes());
    }
    for constant in &section.constants {
        listing.push(2);
        listing.extend(constant.to_le_bytes());
    }
    for record in &section.records {
        listing.push(3);
        listing.extend(record.id.to_le_bytes());
        listing.extend(record.offset.to_le_bytes());
        for location in &record.locations {
            listing.extend([4, location.kind]);
            listing.extend(location.size.to_le_bytes());
            listing.extend(location.register.to_le_bytes());
            listing.extend(location.offset.to_le_bytes());
        }
        for live_out in &record.live_outs {
            listing.push(5);
            listing.extend(live_out.register.to_le_bytes());
            listing.push(live_out.size);
        }
    }
    listing.push(6);
    listing
}
