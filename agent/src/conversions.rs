//! Section to listing and back.

use crate::{ffi, Refusal};

/// The bytes of a section's header, whose first is the version.
const HEADER: usize = 16;

/// The version whose listings begin with an item of their own.
const VERSION_1: u8 = 1;

/// The most bytes that a section has, and a listing.
const SECTION_MOST: usize = 16_777_216;
const LISTING_MOST: usize = 33_554_432;

/// Writes the listing of `section` to the start of `output`, and gives its length. Output beyond
/// that is unchanged.
///
/// A listing says what a section says, without header, counts of locations and live-outs, zeros and
/// padding. It is a row of items: one byte of kind, then numbers, little-endian, of these widths.
///
/// | Kind | Item | Body |
/// |---|---|---|
/// | 1 | function | address 8, stack size 8, record count 8 |
/// | 2 | constant | 8 |
/// | 3 | record | ID 8, instruction offset 4 |
/// | 4 | location | kind 1, size 2, register 2, offset 4 |
/// | 5 | live-out | register 2, size 1 |
/// | 6 | end | |
/// | 7 | version | 1, in one byte |
///
/// The functions come first, then the constants, then each record with its locations and then its
/// live-outs, then one end and nothing after it. Before all of them the listing of a version 1 section
/// has one item 7; its record counts are 0, as the section has none, and its sizes at most 255. A listing
/// of version 3 has no item 7. [`to_section`] gives the same section again.
///
/// # Errors
///
/// The refusal of [`check`](crate::check) if the section has a fault, and then 24 at 0 if the output
/// is shorter than the listing. A refusal leaves all of the output unchanged.
///
/// # Examples
///
/// ```
/// // The section of no functions, constants or records: its listing is an end.
/// let mut section = [0; 16];
/// section[0] = 3;
/// let mut output = [0xaa; 3];
/// assert_eq!(treskibben::to_listing(&section, &mut output), Ok(1));
/// assert_eq!(output, [6, 0xaa, 0xaa]);
///
/// // The same of version 1.
/// section[0] = 1;
/// assert_eq!(treskibben::to_listing(&section, &mut output), Ok(3));
/// assert_eq!(output, [7, 1, 6]);
///
/// let refusal = treskibben::to_listing(&section, &mut []).unwrap_err();
/// assert_eq!(refusal.to_string(), "refused 24 at 0: output shorter than the whole result");
/// ```
pub fn to_listing(section: &[u8], output: &mut [u8]) -> Result<usize, Refusal> {
    let written = ffi::to_listing(section, output).outcome()?;
    Ok(inside(written, output))
}

/// Writes the section of `listing` to the start of `output`, and gives its length. Output beyond
/// that is unchanged.
///
/// What a listing is stands at [`to_listing`], which gives the same listing again.
///
/// # Errors
///
/// The first of these that holds. A refusal leaves all of the output unchanged.
///
/// | Number | Cause | Place |
/// |---|---|---|
/// | 1 | listing over 33,554,432 bytes | 0 |
/// | 22 | listing breaks its grammar | the first item that does |
/// | 23 | over 65,535 locations or live-outs in a record | that record item |
/// | 28 | version 1 listing with a record count not 0 or a size over 255 | that item |
/// | 1, 5, 6, 7, 8 | the refusal that [`check`](crate::check) has for the section; of version 1, never 5 or 8 | the place in that section |
/// | 24 | output shorter than the section | 0 |
///
/// The place of an item is its first byte in the listing. An item that is cut breaks the grammar,
/// and so do one of unknown kind, one that may not stand there, and anything after the end; so does an
/// item 7 that isn't the first, or whose body isn't 1. A missing end has the listing's length as its
/// place.
///
/// # Examples
///
/// ```
/// let mut output = [0; 16];
/// assert_eq!(treskibben::to_section(&[6], &mut output), Ok(16));
/// assert_eq!(treskibben::check(&output), Ok(()));
///
/// // A second end.
/// let refusal = treskibben::to_section(&[6, 6], &mut output).unwrap_err();
/// assert_eq!(refusal.to_string(), "refused 22 at 1: listing breaks its grammar");
///
/// // A function of version 1 that counts its records.
/// let function = [1, 0, 0x10, 0, 0, 0, 0, 0, 0, 24, 0, 0, 0, 0, 0, 0, 0, 1, 0, 0, 0, 0, 0, 0, 0];
/// let listing = [&[7, 1], &function[..], &[6]].concat();
/// let refusal = treskibben::to_section(&listing, &mut output).unwrap_err();
/// assert_eq!((refusal.number(), refusal.place()), (28, 2));
/// ```
pub fn to_section(listing: &[u8], output: &mut [u8]) -> Result<usize, Refusal> {
    let written = ffi::to_section(listing, output).outcome()?;
    Ok(inside(written, output))
}

/// The listing of `section`, as [`to_listing`] writes it.
///
/// The vector is made once, with room for the longest listing that a section of this length has: 9
/// bytes for each 8 after the header, and 1; of version 1, 25 bytes for each 16, and 3.
///
/// # Errors
///
/// The refusal of [`check`](crate::check), and no other.
///
/// # Examples
///
/// ```
/// # fn main() -> Result<(), Box<dyn std::error::Error>> {
/// // A function with one record, which has seven locations.
/// let section = std::fs::read("../samples/h-statepoint.section")?;
///
/// let listing = treskibben::listing_of(&section)?;
/// assert_eq!(listing, std::fs::read("../samples/h-statepoint.listing")?);
/// assert_eq!(listing.len(), 25 + 13 + 7 * 10 + 1);
///
/// assert_eq!(treskibben::section_of(&listing)?, section);
/// # Ok(())
/// # }
/// ```
pub fn listing_of(section: &[u8]) -> Result<Vec<u8>, Refusal> {
    let version = section.first().copied().unwrap_or_default();
    let mut listing = vec![0; listing_bound(version, section.len())];
    let length = to_listing(section, &mut listing)?;
    listing.truncate(length);
    Ok(listing)
}

/// The section of `listing`, as [`to_section`] writes it.
///
/// The vector is made once, with room for the longest section that a listing of this length has: 24
/// bytes for each 13, and 16, but no more than 16,777,216.
///
/// # Errors
///
/// The refusals of [`to_section`], but for 24, which never comes.
///
/// # Examples
///
/// ```
/// // A location of kind 9, in a record of a function at 0x1000: the section would be refused.
/// let mut listing = vec![1, 0, 0x10, 0, 0, 0, 0, 0, 0, 24, 0, 0, 0, 0, 0, 0, 0, 1, 0, 0, 0, 0, 0, 0, 0];
/// listing.extend([3, 7, 0, 0, 0, 0, 0, 0, 0, 0x20, 0, 0, 0]);
/// listing.extend([4, 9, 8, 0, 3, 0, 0, 0, 0, 0]);
/// listing.extend([6]);
/// let refusal = treskibben::section_of(&listing).unwrap_err();
/// assert_eq!(refusal.to_string(), "refused 6 at 56: location kind not 1 to 5");
/// ```
pub fn section_of(listing: &[u8]) -> Result<Vec<u8>, Refusal> {
    let mut section = vec![0; section_bound(listing.len())];
    let length = to_section(listing, &mut section)?;
    section.truncate(length);
    Ok(section)
}

/// A length that the listing of no accepted section of this version and of `length` bytes exceeds.
///
/// No part of a version 3 section becomes longer than 9/8 of it in the listing. A function of 24 bytes
/// takes 25 there, and a constant of 8 takes 9. A record of l locations and o live-outs has at least
/// 20 + 12 l + 4 o bytes, of which 9/8 are 22.5 + 13.5 l + 4.5 o, and takes 13 + 10 l + 4 o. The
/// header takes nothing, and the end takes 1.
///
/// Of version 1 it is 25/16: a function has 16 bytes there, and a location has 8, so that a record has at
/// least 20 + 8 l + 4 o, of which 25/16 are more than 31 + 12 l + 6 o. The version takes 2.
///
/// No section of more than 16,777,216 bytes is accepted, so that its listing needs no room.
fn listing_bound(version: u8, length: usize) -> usize {
    let parts = length.min(SECTION_MOST).saturating_sub(HEADER);
    match version {
        VERSION_1 => parts * 25 / 16 + 3,
        _ => parts * 9 / 8 + 1,
    }
}

/// A length that the section of no accepted listing of `length` bytes exceeds.
///
/// No item of a listing becomes longer than 24/13 of it in the section. A function item of 25 bytes
/// takes 24 there, and a constant item of 9 takes 8. A record item with l locations and o live-outs
/// has 13 + 10 l + 4 o bytes, of which 24/13 are more than 24 + 18 l + 7 o. It takes 16, then 12 l
/// and 4 if l is odd, which is at most 16 l, then 4 + 4 o, and 4 if o is even: at most
/// 24 + 16 l + 4 o. The end, of 1 byte, takes nothing, and the header takes 16. All this holds of
/// version 1 too, where functions and records are shorter, and the item of the version takes nothing.
///
/// No section has more than 16,777,216 bytes, and no listing of more than 33,554,432 is accepted.
fn section_bound(length: usize) -> usize {
    let items = length.min(LISTING_MOST).saturating_sub(1);
    (HEADER + items * 24 / 13).min(SECTION_MOST)
}

/// The length written, which the library is proved to answer inside the output.
fn inside(written: u64, output: &[u8]) -> usize {
    match usize::try_from(written) {
        Ok(length) if length <= output.len() => length,
        _ => panic!(
            "libtreskibben answers that it wrote {written} bytes to an output of {}",
            output.len()
        ),
    }
}

#[cfg(test)]
mod tests;
