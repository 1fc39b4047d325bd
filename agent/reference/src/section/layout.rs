//! Where the parts of a section lie, in both versions.
//!
//! Only counts are read here. Nothing is said of what the parts hold. Two
//! lengths tell the versions apart: a function's and a location's.

use crate::bytes::{u16_at, u32_at};

/// The length of the header.
pub(super) const HEADER: usize = 16;
/// The length of a function in version 3: address, stack size, record count.
pub(super) const FUNCTION: usize = 24;
/// The length of a function in version 1, which has no record count.
pub(super) const FUNCTION_1: usize = 16;
/// The length of a constant.
pub(super) const CONSTANT: usize = 8;
/// The length of a record before its locations.
pub(super) const RECORD_HEAD: usize = 16;
/// The length of a location in version 3.
pub(super) const LOCATION: usize = 12;
/// The length of a location in version 1.
pub(super) const LOCATION_1: usize = 8;
/// The length of a live-out.
pub(super) const LIVE_OUT: usize = 4;

/// Stands where a record has no padding.
static NO_PADDING: [u8; 4] = [0; 4];

/// The functions, of `F` bytes each, and constants of a section, the number
/// of records that its header states, and the bytes after the constants.
pub(super) struct Tables<'a, const F: usize> {
    pub(super) functions: &'a [[u8; F]],
    pub(super) constants: &'a [[u8; CONSTANT]],
    pub(super) num_records: u32,
    pub(super) records: &'a [u8],
}

impl<'a, const F: usize> Tables<'a, F> {
    /// Finds the tables that the header counts in the bytes after it, or the
    /// first byte of the first entry that isn't wholly inside.
    pub(super) fn of(header: &[u8; HEADER], rest: &'a [u8]) -> Result<Tables<'a, F>, usize> {
        let (functions, rest) = table(HEADER, rest, u32_at(header, 4))?;
        let constants_at = HEADER + functions.as_flattened().len();
        let (constants, records) = table(constants_at, rest, u32_at(header, 8))?;
        Ok(Tables {
            functions,
            constants,
            num_records: u32_at(header, 12),
            records,
        })
    }
}

/// Splits `count` entries of `N` bytes off the front of `rest`, whose first
/// byte is at `at`, or gives the place of the first one that isn't inside.
fn table<const N: usize>(at: usize, rest: &[u8], count: u32) -> Result<(&[[u8; N]], &[u8]), usize> {
    let (whole, _) = rest.as_chunks::<N>();
    match rest.split_at_checked(N * count as usize) {
        Some((entries, after)) => Ok((entries.as_chunks().0, after)),
        None => Err(at + N * whole.len()),
    }
}

/// The parts of one record whose locations have `L` bytes each, from its ID
/// to its last padding byte.
pub(super) struct Parts<'a, const L: usize> {
    /// ID, instruction offset, flags and NumLocations.
    pub(super) head: &'a [u8; RECORD_HEAD],
    pub(super) locations: &'a [[u8; L]],
    /// The padding after the locations; zeros where there is none.
    pub(super) location_padding: &'a [u8; 4],
    /// Two zero bytes and NumLiveOuts.
    pub(super) live_out_head: &'a [u8; 4],
    pub(super) live_outs: &'a [[u8; LIVE_OUT]],
    /// The padding after the live-outs; zeros where there is none.
    pub(super) live_out_padding: &'a [u8; 4],
}

impl<'a, const L: usize> Parts<'a, L> {
    /// Splits the record off the front of a stretch, if it is wholly inside,
    /// and gives what follows it.
    #[inline]
    pub(super) fn split(stretch: &'a [u8]) -> Option<(Parts<'a, L>, &'a [u8])> {
        let (head, rest) = stretch.split_first_chunk()?;
        let num_locations = usize::from(u16_at(head, 14));
        let (locations, rest) = rest.split_at_checked(L * num_locations)?;
        let (location_padding, rest) = padding(rest, is_padded::<L>(num_locations))?;
        let (live_out_head, rest) = rest.split_first_chunk()?;
        let num_live_outs = usize::from(u16_at(live_out_head, 2));
        let (live_outs, rest) = rest.split_at_checked(LIVE_OUT * num_live_outs)?;
        let (live_out_padding, rest) = padding(rest, num_live_outs.is_multiple_of(2))?;
        let (locations, live_outs) = (locations.as_chunks().0, live_outs.as_chunks().0);
        let parts = Parts {
            head,
            locations,
            location_padding,
            live_out_head,
            live_outs,
            live_out_padding,
        };
        Some((parts, rest))
    }

    /// Whether the locations are followed by padding.
    pub(super) fn has_location_padding(&self) -> bool {
        is_padded::<L>(self.locations.len())
    }
}

/// Whether so many locations of `L` bytes are followed by padding: in version
/// 3 an odd number is, in version 1 none.
#[inline(always)]
fn is_padded<const L: usize>(num_locations: usize) -> bool {
    L == LOCATION && num_locations % 2 == 1
}

/// Splits four bytes of padding off, where there is padding.
#[inline]
fn padding(rest: &[u8], present: bool) -> Option<(&[u8; 4], &[u8])> {
    if present {
        rest.split_first_chunk()
    } else {
        Some((&NO_PADDING, rest))
    }
}
