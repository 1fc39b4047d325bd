//! The section: its check, its decoding and its encoding, in two versions.
//!
//! A section is a header, the functions, the constants and the records.
//! [`check`] gives the first refusal in the order of the papers: 1, 2, 3 in
//! the header, 4 for the functions and then for the constants, 5, then each
//! record, and 9 last. A record is refused by 4 before 8, and by both before
//! any of its bytes is looked at; then its bytes are judged from left to
//! right, where 7 is judged at the end of its location. Version 1 says nothing
//! of how many records a function has, and there 5 and 8 are not given.
//!
//! The check makes one pass over the records and keeps nothing. Each record is
//! first judged as a whole, by a few masks on wide words; only a record that
//! is at fault is walked again, byte by byte, to find which fault comes first.

mod decode;
mod encode;
mod entries;
mod layout;

#[cfg(test)]
mod tests;
#[cfg(test)]
mod tests_readings;
#[cfg(test)]
mod tests_version_1;

pub use decode::{read, Function, LiveOut, Location, Record, Section};
pub(crate) use encode::write;
pub use encode::{encode, encode_version_1, RecordData};

use crate::bytes::{u16_at, u32_at, u64_at};
use crate::Refusal;
use entries::{is_faulty_location, location_fault, LocationEntry};
use layout::{
    Parts, Tables, FUNCTION, FUNCTION_1, HEADER, LIVE_OUT, LOCATION, LOCATION_1, RECORD_HEAD,
};

/// The greatest length of a section, in bytes.
pub const MAX_SECTION: usize = 16_777_216;

/// The place of NumRecords in the header, and of refusal 5.
const NUM_RECORDS_AT: usize = 12;

/// The byte of a live-out that has to be zero: 2.
const LIVE_OUT_ZEROS: u32 = 0x00FF_0000;

/// The version of a section: which layout it has.
#[derive(Clone, Copy, Debug, Default, PartialEq, Eq)]
pub enum Version {
    /// Version 1: functions without record counts, and short locations.
    One,
    /// Version 3.
    #[default]
    Three,
}

impl Version {
    /// The version of this number, if there is one.
    fn of(number: u8) -> Option<Version> {
        match number {
            1 => Some(Version::One),
            3 => Some(Version::Three),
            _ => None,
        }
    }

    /// The number that the header has for it.
    pub fn number(self) -> u8 {
        match self {
            Version::One => 1,
            Version::Three => 3,
        }
    }
}

/// Checks a section: refusals 1 to 9, in the order of the papers.
pub fn check(section: &[u8]) -> Result<(), Refusal> {
    let (version, header, rest) = check_header(section)?;
    let rest = match version {
        Version::One => check_version_1(section, check_tables_1(header, rest)?)?,
        Version::Three => check_version_3(section, check_tables(header, rest)?)?,
    };
    if !rest.is_empty() {
        return Err(Refusal::at(9, section.len() - rest.len()));
    }
    Ok(())
}

/// Refusals 1 and 2, and 3 in the header. Gives the version, the header and
/// the bytes after it.
fn check_header(section: &[u8]) -> Result<(Version, &[u8; HEADER], &[u8]), Refusal> {
    let (header, rest) = match section.split_first_chunk::<HEADER>() {
        Some(split) if section.len() <= MAX_SECTION => split,
        _ => return Err(Refusal::at(1, 0)),
    };
    let version = Version::of(header[0]).ok_or(Refusal::at(2, 0))?;
    if let Some(at) = (1..4).find(|&at| header[at] != 0) {
        return Err(Refusal::at(3, at));
    }
    Ok((version, header, rest))
}

/// Refusal 4 for functions and constants, and 5, of version 3.
fn check_tables<'a>(
    header: &[u8; HEADER],
    rest: &'a [u8],
) -> Result<Tables<'a, FUNCTION>, Refusal> {
    let tables = Tables::of(header, rest).map_err(|at| Refusal::at(4, at))?;
    let counts = tables
        .functions
        .iter()
        .map(|function| u128::from(u64_at(function, 16)));
    if counts.sum::<u128>() != u128::from(tables.num_records) {
        return Err(Refusal::at(5, NUM_RECORDS_AT));
    }
    Ok(tables)
}

/// Refusal 4 for functions and constants of version 1.
fn check_tables_1<'a>(
    header: &[u8; HEADER],
    rest: &'a [u8],
) -> Result<Tables<'a, FUNCTION_1>, Refusal> {
    Tables::of(header, rest).map_err(|at| Refusal::at(4, at))
}

/// Checks the records of version 3, and gives the bytes after them.
fn check_version_3<'a>(section: &[u8], tables: Tables<'a, FUNCTION>) -> Result<&'a [u8], Refusal> {
    let num_constants = tables.constants.len() as i64;
    let mut rest = tables.records;
    for function in tables.functions {
        let address = u64_at(function, 0);
        for _ in 0..u64_at(function, 16) {
            let overflows = |offset| address.checked_add(offset).is_none();
            rest = check_record::<LOCATION>(section, rest, overflows, num_constants)?;
        }
    }
    Ok(rest)
}

/// Checks the records of version 1, as many as the header says, and gives the
/// bytes after them. They have no addresses.
fn check_version_1<'a>(
    section: &[u8],
    tables: Tables<'a, FUNCTION_1>,
) -> Result<&'a [u8], Refusal> {
    let num_constants = tables.constants.len() as i64;
    let mut rest = tables.records;
    for _ in 0..tables.num_records {
        rest = check_record::<LOCATION_1>(section, rest, |_| false, num_constants)?;
    }
    Ok(rest)
}

/// Checks the record at the front of `rest`, the section's last bytes, and
/// gives the bytes after it. `overflows` says whether an instruction offset
/// takes the record past the last address.
#[inline]
fn check_record<'a, const L: usize>(
    section: &[u8],
    rest: &'a [u8],
    overflows: impl Fn(u64) -> bool,
    num_constants: i64,
) -> Result<&'a [u8], Refusal>
where
    [u8; L]: LocationEntry,
{
    let at = section.len() - rest.len();
    let Some((parts, after)) = Parts::<L>::split(rest) else {
        return Err(Refusal::at(4, at));
    };
    if overflows(u64::from(u32_at(parts.head, 8))) {
        return Err(Refusal::at(8, at));
    }
    if !is_clean(&parts, num_constants) {
        if let Some(refusal) = first_fault(&parts, at, num_constants) {
            return Err(refusal);
        }
    }
    Ok(after)
}

/// Whether no byte of a record is at fault (3, 6 or 7).
#[inline]
fn is_clean<const L: usize>(parts: &Parts<'_, L>, num_constants: i64) -> bool
where
    [u8; L]: LocationEntry,
{
    let mut zeros = u32::from(u16_at(parts.head, 12));
    zeros |= u32::from_le_bytes(*parts.location_padding);
    zeros |= u32::from(u16_at(parts.live_out_head, 0));
    zeros |= u32::from_le_bytes(*parts.live_out_padding);
    for entry in parts.live_outs {
        zeros |= u32::from_le_bytes(*entry) & LIVE_OUT_ZEROS;
    }
    zeros == 0
        && !parts
            .locations
            .iter()
            .any(|entry| is_faulty_location(entry, num_constants))
}

/// The first fault of a record whose first byte is at `at`, from left to right.
#[cold]
#[inline(never)]
fn first_fault<const L: usize>(
    parts: &Parts<'_, L>,
    at: usize,
    num_constants: i64,
) -> Option<Refusal>
where
    [u8; L]: LocationEntry,
{
    if let Some(fault) = first_nonzero(&parts.head[12..14], at + 12) {
        return Some(fault);
    }
    let mut place = at + RECORD_HEAD;
    for entry in parts.locations {
        if let Some(fault) = location_fault(entry, place, num_constants) {
            return Some(fault);
        }
        place += L;
    }
    if parts.has_location_padding() {
        if let Some(fault) = first_nonzero(parts.location_padding, place) {
            return Some(fault);
        }
        place += 4;
    }
    if let Some(fault) = first_nonzero(&parts.live_out_head[..2], place) {
        return Some(fault);
    }
    place += 4;
    for entry in parts.live_outs {
        if entry[2] != 0 {
            return Some(Refusal::at(3, place + 2));
        }
        place += LIVE_OUT;
    }
    first_nonzero(parts.live_out_padding, place)
}

/// Refusal 3 for the first nonzero byte of a stretch that begins at `at`.
fn first_nonzero(zeros: &[u8], at: usize) -> Option<Refusal> {
    zeros
        .iter()
        .position(|&byte| byte != 0)
        .map(|byte| Refusal::at(3, at + byte))
}
