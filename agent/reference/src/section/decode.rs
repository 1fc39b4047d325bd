//! Decoding of an accepted section into plain data.

use super::entries::{function, function_1, LocationEntry};
use super::layout::{Parts, CONSTANT, LIVE_OUT, LOCATION, LOCATION_1};
use super::{check, check_header, check_tables, check_tables_1, Version};
use crate::bytes::{u16_at, u32_at, u64_at};
use crate::Refusal;
use std::iter::repeat_n;

/// An accepted section.
#[derive(Clone, Debug, PartialEq, Eq)]
pub struct Section {
    /// The version.
    pub version: Version,
    /// The functions, in section order.
    pub functions: Vec<Function>,
    /// The constant pool.
    pub constants: Vec<u64>,
    /// The records, in section order.
    pub records: Vec<Record>,
}

/// A function.
#[derive(Clone, Debug, PartialEq, Eq)]
pub struct Function {
    /// The function's address.
    pub address: u64,
    /// The size of its stack frames; 2^64 - 1 means not known.
    pub stack_size: u64,
    /// How many records belong to it; 0 in version 1, which doesn't say.
    pub record_count: u64,
}

/// A record of an accepted section.
#[derive(Clone, Debug, PartialEq, Eq)]
pub struct Record {
    /// The record's ID.
    pub id: u64,
    /// The instruction offset inside the function.
    pub offset: u32,
    /// The locations.
    pub locations: Vec<Location>,
    /// The live-outs.
    pub live_outs: Vec<LiveOut>,
    /// The record's first byte in the section.
    pub first: usize,
    /// The record's length in bytes, padding included.
    pub length: usize,
    /// The number of the function that the record belongs to. Version 1
    /// doesn't say, and this is then 0.
    pub function: usize,
    /// The function's address plus the instruction offset; 0 in version 1.
    pub address: u64,
}

/// A location.
#[derive(Clone, Debug, PartialEq, Eq)]
pub struct Location {
    /// 1 Register, 2 Direct, 3 Indirect, 4 Constant or 5 ConstIndex.
    pub kind: u8,
    /// The size in bytes; in version 1 at most 255.
    pub size: u16,
    /// The register's DWARF number.
    pub register: u16,
    /// The offset, the small constant or the number of a pool entry.
    pub offset: i32,
}

/// A live-out.
#[derive(Clone, Debug, PartialEq, Eq)]
pub struct LiveOut {
    /// The register's DWARF number.
    pub register: u16,
    /// The size in bytes.
    pub size: u8,
}

/// Decodes a section, or gives the section's own refusal.
pub fn read(section: &[u8]) -> Result<Section, Refusal> {
    check(section)?;
    let (version, header, rest) = check_header(section)?;
    match version {
        Version::One => {
            let tables = check_tables_1(header, rest)?;
            let nobody = repeat_n(NOBODY, tables.num_records as usize);
            Ok(Section {
                version,
                functions: tables.functions.iter().map(function_1).collect(),
                constants: constants(tables.constants),
                records: records::<LOCATION_1>(section, tables.records, nobody)?,
            })
        }
        Version::Three => {
            let tables = check_tables(header, rest)?;
            let functions: Vec<Function> = tables.functions.iter().map(function).collect();
            let owners = functions.iter().enumerate().flat_map(|(number, function)| {
                let owner = Owner {
                    number,
                    address: Some(function.address),
                };
                repeat_n(owner, function.record_count as usize)
            });
            Ok(Section {
                version,
                records: records::<LOCATION>(section, tables.records, owners)?,
                constants: constants(tables.constants),
                functions,
            })
        }
    }
}

/// The function that a record belongs to.
#[derive(Clone, Copy)]
struct Owner {
    number: usize,
    address: Option<u64>,
}

/// Stands for the owner of a record in version 1.
const NOBODY: Owner = Owner {
    number: 0,
    address: None,
};

fn constants(entries: &[[u8; CONSTANT]]) -> Vec<u64> {
    let entries = entries.iter();
    entries.map(|entry| u64::from_le_bytes(*entry)).collect()
}

/// The records at the front of `rest`, the section's last bytes: one for each
/// owner.
fn records<const L: usize>(
    section: &[u8],
    mut rest: &[u8],
    owners: impl Iterator<Item = Owner>,
) -> Result<Vec<Record>, Refusal>
where
    [u8; L]: LocationEntry,
{
    let mut records = Vec::new();
    for owner in owners {
        let first = section.len() - rest.len();
        let (parts, after) = Parts::<L>::split(rest).ok_or(Refusal::at(4, first))?;
        let length = rest.len() - after.len();
        records.push(record(&parts, first, length, owner));
        rest = after;
    }
    Ok(records)
}

fn record<const L: usize>(parts: &Parts<'_, L>, first: usize, length: usize, owner: Owner) -> Record
where
    [u8; L]: LocationEntry,
{
    let offset = u32_at(parts.head, 8);
    let address = owner
        .address
        .map(|address| address.wrapping_add(u64::from(offset)));
    Record {
        id: u64_at(parts.head, 0),
        offset,
        locations: parts
            .locations
            .iter()
            .map(LocationEntry::location)
            .collect(),
        live_outs: parts.live_outs.iter().map(live_out).collect(),
        first,
        length,
        function: owner.number,
        address: address.unwrap_or(0),
    }
}

fn live_out(entry: &[u8; LIVE_OUT]) -> LiveOut {
    LiveOut {
        register: u16_at(entry, 0),
        size: entry[3],
    }
}
