//! Writing of a section's bytes from plain data.

use super::{Function, LiveOut, Location, Record, Version};

/// A record as plain data: what a listing says of it.
#[derive(Clone, Debug, PartialEq, Eq)]
pub struct RecordData {
    /// The record's ID.
    pub id: u64,
    /// The instruction offset inside the function.
    pub offset: u32,
    /// The locations.
    pub locations: Vec<Location>,
    /// The live-outs.
    pub live_outs: Vec<LiveOut>,
}

impl From<&Record> for RecordData {
    fn from(record: &Record) -> RecordData {
        RecordData {
            id: record.id,
            offset: record.offset,
            locations: record.locations.clone(),
            live_outs: record.live_outs.clone(),
        }
    }
}

/// Writes the bytes of a version 3 section, without checking.
///
/// NumFunctions, NumConstants, NumRecords, NumLocations and NumLiveOuts are
/// the lengths of the lists, modulo what their fields hold. The record counts
/// are those that the functions state, whatever the number of records.
pub fn encode(functions: &[Function], constants: &[u64], records: &[RecordData]) -> Vec<u8> {
    write(Version::Three, functions, constants, records)
}

/// Writes the bytes of a version 1 section, without checking.
///
/// The numbers are as for [`encode`]. Record counts are left out, and of a
/// location's size only the lowest byte is written.
pub fn encode_version_1(
    functions: &[Function],
    constants: &[u64],
    records: &[RecordData],
) -> Vec<u8> {
    write(Version::One, functions, constants, records)
}

/// Writes the bytes of a section of this version.
pub(crate) fn write(
    version: Version,
    functions: &[Function],
    constants: &[u64],
    records: &[RecordData],
) -> Vec<u8> {
    let mut section = vec![version.number(), 0, 0, 0];
    for count in [functions.len(), constants.len(), records.len()] {
        section.extend((count as u32).to_le_bytes());
    }
    for function in functions {
        section.extend(function.address.to_le_bytes());
        section.extend(function.stack_size.to_le_bytes());
        if version == Version::Three {
            section.extend(function.record_count.to_le_bytes());
        }
    }
    for constant in constants {
        section.extend(constant.to_le_bytes());
    }
    for record in records {
        encode_record(&mut section, version, record);
    }
    section
}

fn encode_record(section: &mut Vec<u8>, version: Version, record: &RecordData) {
    section.extend(record.id.to_le_bytes());
    section.extend(record.offset.to_le_bytes());
    section.extend([0, 0]);
    section.extend((record.locations.len() as u16).to_le_bytes());
    for location in &record.locations {
        encode_location(section, version, location);
    }
    if version == Version::Three && record.locations.len() % 2 == 1 {
        section.extend([0; 4]);
    }
    section.extend([0, 0]);
    section.extend((record.live_outs.len() as u16).to_le_bytes());
    for live_out in &record.live_outs {
        section.extend(live_out.register.to_le_bytes());
        section.extend([0, live_out.size]);
    }
    if record.live_outs.len().is_multiple_of(2) {
        section.extend([0; 4]);
    }
}

fn encode_location(section: &mut Vec<u8>, version: Version, location: &Location) {
    match version {
        Version::One => section.extend([location.kind, location.size as u8]),
        Version::Three => {
            section.extend([location.kind, 0]);
            section.extend(location.size.to_le_bytes());
        }
    }
    section.extend(location.register.to_le_bytes());
    if version == Version::Three {
        section.extend([0, 0]);
    }
    section.extend(location.offset.to_le_bytes());
}
