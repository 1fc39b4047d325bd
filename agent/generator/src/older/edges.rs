//! Small version 1 sections at the edges of the rules, and every first byte that is no version; the
//! same in every run.

use crate::edges::{both, record, Answered, Visit};
use crate::layout::{Function, Section, Version, COUNTS, HEADER};
use crate::Case;

/// Hands over all of them.
pub fn all(visit: Visit) {
    versions(visit);
    lengths(visit);
    header_counts(visit);
    numbers_of_records(visit);
    let names = ["version 1, every part", "version 1, cut", "version 1, cut"];
    both::cuts(&every_part(), names, visit);
    for (section, number, place) in addresses().into_iter().chain(pools()) {
        visit(Case::known(
            "version 1, address or pool",
            section.encode(),
            number,
            place,
        ));
    }
    let names = [
        "version 1, full record",
        "version 1, full record, cut",
        "version 1, last kind",
        "version 1, last live-out",
    ];
    both::full_record(every_part(), names, visit);
    both::single_bytes(&every_part().encode(), "version 1, one byte", visit);
}

/// Every first byte but 1 and 3, before sections of both versions and before faults.
fn versions(visit: Visit) {
    let whole = [every_part().encode(), crate::edges::every_part().encode()];
    for version in (0..=255).filter(|version| ![1, 3].contains(version)) {
        for bytes in &whole {
            let mut bytes = bytes.clone();
            bytes[0] = version;
            visit(Case::known("no version", bytes.clone(), 2, 0));
            bytes[1..4].fill(0xff);
            visit(Case::known("no version and no zeros", bytes, 2, 0));
        }
    }
}

/// `01` and zeros, as many bytes as asked for.
fn version_and_zeros(length: usize) -> Vec<u8> {
    both::version_and_zeros(Version::One, length)
}

fn lengths(visit: Visit) {
    for length in 0..16 {
        let bytes = version_and_zeros(length);
        visit(Case::known("version 1, under 16 bytes", bytes, 1, 0));
    }
    let bytes = version_and_zeros(16);
    visit(Case::known("version 1, an empty section", bytes, 0, 0));
    for length in 17..80 {
        let bytes = version_and_zeros(length);
        visit(Case::known("version 1, after the end", bytes, 9, 16));
    }
}

/// A header with these counts, and `length` zeros after it.
fn header(counts: [u32; 3], length: usize) -> Vec<u8> {
    both::header(Version::One, counts, length)
}

/// Counts of more than there is room for. Zeros are records of 24 bytes each.
fn header_counts(visit: Visit) {
    const MAX: u32 = u32::MAX;
    for length in 0..200 {
        let inside = |bytes: usize| HEADER + length / bytes * bytes;
        for (counts, bytes) in [
            ([MAX, 0, 0], 16),
            ([MAX, MAX, MAX], 16),
            ([0, MAX, MAX], 8),
            ([0, 0, MAX], 24),
        ] {
            let bytes_after = header(counts, length);
            visit(Case::known(
                "version 1, counts",
                bytes_after,
                4,
                inside(bytes),
            ));
        }
        for count in [0, 1, 2, 0x0fff_ffff, 0x1000_0000, 0x2000_0000, 0x8000_0000] {
            visit(Case::open(
                "version 1, counts",
                header([count, 1, 0], length),
            ));
            visit(Case::open(
                "version 1, counts",
                header([1, count, 0], length),
            ));
            visit(Case::open(
                "version 1, counts",
                header([1, 1, count], length),
            ));
        }
    }
}

/// NumRecords from none to more than there are, with any number of functions.
fn numbers_of_records(visit: Visit) {
    for functions in 0..4 {
        let mut section = every_part();
        section.functions = vec![function(0x1000); functions];
        let built = section.build();
        let records = built.records.len();
        for count in 0..=records + 3 {
            let mut bytes = built.bytes.clone();
            bytes[COUNTS[2]..16].copy_from_slice(&(count as u32).to_le_bytes());
            let (number, place) = match built.records.get(count) {
                Some(first) => (9, first.start),
                None if count == records => (0, 0),
                None => (4, built.bytes.len()),
            };
            visit(Case::known("version 1, NumRecords", bytes, number, place));
        }
    }
}

/// A function, which has no record count.
pub fn function(address: u64) -> Function {
    Function {
        address,
        stack_size: 24,
        record_count: 0,
    }
}

/// A section with every part: more records than functions, constants, odd and even numbers of
/// locations and live-outs, all five kinds, and sizes from 0 to 255.
pub fn every_part() -> Section {
    Section {
        version: Version::One,
        functions: vec![function(u64::MAX), function(0x1000), function(0)],
        constants: vec![0, u64::MAX],
        records: both::records([0, 255, 1, 16], u32::MAX),
    }
}

/// Records that no address could have in version 3: none is refused by 8.
pub(crate) fn addresses() -> Vec<Answered> {
    let far = [
        (u64::MAX, 0),
        (u64::MAX, 1),
        (u64::MAX, u32::MAX),
        (u64::MAX - 0xffff_fffe, u32::MAX),
        (0, u32::MAX),
    ];
    let section = |(address, offset)| {
        let section = Section {
            version: Version::One,
            functions: vec![function(address)],
            constants: vec![],
            records: vec![record(offset, 2, 3)],
        };
        (section, 0, 0)
    };
    far.into_iter().map(section).collect()
}

/// Numbers of a pool's entries, and numbers that only look like one.
pub(crate) fn pools() -> Vec<Answered> {
    // Before it: three functions, a record of 24 bytes and one of 56, and its own head.
    both::pools(&every_part(), 16 + 3 * 16 + 24 + 56 + 16)
}
