//! Small version 3 sections at the edges of the rules, the same in every run.

pub(crate) mod both;

use crate::layout::{Function, LiveOut, Location, Record, Section, Version, COUNTS};
use crate::Case;

/// What the cases are handed to, one by one.
pub type Visit<'a> = &'a mut dyn FnMut(Case);

/// Hands over all of them.
pub fn all(visit: Visit) {
    lengths(visit);
    header_counts(visit);
    sums(visit);
    both::cuts(&every_part(), ["every part", "cut header", "cut"], visit);
    for (section, number, place) in addresses().into_iter().chain(pools()) {
        visit(Case::known(
            "address or pool",
            section.encode(),
            number,
            place,
        ));
    }
    let names = [
        "full record",
        "full record, cut",
        "full record, last kind",
        "full record, last live-out",
    ];
    both::full_record(every_part(), names, visit);
    both::single_bytes(&every_part().encode(), "one byte", visit);
}

/// `03` and zeros, as many bytes as asked for.
fn version_and_zeros(length: usize) -> Vec<u8> {
    both::version_and_zeros(Version::Three, length)
}

fn lengths(visit: Visit) {
    for length in 0..16 {
        visit(Case::known(
            "under 16 bytes",
            version_and_zeros(length),
            1,
            0,
        ));
        visit(Case::known(
            "under 16 bytes, all zero",
            vec![0; length],
            1,
            0,
        ));
        visit(Case::known(
            "under 16 bytes, all ones",
            vec![0xff; length],
            1,
            0,
        ));
    }
    visit(Case::known("an empty section", version_and_zeros(16), 0, 0));
    for length in 16..80 {
        visit(Case::known("all zero", vec![0; length], 2, 0));
        visit(Case::known("all ones", vec![0xff; length], 2, 0));
        visit(Case::known(
            "after the end",
            version_and_zeros(length + 1),
            9,
            16,
        ));
    }
}

/// A header with these counts, and `length` zeros after it.
fn header(counts: [u32; 3], length: usize) -> Vec<u8> {
    both::header(Version::Three, counts, length)
}

fn header_counts(visit: Visit) {
    const MAX: u32 = u32::MAX;
    for length in 0..200 {
        let functions = 16 + length / 24 * 24;
        let constants = 16 + length / 8 * 8;
        visit(Case::known(
            "functions",
            header([MAX, 0, 0], length),
            4,
            functions,
        ));
        visit(Case::known(
            "functions first",
            header([MAX, MAX, MAX], length),
            4,
            functions,
        ));
        visit(Case::known(
            "constants",
            header([0, MAX, MAX], length),
            4,
            constants,
        ));
        visit(Case::known("records", header([0, 0, MAX], length), 5, 12));
        for count in [0, 1, 2, 0x0aaa_aaaa, 0x1fff_ffff, 0x2000_0000, 0x8000_0000] {
            visit(Case::open("counts", header([count, 1, 0], length)));
            visit(Case::open("counts", header([1, count, 0], length)));
            visit(Case::open("counts", header([1, 1, count], length)));
        }
    }
}

/// Functions with these record counts, and NumRecords, and one record that nobody reaches.
fn counted(counts: &[u64], records: u32) -> Vec<u8> {
    let function = |count: &u64| Function {
        address: 0,
        stack_size: 0,
        record_count: *count,
    };
    let section = Section {
        functions: counts.iter().map(function).collect(),
        records: vec![record(0, 1, 1)],
        ..Section::default()
    };
    let mut bytes = section.encode();
    bytes[COUNTS[2]..16].copy_from_slice(&records.to_le_bytes());
    bytes
}

const MAX: u64 = u64::MAX;
const HALF: u64 = 1 << 63;

/// Record counts, and a NumRecords that only a narrower number would take for their sum.
pub(crate) const SUMS: [(&[u64], u32); 12] = [
    (&[HALF, HALF], 0),
    (&[HALF, HALF, 1], 1),
    (&[1, HALF, HALF], 1),
    (&[MAX, 1], 0),
    (&[1, MAX], 0),
    (&[MAX, 2], 1),
    (&[2, MAX, 0], 1),
    (&[MAX, MAX, 2], 0),
    (&[MAX, MAX, 3], 1),
    (&[1 << 32], 0),
    (&[(1 << 32) + 1], 1),
    (&[MAX], u32::MAX),
];

fn sums(visit: Visit) {
    for (counts, records) in SUMS {
        visit(Case::known(
            "sums past the width",
            counted(counts, records),
            5,
            12,
        ));
    }
    visit(Case::known(
        "a record to the last",
        counted(&[0, 0, 1], 1),
        0,
        0,
    ));
    visit(Case::known(
        "two records stated",
        counted(&[0, 2, 0], 2),
        4,
        88 + 40,
    ));
}

/// A record with so many locations and live-outs.
pub fn record(offset: u32, locations: usize, live_outs: usize) -> Record {
    let location = Location {
        kind: 3,
        size: 8,
        register: 7,
        offset: 8,
    };
    Record {
        id: 7,
        offset,
        locations: vec![location; locations],
        live_outs: vec![
            LiveOut {
                register: 6,
                size: 8
            };
            live_outs
        ],
    }
}

/// A function with so many records.
pub fn function(address: u64, record_count: u64) -> Function {
    Function {
        address,
        stack_size: 24,
        record_count,
    }
}

/// A section with every part: functions with no, one and several records, constants, odd and even
/// numbers of locations and live-outs, and all five kinds.
pub fn every_part() -> Section {
    Section {
        functions: vec![
            function(u64::MAX, 0),
            function(0x1000, 3),
            function(u64::MAX - 9, 1),
        ],
        constants: vec![0, u64::MAX],
        records: both::records([0, 0, 0, 8], 9),
        ..Section::default()
    }
}

/// A section, and number and place of its answer.
pub(crate) type Answered = (Section, u64, usize);

/// Records at addresses up to the last there is, and beyond.
pub(crate) fn addresses() -> Vec<Answered> {
    let near = [
        (MAX, 0, 0),
        (MAX, 1, 8),
        (MAX - 1, 1, 0),
        (MAX - 1, 2, 8),
        (MAX, u32::MAX, 8),
    ];
    let wide = [
        (MAX - 0xffff_ffff, u32::MAX, 0),
        (MAX - 0xffff_fffe, u32::MAX, 8),
        (0, u32::MAX, 0),
    ];
    let section = |(address, offset, number)| {
        let section = Section {
            functions: vec![Function {
                stack_size: MAX,
                ..function(address, 1)
            }],
            records: vec![record(offset, 2, 3)],
            ..Section::default()
        };
        (section, number, if number == 0 { 0 } else { 40 })
    };
    near.into_iter().chain(wide).map(section).collect()
}

/// Numbers of a pool's entries, and numbers that only look like one.
pub(crate) fn pools() -> Vec<Answered> {
    // Before it: three functions, a record of 24 bytes and one of 72, and its own head.
    both::pools(&every_part(), 16 + 3 * 24 + 24 + 72 + 16)
}
