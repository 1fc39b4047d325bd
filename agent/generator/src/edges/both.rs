//! The edges that sections of both versions have. Each version says what its cases are called, and
//! gives the numbers that are its own.

use super::{record, Answered, Visit};
use crate::aimed::item_at;
use crate::layout::{Location, Record, Section, Version, COUNTS, HEADER};
use crate::Case;

/// The version's first byte and zeros, as many bytes as asked for.
pub(crate) fn version_and_zeros(version: Version, length: usize) -> Vec<u8> {
    let mut bytes = vec![0; length];
    if let Some(first) = bytes.first_mut() {
        *first = version.number();
    }
    bytes
}

/// A header with these counts, and `length` zeros after it.
pub(crate) fn header(version: Version, counts: [u32; 3], length: usize) -> Vec<u8> {
    let mut bytes = version_and_zeros(version, HEADER + length);
    for (place, count) in COUNTS.iter().zip(counts) {
        bytes[*place..place + 4].copy_from_slice(&count.to_le_bytes());
    }
    bytes
}

/// The records of a section with every part: odd and even numbers of locations and live-outs, and all
/// five kinds. Of each version's own are the sizes of kinds 1, 2, 3 and 5, and the last offset.
pub(crate) fn records(sizes: [u16; 4], last: u32) -> Vec<Record> {
    let mut records = vec![
        record(0, 0, 0),
        record(4, 3, 2),
        record(4, 2, 1),
        record(last, 1, 0),
    ];
    for (i, location) in records[1].locations.iter_mut().enumerate() {
        *location = Location {
            kind: i as u8 + 1,
            size: sizes[i],
            register: 0xffff,
            offset: u32::MAX,
        };
    }
    records[2].locations[0].kind = 4;
    records[2].locations[1] = Location {
        kind: 5,
        size: sizes[3],
        register: 0,
        offset: 1,
    };
    records
}

/// The section whole and cut at every byte. The names are for the whole one, one cut in its header,
/// and one cut after it.
pub(crate) fn cuts(section: &Section, names: [&'static str; 3], visit: Visit) {
    let [whole, cut_header, cut_after] = names;
    let built = section.build();
    visit(Case::known(whole, built.bytes.clone(), 0, 0));
    for length in 0..built.bytes.len() {
        let cut = built.bytes[..length].to_vec();
        let (name, number, place) = match length < HEADER {
            true => (cut_header, 1, 0),
            false => (cut_after, 4, item_at(section, &built, length)),
        };
        visit(Case::known(name, cut, number, place));
    }
}

/// The section with pools of no to three constants, and as its third record's only location numbers
/// of a pool's entries and numbers that only look like one. With no constants that location stands at
/// `place`.
pub(crate) fn pools(whole: &Section, place: usize) -> Vec<Answered> {
    const EDGES: [u32; 4] = [0x7fff_ffff, 0x8000_0000, 0x8000_0001, 0xffff_ffff];
    let mut sections = Vec::new();
    for pool in 0..4 {
        for index in (0..5).chain(EDGES) {
            let mut section = whole.clone();
            section.constants = vec![0; pool];
            section.records[2].locations = vec![Location {
                kind: 5,
                size: 0,
                register: 0,
                offset: index,
            }];
            let fault = index as usize >= pool;
            let (number, place) = if fault { (7, place + 8 * pool) } else { (0, 0) };
            sections.push((section, number, place));
        }
    }
    sections
}

/// The section with a second record of as many locations and live-outs as it can state. The names are
/// for the whole one, and for ones with that record cut, with a wrong last kind, and with a last
/// live-out whose zero is none.
pub(crate) fn full_record(mut section: Section, names: [&'static str; 4], visit: Visit) {
    let [whole, cut, last_kind, last_live_out] = names;
    section.records[1] = record(4, 65_535, 65_535);
    let built = section.build();
    let (start, last) = (built.records[1].start, built.records[2].start - 1);
    visit(Case::known(whole, built.bytes.clone(), 0, 0));
    visit(Case::known(cut, built.bytes[..last].to_vec(), 4, start));
    let place = built.locations[65_534];
    let mut kind = built.clone();
    kind.set(place, 1, 6);
    visit(Case::known(last_kind, kind.bytes, 6, place));
    let mut zero = built;
    zero.set(last - 1, 1, 1);
    visit(Case::known(last_live_out, zero.bytes, 3, last - 1));
}

/// Each of these bytes, a section's or a listing's, at each value.
pub(crate) fn single_bytes(bytes: &[u8], name: &'static str, visit: Visit) {
    for place in 0..bytes.len() {
        for value in 0..=255 {
            let mut changed = bytes.to_vec();
            changed[place] = value;
            visit(Case::open(name, changed));
        }
    }
}
