//! Small listings at the edges of the rules, those of version 3 and all orders of kinds, the same in
//! every run.

use super::grammar::may_follow;
use super::overfull::MOST;
use super::{item_length, Listed, END, FUNCTION, LOCATION, RECORD, VERSION};
use crate::asked::full_record;
use crate::edges::{addresses, both, every_part, function, pools, record, Answered, Visit, SUMS};
use crate::layout::{LiveOut, Section};
use crate::Case;

/// Hands over all of them.
pub fn all(visit: Visit) {
    orders(visit);
    let listed = Listed::of(&every_part());
    cuts(&listed, ["cut", "every part"], visit);
    after_the_end(every_part(), 6, "after the end", visit);
    values(addresses().into_iter().chain(pools()), "value", visit);
    sums(visit);
    full_records(visit);
    both::single_bytes(&listed.bytes, "one byte", visit);
}

/// Every sequence of up to five kinds, one of them unknown. Those that begin with item 7 also as
/// version 1 has room for them.
fn orders(visit: Visit) {
    for length in 0..=5 {
        for number in 0..8usize.pow(length) {
            let kinds: Vec<u8> = (0..length)
                .map(|digit| (number >> (3 * digit)) as u8 & 7)
                .collect();
            let fill = if kinds.first() == Some(&VERSION) {
                2
            } else {
                1
            };
            for wide in [true, false].into_iter().take(fill) {
                let (number, place) = ordered(&kinds, wide);
                visit(Case::known("order", items(&kinds, wide), number, place));
            }
        }
    }
}

/// Whole items of these kinds; unknown ones are a byte. All other bytes are 1. But the first function
/// says how many records there are, and unless they are to be wide, no function does and sizes are
/// one byte.
fn items(kinds: &[u8], wide: bool) -> Vec<u8> {
    let mut bytes = Vec::new();
    let records = kinds.iter().filter(|kind| **kind == RECORD).count();
    let mut records = if wide { records } else { 0 };
    for kind in kinds {
        bytes.push(*kind);
        if (1..=VERSION).contains(kind) {
            bytes.resize(bytes.len() + item_length(*kind) - 1, 1);
        }
        if *kind == LOCATION && !wide {
            let size = bytes.len() - 7;
            bytes[size] = 0;
        }
        if *kind == FUNCTION {
            let count = bytes.len() - 8;
            bytes[count..].copy_from_slice(&(records as u64).to_le_bytes());
            records = 0;
        }
    }
    bytes
}

/// Number and place of the answer to such items.
fn ordered(kinds: &[u8], wide: bool) -> (u64, usize) {
    let (mut place, mut before) = (0, 0);
    let (first, counted) = (kinds.first() == Some(&VERSION), kinds.contains(&RECORD));
    let mut beyond = None;
    for (nth, kind) in kinds.iter().enumerate() {
        if !may_follow(before, *kind) {
            return (22, place);
        }
        // Only the first function has a count, and all sizes are 257.
        if *kind == LOCATION || *kind == FUNCTION && counted {
            beyond = beyond.or(Some(place));
        }
        place += item_length(*kind);
        before = *kind;
        if *kind == END && nth + 1 < kinds.len() {
            return (22, place);
        }
    }
    if before != END {
        (22, place)
    } else if first {
        beyond.filter(|_| wide).map_or((0, 0), |place| (28, place))
    } else if kinds.contains(&RECORD) && kinds[0] != FUNCTION {
        (5, 12)
    } else {
        (0, 0)
    }
}

/// A listing cut at every byte, and whole. The names are for a cut one and for the whole one.
pub(super) fn cuts(listed: &Listed, names: [&'static str; 2], visit: Visit) {
    for length in 0..listed.bytes.len() {
        let nth = listed.items.partition_point(|item| *item <= length) - 1;
        let cut = listed.bytes[..length].to_vec();
        visit(Case::known(names[0], cut, 22, listed.items[nth]));
    }
    visit(Case::known(names[1], listed.bytes.clone(), 0, 0));
}

/// Every byte after the end of an empty listing and of this section's, alone, before `second`, and
/// before more of itself.
pub(super) fn after_the_end(section: Section, second: u8, name: &'static str, visit: Visit) {
    let empty = Section {
        version: section.version,
        ..Section::default()
    };
    for section in [empty, section] {
        let bytes = Listed::of(&section).bytes;
        for byte in 0..=255 {
            for after in [&[byte][..], &[byte, second], &[byte; 26]] {
                let longer = [&bytes, after].concat();
                visit(Case::known(name, longer, 22, bytes.len()));
            }
        }
    }
}

/// Values that the section's check tests, up to their edges.
pub(super) fn values(sections: impl Iterator<Item = Answered>, name: &'static str, visit: Visit) {
    for (section, number, place) in sections {
        let bytes = Listed::of(&section).bytes;
        visit(Case::known(name, bytes, number, place));
    }
}

/// Record counts whose sum only a narrower number would take for the number of records.
fn sums(visit: Visit) {
    for (counts, records) in SUMS {
        let section = Section {
            functions: counts.iter().map(|count| function(0, *count)).collect(),
            records: vec![record(0, 1, 1); records.min(2) as usize],
            ..Section::default()
        };
        let bytes = Listed::of(&section).bytes;
        visit(Case::known("sums past the width", bytes, 5, 12));
    }
}

/// A record with as many locations and live-outs as it can state, each unlike the one before, and
/// with one more of either.
fn full_records(visit: Visit) {
    let mut section = full_record();
    visit(Case::known("full record", Listed::of(&section).bytes, 0, 0));
    section.records[1].live_outs.push(LiveOut {
        register: 1,
        size: 1,
    });
    let places = |section: &Section| {
        let listed = Listed::of(section);
        let record = listed
            .items
            .iter()
            .filter(|item| listed.bytes[**item] == RECORD);
        (record.copied().collect::<Vec<_>>(), listed.bytes)
    };
    let (records, bytes) = places(&section);
    visit(Case::known("live-outs", bytes, 23, records[1]));
    section.records[2].locations = section.records[1].locations.clone();
    section.records[2]
        .locations
        .push(record(0, 1, 0).locations.remove(0));
    let (records, bytes) = places(&section);
    visit(Case::known("both", bytes, 23, records[1]));
    section.records[1].live_outs.truncate(MOST);
    let (records, mut bytes) = places(&section);
    visit(Case::known("locations", bytes.clone(), 23, records[2]));
    bytes.pop();
    let length = bytes.len();
    visit(Case::known("locations, no end", bytes, 22, length));
}
