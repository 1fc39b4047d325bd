//! Small flat sections at the edges of the rules, and indexes at the end of their 16 bits; the same
//! in every run.

use super::aimed::{frame_reach, record_reaches, register_range, set_range, wrong_offsets, Reach};
use super::layout::{Built, Flat, Frame, FrameRegister, LiveOut, Location, Range, Record};
use super::layout::{FRAMES, LEAST, OFFSETS, REACH, RECORDS, REGISTERS, VERSION};
use crate::edges::Visit;
use crate::Case;

/// Hands over all of them.
pub fn all(visit: Visit) {
    lengths(visit);
    versions(visit);
    for flat in bases() {
        let built = flat.build();
        visit(Case::known("whole", built.bytes.clone(), 0, 0));
        reserved_bits(&built, visit);
        offsets(&built, visit);
        ranges(&flat, &built, visit);
        register_ranges(&flat, &built, visit);
        ends(&built, visit);
        single_bytes(&built, visit);
    }
    wide(visit);
}

/// So many entries in each array. The frames share records, the records locations and live-outs:
/// each but the first frame leaves its first record to the one before.
pub fn of_counts(counts: [usize; 6]) -> Flat {
    let [constants, frames, registers, records, locations, live_outs] = counts;
    let from = |nth: usize, entries: usize| {
        let index = nth.min(entries).min(65_535);
        Range {
            index: index as u16,
            count: (entries - index).min(65_535) as u16,
        }
    };
    Flat {
        constants: (0..constants).map(|nth| !(nth as u64)).collect(),
        frames: (0..frames)
            .map(|nth| Frame {
                address: 0x1000 * (1 + nth as u64),
                size: 0x400,
                stack_size: 24,
                flags: 0xf,
                base_register: 6,
                registers: from(nth, registers),
                records: from(nth, records),
            })
            .collect(),
        registers: (0..registers).map(register).collect(),
        records: (0..records)
            .map(|nth| Record {
                id: nth as u64,
                offset: 8 * nth as u32,
                call_size: 5,
                flags: 1,
                locations: from(nth, locations),
                live_outs: from(nth, live_outs),
            })
            .collect(),
        locations: (0..locations).map(location).collect(),
        live_outs: (0..live_outs).map(live_out).collect(),
    }
}

fn register(nth: usize) -> FrameRegister {
    FrameRegister {
        register: nth as u16,
        offset: (nth as i16).wrapping_mul(-8),
        size: 8,
        flags: 1,
    }
}

fn location(nth: usize) -> Location {
    Location {
        kind: nth as u8,
        register: 7,
        offset: (nth as i32).wrapping_mul(-8),
    }
}

fn live_out(nth: usize) -> LiveOut {
    LiveOut {
        register: nth as u16,
        size: 8,
    }
}

/// Sections with nothing, with one array, with all but one, with everything, with both parities of
/// the records and with every length of the padding after the frame registers.
pub fn bases() -> Vec<Flat> {
    let mut bases = vec![of_counts([0; 6])];
    for array in 0..6 {
        let mut alone = [0; 6];
        alone[array] = 2;
        let mut without = [2, 2, 2, 3, 2, 2];
        without[array] = 0;
        for mut counts in [alone, without] {
            if counts[FRAMES] == 0 {
                counts[REGISTERS] = 0;
            }
            bases.push(of_counts(counts));
        }
    }
    bases.push(of_counts([1; 6]));
    for records in 1..=4 {
        bases.push(of_counts([1, 2, 3, records, 3, 2]));
    }
    for frames in 1..=2 {
        for registers in 1..=4 {
            bases.push(of_counts([0, frames, registers, 2, 1, 3]));
        }
    }
    bases
}

fn lengths(visit: Visit) {
    let least = of_counts([0; 6]).encode();
    for length in 0..LEAST {
        let names = ["under 32 bytes", "under 32 bytes, ones"];
        visit(Case::known(names[0], least[..length].to_vec(), 36, 0));
        visit(Case::known(names[1], vec![0xff; length], 36, 0));
    }
    for length in LEAST..100 {
        visit(Case::known("all zero", vec![0; length], 37, 0));
        visit(Case::known("all ones", vec![0xff; length], 37, 0));
        let mut bytes = vec![0; length];
        bytes[0] = VERSION;
        visit(Case::known("version and zeros", bytes, 38, 0));
    }
}

fn versions(visit: Visit) {
    for version in 0..=255 {
        let mut bytes = of_counts([1; 6]).encode();
        bytes[0] = version;
        let number = if version == VERSION { 0 } else { 37 };
        visit(Case::known("version", bytes, number, 0));
    }
}

/// Every bit that must be zero, alone.
fn reserved_bits(built: &Built, visit: Visit) {
    for (place, mask) in &built.reserved {
        for bit in (0..8).map(|bit| 1 << bit).filter(|bit| mask & bit != 0) {
            let mut bytes = built.bytes.clone();
            bytes[*place] |= bit;
            visit(Case::known("reserved bit", bytes, 40, 0));
        }
    }
}

/// Every offset off by one, by its alignment, outside, and exchanged with another.
fn offsets(built: &Built, visit: Visit) {
    for (array, place) in OFFSETS.into_iter().enumerate() {
        for offset in wrong_offsets(built, array) {
            let mut damaged = built.clone();
            damaged.set(place, 4, offset.into());
            visit(Case::known("wrong offset", damaged.bytes, 38, 0));
        }
        for by in (2..=64).step_by(2) {
            for offset in [built.starts[array] + by, built.starts[array] - by / 2] {
                let mut damaged = built.clone();
                damaged.set(place, 4, offset as u64);
                visit(Case::open("other offset", damaged.bytes));
            }
        }
        for other in OFFSETS {
            let mut bytes = built.bytes.clone();
            (0..4).for_each(|byte| bytes.swap(place + byte, other + byte));
            visit(Case::open("offsets exchanged", bytes));
        }
    }
}

/// Every range that must be inside its array: up to its end, and just past it.
fn ranges(flat: &Flat, built: &Built, visit: Visit) {
    let frames = (0..flat.frames.len()).map(|nth| frame_reach(flat, built, nth));
    let records = (0..flat.records.len()).flat_map(|nth| record_reaches(flat, built, nth));
    for reach in frames.chain(records) {
        for (index, count, number) in around(&reach) {
            let mut damaged = built.clone();
            let range = Range { index, count };
            set_range(&mut damaged, reach.place, range);
            visit(Case::known("range", damaged.bytes, number, 0));
        }
    }
}

/// Indexes and counts around the end of an array of a few entries, with the answer.
fn around(reach: &Reach) -> [(u16, u16, u64); 9] {
    let entries = reach.entries as u16;
    [
        (0, entries, 0),
        (entries, 0, 0),
        (0, entries + 1, 39),
        (entries, 1, 39),
        (entries + 1, 0, 39),
        (1, entries, 39),
        (65_535, 1, 39),
        (1, 65_535, 39),
        (65_535, 65_535, 39),
    ]
}

/// Every frame's registers: as many as there are, or more or fewer, which padding may hide.
fn register_ranges(flat: &Flat, built: &Built, visit: Visit) {
    for frame in 0..flat.frames.len() {
        let place = register_range(built, frame);
        for end in 0..=flat.registers.len() as u16 + 3 {
            for index in [0, end] {
                let mut damaged = built.clone();
                let count = end - index;
                set_range(&mut damaged, place, Range { index, count });
                visit(Case::open("frame registers named", damaged.bytes));
            }
        }
        for (index, count) in [(65_535, 0), (65_535, 1), (65_535, 65_535), (0, 65_535)] {
            let mut damaged = built.clone();
            set_range(&mut damaged, place, Range { index, count });
            visit(Case::known("frame registers named", damaged.bytes, 38, 0));
        }
    }
}

/// Every cut, and bytes after the end: four of them are a live-out.
fn ends(built: &Built, visit: Visit) {
    for length in 0..built.bytes.len() {
        visit(Case::open("cut", built.bytes[..length].to_vec()));
    }
    for more in 1..=9 {
        let mut bytes = built.bytes.clone();
        bytes.resize(bytes.len() + more, 0);
        let number = if more % 4 == 0 { 0 } else { 38 };
        visit(Case::known("bytes after the end", bytes, number, 0));
    }
    let mut bytes = built.bytes.clone();
    bytes.resize(bytes.len() + 4, 0xff);
    visit(Case::known("ones after the end", bytes, 40, 0));
}

/// Every byte with one bit turned, or all.
fn single_bytes(built: &Built, visit: Visit) {
    for place in 0..built.bytes.len() {
        for mask in [1, 2, 4, 8, 0x10, 0x20, 0x40, 0x80, 0xff] {
            let mut bytes = built.bytes.clone();
            bytes[place] ^= mask;
            visit(Case::open("one byte", bytes));
        }
    }
}

/// Arrays as long as an index and a count of 16 bits reach, one shorter and one longer. Frame
/// registers can't be more.
pub fn wide(visit: Visit) {
    for entries in [REACH - 1, REACH, REACH + 1] {
        let number = if entries < REACH { 39 } else { 0 };
        for array in RECORDS..6 {
            let mut counts = [0, 1, 0, 1, 0, 0];
            counts[array] = entries;
            let flat = of_counts(counts);
            let mut built = flat.build();
            visit(Case::known("wide", built.bytes.clone(), 0, 0));
            let reach = match array {
                RECORDS => frame_reach(&flat, &built, 0),
                _ => record_reaches(&flat, &built, 0)[array - RECORDS - 1],
            };
            set_range(&mut built, reach.place, FARTHEST);
            visit(Case::known("wide, the last", built.bytes, number, 0));
        }
    }
    let mut flat = of_counts([0, 2, 0, 0, 0, 0]);
    flat.registers = (0..REACH).map(register).collect();
    flat.frames[1].registers = FARTHEST;
    visit(Case::known("wide, frame registers", flat.encode(), 0, 0));
    flat.registers.truncate(REACH - 2);
    visit(Case::known("wide, too few", flat.encode(), 38, 0));
}

/// The range that reaches farthest.
const FARTHEST: Range = Range {
    index: 65_535,
    count: 65_535,
};
