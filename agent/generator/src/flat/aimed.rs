//! Faults with a known answer: each takes a whole flat section and makes one refusal of it.

use super::layout::{Built, Flat, Range};
use super::layout::{ALIGNMENTS, FRAMES, LEAST, OFFSETS, REACH, RECORDS, VERSION};
use super::valid::reaching;
use crate::rng::Rng;

/// The refusals that a section can be aimed at.
pub const NUMBERS: [u64; 5] = [36, 37, 38, 39, 40];

/// Makes this refusal of a whole section. Where that fails, the section is left as it was, and the
/// answer is false.
pub fn aim(rng: &mut Rng, number: u64, flat: &Flat, built: &mut Built) -> bool {
    match number {
        36 => cut_short(rng, built),
        37 => set_version(rng, built),
        38 => misplace(rng, flat, built),
        39 => reach_past(rng, flat, built),
        40 => set_reserved(rng, built),
        _ => false,
    }
}

fn cut_short(rng: &mut Rng, built: &mut Built) -> bool {
    let length = match rng.below(3) {
        0 => LEAST - 1,
        _ => rng.below(LEAST),
    };
    built.bytes.truncate(length);
    true
}

fn set_version(rng: &mut Rng, built: &mut Built) -> bool {
    let version = match rng.below(4) {
        0 => 1,
        1 => 3,
        _ => rng.byte(),
    };
    built.set(0, 1, if version == VERSION { 0 } else { version }.into());
    true
}

/// Refusal 38: an offset, the end, or the number of frame registers.
fn misplace(rng: &mut Rng, flat: &Flat, built: &mut Built) -> bool {
    match rng.below(8) {
        0 => misplace_end(rng, built),
        1 => misplace_registers(rng, flat, built),
        _ => {
            let array = rng.below(OFFSETS.len());
            let offsets = wrong_offsets(built, array);
            let offset = rng.pick(&offsets);
            built.set(OFFSETS[array], 4, offset.into());
            true
        }
    }
}

/// Offsets of an array that nothing else in the section can make right: off by one, by the array's
/// alignment, and outside.
pub fn wrong_offsets(built: &Built, array: usize) -> [u32; 9] {
    let offset = built.starts[array] as u32;
    let alignment = ALIGNMENTS[array] as u32;
    let end = built.bytes.len() as u32;
    [
        offset + 1,
        offset - 1,
        offset + alignment,
        offset - alignment,
        0,
        LEAST as u32 - 1,
        end + 1,
        u32::MAX - 1,
        u32::MAX,
    ]
}

/// The section ends one to three bytes late or soon, where it doesn't get too short.
fn misplace_end(rng: &mut Rng, built: &mut Built) -> bool {
    let bytes = 1 + rng.below(3);
    let end = built.bytes.len();
    if end < LEAST + bytes || rng.one_in(2) {
        built.bytes.resize(end + bytes, 0);
    } else {
        built.bytes.truncate(end - bytes);
    }
    true
}

/// A frame names registers so far past the last that the records would have to begin later.
fn misplace_registers(rng: &mut Rng, flat: &Flat, built: &mut Built) -> bool {
    // Two registers have more bytes than any padding.
    let past = flat.registers.len() + 2 + rng.below(3);
    if flat.frames.is_empty() || past > REACH {
        return false;
    }
    let place = register_range(built, rng.below(flat.frames.len()));
    let range = reaching(rng, past);
    set_range(built, place, range);
    true
}

/// Where the range of a frame's registers stands.
pub fn register_range(built: &Built, frame: usize) -> usize {
    built.entry(FRAMES, frame) + 20
}

/// A range of an entry that must be inside its array.
#[derive(Clone, Copy, Debug)]
pub struct Reach {
    /// Where its count stands; the index is two bytes after it.
    pub place: usize,
    pub range: Range,
    /// How many entries its array has.
    pub entries: usize,
}

/// The ranges of a frame's records.
pub fn frame_reach(flat: &Flat, built: &Built, number: usize) -> Reach {
    Reach {
        place: built.entry(FRAMES, number) + 24,
        range: flat.frames[number].records,
        entries: flat.records.len(),
    }
}

/// The ranges of a record's locations and live-outs.
pub fn record_reaches(flat: &Flat, built: &Built, number: usize) -> [Reach; 2] {
    let place = built.entry(RECORDS, number);
    let record = &flat.records[number];
    [
        Reach {
            place: place + 14,
            range: record.locations,
            entries: flat.locations.len(),
        },
        Reach {
            place: place + 18,
            range: record.live_outs,
            entries: flat.live_outs.len(),
        },
    ]
}

/// Writes a range, of which the count stands first.
pub fn set_range(built: &mut Built, place: usize, range: Range) {
    built.set(place, 2, range.count.into());
    built.set(place + 2, 2, range.index.into());
}

/// Refusal 39: a range that reaches past its array, mostly by one. An array that is longer than any
/// range reaches is left alone.
fn reach_past(rng: &mut Rng, flat: &Flat, built: &mut Built) -> bool {
    let (frames, records) = (flat.frames.len(), flat.records.len());
    if frames + records == 0 {
        return false;
    }
    let nth = rng.below(frames + records);
    let reach = match nth.checked_sub(frames) {
        None => frame_reach(flat, built, nth),
        Some(record) => rng.pick(&record_reaches(flat, built, record)),
    };
    let past = reach.entries + 1 + rng.below(2) * rng.below(REACH);
    if reach.entries >= REACH {
        return false;
    }
    let range = reaching(rng, past.min(REACH));
    set_range(built, reach.place, range);
    true
}

/// Refusal 40: one bit that must be zero, or several.
fn set_reserved(rng: &mut Rng, built: &mut Built) -> bool {
    for _ in 0..=rng.below(2) * rng.below(4) {
        let (place, mask) = rng.pick(&built.reserved);
        let bits = [1, 2, 4, 8, 16, 32, 64, 128];
        let bits: Vec<u8> = bits.into_iter().filter(|bit| mask & bit != 0).collect();
        if let Some(byte) = built.bytes.get_mut(place) {
            *byte |= rng.pick(&bits);
        }
    }
    true
}
