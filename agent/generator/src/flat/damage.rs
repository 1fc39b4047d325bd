//! Damages of any kind, with no word on what they do.

use super::aimed::{frame_reach, record_reaches, register_range, set_range};
use super::layout::{Built, Flat, OFFSETS, REACH, STRIDES};
use super::valid::{range, reaching};
use crate::damage::damage_bytes;
use crate::rng::Rng;

/// Damages the section once. `other` is where pieces come from.
pub(super) fn damage(rng: &mut Rng, flat: &Flat, built: &mut Built, other: &[u8]) {
    match rng.below(10) {
        0 | 1 => set_number(rng, built),
        2 => exchange_offsets(rng, built),
        3 => shift_offset(rng, built),
        4 => shift_end(rng, built),
        5 => name_registers(rng, flat, built),
        6 => name_entries(rng, flat, built),
        _ => damage_bytes(rng, &mut built.bytes, other),
    }
}

/// Sets a number to one beside it, or to one at an edge of its width.
fn set_number(rng: &mut Rng, built: &mut Built) {
    let (place, width) = rng.pick(&built.numbers);
    let mut old = [0; 8];
    match built.bytes.get(place..place + width) {
        Some(bytes) => old[..width].copy_from_slice(bytes),
        None => return,
    }
    let old = u64::from_le_bytes(old);
    let new = match rng.below(4) {
        0 => old.wrapping_add(1),
        1 => old.wrapping_sub(1),
        _ => rng.number(8 * width as u32),
    };
    built.set(place, width, new);
}

fn exchange_offsets(rng: &mut Rng, built: &mut Built) {
    let (one, other) = (rng.pick(&OFFSETS), rng.pick(&OFFSETS));
    if built.bytes.len() >= 28 {
        (0..4).for_each(|byte| built.bytes.swap(one + byte, other + byte));
    }
}

/// Moves an array's offset by whole entries of it or of the array before: 56 bytes are seven
/// constants or two frames, 8 are one location or two live-outs. Other entries then stand there.
fn shift_offset(rng: &mut Rng, built: &mut Built) {
    let array = rng.below(OFFSETS.len());
    let by = rng.pick(&[8, 24, 44, 56, STRIDES[array]]);
    let offset = built.starts[array];
    let moved = if rng.one_in(2) {
        offset + by
    } else {
        offset.saturating_sub(by)
    };
    built.set(OFFSETS[array], 4, moved as u64);
}

/// Adds whole live-outs or takes some away, and what stands there.
fn shift_end(rng: &mut Rng, built: &mut Built) {
    let bytes = 4 * (1 + rng.below(3));
    let end = built.bytes.len();
    if rng.one_in(2) {
        built.bytes.resize(end + bytes, 0);
    } else {
        built.bytes.truncate(end.saturating_sub(bytes));
    }
}

/// A frame names one register more or less than there are, which padding may hide.
fn name_registers(rng: &mut Rng, flat: &Flat, built: &mut Built) {
    if flat.frames.is_empty() {
        return;
    }
    let count = flat.registers.len();
    let named = rng.pick(&[count.saturating_sub(1), count, (count + 1).min(REACH)]);
    for frame in 0..flat.frames.len() {
        let place = register_range(built, frame);
        let named = reaching(rng, named);
        set_range(built, place, named);
    }
}

/// A frame or a record names other entries, inside their arrays.
fn name_entries(rng: &mut Rng, flat: &Flat, built: &mut Built) {
    let reach = match (flat.frames.len(), flat.records.len()) {
        (0, 0) => return,
        (frames, 0) => frame_reach(flat, built, rng.below(frames)),
        (frames, _) if frames > 0 && rng.one_in(2) => frame_reach(flat, built, rng.below(frames)),
        (_, records) => {
            let record = rng.below(records);
            rng.pick(&record_reaches(flat, built, record))
        }
    };
    let named = range(rng, reach.entries);
    set_range(built, reach.place, named);
}
