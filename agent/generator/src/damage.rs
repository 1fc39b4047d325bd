//! Damages of any kind, with no word on what they do: bits, bytes, numbers and pieces.

use crate::layout::{Built, Version, COUNTS};
use crate::rng::Rng;

/// Bytes that mean something somewhere in a section.
const BYTES: [u8; 12] = [0, 1, 2, 3, 4, 5, 6, 7, 0x7f, 0x80, 0xfe, 0xff];

/// Damages the section once. `other` is where pieces come from.
pub fn damage(rng: &mut Rng, built: &mut Built, other: &[u8]) {
    match rng.below(12) {
        0 => swap_counts(rng, built),
        1 | 2 => set_number(rng, built),
        3 => scramble(rng, built),
        4 => set_version(rng, built),
        _ => damage_bytes(rng, &mut built.bytes, other),
    }
}

/// Damages any bytes once.
pub fn damage_bytes(rng: &mut Rng, bytes: &mut Vec<u8>, other: &[u8]) {
    match rng.below(6) {
        0 => flip_bits(rng, bytes),
        1 => set_byte(rng, bytes),
        2 => cut(rng, bytes),
        3 => grow(rng, bytes, other),
        4 => copy_piece(rng, bytes, other),
        _ => move_piece(rng, bytes),
    }
}

fn flip_bits(rng: &mut Rng, bytes: &mut [u8]) {
    for _ in 0..=rng.below(3) {
        if !bytes.is_empty() {
            bytes[rng.below(bytes.len())] ^= 1 << rng.below(8);
        }
    }
}

fn set_byte(rng: &mut Rng, bytes: &mut [u8]) {
    if !bytes.is_empty() {
        bytes[rng.below(bytes.len())] = if rng.one_in(3) {
            rng.byte()
        } else {
            rng.pick(&BYTES)
        };
    }
}

fn cut(rng: &mut Rng, bytes: &mut Vec<u8>) {
    let end = bytes.len();
    let length = if rng.one_in(2) {
        end - rng.below(end.min(24) + 1)
    } else {
        rng.below(end + 1)
    };
    bytes.truncate(length);
}

/// Puts bytes in, at the end or anywhere.
fn grow(rng: &mut Rng, bytes: &mut Vec<u8>, other: &[u8]) {
    let place = if rng.one_in(2) {
        bytes.len()
    } else {
        rng.below(bytes.len() + 1)
    };
    let count = rng.pick(&[1, 2, 4, 8, 12, 16, 24]);
    let piece = match rng.below(3) {
        0 => vec![0; count],
        1 => (0..count).map(|_| rng.byte()).collect(),
        _ => piece(rng, other).to_vec(),
    };
    bytes.splice(place..place, piece);
}

/// Has the section state the other version, or any.
fn set_version(rng: &mut Rng, built: &mut Built) {
    let version = rng.pick(&[1, 3, 1, 3, 2, 0]);
    built.set(0, 1, version);
}

/// Exchanges two counts of the header, of two functions, or of one record.
fn swap_counts(rng: &mut Rng, built: &mut Built) {
    let counted = built.version == Version::Three && !built.functions.is_empty();
    let (one, two, width) = match rng.below(3) {
        0 if counted => (
            rng.pick(&built.functions) + 16,
            rng.pick(&built.functions) + 16,
            8,
        ),
        1 if !built.records.is_empty() => {
            let spot = &built.records[rng.below(built.records.len())];
            (spot.start + 14, spot.out_count, 2)
        }
        _ => (rng.pick(&COUNTS), rng.pick(&COUNTS), 4),
    };
    if one + width <= built.bytes.len() && two + width <= built.bytes.len() {
        for i in 0..width {
            built.bytes.swap(one + i, two + i);
        }
    }
}

/// Sets a number to one beside it, or to one at an edge of its width.
fn set_number(rng: &mut Rng, built: &mut Built) {
    let counts = [(COUNTS[0], 4), (COUNTS[1], 4), (COUNTS[2], 4)];
    let from = if rng.one_in(4) {
        &counts[..]
    } else {
        &built.numbers[..]
    };
    let (place, width) = rng.pick(from);
    let mut old = [0; 8];
    match built.bytes.get(place..place + width) {
        Some(bytes) => old[..width].copy_from_slice(bytes),
        None => return,
    }
    let old = u64::from_le_bytes(old);
    let new = match rng.below(4) {
        0 => old.wrapping_add(1),
        1 => old.wrapping_sub(1),
        _ => rng.number(8 * width as u32),
    };
    built.set(place, width, new);
}

/// A part of at most 48 bytes.
fn piece<'a>(rng: &mut Rng, bytes: &'a [u8]) -> &'a [u8] {
    let start = rng.below(bytes.len() + 1);
    let rest = &bytes[start..];
    &rest[..rng.below(rest.len().min(48) + 1)]
}

/// Writes a piece of another section over this one, mostly at a place where numbers line up.
fn copy_piece(rng: &mut Rng, bytes: &mut [u8], other: &[u8]) {
    let piece = piece(rng, other);
    let mut place = rng.below(bytes.len() + 1);
    if !rng.one_in(4) {
        place -= place % 4;
    }
    let room = piece.len().min(bytes.len() - place);
    bytes[place..place + room].copy_from_slice(&piece[..room]);
}

/// Takes a piece out and, mostly, puts it in elsewhere.
fn move_piece(rng: &mut Rng, bytes: &mut Vec<u8>) {
    let start = rng.below(bytes.len() + 1);
    let count = rng.pick(&[1, 4, 8, 12, 24, 40]).min(bytes.len() - start);
    let piece: Vec<u8> = bytes.drain(start..start + count).collect();
    if !rng.one_in(3) {
        let place = rng.below(bytes.len() + 1);
        bytes.splice(place..place, piece);
    }
}

/// Sets several bytes that stand together, so that more than one rule is broken there: in a
/// location, in a record's head, around its live-outs, or anywhere.
fn scramble(rng: &mut Rng, built: &mut Built) {
    let end = built.bytes.len();
    let (start, count) = match rng.below(4) {
        0 if !built.locations.is_empty() => (rng.pick(&built.locations), built.version.location()),
        1 if !built.records.is_empty() => {
            (built.records[rng.below(built.records.len())].start + 8, 8)
        }
        2 if !built.records.is_empty() => (
            built.records[rng.below(built.records.len())].out_count - 6,
            16,
        ),
        _ => (rng.below(end + 1), 16),
    };
    for place in start..(start + count).min(end) {
        if rng.one_in(3) {
            built.bytes[place] = rng.pick(&BYTES);
        }
    }
}
