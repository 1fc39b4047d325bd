//! Slots of a frame that are asked for, and the reason that each gets: one more opinion on it, worked out
//! plainly from the scene.

use super::plain::{self, Slot};
use super::{Scene, MOST_POINTERS, REGISTERS};
use crate::rng::Rng;

/// A slot that is asked for: the address of a first byte, or a register.
#[derive(Clone, Copy, Debug, PartialEq, Eq)]
pub enum Asked {
    Address(u64),
    Register(u64),
}

/// The numbers of the reasons.
pub const UNLISTED: u64 = 0;
pub const ONLY_BASE: u64 = 1;
pub const NULL_BASE: u64 = 2;
pub const MOVED: u64 = 3;
pub const REFUSED: u64 = 4;

/// The reason of a slot of a frame, where nothing is wrong with the section, the machine, the image and the
/// table: its number, number and place of a refusal, and pair, old base and new base.
pub fn reason(scene: &Scene, stop: usize, asked: Asked) -> [u64; 6] {
    reason_under(scene, stop, asked, MOST_POINTERS)
}

/// The reason of a slot of a frame that may have so many pointers.
pub fn reason_under(scene: &Scene, stop: usize, asked: Asked, most: usize) -> [u64; 6] {
    let (number, place) = plain::refusal_under(scene, stop, most);
    if number != 0 {
        return [REFUSED, number, place, 0, 0, 0];
    }
    let start = scene.stack_pointer(stop);
    let is = |slot: Slot| match (slot, asked) {
        (Slot::Stack(at), Asked::Address(own)) => i128::from(start) + at == i128::from(own),
        (Slot::Register(number), Asked::Register(own)) => number as u64 == own,
        _ => false,
    };
    let (mut base_only, mut null) = (false, false);
    for (pair, pointers) in plain::slots(scene, stop).iter().enumerate() {
        for [base, derived] in pointers {
            base_only |= is(*base);
            if !is(*derived) {
                continue;
            }
            match plain::content(scene, stop, *base) {
                0 => null = true,
                old => {
                    let new = scene.table.moved(old).expect("an accepted frame");
                    return [MOVED, 0, 0, pair as u64, old, new];
                }
            }
        }
    }
    match (null, base_only) {
        (true, _) => [NULL_BASE, 0, 0, 0, 0, 0],
        (_, true) => [ONLY_BASE, 0, 0, 0, 0, 0],
        _ => [UNLISTED, 0, 0, 0, 0, 0],
    }
}

/// A slot to ask for: mostly one that a location of the frame's record names, as pair, as null pair or as
/// deoptimisation value, or one beside it.
pub fn asked(rng: &mut Rng, scene: &Scene, stop: usize) -> Asked {
    let record = scene.section.records.get(scene.stops[stop].record);
    let locations = record.map_or(&[][..], |record| &record.locations);
    let start = scene.stack_pointer(stop);
    if locations.is_empty() || rng.one_in(12) {
        return anything(rng, start);
    }
    let location = &locations[rng.below(locations.len())];
    let own = scene.stops[stop]
        .registers
        .get(usize::from(location.register));
    let nth = match rng.below(3) {
        0 => 8 * rng.below(usize::from(location.size / 8) + 1) as u64,
        _ => 0,
    };
    let address = own
        .map_or(start, |own| *own)
        .wrapping_add_signed(i64::from(location.offset as i32))
        .wrapping_add(nth);
    let register = u64::from(location.register);
    match (location.kind, rng.below(10)) {
        (1, 0) => Asked::Address(register),
        (1, 1) => Asked::Register(register + rng.pick(&[32, 1 << 8, 1 << 16, 1 << 32])),
        (1, 2) => Asked::Register(register ^ 1),
        (1, _) => Asked::Register(register),
        (3, 0) => Asked::Register(address),
        (3, 1) => Asked::Address(address.wrapping_add(1 + rng.below(7) as u64)),
        (3, 2) => Asked::Address(address.wrapping_sub(1 + rng.below(8) as u64)),
        (3, _) => Asked::Address(address),
        (_, 0..=4) => Asked::Register(register),
        _ => Asked::Address(address),
    }
}

/// A slot near the stack pointer, a register, or anything.
fn anything(rng: &mut Rng, start: u64) -> Asked {
    match rng.below(4) {
        0 => Asked::Register(rng.below(REGISTERS + 2) as u64),
        1 => Asked::Register(rng.number(64)),
        2 => Asked::Address(start.wrapping_add(8 * rng.below(12) as u64)),
        _ => Asked::Address(rng.number(64)),
    }
}
