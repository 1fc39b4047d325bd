//! What the locations of a section can be made of.

use super::cells::register;
use super::{registers, slot_registers};
use crate::layout::{Location, Version};
use crate::rng::Rng;

/// A section's constants, its version, which decides what sizes there are, and the machine, which
/// decides what the registers are.
#[derive(Clone, Copy, Debug)]
pub(crate) struct Pool<'a> {
    pub(crate) version: Version,
    pub(crate) constants: &'a [u64],
    pub(crate) machine: u64,
}

impl Pool<'_> {
    /// Any size of a location.
    pub(crate) fn size(self, rng: &mut Rng) -> u16 {
        match self.version {
            Version::One => rng.number(8) as u16,
            Version::Three => rng.number(16) as u16,
        }
    }

    /// A size of a location that is so many pointers, one in version 1: 8 for each, and in version 1
    /// also 0.
    pub(crate) fn slot_size(self, rng: &mut Rng, pointers: usize) -> u16 {
        match self.version {
            Version::One => rng.pick(&[0, 8]),
            Version::Three => 8 * pointers as u16,
        }
    }

    /// Two sizes that the locations of a pair don't have together. In version 3 they are unequal, or no
    /// number of pointers, or of more than 256.
    pub(crate) fn wrong_sizes(self, rng: &mut Rng) -> [u16; 2] {
        let many = 8 * (1 + rng.below(256)) as u16;
        let no_slot = match self.version {
            Version::One => rng.pick(&[16, 16, 1, 7, 9, 0x80, 0xf8, 0xff]),
            Version::Three => rng.pick(&[0, 0, 4, 7, many - 1, many + 1, 2_056, 2_056, 0xfff8]),
        };
        let other = match self.version {
            Version::One => self.slot_size(rng, 1),
            Version::Three => many,
        };
        let unequal = match rng.below(3) {
            0 => (many % 2_048) + 8,
            1 => many + 8,
            _ => many - 8,
        };
        let [one, two] = match (rng.below(4), self.version) {
            (0, _) => [no_slot, other],
            (1 | 2, Version::Three) => [many, unequal],
            _ => [no_slot, no_slot],
        };
        match rng.one_in(2) {
            true => [one, two],
            false => [two, one],
        }
    }

    /// A register that no slot is counted from: often one of the other machine's pointers.
    pub(crate) fn wrong_register(self, rng: &mut Rng) -> u16 {
        let near = rng.pick(&registers(self.machine));
        match rng.below(4) {
            0 | 1 => rng.pick(&registers(1 - self.machine)),
            2 => near + rng.pick(&[0x100, 0x600, 16, 32]),
            _ => rng.pick(&[0, 5, 8, 16, 28, 30, 32, u16::MAX]),
        }
    }

    /// A location that is a slot in some register.
    pub(crate) fn register(self, rng: &mut Rng) -> Location {
        let size = self.slot_size(rng, 1);
        register(rng.pick(&slot_registers(self.machine)), size)
    }

    /// A location of kind 1 that is no slot, by its register, its size or its offset.
    pub(crate) fn wrong_slot(self, rng: &mut Rng) -> Location {
        let mut location = self.register(rng);
        let other = match self.version {
            Version::One => rng.pick(&[1, 4, 7, 9, 0x80, 0xf8, 0xff]),
            Version::Three => rng.pick(&[4, 9, 24, 2_048]),
        };
        match rng.below(6) {
            0 | 1 => location.register = self.no_slot(rng),
            2..=4 => {
                location.size = match self.version {
                    Version::One => rng.pick(&[16, 16, other]),
                    Version::Three => rng.pick(&[16, 16, 0, 0, other]),
                }
            }
            _ => location.offset = rng.pick(&[1, 8, u32::MAX, 1 << 31, i32::MAX as u32]),
        }
        location
    }

    /// The number of a register that is no slot: one of the machine's pointers, one past its limit, often
    /// still in the list, or one that only a narrower number would take for a slot.
    fn no_slot(self, rng: &mut Rng) -> u16 {
        let slots = slot_registers(self.machine);
        loop {
            let number = match rng.below(5) {
                0 | 1 => rng.pick(&registers(self.machine)),
                2 => 16 + rng.below(16) as u16,
                3 => rng.pick(&[32, 33, 64, 0x8000, u16::MAX]),
                _ => rng.pick(&slots) + rng.pick(&[32, 0x100, 0x1000]),
            };
            if !slots.contains(&number) {
                return number;
            }
        }
    }

    /// A constant 0, in the location or in the pool; of any size and register.
    pub(crate) fn null(self, rng: &mut Rng) -> Location {
        let zeros: Vec<usize> = (0..self.constants.len())
            .filter(|nth| self.constants[*nth] == 0)
            .collect();
        let (kind, offset) = match zeros.is_empty() || rng.one_in(2) {
            true => (4, 0),
            false => (5, rng.pick(&zeros) as u32),
        };
        Location {
            kind,
            size: self.size(rng),
            register: rng.number(16) as u16,
            offset,
        }
    }
}
