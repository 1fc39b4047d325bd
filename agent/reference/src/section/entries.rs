//! What a location and a function say, in the layout of each version.

use super::layout::{FUNCTION, FUNCTION_1, LOCATION, LOCATION_1};
use super::{Function, Location};
use crate::bytes::{i32_at, u16_at, u64_at};
use crate::Refusal;

/// The bytes of a location's first eight that have to be zero in version 3: 1,
/// 6 and 7.
const LOCATION_ZEROS: u64 = 0xFFFF_0000_0000_FF00;

/// A location as it stands in a section of one version.
pub(super) trait LocationEntry {
    /// The bytes that have to be zero, by their place in the location.
    const ZEROS: &'static [usize];

    /// Whether a byte that has to be zero isn't.
    fn has_nonzero(&self) -> bool;

    /// The byte at a place in the location.
    fn byte(&self, at: usize) -> u8;

    /// The signed offset.
    fn offset(&self) -> i32;

    /// All that the location says.
    fn location(&self) -> Location;
}

/// Version 3: kind 1, zero 1, size 2, register 2, zero 2, offset 4.
impl LocationEntry for [u8; LOCATION] {
    const ZEROS: &'static [usize] = &[1, 6, 7];

    #[inline(always)]
    fn has_nonzero(&self) -> bool {
        u64_at(self, 0) & LOCATION_ZEROS != 0
    }

    #[inline(always)]
    fn byte(&self, at: usize) -> u8 {
        self[at]
    }

    #[inline(always)]
    fn offset(&self) -> i32 {
        i32_at(self, 8)
    }

    fn location(&self) -> Location {
        Location {
            kind: self[0],
            size: u16_at(self, 2),
            register: u16_at(self, 4),
            offset: self.offset(),
        }
    }
}

/// Version 1: kind 1, size 1, register 2, offset 4. Any number may stand in any
/// byte but the first.
impl LocationEntry for [u8; LOCATION_1] {
    const ZEROS: &'static [usize] = &[];

    #[inline(always)]
    fn has_nonzero(&self) -> bool {
        false
    }

    #[inline(always)]
    fn byte(&self, at: usize) -> u8 {
        self[at]
    }

    #[inline(always)]
    fn offset(&self) -> i32 {
        i32_at(self, 4)
    }

    fn location(&self) -> Location {
        Location {
            kind: self[0],
            size: self[1].into(),
            register: u16_at(self, 2),
            offset: self.offset(),
        }
    }
}

/// Whether a byte of a location is at fault. Written without branches.
#[inline(always)]
pub(super) fn is_faulty_location(entry: &impl LocationEntry, num_constants: i64) -> bool {
    let kind = !matches!(entry.byte(0), 1..=5);
    let index = (entry.byte(0) == 5) & !is_pool_entry(entry, num_constants);
    entry.has_nonzero() | kind | index
}

/// Whether a location's offset is the number of a constant.
#[inline(always)]
fn is_pool_entry(entry: &impl LocationEntry, num_constants: i64) -> bool {
    let offset = i64::from(entry.offset());
    (offset >= 0) & (offset < num_constants)
}

/// The first fault of a location whose first byte is at `at`.
pub(super) fn location_fault<E: LocationEntry>(
    entry: &E,
    at: usize,
    num_constants: i64,
) -> Option<Refusal> {
    if !matches!(entry.byte(0), 1..=5) {
        return Some(Refusal::at(6, at));
    }
    if let Some(zero) = E::ZEROS.iter().find(|&&zero| entry.byte(zero) != 0) {
        return Some(Refusal::at(3, at + zero));
    }
    if entry.byte(0) == 5 && !is_pool_entry(entry, num_constants) {
        return Some(Refusal::at(7, at));
    }
    None
}

/// A function as it stands in a section of version 3.
pub(super) fn function(entry: &[u8; FUNCTION]) -> Function {
    Function {
        address: u64_at(entry, 0),
        stack_size: u64_at(entry, 8),
        record_count: u64_at(entry, 16),
    }
}

/// A function as it stands in a section of version 1.
pub(super) fn function_1(entry: &[u8; FUNCTION_1]) -> Function {
    Function {
        address: u64_at(entry, 0),
        stack_size: u64_at(entry, 8),
        record_count: 0,
    }
}
