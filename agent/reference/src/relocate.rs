//! Relocation of one stopped frame.
//!
//! A frame stands at one record, which has to be a statepoint. The statepoint
//! lists pairs of locations, a base and what is derived from it, each of them
//! on the stack or in a register. A pair is one pointer, or in version 3 as
//! many as its two equal sizes have room for, each with a base slot and a
//! derived slot. Each derived slot is set to its old content plus the new start
//! of its old base minus that old base, modulo 2^64, all read before any is
//! written. No other byte and no other register is touched, and a refused call
//! touches none.
//!
//! A frame brings 32 registers by DWARF number. Two of them are its machine's
//! frame pointer and stack pointer, from which locations on the stack are
//! counted. A section doesn't say its machine: who moves the frame does, by a
//! number, and any other than the two known is 33.
//!
//! In version 1 no record is known to be a function's own. A frame then says
//! its function too, and its offset in place of the address; it stands at the
//! record with that offset, and its stack size is that function's.

mod pairs;

#[cfg(test)]
mod tests;
#[cfg(test)]
mod tests_machines;
#[cfg(test)]
mod tests_mixes;
#[cfg(test)]
mod tests_pairs;
#[cfg(test)]
mod tests_pointers;
#[cfg(test)]
mod tests_readings;
#[cfg(test)]
mod tests_registers;
#[cfg(test)]
mod tests_version_1;

use crate::machine::Machine;
use crate::pieces::Stack;
use crate::section::{read, Function, Location, Record, Section, Version};
use crate::Refusal;
use pairs::{collision, count, forms, locate, new_contents};
pub(crate) use pairs::{moved, Cell, Pointer, Slot, MAX_POINTERS};
use std::ops::Range;

/// The greatest length of a stack image, in bytes.
pub const MAX_IMAGE: usize = 1_048_576;

/// The most entries of a move table.
pub const MAX_MOVES: usize = 65_536;

/// How many numbers the list of a frame's registers has.
pub const REGISTERS: usize = 32;

/// The stack size that means not known.
pub(crate) const UNKNOWN: u64 = u64::MAX;

/// A stopped frame: where it stands. What its registers hold is a list beside
/// it, and its machine a number.
#[derive(Clone, Copy, Debug, PartialEq, Eq)]
pub struct Frame {
    /// The address that its record has; in version 1 the offset.
    pub address: u64,
    /// The number of its function. Only version 1 reads it.
    pub function: u64,
}

/// Relocates one frame, and gives its number of pointers, null pairs counting
/// one each.
///
/// `image` is the stack from address `first` on. The move table is
/// `old_starts` and `new_starts`, entry by entry. The machine is 0 for AMD64
/// and 1 for AArch64; any other number is 33, after 1 to 9 and before 13.
/// `registers` are the frame's, 32 by DWARF number; a list of another length is
/// 25, after 14 and before 10.
#[allow(clippy::too_many_arguments)]
pub fn relocate(
    section: &[u8],
    image: &mut [u8],
    first: u64,
    old_starts: &[u64],
    new_starts: &[u64],
    machine: u64,
    frame: Frame,
    registers: &mut [u64],
) -> Result<u64, Refusal> {
    let section = read(section)?;
    let shared = Shared {
        machine: Machine::of_number(machine)?,
        most_pointers: MAX_POINTERS,
        section: &section,
        stack: Stack::Whole(first),
        table: [old_starts, new_starts],
    };
    let plan = shared.judge_one(image, frame, registers)?;
    plan.write(image, registers);
    Ok(plan.pointers)
}

/// What all frames of a call share, beside the image: the section, where the
/// image stands, the table, the machine, and how many pointers a frame may have.
#[derive(Clone, Copy)]
pub(crate) struct Shared<'a> {
    pub(crate) section: &'a Section,
    pub(crate) stack: Stack<'a>,
    /// The old starts and the new ones.
    pub(crate) table: [&'a [u64]; 2],
    pub(crate) machine: Machine,
    pub(crate) most_pointers: usize,
}

/// What is to be written for an accepted frame.
pub(crate) struct Plan {
    /// The address of the first byte of the frame's extent.
    pub(crate) start: u64,
    /// The frame's own stretch of the image.
    pub(crate) stretch: Range<usize>,
    /// The number of pointers, null pairs counting one each.
    pub(crate) pointers: u64,
    /// The pointers of each pair, none of a null one.
    pub(crate) pairs: Vec<Vec<Pointer>>,
    /// The new content of each derived slot.
    contents: Vec<(Slot, u64)>,
}

impl Plan {
    /// Writes the derived slots, on the stack and in the frame's registers.
    pub(crate) fn write(&self, image: &mut [u8], registers: &mut [u64]) {
        let mut stretch = image.get_mut(self.stretch.clone());
        for &(slot, content) in &self.contents {
            match slot {
                Slot::Register(number) => {
                    if let Some(register) = registers.get_mut(number) {
                        *register = content;
                    }
                }
                Slot::Memory(at) => {
                    let rest = stretch.as_mut().and_then(|bytes| bytes.get_mut(at..));
                    if let Some(bytes) = rest.and_then(|rest| rest.first_chunk_mut()) {
                        *bytes = content.to_le_bytes();
                    }
                }
            }
        }
    }
}

impl Shared<'_> {
    /// Refusals 13 and 14.
    pub(crate) fn check(&self, image: &[u8]) -> Result<(), Refusal> {
        self.stack.check(image)?;
        check_table(self.table[0], self.table[1])
    }

    /// The plan for a frame that is moved alone, or its refusal: 13, 14, 25 and
    /// the frame's own. Nothing is written.
    pub(crate) fn judge_one(
        &self,
        image: &[u8],
        frame: Frame,
        registers: &[u64],
    ) -> Result<Plan, Refusal> {
        self.check(image)?;
        let registers = registers.try_into().or(Err(Refusal::at(25, 0)))?;
        self.judge(image, frame, registers)
    }

    /// The plan for a frame, or its own refusal: 10, 15, 12, 16, then 18, 17
    /// and 19 to 21. In version 1, where each pair is one pointer, 17 comes
    /// before 18. Nothing is written.
    pub(crate) fn judge(
        &self,
        image: &[u8],
        frame: Frame,
        registers: &[u64; REGISTERS],
    ) -> Result<Plan, Refusal> {
        let (record, function) = standing(self.section, frame)?;
        let entries = statepoint_pairs(record).ok_or(Refusal::at(12, 0))?;
        let start = registers[usize::from(self.machine.stack_pointer())];
        let extent = function_extent(function, start).ok_or(Refusal::at(16, 0))?;
        let stretch = self.stack.stretch(image, extent.0, extent.1);
        let stretch = stretch.ok_or(Refusal::at(16, 0))?;
        let bytes = image.get(stretch.clone()).ok_or(Refusal::at(16, 0))?;
        if self.section.version == Version::One && entries.len() > self.most_pointers {
            return Err(Refusal::at(17, 0));
        }
        let forms = forms(self.section, entries, self.machine, registers)?;
        let pointers = count(&forms);
        if pointers > self.most_pointers {
            return Err(Refusal::at(17, 0));
        }
        let pairs = locate(&forms, bytes, start, registers)?;
        if let Some(pair) = collision(&pairs) {
            return Err(Refusal::at(20, pair));
        }
        Ok(Plan {
            start,
            stretch,
            pointers: pointers as u64,
            contents: new_contents(&pairs, self.table)?,
            pairs,
        })
    }
}

/// A frame's extent: its first byte and the byte after its last, as whole
/// numbers. A frame of a refused section, without exactly one record, with
/// stack size unknown, in version 1 of a function that isn't there, of no known
/// machine, or whose list of registers isn't 32 long has none.
pub fn extent(
    section: &[u8],
    machine: u64,
    frame: Frame,
    registers: &[u64],
) -> Option<(u128, u128)> {
    let section = read(section).ok()?;
    let machine = Machine::of_number(machine).ok()?;
    let registers: &[u64; REGISTERS] = registers.try_into().ok()?;
    let (_, function) = standing(&section, frame).ok()?;
    function_extent(function, registers[usize::from(machine.stack_pointer())])
}

/// Refusal 14.
pub(crate) fn check_table(old_starts: &[u64], new_starts: &[u64]) -> Result<(), Refusal> {
    let fits = old_starts.len() == new_starts.len() && old_starts.len() <= MAX_MOVES;
    let rises = old_starts.windows(2).all(|two| two[0] < two[1]);
    if !fits || !rises || old_starts.contains(&0) || new_starts.contains(&0) {
        return Err(Refusal::at(14, 0));
    }
    Ok(())
}

/// The one record that a frame stands at and the frame's function, or refusal
/// 10 or 15. In version 1 a function that isn't there is 10, whatever records
/// there are.
fn standing(section: &Section, frame: Frame) -> Result<(&Record, &Function), Refusal> {
    let none = Refusal::at(10, 0);
    match section.version {
        Version::One => {
            let function = entry(&section.functions, frame.function).ok_or(none)?;
            let record = only_record(section, |record| u64::from(record.offset) == frame.address)?;
            Ok((record, function))
        }
        Version::Three => {
            let record = only_record(section, |record| record.address == frame.address)?;
            let function = section.functions.get(record.function).ok_or(none)?;
            Ok((record, function))
        }
    }
}

/// The entry of a number, whatever the number.
fn entry<T>(entries: &[T], number: u64) -> Option<&T> {
    entries.get(usize::try_from(number).ok()?)
}

/// The one record that is so, or refusal 10 or 15.
fn only_record(section: &Section, is: impl Fn(&Record) -> bool) -> Result<&Record, Refusal> {
    let mut found = section.records.iter().filter(|record| is(record));
    let record = found.next().ok_or(Refusal::at(10, 0))?;
    if found.next().is_some() {
        return Err(Refusal::at(15, 0));
    }
    Ok(record)
}

/// The pairs of a statepoint, base first; none if the record isn't one.
pub(crate) fn statepoint_pairs(record: &Record) -> Option<&[[Location; 2]]> {
    let (constants, rest) = record.locations.split_first_chunk::<3>()?;
    if !constants.iter().all(|location| location.kind == 4) || !record.live_outs.is_empty() {
        return None;
    }
    let deopt_count = usize::try_from(constants[2].offset).ok()?;
    let (pairs, odd) = rest.get(deopt_count..)?.as_chunks::<2>();
    odd.is_empty().then_some(pairs)
}

/// The number of pointers of a statepoint's pairs, null ones counting one each;
/// none if a pair has a wrong form on this machine.
pub(crate) fn pointers_of(
    section: &Section,
    pairs: &[[Location; 2]],
    machine: Machine,
) -> Option<usize> {
    let forms = forms(section, pairs, machine, &[0; REGISTERS]).ok()?;
    Some(count(&forms))
}

/// The extent of a frame of a function from its stack pointer on, unless its
/// size is unknown.
fn function_extent(function: &Function, stack_pointer: u64) -> Option<(u128, u128)> {
    let size = function.stack_size;
    let start = u128::from(stack_pointer);
    (size != UNKNOWN).then_some((start, start + u128::from(size)))
}
