//! Moves on a split stack: the image is several pieces.
//!
//! One buffer holds the pieces one after the other, and a list has two numbers a
//! piece, its first address and its length. 13 is given where the buffer is over
//! the limit of an image, the list is odd, the lengths don't add up to the
//! buffer's, a piece's first address plus its length is over 2^64 - 1, or two
//! pieces share an address; empty ones share none. 16 is given where an extent
//! isn't inside one piece. All else is as on a stack in one piece, and a list of
//! one piece gives what the call on such a stack does.

#[cfg(test)]
mod tests;

use crate::editions::Store;
use crate::linked::move_linked;
use crate::machine::Machine;
use crate::pieces::Stack;
use crate::relocate::{Frame, Shared, MAX_POINTERS};
use crate::restore::{no_profile, Restore};
use crate::section::read;
use crate::Refusal;

/// Relocates one frame as [`relocate`](crate::relocate()) does.
///
/// The order of refusals: 1 to 9, 33, 13, 14, 25, and the frame's own.
#[allow(clippy::too_many_arguments)]
pub fn relocate(
    section: &[u8],
    image: &mut [u8],
    pieces: &[u64],
    old_starts: &[u64],
    new_starts: &[u64],
    machine: u64,
    frame: Frame,
    registers: &mut [u64],
) -> Result<u64, Refusal> {
    let section = read(section)?;
    let shared = Shared {
        machine: Machine::of_number(machine)?,
        most_pointers: MAX_POINTERS,
        section: &section,
        stack: Stack::Split(pieces),
        table: [old_starts, new_starts],
    };
    let plan = shared.judge_one(image, frame, registers)?;
    plan.write(image, registers);
    Ok(plan.pointers)
}

/// Relocates the frames of a list as [`thread`](crate::thread()) does.
///
/// The order of refusals: 1 to 9, 33, 13, 14, 25, the first refused frame's own
/// at its position, 26.
#[allow(clippy::too_many_arguments)]
pub fn thread(
    section: &[u8],
    image: &mut [u8],
    pieces: &[u64],
    old_starts: &[u64],
    new_starts: &[u64],
    machine: u64,
    list: &[u64],
    registers: &mut [u64],
) -> Result<u64, Refusal> {
    let section = read(section)?;
    let shared = Shared {
        machine: Machine::of_number(machine)?,
        most_pointers: MAX_POINTERS,
        section: &section,
        stack: Stack::Split(pieces),
        table: [old_starts, new_starts],
    };
    shared.move_all(image, list, registers, None)
}

/// What a restore on a split stack is given, beside image and frames.
#[derive(Clone, Copy, Debug)]
pub struct SplitRestore<'a> {
    /// The store of editions.
    pub store: &'a Store,
    /// The number of the edition.
    pub edition: u64,
    /// The section's bytes.
    pub section: &'a [u8],
    /// First address and length of each piece of the image.
    pub pieces: &'a [u64],
    /// The move table's old starts.
    pub old_starts: &'a [u64],
    /// The move table's new starts.
    pub new_starts: &'a [u64],
}

impl<'a> SplitRestore<'a> {
    /// Relocates one frame as [`Restore::relocate`] does.
    pub fn relocate(
        &self,
        image: &mut [u8],
        machine: u64,
        frame: Frame,
        registers: &mut [u64],
    ) -> Result<u64, Refusal> {
        let stack = Stack::Split(self.pieces);
        let restore = self.restore();
        restore.on_stack(stack, machine, no_profile, |shared| {
            let plan = shared.judge_one(image, frame, registers)?;
            plan.write(image, registers);
            Ok(plan.pointers)
        })
    }

    /// Relocates the frames of a list as [`Restore::thread`] does. An index may
    /// be handed in.
    pub fn thread(
        &self,
        image: &mut [u8],
        machine: u64,
        list: &[u64],
        registers: &mut [u64],
        index: Option<&[u64]>,
    ) -> Result<u64, Refusal> {
        let stack = Stack::Split(self.pieces);
        let restore = self.restore();
        restore.on_stack(stack, machine, no_profile, |shared| {
            shared.move_all(image, list, registers, index)
        })
    }

    /// Relocates the frames of a list over all maps of a linked section, as
    /// [`linked::thread`](crate::linked::thread) does.
    pub fn linked_thread(
        &self,
        image: &mut [u8],
        machine: u64,
        list: &[u64],
        registers: &mut [u64],
    ) -> Result<u64, Refusal> {
        let stack = Stack::Split(self.pieces);
        move_linked(&self.restore(), stack, image, machine, list, registers)
    }

    /// The restore without its pieces. Nothing reads its first address.
    fn restore(&self) -> Restore<'a> {
        Restore {
            store: self.store,
            edition: self.edition,
            section: self.section,
            first: 0,
            old_starts: self.old_starts,
            new_starts: self.new_starts,
        }
    }
}
