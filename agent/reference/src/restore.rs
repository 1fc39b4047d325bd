//! Restores by edition: moves of a frame or of a thread, and explanations, each
//! of which names an edition of a store.
//!
//! An edition that is unknown or retired is 31, before all else. Directly after
//! the section's own refusal comes 33, for a version that the edition doesn't
//! allow or a machine that isn't the edition's. 17 reads the edition's count:
//! in version 1 against the pairs, in version 3 against the pointers; how many
//! pointers one pair may have stays as it is. The rest is as without an
//! edition.

#[cfg(test)]
mod tests;

use crate::editions::{Settings, Store};
use crate::explain::{Explained, Reason, Slot};
use crate::machine::Machine;
use crate::pieces::Stack;
use crate::relocate::{Frame, Shared};
use crate::section::{read, Section, Version};
use crate::Refusal;

/// What a restore is given, beside image and frames.
#[derive(Clone, Copy, Debug)]
pub struct Restore<'a> {
    /// The store of editions.
    pub store: &'a Store,
    /// The number of the edition.
    pub edition: u64,
    /// The section's bytes.
    pub section: &'a [u8],
    /// The address of the image's first byte.
    pub first: u64,
    /// The move table's old starts.
    pub old_starts: &'a [u64],
    /// The move table's new starts.
    pub new_starts: &'a [u64],
}

impl Restore<'_> {
    /// Relocates one frame, and gives its number of pointers.
    ///
    /// The order of refusals: 31, 1 to 9, 33, 13, 14, 25, and the frame's own.
    pub fn relocate(
        &self,
        image: &mut [u8],
        machine: u64,
        frame: Frame,
        registers: &mut [u64],
    ) -> Result<u64, Refusal> {
        self.under(machine, no_profile, |shared| {
            let plan = shared.judge_one(image, frame, registers)?;
            plan.write(image, registers);
            Ok(plan.pointers)
        })
    }

    /// Relocates the frames of a list, and gives the sum of their pointers. An
    /// index may be handed in.
    ///
    /// The order of refusals: 31, 1 to 9, 33, 13, 14, 27 and 29 where an index
    /// is handed in, 25, the first refused frame's own at its position, 26.
    pub fn thread(
        &self,
        image: &mut [u8],
        machine: u64,
        list: &[u64],
        registers: &mut [u64],
        index: Option<&[u64]>,
    ) -> Result<u64, Refusal> {
        self.under(machine, no_profile, |shared| {
            shared.move_all(image, list, registers, index)
        })
    }

    /// The reason of one slot of a frame.
    pub fn explain(
        &self,
        image: &[u8],
        machine: u64,
        frame: Frame,
        registers: &[u64],
        slot: Slot,
    ) -> Reason {
        let reason = self.under(machine, no_profile, |shared| {
            shared.explain(image, frame, registers, slot)
        });
        reason.unwrap_or_else(Reason::Refused)
    }

    /// The reasons of both slots of every pointer of a frame's record, or the
    /// refusal of its move.
    pub fn explain_frame(
        &self,
        image: &[u8],
        machine: u64,
        frame: Frame,
        registers: &[u64],
    ) -> Result<Vec<Explained>, Refusal> {
        self.under(machine, no_profile, |shared| {
            shared.explain_frame(image, frame, registers)
        })
    }

    /// What is done under the edition, or a refusal: 31, 1 to 9, that of a
    /// profile, 33.
    pub(crate) fn under<T>(
        &self,
        machine: u64,
        profile: impl FnOnce(&Section, u64) -> Result<(), Refusal>,
        then: impl FnOnce(&Shared) -> Result<T, Refusal>,
    ) -> Result<T, Refusal> {
        self.on_stack(Stack::Whole(self.first), machine, profile, then)
    }

    /// As [`under`](Restore::under), with the image where the stack says that it
    /// stands, whatever the restore's first address is.
    pub(crate) fn on_stack<T>(
        &self,
        stack: Stack,
        machine: u64,
        profile: impl FnOnce(&Section, u64) -> Result<(), Refusal>,
        then: impl FnOnce(&Shared) -> Result<T, Refusal>,
    ) -> Result<T, Refusal> {
        let settings = self.store.read(self.edition)?;
        let section = read(self.section)?;
        profile(&section, machine)?;
        then(&Shared {
            machine: allowed(&settings, section.version, machine)?,
            most_pointers: settings.largest_count as usize,
            section: &section,
            stack,
            table: [self.old_starts, self.new_starts],
        })
    }
}

/// Every section and machine passes.
pub(crate) fn no_profile(_: &Section, _: u64) -> Result<(), Refusal> {
    Ok(())
}

/// The machine, or refusal 33 where the edition doesn't allow it or the version.
pub(crate) fn allowed(
    settings: &Settings,
    version: Version,
    machine: u64,
) -> Result<Machine, Refusal> {
    let version = match version {
        Version::One => settings.version_1,
        Version::Three => settings.version_3,
    };
    match version && machine == settings.machine {
        true => Machine::of_number(machine),
        false => Err(Refusal::at(33, 0)),
    }
}
