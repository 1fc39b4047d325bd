//! A restore that names an edition, as the library does it.

use super::{machine, Refusal, Table};
use crate::registers;
use treskibben::editions::Edition;
use treskibben::{ExplainedPointer, Frame, MoveTable, Reason, Registers, Slot, ThreadRefusal};

/// All that stays the same throughout a restore.
#[derive(Clone, Copy, Debug)]
pub struct Restore<'a> {
    pub edition: Edition<'a>,
    pub section: &'a [u8],
    /// The address of the image's first byte.
    pub first: u64,
    pub table: &'a Table,
    pub machine: registers::Machine,
}

/// The refusal of a thread, with the position of the frame to blame, if it is one frame.
pub type OfThread = (Refusal, Option<usize>);

impl Restore<'_> {
    pub(super) fn moves(&self) -> MoveTable<'_> {
        MoveTable::new(&self.table.old, &self.table.new)
    }

    /// Moves all frames of a thread or none, each with its own registers, and gives the sum of their pointers.
    pub fn relocate_thread(
        &self,
        image: &mut [u8],
        frames: &[Frame],
        registers: &mut [Registers],
    ) -> Result<u64, OfThread> {
        let (section, first, moves) = (self.section, self.first, self.moves());
        let (machine, registers) = (machine(self.machine), registers.as_flattened_mut());
        let edition = &self.edition;
        let moved =
            edition.relocate_thread(section, image, first, moves, machine, frames, registers);
        moved.map(|pointers| pointers as u64).map_err(of_thread)
    }

    /// The pair that a frame is refused by where it is moved by itself, which the refusal of a thread
    /// doesn't tell. Image and registers stay as they are.
    pub fn pair_at_fault(
        &self,
        image: &[u8],
        frame: Frame,
        mut registers: Registers,
    ) -> Option<u64> {
        let (section, first, moves) = (self.section, self.first, self.moves());
        let (image, registers) = (&mut image.to_vec(), &mut registers);
        let (machine, edition) = (machine(self.machine), &self.edition);
        let moved = edition.relocate(section, image, first, moves, machine, frame, registers);
        let refused = moved.err()?;
        matches!(refused.number(), 18..=21).then_some(refused.place())
    }

    /// Why each slot of all frames of a thread moves or does not, pointer by pointer; by one call.
    pub fn explain_thread(
        &self,
        image: &[u8],
        frames: &[Frame],
        registers: &[Registers],
    ) -> Result<Vec<ExplainedPointer>, OfThread> {
        let (section, first, moves) = (self.section, self.first, self.moves());
        let (machine, registers) = (machine(self.machine), registers.as_flattened());
        let edition = &self.edition;
        let explained =
            edition.explain_thread(section, image, first, moves, machine, frames, registers);
        explained.map_err(of_thread)
    }

    /// The same of one frame: the place of its refusal is that of its own move.
    pub fn explain_frame(
        &self,
        image: &[u8],
        frame: Frame,
        registers: &Registers,
    ) -> Result<Vec<ExplainedPointer>, Refusal> {
        let (section, first, moves) = (self.section, self.first, self.moves());
        let (machine, edition) = (machine(self.machine), &self.edition);
        Ok(edition.explain_frame(section, image, first, moves, machine, frame, registers)?)
    }

    /// Why a slot of a frame moves or does not.
    pub fn explain(
        &self,
        image: &[u8],
        frame: Frame,
        registers: &Registers,
        slot: Slot,
    ) -> Result<Reason, Refusal> {
        let (section, first, moves) = (self.section, self.first, self.moves());
        let (machine, edition) = (machine(self.machine), &self.edition);
        Ok(edition.explain(
            section, image, first, moves, machine, frame, registers, slot,
        )?)
    }
}

pub(super) fn of_thread(refusal: ThreadRefusal) -> OfThread {
    let position = refusal.position();
    (treskibben::Refusal::from(refusal).into(), position)
}
