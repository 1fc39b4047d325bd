//! The bench controller's profile.

use super::restore::{of_thread, OfThread};
use super::{machine, Frame, Refusal, Registers, Restore};
use treskibben::controller;

/// The check of a section against the profile: 1 to 9, then 50.
pub fn check_profile(section: &[u8]) -> Result<(), Refusal> {
    Ok(controller::check(section)?)
}

impl Restore<'_> {
    /// Moves all frames of a thread or none, as the bench controller does: 31, 1 to 9, 50, and then as
    /// [`relocate_thread`](Restore::relocate_thread).
    pub fn relocate_thread_in_profile(
        &self,
        image: &mut [u8],
        frames: &[Frame],
        registers: &mut [Registers],
    ) -> Result<u64, OfThread> {
        let (section, first, moves) = (self.section, self.first, self.moves());
        let (machine, registers) = (machine(self.machine), registers.as_flattened_mut());
        let edition = self.edition;
        let moved = controller::relocate_thread(
            edition, section, image, first, moves, machine, frames, registers,
        );
        moved.map(|pointers| pointers as u64).map_err(of_thread)
    }
}
