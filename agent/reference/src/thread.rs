//! Relocation of a whole thread in one call: all frames are moved, or none.
//!
//! Each frame is judged by itself on the image as lent, with its own 32
//! registers. Only then are the extents compared, each with all earlier ones,
//! and only then is anything written.

#[cfg(test)]
mod tests;
#[cfg(test)]
mod tests_index;
#[cfg(test)]
mod tests_registers;
#[cfg(test)]
mod tests_version_1;

use crate::index::check_index;
use crate::machine::Machine;
use crate::pieces::Stack;
use crate::relocate::{Frame, Plan, Shared, MAX_POINTERS, REGISTERS};
use crate::section::read;
use crate::Refusal;

/// The most frames of a thread.
pub const MAX_FRAMES: usize = 4_096;

/// Relocates the frames of a list, and gives the sum of their pointers, null
/// pairs counting one each.
///
/// The list has two numbers a frame, address and function number. In version 1
/// the offset stands in place of the address; version 3 doesn't read the
/// function number. Beside it stands one list of registers, 32 numbers a frame
/// in the same order. The machine is that of all frames. The rest is as for
/// [`relocate`](crate::relocate()). The order of refusals: 1 to 9, 33, 13, 14,
/// 25, the first refused frame's own number at its position, 26 at the first
/// frame whose extent shares a byte with an earlier one's.
#[allow(clippy::too_many_arguments)]
pub fn thread(
    section: &[u8],
    image: &mut [u8],
    first: u64,
    old_starts: &[u64],
    new_starts: &[u64],
    machine: u64,
    list: &[u64],
    registers: &mut [u64],
) -> Result<u64, Refusal> {
    let section = read(section)?;
    let shared = Shared {
        machine: Machine::of_number(machine)?,
        most_pointers: MAX_POINTERS,
        section: &section,
        stack: Stack::Whole(first),
        table: [old_starts, new_starts],
    };
    shared.move_all(image, list, registers, None)
}

/// Relocates the frames of a list as [`thread`] does, and tests an index that
/// is handed in with them, once: 27 and then 29 come between 14 and 25. With
/// the right index the answer, the image and the registers are those of
/// [`thread`].
///
/// The empty list is an index too, the right one of a section without records.
#[allow(clippy::too_many_arguments)]
pub fn thread_by_index(
    section: &[u8],
    image: &mut [u8],
    first: u64,
    old_starts: &[u64],
    new_starts: &[u64],
    machine: u64,
    list: &[u64],
    registers: &mut [u64],
    index: &[u64],
) -> Result<u64, Refusal> {
    let section = read(section)?;
    let shared = Shared {
        machine: Machine::of_number(machine)?,
        most_pointers: MAX_POINTERS,
        section: &section,
        stack: Stack::Whole(first),
        table: [old_starts, new_starts],
    };
    shared.move_all(image, list, registers, Some(index))
}

impl Shared<'_> {
    /// Relocates the frames of a list, with an index or without: 13, 14, 27 and
    /// 29 with an index, 25, the frames' own, 26.
    pub(crate) fn move_all(
        &self,
        image: &mut [u8],
        list: &[u64],
        registers: &mut [u64],
        index: Option<&[u64]>,
    ) -> Result<u64, Refusal> {
        self.check(image)?;
        if let Some(index) = index {
            check_index(self.section, index)?;
        }
        move_frames(image, list, registers, |image, frame, own| {
            self.judge(image, frame, own)
        })
    }
}

/// Relocates the frames of a list, each as it is judged by itself: 25, the
/// frames' own, 26.
pub(crate) fn move_frames(
    image: &mut [u8],
    list: &[u64],
    registers: &mut [u64],
    judge: impl Fn(&[u8], Frame, &[u64; REGISTERS]) -> Result<Plan, Refusal>,
) -> Result<u64, Refusal> {
    let (frames, odd) = list.as_chunks::<2>();
    let fits = odd.is_empty() && frames.len() <= MAX_FRAMES;
    if !fits || registers.len() != REGISTERS * frames.len() {
        return Err(Refusal::at(25, 0));
    }
    let (lists, _) = registers.as_chunks_mut::<REGISTERS>();
    let mut plans = Vec::new();
    for (position, (&[address, function], own)) in frames.iter().zip(&*lists).enumerate() {
        let plan = judge(image, Frame { address, function }, own);
        plans.push(plan.map_err(|refusal| Refusal::at(refusal.number, position))?);
    }
    if let Some(position) = first_overlap(&plans) {
        return Err(Refusal::at(26, position));
    }
    for (plan, own) in plans.iter().zip(lists) {
        plan.write(image, own);
    }
    Ok(plans.iter().map(|plan| plan.pointers).sum())
}

/// The first frame whose extent shares a byte with an earlier one's.
fn first_overlap(plans: &[Plan]) -> Option<usize> {
    plans.iter().enumerate().position(|(position, plan)| {
        let earlier = plans.iter().take(position);
        earlier.clone().any(|other| shares(plan, other))
    })
}

/// Whether there is a byte that is in both extents.
fn shares(one: &Plan, other: &Plan) -> bool {
    let from = one.stretch.start.max(other.stretch.start);
    let to = one.stretch.end.min(other.stretch.end);
    from < to
}
