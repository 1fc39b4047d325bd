//! The thread call over a linked section: each frame is moved by the map that
//! has its record, and all are or none is.

use super::read_maps;
use crate::pieces::Stack;
use crate::relocate::{check_table, Frame, Plan, Shared, REGISTERS};
use crate::restore::{allowed, Restore};
use crate::section::{Section, Version};
use crate::thread::move_frames;
use crate::Refusal;

/// Relocates the frames of a list over all maps of the restore's section, which
/// is a linked one, and gives the sum of their pointers.
///
/// The order of refusals: 31, those of the maps, 27 at the first byte of a map
/// of version 1, 33, 13, 14, 25, the first refused frame's own number at its
/// position, 26. Records at a frame's address are counted over all maps (10 and
/// 15); the rest of a frame is judged in the map of its record.
pub fn thread(
    restore: &Restore,
    image: &mut [u8],
    machine: u64,
    list: &[u64],
    registers: &mut [u64],
) -> Result<u64, Refusal> {
    let stack = Stack::Whole(restore.first);
    move_linked(restore, stack, image, machine, list, registers)
}

/// The thread call over a linked section, with the image where the stack says
/// that it stands.
pub(crate) fn move_linked(
    restore: &Restore,
    stack: Stack,
    image: &mut [u8],
    machine: u64,
    list: &[u64],
    registers: &mut [u64],
) -> Result<u64, Refusal> {
    let settings = restore.store.read(restore.edition)?;
    let maps = read_maps(restore.section)?;
    let machine = allowed(&settings, Version::Three, machine)?;
    let in_map = |section| Shared {
        section,
        stack,
        table: [restore.old_starts, restore.new_starts],
        machine,
        most_pointers: settings.largest_count as usize,
    };
    stack.check(image)?;
    check_table(restore.old_starts, restore.new_starts)?;
    move_frames(image, list, registers, |image, frame, own| {
        judge(image, frame, own, &maps, in_map)
    })
}

/// The plan for a frame in the map that has its one record, or its own refusal:
/// 10, 15, and the rest as in that map.
fn judge<'a>(
    image: &[u8],
    frame: Frame,
    registers: &[u64; REGISTERS],
    maps: &'a [Section],
    in_map: impl Fn(&'a Section) -> Shared<'a>,
) -> Result<Plan, Refusal> {
    let mut owners = maps.iter().flat_map(|map| {
        let records = map.records.iter();
        let there = records.filter(|record| record.address == frame.address);
        there.map(move |_| map)
    });
    let owner = owners.next().ok_or(Refusal::at(10, 0))?;
    if owners.next().is_some() {
        return Err(Refusal::at(15, 0));
    }
    in_map(owner).judge(image, frame, registers)
}
