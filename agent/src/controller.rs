//! The bench controller: moves for one product, whose sections keep a profile.
//!
//! A section keeps the profile where
//!
//! - it is of version 3,
//! - it has at most 64 records,
//! - each of them is a statepoint whose pairs have the right form on AMD64: 18 would be given for none,
//! - none has over 16 pointers, null pairs counting one each,
//! - and their addresses rise strictly, from each record to the next of the section.
//!
//! The functions are not limited, and slots may lie anywhere: 19 and 20 are no breach. Frames are of AMD64 alone. A
//! breach is 50, at the lowest record that has any; the version and the machine are tested before the records, at
//! 0, which is not told apart from a breach of record 0. What keeps the profile is moved exactly as without the
//! controller: by [`Edition::relocate`] and [`Edition::relocate_thread`], whose arguments those of the calls here
//! are.

use crate::editions::Edition;
use crate::ffi::restore::{controller_check, Mover};
use crate::{relocate as one, thread};
use crate::{Frame, Frames, Machine, MoveTable, Refusal, ThreadRefusal};

/// Checks that `section` is a whole section that keeps the profile. The calls that move test it too.
///
/// # Errors
///
/// The first of these that holds.
///
/// | Number | Cause | Place |
/// |---|---|---|
/// | 1 to 9 | the refusal of [`check`](crate::check()) | as there |
/// | 50 | version not 3 | 0 |
/// | 50 | a record is number 64, no statepoint, has a pair of wrong form or over 16 pointers, or its address isn't over that of the record before | the lowest such record |
///
/// # Examples
///
/// ```
/// use treskibben::controller::check;
/// # fn main() -> Result<(), Box<dyn std::error::Error>> {
/// let section = std::fs::read("../samples/h-statepoint.section")?;
/// assert_eq!(check(&section), Ok(()));
///
/// // The same in version 1.
/// let older = std::fs::read("../samples/h-version-1.section")?;
/// let refusal = check(&older).unwrap_err();
/// assert_eq!(refusal.to_string(), "refused 50 at 0: outside the bench controller's profile");
/// # Ok(())
/// # }
/// ```
pub fn check(section: &[u8]) -> Result<(), Refusal> {
    controller_check(section).outcome().map(|_| ())
}

/// Moves the pointers of one frame as [`Edition::relocate`] does, where the profile is kept, and gives its number
/// of pointers.
///
/// # Errors
///
/// The first of these that holds. A refusal leaves all of the image and all registers unchanged.
///
/// | Number | Cause | Place |
/// |---|---|---|
/// | 31 | edition unknown or retired | 0 |
/// | 1 to 9 | the refusal of [`check`](crate::check()) | as there |
/// | 50 | version not 3, or machine not AMD64 | 0 |
/// | 50 | a record breaks the profile, also where it isn't the frame's | the lowest such record |
/// | 33 | the edition doesn't allow version 3 or AMD64 | 0 |
/// | 13, 14, 25, 10, 16 | as of [`relocate`](crate::relocate()) | 0 |
/// | 17 | more pointers than the edition allows, which are fewer than 16 then | 0 |
/// | 19 to 21 | as of [`relocate`](crate::relocate()) | the pair |
///
/// 15, 12 and 18 of a move can't be given any more: what has them is 50.
///
/// # Examples
///
/// ```
/// use treskibben::editions::{Editions, Machine, Settings, Versions};
/// use treskibben::{controller, Frame, MoveTable};
/// # fn main() -> Result<(), Box<dyn std::error::Error>> {
/// // A statepoint of AMD64 at 0x1020 in a function with 24 bytes of stack. It has two pairs: the slot
/// // at RSP + 8 with itself as base, and the one at RSP + 16, which is derived from that.
/// let section = std::fs::read("../samples/h-statepoint.section")?;
/// let settings = Settings { pointers: 256, machine: Machine::Amd64, versions: Versions::Three };
/// let mut editions = Editions::new();
/// let edition = editions.make(settings)?;
///
/// let table = MoveTable::new(&[0x50000], &[0x90000]);
/// let stack = |slots: [u64; 3]| slots.map(u64::to_le_bytes).concat();
/// let mut image = stack([7, 0x50000, 0x54e20]);
/// let mut moved = |edition, machine: Machine| {
///     let (edition, frame) = (editions.edition(edition), Frame::new(0x1020));
///     let mut registers = machine.registers(0, 0x7000);
///     let registers = &mut registers;
///     controller::relocate(edition, &section, &mut image, 0x7000, table, machine, frame, registers)
/// };
/// assert_eq!(moved(7, Machine::Aarch64).unwrap_err().number(), 31);
/// assert_eq!(moved(edition, Machine::Aarch64).unwrap_err().number(), 50);
/// assert_eq!(moved(edition, Machine::Amd64), Ok(2));
/// assert_eq!(image, stack([7, 0x90000, 0x94e20]));
/// # Ok(())
/// # }
/// ```
#[allow(clippy::too_many_arguments)] // Those of the move.
pub fn relocate(
    edition: Edition,
    section: &[u8],
    image: &mut [u8],
    first: u64,
    table: MoveTable,
    machine: Machine,
    frame: Frame,
    registers: &mut [u64],
) -> Result<usize, Refusal> {
    let restore = edition.restore(section, first, table, machine);
    one::pointers(Mover::Controller.relocate(&restore, image, frame, registers))
}

/// Moves the pointers of a whole thread as [`Edition::relocate_thread`] does, where the profile is kept, all of its
/// frames or none, and gives their number.
///
/// The call needs about 272 KiB of stack, which a thread of [`std::thread`] has many times over.
///
/// # Errors
///
/// The first of these that holds. A refusal leaves all of the image and all registers unchanged.
///
/// | Number | Cause | Place |
/// |---|---|---|
/// | 31, 1 to 9, 50, 33, 13, 14 | as of [`relocate`] | as there |
/// | 25 | as of [`relocate_thread`](crate::relocate_thread) | 0 |
/// | 10, 16, 17, 19 to 21 | the first frame of the list that is refused by itself: by the number that [`relocate`] gives it | its position |
/// | 26 | the first frame whose extent shares a byte with that of an earlier one | its position |
///
/// # Examples
///
/// ```
/// use treskibben::editions::{Editions, Machine, Settings, Versions};
/// use treskibben::{controller, Frame, MoveTable};
/// # fn main() -> Result<(), Box<dyn std::error::Error>> {
/// // The statepoint of `relocate`'s example, in a function that has called itself.
/// let section = std::fs::read("../samples/h-statepoint.section")?;
/// let machine = Machine::Amd64;
/// let mut editions = Editions::new();
/// let edition = editions.make(Settings { pointers: 2, machine, versions: Versions::Three })?;
/// let edition = editions.edition(edition);
///
/// let table = MoveTable::new(&[0x50000], &[0x90000]);
/// let frames = [Frame::new(0x1020), Frame::new(0x1020)];
/// let mut registers = [0x7000, 0x7018].map(|rsp| machine.registers(0, rsp));
/// let registers = registers.as_flattened_mut();
/// let stack = |slots: [u64; 6]| slots.map(u64::to_le_bytes).concat();
/// let mut image = stack([7, 0x50000, 0x54e20, 8, 0, 0x1234]);
/// let pointers = controller::relocate_thread(
///     edition, &section, &mut image, 0x7000, table, machine, &frames, registers,
/// )?;
/// assert_eq!(pointers, 4);
/// assert_eq!(image, stack([7, 0x90000, 0x94e20, 8, 0, 0x1234]));
/// # Ok(())
/// # }
/// ```
#[allow(clippy::too_many_arguments)] // Those of the move.
pub fn relocate_thread<'f>(
    edition: Edition,
    section: &[u8],
    image: &mut [u8],
    first: u64,
    table: MoveTable,
    machine: Machine,
    frames: impl Into<Frames<'f>>,
    registers: &mut [u64],
) -> Result<usize, ThreadRefusal> {
    let restore = edition.restore(section, first, table, machine);
    let frames = frames.into().numbers();
    thread::pointers(Mover::Controller.thread(&restore, image, frames, registers))
}
