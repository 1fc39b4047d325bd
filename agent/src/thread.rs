//! The move of a whole thread.

use crate::{ffi, relocate, Frame, Machine, MoveTable, Refusal};
use std::error::Error;
use std::fmt;

#[cfg(test)]
mod tests;

/// The most frames of a thread.
pub(crate) const MOST_FRAMES: usize = 4_096;

/// The frames of a stopped thread as one list of numbers, two to a frame: address and function.
///
/// The numbers are the fields of a [`Frame`]: for version 1 the first is the instruction offset, and for
/// version 3 the last is not read. Nothing is tested here. [`relocate_thread`] refuses a list by 25 whose
/// length is odd, or that holds over 4,096 frames.
///
/// # Examples
///
/// ```
/// use treskibben::{Frame, Frames};
///
/// let frames = [Frame::new(0x1020), Frame::in_function(5, 0x20)];
/// let list = Frames::from(&frames);
/// assert_eq!(list, Frames::of_numbers(&[0x1020, 0, 0x20, 5]));
/// ```
#[derive(Clone, Copy, Debug, Default, PartialEq, Eq)]
pub struct Frames<'a> {
    numbers: &'a [u64],
}

impl<'a> Frames<'a> {
    /// The list of these frames.
    pub fn new(frames: &'a [Frame]) -> Frames<'a> {
        let numbers = ffi::numbers(frames);
        Frames { numbers }
    }

    /// The list of these numbers: address and function of the first frame, then of the next.
    pub fn of_numbers(numbers: &'a [u64]) -> Frames<'a> {
        Frames { numbers }
    }

    /// The numbers.
    pub fn numbers(&self) -> &'a [u64] {
        self.numbers
    }
}

impl<'a> From<&'a [Frame]> for Frames<'a> {
    fn from(frames: &'a [Frame]) -> Frames<'a> {
        Frames::new(frames)
    }
}

impl<'a> From<&'a Vec<Frame>> for Frames<'a> {
    fn from(frames: &'a Vec<Frame>) -> Frames<'a> {
        Frames::new(frames)
    }
}

impl<'a, const N: usize> From<&'a [Frame; N]> for Frames<'a> {
    fn from(frames: &'a [Frame; N]) -> Frames<'a> {
        Frames::new(frames)
    }
}

/// Why a thread was refused, and where: by what all its frames share, by one frame, or by two frames
/// whose extents share a byte.
#[derive(Clone, Copy, Debug, PartialEq, Eq, Hash)]
pub struct ThreadRefusal {
    refusal: Refusal,
}

impl ThreadRefusal {
    /// The refusal of a call that is given a thread.
    pub(crate) fn new(refusal: Refusal) -> ThreadRefusal {
        ThreadRefusal { refusal }
    }

    /// The number of the cause, as [`Refusal`] has it.
    pub fn number(&self) -> u64 {
        self.refusal.number()
    }

    /// The place: the position of the frame where one is to blame, and else what [`Refusal`] says.
    pub fn place(&self) -> u64 {
        self.refusal.place()
    }

    /// The position in the list of the frame that is to blame, counted from 0. `None` where the
    /// section, the image, the table, an index or the list as a whole is.
    pub fn position(&self) -> Option<usize> {
        let of_frame = matches!(self.number(), 10 | 12 | 15..=21 | 26);
        let position = usize::try_from(self.place()).ok();
        position.filter(|_| of_frame)
    }

    /// The cause in words.
    pub fn cause(&self) -> &'static str {
        self.refusal.cause()
    }
}

impl From<ThreadRefusal> for Refusal {
    fn from(refusal: ThreadRefusal) -> Refusal {
        refusal.refusal
    }
}

impl fmt::Display for ThreadRefusal {
    fn fmt(&self, f: &mut fmt::Formatter<'_>) -> fmt::Result {
        self.refusal.fmt(f)?;
        match self.position() {
            Some(position) => write!(f, " (frame {position})"),
            None => Ok(()),
        }
    }
}

impl Error for ThreadRefusal {}

/// Moves the pointers of a whole thread, all of its frames or none, and gives their number, null pairs
/// counting one each.
///
/// `registers` are those of all frames in one list, 32 numbers to a frame in the order of the frames; a
/// slice of [`Registers`](crate::Registers) is lent by
/// [`as_flattened_mut`](https://doc.rust-lang.org/std/primitive.slice.html#method.as_flattened_mut). The
/// other arguments are those of [`relocate`](crate::relocate()): all frames are of one machine. A
/// frame's extent is its part of the stack: the bytes from the stack pointer on, as many as the stack size
/// of its function. Where the call is accepted, image and registers are those that `relocate` leaves when it
/// moves the frames one by one, each with its own registers, in the order of the list or in any other. A list
/// of no frames is accepted, with 0 pointers.
///
/// The call needs about 264 KiB of stack, which a thread of [`std::thread`] has many times
/// over.
///
/// # Errors
///
/// The first of these that holds. Positions in the list are counted from 0. A refusal leaves all of the
/// image and all registers unchanged.
///
/// | Number | Cause | Place |
/// |---|---|---|
/// | 1 to 9 | the refusal of [`check`](crate::check) | as there |
/// | 13, 14 | as of [`relocate`](crate::relocate()) | 0 |
/// | 25 | the list of frames odd or over 4,096 frames, or not 32 registers for each frame | 0 |
/// | 10, 12, 15 to 21 | the first frame of the list that is refused by itself, on the image as lent: by the number that `relocate` gives it | its position |
/// | 26 | the first frame whose extent shares a byte with that of an earlier one; empty extents share nothing | its position |
///
/// # Examples
///
/// ```
/// use treskibben::{relocate_thread, Frame, Machine, MoveTable};
/// # fn main() -> Result<(), Box<dyn std::error::Error>> {
/// // A statepoint at 0x1020 in a function with 24 bytes of stack, which has called itself. It has two
/// // pairs: the slot at RSP + 8 with itself as base, and the one at RSP + 16, derived from that.
/// let section = std::fs::read("../samples/h-statepoint.section")?;
/// let frames = [Frame::new(0x1020), Frame::new(0x1020)];
/// let machine = Machine::Amd64;
/// let table = MoveTable::new(&[0x50000], &[0x90000]);
/// let stack = |slots: [u64; 6]| slots.map(u64::to_le_bytes).concat();
/// let mut image = stack([7, 0x50000, 0x54e20, 8, 0, 0x1234]);
/// let mut moved = |image: &mut [u8], stack_pointers: [u64; 2]| {
///     let mut registers = stack_pointers.map(|rsp| machine.registers(0, rsp));
///     let registers = registers.as_flattened_mut();
///     relocate_thread(&section, image, 0x7000, table, machine, &frames, registers)
/// };
///
/// // The second frame would be moved where the first is: nothing is.
/// let refusal = moved(&mut image, [0x7000, 0x7000]).unwrap_err();
/// assert_eq!((refusal.number(), refusal.position()), (26, Some(1)));
///
/// assert_eq!(moved(&mut image, [0x7000, 0x7018]), Ok(4));
/// assert_eq!(image, stack([7, 0x90000, 0x94e20, 8, 0, 0x1234]));
/// # Ok(())
/// # }
/// ```
pub fn relocate_thread<'a>(
    section: &[u8],
    image: &mut [u8],
    first: u64,
    table: MoveTable,
    machine: Machine,
    frames: impl Into<Frames<'a>>,
    registers: &mut [u64],
) -> Result<usize, ThreadRefusal> {
    let (olds, news) = (table.old_starts(), table.new_starts());
    let (machine, frames) = (machine.number(), frames.into().numbers);
    pointers(ffi::thread(
        section, image, first, olds, news, machine, frames, registers,
    ))
}

/// The number of the pointers of a thread that is moved, or the refusal.
pub(crate) fn pointers(answer: ffi::Answer) -> Result<usize, ThreadRefusal> {
    let pointers = answer.outcome().map_err(ThreadRefusal::new)?;
    Ok(relocate::number(pointers, MOST_FRAMES))
}
