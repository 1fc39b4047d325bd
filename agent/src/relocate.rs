//! The move of one frame.

use crate::{ffi, Machine, Refusal};

/// A frame of a stopped thread: where its record is. What its registers hold is lent beside it.
///
/// The two versions of a section name a record each in its own way. For version 3 a frame has the
/// record's address, as [`Frame::new`] makes it; for version 1 it has the number of the function and
/// the record's instruction offset, as [`Frame::in_function`] makes it.
///
/// # Examples
///
/// ```
/// use treskibben::Frame;
///
/// assert_eq!(Frame::new(0x1020), Frame { address: 0x1020, function: 0 });
/// assert_eq!(Frame::in_function(5, 0x20), Frame { address: 0x20, function: 5 });
/// ```
#[derive(Clone, Copy, Debug, PartialEq, Eq, Hash)]
#[repr(C)]
pub struct Frame {
    /// For version 3 the address of its record: the one that the call in it returns to. For version 1
    /// the instruction offset of its record: that address less the function's.
    pub address: u64,
    /// For version 1 the number of its function in the section, counted from 0. For version 3 it is not
    /// read.
    pub function: u64,
}

impl Frame {
    /// The frame whose record has this address, for a section of version 3. Its function is 0, which is
    /// not read.
    pub const fn new(address: u64) -> Frame {
        Frame {
            address,
            function: 0,
        }
    }

    /// The frame of the function with this number whose record is at this offset, for a section of
    /// version 1.
    pub const fn in_function(function: u64, offset: u64) -> Frame {
        Frame {
            address: offset,
            function,
        }
    }
}

/// Where each object was and where it is now: two lists of starts, which belong together entry by
/// entry.
///
/// Nothing is tested here. [`relocate`] refuses a table by 14 whose lists have unequal lengths, or
/// over 65,536 entries, or a 0, or whose old starts don't rise strictly.
///
/// # Examples
///
/// ```
/// use treskibben::MoveTable;
///
/// let table = MoveTable::new(&[0x50000, 0x60000], &[0x90000, 0x80000]);
/// assert_eq!((table.old_starts()[1], table.new_starts()[1]), (0x60000, 0x80000));
///
/// // The same, of pairs.
/// let moves = [(0x50000, 0x90000), (0x60000, 0x80000)];
/// let lists: (Vec<u64>, Vec<u64>) = moves.into_iter().unzip();
/// assert_eq!(MoveTable::from(&lists), table);
/// ```
#[derive(Clone, Copy, Debug, Default, PartialEq, Eq)]
pub struct MoveTable<'a> {
    old: &'a [u64],
    new: &'a [u64],
}

impl<'a> MoveTable<'a> {
    /// The table of these old starts and these new ones.
    pub fn new(old: &'a [u64], new: &'a [u64]) -> MoveTable<'a> {
        MoveTable { old, new }
    }

    /// The old starts.
    pub fn old_starts(&self) -> &'a [u64] {
        self.old
    }

    /// The new starts.
    pub fn new_starts(&self) -> &'a [u64] {
        self.new
    }
}

/// The table of old starts and new ones.
impl<'a> From<(&'a [u64], &'a [u64])> for MoveTable<'a> {
    fn from((old, new): (&'a [u64], &'a [u64])) -> MoveTable<'a> {
        MoveTable { old, new }
    }
}

/// The table of the two lists that [`unzip`](Iterator::unzip) makes of pairs.
impl<'a> From<&'a (Vec<u64>, Vec<u64>)> for MoveTable<'a> {
    fn from((old, new): &'a (Vec<u64>, Vec<u64>)) -> MoveTable<'a> {
        MoveTable { old, new }
    }
}

/// Moves the pointers of one frame, and gives its statepoint's number of pointers, null pairs counting
/// one each.
///
/// `image` is a copy of the stack, from the address `first` on, and `registers` are the frame's
/// [`Registers`](crate::Registers). The frame's record is a statepoint: after three constants, the last of
/// which says how many deoptimisation values follow, it lists pairs of locations, a base and what is derived
/// from it. Each location is in memory (kind 3) or in a register (kind 1), in any mix. In version 3 a pair of
/// size 8N in memory is N pointers one after another: pointer i has its base in the slot 8i bytes after the
/// first location's beginning, and stands itself in the slot 8i bytes after the second one's. A pair with a
/// register is one pointer, and so is a pair of version 1; a null pair, two constants of 0, counts as one in
/// both versions and has no slots.
///
/// Each derived slot is set to its content plus the new start of its base minus the old one, modulo
/// 2^64; everything is taken from the image and the registers as they were before the call. A base of 0 stays
/// 0. All other bytes of the image and all other registers are left as they are, also those of a base slot
/// that no pointer is derived in.
///
/// Slots in memory are counted from the frame pointer or the stack pointer of the machine, which are read
/// from `registers`; a pair with any other register is of wrong form, also with one of the other machine. The
/// registers that can be slots are those of [`Machine::is_slot`]; the two pointers never change. The frame's
/// part of the stack begins at the stack pointer and is as long as the stack size of its function says.
/// The function is that of the record in version 3, and the one that the frame names in version 1, which
/// doesn't say whether the record is that function's: the caller has to know. In version 3 both locations of
/// a pair have the same size: 8 to 2,048 by eights in memory, and 8 in a register; in version 1 each has 0
/// or 8. The offset of a register is 0.
///
/// # Errors
///
/// The first of these that holds, and 18 to 21 each over all pairs before the next; in version 1, 17 comes
/// before 18. A refusal leaves all of the image and all registers unchanged.
///
/// | Number | Cause | Place |
/// |---|---|---|
/// | 1 to 9 | the refusal of [`check`](crate::check) | as there |
/// | 13 | image over 1,048,576 bytes, or first address + length over 2^64 - 1 | 0 |
/// | 14 | lists unequal, over 65,536 entries, old starts not strictly rising, or a 0 in either | 0 |
/// | 25 | not 32 registers | 0 |
/// | 10 | no record of that address; of version 1, no such function, or no record at the offset | 0 |
/// | 15 | more than one record at the address; of version 1, at the offset | 0 |
/// | 12 | not a statepoint | 0 |
/// | 16 | stack size unknown, or the frame not inside the image | 0 |
/// | 18 | pair of wrong form | the pair |
/// | 17 | over 256 pointers, null pairs counting one each | 0 |
/// | 19 | a slot in memory not wholly inside the frame | the pair |
/// | 20 | two slots overlap without being equal, or one is derived from bases that differ | the pair |
/// | 21 | base neither 0 nor an old start | the pair |
///
/// Pairs are counted from 0, and the place is the lowest pair with the fault, whichever of its pointers has
/// it.
///
/// # Examples
///
/// ```
/// use treskibben::{relocate, Frame, Machine, MoveTable};
/// # fn main() -> Result<(), Box<dyn std::error::Error>> {
/// // A statepoint of AMD64 at 0x1020 in a function with 24 bytes of stack. It has two pairs: the slot
/// // at RSP + 8 with itself as base, and the one at RSP + 16, which is derived from that.
/// let section = std::fs::read("../samples/h-statepoint.section")?;
/// let frame = Frame::new(0x1020);
/// let mut registers = Machine::Amd64.registers(0, 0x7000);
///
/// // The object at 0x50000 has been moved to 0x90000.
/// let table = MoveTable::new(&[0x50000], &[0x90000]);
/// let stack = |slots: [u64; 3]| slots.map(u64::to_le_bytes).concat();
/// let mut image = stack([7, 0x50000, 0x54e20]);
/// let mut moved = |image: &mut [u8], machine| {
///     relocate(&section, image, 0x7000, table, machine, frame, &mut registers)
/// };
/// assert_eq!(moved(&mut image, Machine::Amd64), Ok(2));
/// assert_eq!(image, stack([7, 0x90000, 0x94e20]));
///
/// // The frame is moved now: its base is no old start any more.
/// let refusal = moved(&mut image, Machine::Amd64).unwrap_err();
/// assert_eq!(refusal.to_string(), "refused 21 at 0: base neither 0 nor an old start");
/// assert_eq!(image, stack([7, 0x90000, 0x94e20]));
///
/// // The same statepoint in a section of version 1, at offset 0x20 of function 0.
/// let older = std::fs::read("../samples/h-version-1.section")?;
/// let frame = Frame::in_function(0, 0x20);
/// let mut image = stack([7, 0x50000, 0x54e20]);
/// let machine = Machine::Amd64;
/// assert_eq!(relocate(&older, &mut image, 0x7000, table, machine, frame, &mut registers), Ok(2));
/// assert_eq!(image, stack([7, 0x90000, 0x94e20]));
/// # Ok(())
/// # }
/// ```
///
/// Pointers in registers:
///
/// ```
/// use treskibben::{relocate, Frame, Machine, MoveTable};
/// # fn main() -> Result<(), Box<dyn std::error::Error>> {
/// // The same function. Its two pairs are RBX with itself as base, and the slot at RSP + 16, which is
/// // derived from RBX.
/// let section = std::fs::read("../samples/r-registers.section")?;
/// let frame = Frame::new(0x1020);
/// let (table, machine) = (MoveTable::new(&[0x50000], &[0x90000]), Machine::Amd64);
/// let mut image = [7, 8, 0x54e20_u64].map(u64::to_le_bytes).concat();
///
/// const RBX: usize = 3;
/// let mut registers = machine.registers(0, 0x7000);
/// registers[RBX] = 0x50000;
/// let pointers = relocate(&section, &mut image, 0x7000, table, machine, frame, &mut registers);
/// assert_eq!(pointers, Ok(2));
/// assert_eq!(registers[RBX], 0x90000);
/// assert_eq!(image, [7, 8, 0x94e20_u64].map(u64::to_le_bytes).concat());
///
/// let few = &mut registers[..31];
/// let refusal = relocate(&section, &mut image, 0x7000, table, machine, frame, few).unwrap_err();
/// assert_eq!(refusal.number(), 25);
/// # Ok(())
/// # }
/// ```
pub fn relocate(
    section: &[u8],
    image: &mut [u8],
    first: u64,
    table: MoveTable,
    machine: Machine,
    frame: Frame,
    registers: &mut [u64],
) -> Result<usize, Refusal> {
    let (olds, news, machine) = (table.old, table.new, machine.number());
    let answer = ffi::relocate(section, image, first, olds, news, machine, frame, registers);
    pointers(answer)
}

/// The number of the pointers of a frame that is moved, or the refusal.
pub(crate) fn pointers(answer: ffi::Answer) -> Result<usize, Refusal> {
    Ok(number(answer.outcome()?, 1))
}

/// The number of pointers of so many frames, each of which the library is proved to accept with at most
/// 256.
pub(crate) fn number(pointers: u64, frames: usize) -> usize {
    match usize::try_from(pointers) {
        Ok(number) if number <= 256 * frames => number,
        _ => {
            panic!("libtreskibben answers that it moved {pointers} pointers, and a frame has at most 256")
        }
    }
}

#[cfg(test)]
mod tests {
    use super::number;

    #[test]
    fn up_to_256_pointers_are_a_number() {
        for pointers in [0, 1, 255, 256] {
            assert_eq!(number(pointers as u64, 1), pointers);
            assert_eq!(number(4_096 * pointers as u64, 4_096), 4_096 * pointers);
        }
    }

    #[test]
    fn more_pointers_are_a_panic_that_says_so() {
        for (pointers, frames) in [(257, 1), (1_048_577, 4_096), (u64::MAX, 4_096)] {
            let payload =
                std::panic::catch_unwind(|| number(pointers, frames)).expect_err("a panic");
            let text = *payload.downcast::<String>().expect("a panic with a text");
            assert!(
                text.contains(&format!("moved {pointers} pointers, ")),
                "{text}"
            );
        }
    }
}
