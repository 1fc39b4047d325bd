//! Restores that name an edition: the moves of a frame and of a thread.

use super::Editions;
use crate::ffi::restore::{self, Mover, Restore};
use crate::{relocate, thread};
use crate::{Frame, Frames, Index, Machine, MoveTable, Refusal, ThreadRefusal};

/// An edition of a store, named by its number: what a restore is made under.
///
/// [`Editions::edition`] gives it. It is only a name: a number that is unknown or retired is refused by 31 in
/// each call, before all else. The calls are those of the crate's root, and the settings of the edition add to
/// them:
///
/// | Number | Cause | Place |
/// |---|---|---|
/// | 31 | edition unknown or retired | 0 |
/// | 1 to 9 | the refusal of [`check`](crate::check) | as there |
/// | 33 | the edition doesn't allow the version of the section, or is of another machine | 0 |
/// | 13, 14, 25, .. | as without an edition, but that 17 reads the edition's count | as there |
///
/// 17 is for more pointers than the edition's, null pairs counting one each; of version 1, for more pairs. A
/// size of 8N is of right form with N up to 256 under every edition: N over the edition's count is 17, and not
/// 18. Under an edition of 256 pointers and both versions, a call on its machine answers as without an edition.
///
/// # Examples
///
/// ```
/// use treskibben::editions::{Editions, Settings, Versions};
/// use treskibben::{Frame, Machine, MoveTable};
/// # fn main() -> Result<(), Box<dyn std::error::Error>> {
/// let (machine, versions) = (Machine::Amd64, Versions::Three);
/// let mut editions = Editions::new();
/// let number = editions.make(Settings { pointers: 256, machine, versions })?;
/// let narrow = editions.make(Settings { pointers: 1, machine, versions })?;
///
/// // A statepoint of AMD64 at 0x1020 in a function with 24 bytes of stack. It has two pairs: the slot
/// // at RSP + 8 with itself as base, and the one at RSP + 16, which is derived from that.
/// let section = std::fs::read("../samples/h-statepoint.section")?;
/// let table = MoveTable::new(&[0x50000], &[0x90000]);
/// let mut image = [7, 0x50000, 0x54e20_u64].map(u64::to_le_bytes).concat();
/// let mut moved = |edition, machine: Machine| {
///     let (frame, mut registers) = (Frame::new(0x1020), machine.registers(0, 0x7000));
///     let edition = editions.edition(edition);
///     edition.relocate(&section, &mut image, 0x7000, table, machine, frame, &mut registers)
/// };
///
/// // An edition that was never made, another machine than the edition's, and more pointers than it allows.
/// assert_eq!(moved(3, machine).unwrap_err().number(), 31);
/// assert_eq!(moved(number, Machine::Aarch64).unwrap_err().number(), 33);
/// assert_eq!(moved(narrow, machine).unwrap_err().number(), 17);
///
/// assert_eq!(moved(number, machine), Ok(2));
/// assert_eq!(image, [7, 0x90000, 0x94e20_u64].map(u64::to_le_bytes).concat());
/// # Ok(())
/// # }
/// ```
#[derive(Clone, Copy, Debug)]
pub struct Edition<'a> {
    editions: &'a Editions,
    number: u64,
}

impl Editions {
    /// The edition of this number, for a restore to name.
    ///
    /// Nothing is tested here: a number that is unknown or retired is refused by 31 in each call.
    ///
    /// ```
    /// use treskibben::editions::Editions;
    ///
    /// let editions = Editions::new();
    /// let edition = editions.edition(7);
    /// assert_eq!(edition.number(), 7);
    /// assert!(edition.store().read(7).is_err());
    /// ```
    pub fn edition(&self, number: u64) -> Edition<'_> {
        Edition {
            editions: self,
            number,
        }
    }
}

impl<'a> Edition<'a> {
    /// The number.
    pub fn number(&self) -> u64 {
        self.number
    }

    /// The store that it is looked up in.
    pub fn store(&self) -> &'a Editions {
        self.editions
    }

    /// What a restore is given that names this edition.
    pub(crate) fn restore<'b>(
        &self,
        section: &'b [u8],
        first: u64,
        table: MoveTable<'b>,
        machine: Machine,
    ) -> Restore<'b>
    where
        'a: 'b,
    {
        Restore {
            store: &self.editions.store,
            edition: self.number,
            section,
            first,
            olds: table.old_starts(),
            news: table.new_starts(),
            machine: machine.number(),
        }
    }

    /// Moves the pointers of one frame as [`relocate`](crate::relocate()) does, and gives their number, null
    /// pairs counting one each.
    ///
    /// # Errors
    ///
    /// The first of these that holds, and 18 to 21 each over all pairs before the next; in version 1, 17 comes
    /// before 18. A refusal leaves all of the image and all registers unchanged.
    ///
    /// | Number | Cause | Place |
    /// |---|---|---|
    /// | 31 | edition unknown or retired | 0 |
    /// | 1 to 9 | the refusal of [`check`](crate::check) | as there |
    /// | 33 | the edition doesn't allow the version of the section, or is of another machine | 0 |
    /// | 13, 14, 25, 10, 15, 12, 16, 18 | as of [`relocate`](crate::relocate()) | as there |
    /// | 17 | more pointers than the edition's count, null pairs counting one each; of version 1, more pairs | 0 |
    /// | 19, 20, 21 | as of [`relocate`](crate::relocate()) | the pair |
    ///
    /// # Examples
    ///
    /// [`Edition`] has one. An edition of version 1 alone:
    ///
    /// ```
    /// use treskibben::editions::{Editions, Settings, Versions};
    /// use treskibben::{Frame, Machine, MoveTable};
    /// # fn main() -> Result<(), Box<dyn std::error::Error>> {
    /// let (machine, versions) = (Machine::Amd64, Versions::One);
    /// let mut editions = Editions::new();
    /// let number = editions.make(Settings { pointers: 2, machine, versions })?;
    /// let edition = editions.edition(number);
    ///
    /// let table = MoveTable::new(&[0x50000], &[0x90000]);
    /// let mut image = [7, 0x50000, 0x54e20_u64].map(u64::to_le_bytes).concat();
    /// let mut registers = machine.registers(0, 0x7000);
    /// let mut moved = |section: &[u8], frame| {
    ///     edition.relocate(section, &mut image, 0x7000, table, machine, frame, &mut registers)
    /// };
    /// let section = std::fs::read("../samples/h-statepoint.section")?;
    /// let refusal = moved(&section, Frame::new(0x1020)).unwrap_err();
    /// assert_eq!(refusal.to_string(), "refused 33 at 0: version or machine not allowed");
    ///
    /// let older = std::fs::read("../samples/h-version-1.section")?;
    /// assert_eq!(moved(&older, Frame::in_function(0, 0x20)), Ok(2));
    /// # Ok(())
    /// # }
    /// ```
    #[allow(clippy::too_many_arguments)] // Those of the move.
    pub fn relocate(
        &self,
        section: &[u8],
        image: &mut [u8],
        first: u64,
        table: MoveTable,
        machine: Machine,
        frame: Frame,
        registers: &mut [u64],
    ) -> Result<usize, Refusal> {
        let restore = self.restore(section, first, table, machine);
        let answer = Mover::Plain.relocate(&restore, image, frame, registers);
        relocate::pointers(answer)
    }

    /// Moves the pointers of a whole thread as [`relocate_thread`](crate::relocate_thread) does, all of its
    /// frames or none, and gives their number, null pairs counting one each.
    ///
    /// The count of the edition is for each frame by itself, not for their sum.
    ///
    /// The call needs about 272 KiB of stack, which a thread of [`std::thread`] has many times over.
    ///
    /// # Errors
    ///
    /// The first of these that holds. A refusal leaves all of the image and all registers unchanged.
    ///
    /// | Number | Cause | Place |
    /// |---|---|---|
    /// | 31 | edition unknown or retired | 0 |
    /// | 1 to 9 | the refusal of [`check`](crate::check) | as there |
    /// | 33 | the edition doesn't allow the version of the section, or is of another machine | 0 |
    /// | 13, 14, 25 | as of [`relocate_thread`](crate::relocate_thread) | 0 |
    /// | 10, 12, 15 to 21 | the first frame of the list that is refused by itself, on the image as lent: by the number that [`relocate`](Edition::relocate) gives it | its position |
    /// | 26 | as of [`relocate_thread`](crate::relocate_thread) | the frame's position |
    ///
    /// # Examples
    ///
    /// ```
    /// use treskibben::editions::{Editions, Settings, Versions};
    /// use treskibben::{Frame, Machine, MoveTable};
    /// # fn main() -> Result<(), Box<dyn std::error::Error>> {
    /// let (machine, versions) = (Machine::Amd64, Versions::Both);
    /// let mut editions = Editions::new();
    /// let numbers = [1, 2].map(|pointers| editions.make(Settings { pointers, machine, versions }));
    ///
    /// // A statepoint with two pairs, at 0x1020 in a function with 24 bytes of stack, which has called itself.
    /// let section = std::fs::read("../samples/h-statepoint.section")?;
    /// let frames = [Frame::new(0x1020), Frame::new(0x1020)];
    /// let table = MoveTable::new(&[0x50000], &[0x90000]);
    /// let mut image = [7, 0x50000, 0x54e20, 8, 0, 0x1234_u64].map(u64::to_le_bytes).concat();
    /// let mut moved = |edition| {
    ///     let mut registers = [0x7000, 0x7018].map(|rsp| machine.registers(0, rsp));
    ///     let (edition, registers) = (editions.edition(edition), registers.as_flattened_mut());
    ///     edition.relocate_thread(&section, &mut image, 0x7000, table, machine, &frames, registers)
    /// };
    /// let refusal = moved(numbers[0]?).unwrap_err();
    /// assert_eq!((refusal.number(), refusal.position()), (17, Some(0)));
    /// assert_eq!(moved(numbers[1]?), Ok(4));
    /// # Ok(())
    /// # }
    /// ```
    #[allow(clippy::too_many_arguments)] // Those of the move.
    pub fn relocate_thread<'f>(
        &self,
        section: &[u8],
        image: &mut [u8],
        first: u64,
        table: MoveTable,
        machine: Machine,
        frames: impl Into<Frames<'f>>,
        registers: &mut [u64],
    ) -> Result<usize, ThreadRefusal> {
        let restore = self.restore(section, first, table, machine);
        let frames = frames.into().numbers();
        thread::pointers(Mover::Plain.thread(&restore, image, frames, registers))
    }

    /// Moves the pointers of a whole thread over a [linked section](crate::linked), each frame by the map that has
    /// its record, all of them or none, and gives their number, null pairs counting one each. On a section that is
    /// one map of version 3 it is [`relocate_thread`](Edition::relocate_thread).
    ///
    /// The call needs about 336 KiB of stack, which a thread of [`std::thread`] has many times over.
    ///
    /// # Errors
    ///
    /// The first of these that holds. A refusal leaves all of the image and all registers unchanged.
    ///
    /// | Number | Cause | Place |
    /// |---|---|---|
    /// | 31 | edition unknown or retired | 0 |
    /// | 1 to 8 | the refusal of [`linked::maps`](crate::linked::maps) | as there |
    /// | 27 | a map is of version 1 | the first such map's first byte |
    /// | 33 | the edition doesn't allow version 3, or is of another machine | 0 |
    /// | 13, 14, 25 | as of [`relocate_thread`](crate::relocate_thread) | 0 |
    /// | 10, 12, 15 to 21 | the first frame of the list that is refused by itself, on the image as lent: 10 where no record of any map has its address, 15 where several records of all maps have it, and the rest as in the map of its record | its position |
    /// | 26 | as of [`relocate_thread`](crate::relocate_thread) | the frame's position |
    ///
    /// # Examples
    ///
    /// ```
    /// use treskibben::editions::{Editions, Settings, Versions};
    /// use treskibben::{Frame, Machine, MoveTable};
    /// # fn main() -> Result<(), Box<dyn std::error::Error>> {
    /// let (machine, versions) = (Machine::Amd64, Versions::Three);
    /// let mut editions = Editions::new();
    /// let number = editions.make(Settings { pointers: 256, machine, versions })?;
    /// let edition = editions.edition(number);
    ///
    /// // A map of nothing, and then a statepoint with two pairs, at 0x1020 in a function with 24 bytes of stack.
    /// let map = std::fs::read("../samples/h-statepoint.section")?;
    /// let empty = [3, 0, 0, 0, 0, 0, 0, 0, 0, 0, 0, 0, 0, 0, 0, 0];
    /// let frames = [Frame::new(0x1020)];
    /// let table = MoveTable::new(&[0x50000], &[0x90000]);
    /// let mut image = [7, 0x50000, 0x54e20_u64].map(u64::to_le_bytes).concat();
    /// let mut moved = |section: &[u8]| {
    ///     let mut registers = machine.registers(0, 0x7000);
    ///     edition.relocate_linked_thread(
    ///         section, &mut image, 0x7000, table, machine, &frames, &mut registers,
    ///     )
    /// };
    ///
    /// // Two records at the address, in two maps: nothing is moved.
    /// let refusal = moved(&[&map[..], &map].concat()).unwrap_err();
    /// assert_eq!((refusal.number(), refusal.position()), (15, Some(0)));
    ///
    /// assert_eq!(moved(&[&empty, &map[..]].concat()), Ok(2));
    /// assert_eq!(image, [7, 0x90000, 0x94e20_u64].map(u64::to_le_bytes).concat());
    /// # Ok(())
    /// # }
    /// ```
    #[allow(clippy::too_many_arguments)] // Those of the move.
    pub fn relocate_linked_thread<'f>(
        &self,
        section: &[u8],
        image: &mut [u8],
        first: u64,
        table: MoveTable,
        machine: Machine,
        frames: impl Into<Frames<'f>>,
        registers: &mut [u64],
    ) -> Result<usize, ThreadRefusal> {
        let restore = self.restore(section, first, table, machine);
        let frames = frames.into().numbers();
        thread::pointers(restore::linked_thread(&restore, image, frames, registers))
    }

    /// Moves the pointers of a whole thread as [`Index::relocate_thread`] does, with that index of its section.
    /// With the right index the answer, the image and the registers are those of
    /// [`relocate_thread`](Edition::relocate_thread).
    ///
    /// # Errors
    ///
    /// Those of [`relocate_thread`](Edition::relocate_thread); and between 14 and 25, once, 27 if the section is
    /// of version 1 and 29 if the list is not its index.
    ///
    /// # Examples
    ///
    /// ```
    /// use treskibben::editions::{Editions, Settings, Versions};
    /// use treskibben::{Frame, Index, Machine, MoveTable};
    /// # fn main() -> Result<(), Box<dyn std::error::Error>> {
    /// let (machine, versions) = (Machine::Amd64, Versions::Three);
    /// let mut editions = Editions::new();
    /// let number = editions.make(Settings { pointers: 256, machine, versions })?;
    /// let edition = editions.edition(number);
    ///
    /// let section = std::fs::read("../samples/h-statepoint.section")?;
    /// let index = Index::of(&section)?;
    /// let table = MoveTable::new(&[0x50000], &[0x90000]);
    /// let mut image = [7, 0x50000, 0x54e20_u64].map(u64::to_le_bytes).concat();
    /// let (frames, mut registers) = ([Frame::new(0x1020)], machine.registers(0, 0x7000));
    /// let moved = edition.relocate_thread_by_index(
    ///     &index, &mut image, 0x7000, table, machine, &frames, &mut registers,
    /// );
    /// assert_eq!(moved, Ok(2));
    /// # Ok(())
    /// # }
    /// ```
    #[allow(clippy::too_many_arguments)] // Those of the move.
    pub fn relocate_thread_by_index<'f>(
        &self,
        index: &Index,
        image: &mut [u8],
        first: u64,
        table: MoveTable,
        machine: Machine,
        frames: impl Into<Frames<'f>>,
        registers: &mut [u64],
    ) -> Result<usize, ThreadRefusal> {
        let restore = self.restore(index.section(), first, table, machine);
        let (frames, entries) = (frames.into().numbers(), index.entries());
        let answer = restore::thread_by_index(&restore, image, frames, registers, entries);
        thread::pointers(answer)
    }
}
