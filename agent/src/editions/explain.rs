//! What is told of a restore that names an edition: why a slot, or all slots of a frame or a thread, move or do
//! not.

use super::Edition;
use crate::explain::told;
use crate::explained::{frame_rows, thread_rows};
use crate::ffi::{restore, rows};
use crate::{ExplainedPointer, Frame, Frames, Machine, MoveTable};
use crate::{Reason, Refusal, Slot, ThreadRefusal};

impl Edition<'_> {
    /// Tells why a slot of a frame moves or does not, as [`explain`](crate::explain()) does: what
    /// [`relocate`](Edition::relocate) does to it, given the same. Nothing is written.
    ///
    /// # Errors
    ///
    /// The refusal that [`relocate`](Edition::relocate) would give, with its number and place, whatever slot is
    /// asked for.
    ///
    /// # Examples
    ///
    /// ```
    /// use treskibben::editions::{Editions, Settings, Versions};
    /// use treskibben::{Frame, Machine, MoveTable, Reason, Slot};
    /// # fn main() -> Result<(), Box<dyn std::error::Error>> {
    /// let (machine, versions) = (Machine::Amd64, Versions::Three);
    /// let mut editions = Editions::new();
    /// let number = editions.make(Settings { pointers: 256, machine, versions })?;
    ///
    /// let section = std::fs::read("../samples/h-statepoint.section")?;
    /// let table = MoveTable::new(&[0x50000], &[0x90000]);
    /// let image = [7, 0x50000, 0x54e20_u64].map(u64::to_le_bytes).concat();
    /// let (frame, registers) = (Frame::new(0x1020), machine.registers(0, 0x7000));
    /// let why = |edition, slot| {
    ///     let edition = editions.edition(edition);
    ///     edition.explain(&section, &image, 0x7000, table, machine, frame, &registers, slot)
    /// };
    /// let moved = Reason::Moved { pair: 1, old_base: 0x50000, new_base: 0x90000 };
    /// assert_eq!(why(number, Slot::Address(0x7010)), Ok(moved));
    /// assert_eq!(why(number + 1, Slot::Address(0x7010)).unwrap_err().number(), 31);
    /// # Ok(())
    /// # }
    /// ```
    #[allow(clippy::too_many_arguments)] // Those of the move, and the slot.
    pub fn explain(
        &self,
        section: &[u8],
        image: &[u8],
        first: u64,
        table: MoveTable,
        machine: Machine,
        frame: Frame,
        registers: &[u64],
        slot: Slot,
    ) -> Result<Reason, Refusal> {
        let restore = self.restore(section, first, table, machine);
        told(restore::explain(&restore, image, frame, registers, slot))
    }

    /// Tells why each slot of each pointer of a frame moves or does not: what [`explain`](Edition::explain) tells
    /// of the slot, its pair, and what it holds. The pointers are in the order of their pairs, those of a pair in
    /// rising address order. Nothing is written.
    ///
    /// # Errors
    ///
    /// The refusal that [`relocate`](Edition::relocate) would give, with its number and place. No other: the list
    /// that the call writes to has room for 256 pointers.
    ///
    /// # Examples
    ///
    /// ```
    /// use treskibben::editions::{Editions, Settings, Versions};
    /// use treskibben::{Frame, Machine, MoveTable, Reason, Slot};
    /// # fn main() -> Result<(), Box<dyn std::error::Error>> {
    /// let (machine, versions) = (Machine::Amd64, Versions::Three);
    /// let mut editions = Editions::new();
    /// let number = editions.make(Settings { pointers: 256, machine, versions })?;
    ///
    /// // Two pairs: RBX with itself as base, and the slot at RSP + 16, which is derived from RBX.
    /// let section = std::fs::read("../samples/r-registers.section")?;
    /// let table = MoveTable::new(&[0x50000], &[0x90000]);
    /// let image = [7, 8, 0x54e20_u64].map(u64::to_le_bytes).concat();
    /// let (frame, mut registers) = (Frame::new(0x1020), machine.registers(0, 0x7000));
    /// registers[3] = 0x50000;
    ///
    /// let edition = editions.edition(number);
    /// let told =
    ///     edition.explain_frame(&section, &image, 0x7000, table, machine, frame, &registers)?;
    /// assert_eq!(told.iter().map(|pointer| pointer.pair).collect::<Vec<u64>>(), [0, 1]);
    /// let (base, derived) = told[1].slots.expect("no null pair");
    /// assert_eq!((base.slot, base.content), (Slot::Register(3), 0x50000));
    /// assert_eq!((derived.slot, derived.content), (Slot::Address(0x7010), 0x54e20));
    /// // Each slot has its own reason: that of the register is the first pair.
    /// assert!(matches!(base.reason, Reason::Moved { pair: 0, .. }));
    /// assert!(matches!(derived.reason, Reason::Moved { pair: 1, .. }));
    /// assert_eq!((base.new_content(), derived.new_content()), (0x90000, 0x94e20));
    /// # Ok(())
    /// # }
    /// ```
    #[allow(clippy::too_many_arguments)] // Those of the move.
    pub fn explain_frame(
        &self,
        section: &[u8],
        image: &[u8],
        first: u64,
        table: MoveTable,
        machine: Machine,
        frame: Frame,
        registers: &[u64],
    ) -> Result<Vec<ExplainedPointer>, Refusal> {
        let restore = self.restore(section, first, table, machine);
        frame_rows(|list| rows::frame(&restore, image, frame, registers, list))
    }

    /// Tells why each slot of each pointer of a whole thread moves or does not: what
    /// [`explain_frame`](Edition::explain_frame) tells of its frames, one after another in the order of the list,
    /// each with its position. Nothing is written.
    ///
    /// `registers` are those of all frames in one list, as of [`relocate_thread`](Edition::relocate_thread).
    ///
    /// # Errors
    ///
    /// The refusal that [`relocate_thread`](Edition::relocate_thread) would give, 26 included: a thread of which
    /// nothing would be moved is not explained. No other: the list that the call writes to is made as long as
    /// it has to be.
    ///
    /// # Examples
    ///
    /// ```
    /// use treskibben::editions::{Editions, Settings, Versions};
    /// use treskibben::{Frame, Machine, MoveTable, Reason};
    /// # fn main() -> Result<(), Box<dyn std::error::Error>> {
    /// let (machine, versions) = (Machine::Amd64, Versions::Three);
    /// let mut editions = Editions::new();
    /// let number = editions.make(Settings { pointers: 256, machine, versions })?;
    ///
    /// // Two pairs: the slot at RSP + 8 with itself as base, and the one at RSP + 16, derived from that.
    /// let section = std::fs::read("../samples/h-statepoint.section")?;
    /// let frames = [Frame::new(0x1020), Frame::new(0x1020)];
    /// let table = MoveTable::new(&[0x50000], &[0x90000]);
    /// let image = [7, 0x50000, 0x54e20, 8, 0, 0x1234_u64].map(u64::to_le_bytes).concat();
    /// let why = |stack_pointers: [u64; 2]| {
    ///     let registers = stack_pointers.map(|rsp| machine.registers(0, rsp));
    ///     let (edition, registers) = (editions.edition(number), registers.as_flattened());
    ///     edition.explain_thread(&section, &image, 0x7000, table, machine, &frames, registers)
    /// };
    /// let told = why([0x7000, 0x7018])?;
    /// let places: Vec<(usize, u64)> = told.iter().map(|own| (own.frame, own.pair)).collect();
    /// assert_eq!(places, [(0, 0), (0, 1), (1, 0), (1, 1)]);
    /// let (_, derived) = told[3].slots.expect("no null pair");
    /// assert_eq!(derived.reason, Reason::NullBase);
    ///
    /// let refusal = why([0x7000, 0x7000]).unwrap_err();
    /// assert_eq!((refusal.number(), refusal.position()), (26, Some(1)));
    /// # Ok(())
    /// # }
    /// ```
    #[allow(clippy::too_many_arguments)] // Those of the move.
    pub fn explain_thread<'f>(
        &self,
        section: &[u8],
        image: &[u8],
        first: u64,
        table: MoveTable,
        machine: Machine,
        frames: impl Into<Frames<'f>>,
        registers: &[u64],
    ) -> Result<Vec<ExplainedPointer>, ThreadRefusal> {
        let restore = self.restore(section, first, table, machine);
        let frames = frames.into().numbers();
        thread_rows(frames, |list| {
            rows::thread(&restore, image, frames, registers, list)
        })
    }
}
