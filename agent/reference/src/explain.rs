//! Why a slot of a frame holds what it holds after a move, or why the frame
//! isn't moved.
//!
//! A slot is asked for by the address of its first byte or as a register, and
//! gets one reason: refused, with the number and place that the move of this
//! frame would give; moved, where a pair derives it from a base that isn't 0;
//! null base, where pairs derive it from a base of 0; only a base; or
//! unlisted. Nothing is written.
//!
//! A pair of several pointers lists the first byte of each. An address inside a
//! slot that isn't its first byte is unlisted, as are the machine's two
//! pointers and numbers that are no register. Null pairs and deopt locations
//! list nothing.

#[cfg(test)]
mod tests;
#[cfg(test)]
mod tests_frames;

use crate::machine::Machine;
use crate::pieces::Stack;
use crate::relocate::{moved, Cell, Frame, Plan, Shared, MAX_POINTERS};
use crate::section::read;
use crate::Refusal;

/// A slot that is asked for.
#[derive(Clone, Copy, Debug, PartialEq, Eq)]
pub enum Slot {
    /// Eight bytes of the stack, by the address of their first.
    Address(u64),
    /// The register of this DWARF number, whatever the number.
    Register(u64),
}

/// Why a slot is left as it is or set.
#[derive(Clone, Copy, Debug, PartialEq, Eq)]
pub enum Reason {
    /// No pointer has it.
    Unlisted,
    /// It is the base of some pointer, and none derives it.
    OnlyBase,
    /// It is derived from an old base of 0.
    NullBase,
    /// It is derived from an old base that has moved.
    Moved {
        /// The lowest pair that derives it.
        pair: u64,
        /// The old base.
        old_base: u64,
        /// The new base.
        new_base: u64,
    },
    /// The move of the frame is refused.
    Refused(Refusal),
}

impl Reason {
    /// The number of the reason, 0 to 4, the refusal's number and place, and
    /// pair, old base and new base; 0 where the reason has none.
    pub fn numbers(self) -> [u64; 6] {
        match self {
            Reason::Unlisted => [0; 6],
            Reason::OnlyBase => [1, 0, 0, 0, 0, 0],
            Reason::NullBase => [2, 0, 0, 0, 0, 0],
            Reason::Moved {
                pair,
                old_base,
                new_base,
            } => [3, 0, 0, pair, old_base, new_base],
            Reason::Refused(refusal) => [4, refusal.number, refusal.place, 0, 0, 0],
        }
    }
}

/// A pointer of a frame's record: the pair that it is of, and its two slots.
#[derive(Clone, Copy, Debug, PartialEq, Eq)]
pub struct Explained {
    /// The number of its pair.
    pub pair: u64,
    /// Its base and itself; none for the one pointer of a null pair.
    pub slots: Option<[ExplainedSlot; 2]>,
}

/// A slot of a pointer, what it holds before the move, and its reason.
#[derive(Clone, Copy, Debug, PartialEq, Eq)]
pub struct ExplainedSlot {
    /// The slot.
    pub slot: Slot,
    /// What it holds before the move.
    pub content: u64,
    /// Why it is left as it is or set.
    pub reason: Reason,
}

/// The reason of one slot. All is lent that [`relocate`](crate::relocate()) is,
/// and a refusal is the one that it would give.
#[allow(clippy::too_many_arguments)]
pub fn explain(
    section: &[u8],
    image: &[u8],
    first: u64,
    old_starts: &[u64],
    new_starts: &[u64],
    machine: u64,
    frame: Frame,
    registers: &[u64],
    slot: Slot,
) -> Reason {
    let table = [old_starts, new_starts];
    let ask = |shared: &Shared| shared.explain(image, frame, registers, slot);
    let reason = with_shared(section, first, table, machine, ask);
    reason.unwrap_or_else(Reason::Refused)
}

/// The reasons of both slots of every pointer of a frame's record, pair by
/// pair, or the refusal of its move.
#[allow(clippy::too_many_arguments)]
pub fn explain_frame(
    section: &[u8],
    image: &[u8],
    first: u64,
    old_starts: &[u64],
    new_starts: &[u64],
    machine: u64,
    frame: Frame,
    registers: &[u64],
) -> Result<Vec<Explained>, Refusal> {
    let table = [old_starts, new_starts];
    let ask = |shared: &Shared| shared.explain_frame(image, frame, registers);
    with_shared(section, first, table, machine, ask)
}

/// What a question gets on a section and a machine, or refusals 1 to 9 and 33.
fn with_shared<T>(
    section: &[u8],
    first: u64,
    table: [&[u64]; 2],
    machine: u64,
    ask: impl Fn(&Shared) -> Result<T, Refusal>,
) -> Result<T, Refusal> {
    let section = read(section)?;
    ask(&Shared {
        machine: Machine::of_number(machine)?,
        most_pointers: MAX_POINTERS,
        section: &section,
        stack: Stack::Whole(first),
        table,
    })
}

impl Shared<'_> {
    /// The reason of one slot of a frame, or the frame's refusal from 13 on.
    pub(crate) fn explain(
        &self,
        image: &[u8],
        frame: Frame,
        registers: &[u64],
        slot: Slot,
    ) -> Result<Reason, Refusal> {
        let plan = self.judge_one(image, frame, registers)?;
        Ok(self.reason(&plan, slot))
    }

    /// The reasons of both slots of each pointer of a frame, or the frame's
    /// refusal from 13 on.
    pub(crate) fn explain_frame(
        &self,
        image: &[u8],
        frame: Frame,
        registers: &[u64],
    ) -> Result<Vec<Explained>, Refusal> {
        let plan = self.judge_one(image, frame, registers)?;
        let of = |cell: &Cell| {
            let slot = Self::slot(&plan, cell);
            ExplainedSlot {
                slot,
                content: cell.content,
                reason: self.reason(&plan, slot),
            }
        };
        let mut explained = Vec::new();
        for (number, pointers) in plan.pairs.iter().enumerate() {
            let pair = number as u64;
            if pointers.is_empty() {
                explained.push(Explained { pair, slots: None });
            }
            for pointer in pointers {
                let slots = Some([of(&pointer.base), of(&pointer.derived)]);
                explained.push(Explained { pair, slots });
            }
        }
        Ok(explained)
    }

    /// The reason of a slot of an accepted frame.
    fn reason(&self, plan: &Plan, slot: Slot) -> Reason {
        let is = |cell: &Cell| Self::slot(plan, cell) == slot;
        let derived: Vec<(usize, u64)> = numbered(plan)
            .filter(|(_, [_, derived])| is(derived))
            .map(|(pair, [base, _])| (pair, base.content))
            .collect();
        let moving = derived.iter().find(|(_, old_base)| *old_base != 0);
        if let Some(&(pair, old_base)) = moving {
            return Reason::Moved {
                pair: pair as u64,
                old_base,
                new_base: moved(old_base, self.table).unwrap_or(0),
            };
        }
        let is_base = numbered(plan).any(|(_, [base, _])| is(base));
        match () {
            () if !derived.is_empty() => Reason::NullBase,
            () if is_base => Reason::OnlyBase,
            () => Reason::Unlisted,
        }
    }

    /// A slot of an accepted frame as it is asked for.
    fn slot(plan: &Plan, cell: &Cell) -> Slot {
        match cell.slot {
            crate::relocate::Slot::Register(number) => Slot::Register(number as u64),
            crate::relocate::Slot::Memory(at) => Slot::Address(plan.start.wrapping_add(at as u64)),
        }
    }
}

/// The pointers of a plan, base first, each with the number of its pair.
fn numbered(plan: &Plan) -> impl Iterator<Item = (usize, [&Cell; 2])> {
    let pairs = plan.pairs.iter().enumerate();
    pairs.flat_map(|(pair, pointers)| {
        let both = pointers.iter();
        both.map(move |pointer| (pair, [&pointer.base, &pointer.derived]))
    })
}
