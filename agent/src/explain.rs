//! Why a slot of a frame moves or does not.

use crate::ffi::explain as ffi;
use crate::{Frame, Machine, MoveTable, Refusal};
use std::fmt;

/// A slot of a frame that is asked for.
///
/// A register and an address are different slots, also where they have the same number.
#[derive(Clone, Copy, Debug, PartialEq, Eq, Hash)]
pub enum Slot {
    /// Eight bytes of the stack, by the address of the first one.
    Address(u64),
    /// The register of this DWARF number. Any number may be asked for; one that is no slot on the machine is
    /// [`Reason::Unlisted`].
    Register(u64),
}

/// Why a slot of a frame that can be moved gets another content, or keeps its own.
#[derive(Clone, Copy, Debug, PartialEq, Eq, Hash)]
pub enum Reason {
    /// The slot is none of a pointer's. Null pairs and deoptimisation values list nothing, and a slot in
    /// memory is its first byte: an address inside one is unlisted, and what stands there changes with the
    /// bytes of that slot.
    Unlisted,
    /// The slot is the base of a pointer, and none in it is derived: it keeps its content, whatever that is.
    OnlyBase,
    /// The slot is derived from a base of 0, and keeps its content.
    NullBase,
    /// The slot is derived from the start of an object: it gets its content plus the new base minus the old
    /// one, modulo 2^64.
    Moved {
        /// The lowest pair that derives the slot, counted from 0 among the pairs of the record.
        pair: u64,
        /// The old start of the object.
        old_base: u64,
        /// The new start of the object.
        new_base: u64,
    },
}

impl fmt::Display for Reason {
    fn fmt(&self, f: &mut fmt::Formatter<'_>) -> fmt::Result {
        match self {
            Reason::Unlisted => f.write_str("unlisted"),
            Reason::OnlyBase => f.write_str("only a base"),
            Reason::NullBase => f.write_str("null base"),
            Reason::Moved {
                pair,
                old_base,
                new_base,
            } => write!(f, "moved by pair {pair}, {old_base:#x} to {new_base:#x}"),
        }
    }
}

/// Tells why a slot of a frame moves or does not: what [`relocate`](crate::relocate()) does to it, given the
/// same.
///
/// Nothing is written. The reason is the first that holds of [`Moved`](Reason::Moved),
/// [`NullBase`](Reason::NullBase), [`OnlyBase`](Reason::OnlyBase) and [`Unlisted`](Reason::Unlisted). Of a pair
/// of several pointers, each has its own slots, and all of them are of that pair. A call costs about as much as
/// the move.
///
/// All slots of a frame or a thread are told at a time by
/// [`Edition::explain_frame`](crate::editions::Edition::explain_frame) and
/// [`Edition::explain_thread`](crate::editions::Edition::explain_thread).
///
/// # Errors
///
/// The refusal that [`relocate`](crate::relocate()) would give, with its number and place, whatever slot is
/// asked for.
///
/// # Examples
///
/// ```
/// use treskibben::{explain, Frame, Machine, MoveTable, Reason, Slot};
/// # fn main() -> Result<(), Box<dyn std::error::Error>> {
/// // A statepoint of AMD64 at 0x1020 in a function with 24 bytes of stack. It has two pairs: the slot
/// // at RSP + 8 with itself as base, and the one at RSP + 16, which is derived from that.
/// let section = std::fs::read("../samples/h-statepoint.section")?;
/// let registers = Machine::Amd64.registers(0, 0x7000);
/// let table = MoveTable::new(&[0x50000], &[0x90000]);
/// let stack = |slots: [u64; 3]| slots.map(u64::to_le_bytes).concat();
/// let why = |image: &[u8], slot| {
///     let (machine, frame) = (Machine::Amd64, Frame::new(0x1020));
///     explain(&section, image, 0x7000, table, machine, frame, &registers, slot)
/// };
///
/// let image = stack([7, 0x50000, 0x54e20]);
/// let moved = Reason::Moved { pair: 1, old_base: 0x50000, new_base: 0x90000 };
/// assert_eq!(why(&image, Slot::Address(0x7010)), Ok(moved));
/// assert_eq!(moved.to_string(), "moved by pair 1, 0x50000 to 0x90000");
/// assert_eq!(why(&image, Slot::Address(0x7000)), Ok(Reason::Unlisted));
/// assert_eq!(why(&image, Slot::Address(0x7011)), Ok(Reason::Unlisted));
///
/// // A base of 0.
/// assert_eq!(why(&stack([7, 0, 0x54e20]), Slot::Address(0x7010)), Ok(Reason::NullBase));
///
/// // A base that is no start of an object: no slot of the frame moves.
/// let refusal = why(&stack([7, 0x50008, 0x54e20]), Slot::Address(0x7000)).unwrap_err();
/// assert_eq!(refusal.to_string(), "refused 21 at 0: base neither 0 nor an old start");
/// # Ok(())
/// # }
/// ```
///
/// A register:
///
/// ```
/// use treskibben::{explain, Frame, Machine, MoveTable, Reason, Slot};
/// # fn main() -> Result<(), Box<dyn std::error::Error>> {
/// // The same function. Its two pairs are RBX with itself as base, and the slot at RSP + 16, which is
/// // derived from RBX.
/// let section = std::fs::read("../samples/r-registers.section")?;
/// let (table, machine) = (MoveTable::new(&[0x50000], &[0x90000]), Machine::Amd64);
/// let (image, frame) = ([0; 24], Frame::new(0x1020));
///
/// const RBX: usize = 3;
/// let mut registers = machine.registers(0, 0x7000);
/// registers[RBX] = 0x50000;
/// let why = |slot| explain(&section, &image, 0x7000, table, machine, frame, &registers, slot);
/// let moved = Reason::Moved { pair: 0, old_base: 0x50000, new_base: 0x90000 };
/// assert_eq!(why(Slot::Register(3)), Ok(moved));
/// assert_eq!(why(Slot::Address(3)), Ok(Reason::Unlisted));
/// # Ok(())
/// # }
/// ```
#[allow(clippy::too_many_arguments)] // Those of the move, and the slot.
pub fn explain(
    section: &[u8],
    image: &[u8],
    first: u64,
    table: MoveTable,
    machine: Machine,
    frame: Frame,
    registers: &[u64],
    slot: Slot,
) -> Result<Reason, Refusal> {
    let (olds, news) = (table.old_starts(), table.new_starts());
    let machine = machine.number();
    told(ffi::explain(
        section, image, first, olds, news, machine, frame, registers, slot,
    ))
}

/// The reason that is told, or the refusal.
pub(crate) fn told(told: ffi::Told) -> Result<Reason, Refusal> {
    told.verdict.accepted()?;
    Ok(reason(
        told.reason,
        [told.pair, told.old_base, told.new_base],
    ))
}

/// The reason of this number, with the pair, the old base and the new base that are told of a moved slot. The
/// library is proved to answer no other number for a frame that it does not refuse.
pub(crate) fn reason(number: u64, [pair, old_base, new_base]: [u64; 3]) -> Reason {
    match number {
        0 => Reason::Unlisted,
        1 => Reason::OnlyBase,
        2 => Reason::NullBase,
        3 => Reason::Moved {
            pair,
            old_base,
            new_base,
        },
        other => panic!("libtreskibben answers the reason {other}, and these are 0 to 3"),
    }
}

#[cfg(test)]
mod tests {
    use super::*;

    const MOVED: Reason = Reason::Moved {
        pair: 7,
        old_base: 8,
        new_base: 0x90,
    };

    #[test]
    fn each_number_is_its_reason() {
        let told = [7, 8, 0x90];
        let reasons = [0, 1, 2, 3].map(|number| reason(number, told));
        let expected = [Reason::Unlisted, Reason::OnlyBase, Reason::NullBase, MOVED];
        assert_eq!(reasons, expected);
    }

    #[test]
    fn another_number_is_a_panic_that_says_so() {
        for number in [4, 5, 256, 1 << 32, u64::MAX] {
            let payload = std::panic::catch_unwind(|| reason(number, [0; 3])).expect_err("a panic");
            let text = *payload.downcast::<String>().expect("a panic with a text");
            assert!(text.contains(&format!("the reason {number}, ")), "{text}");
        }
    }

    #[test]
    fn each_reason_has_words_of_its_own() {
        let words = [Reason::Unlisted, Reason::OnlyBase, Reason::NullBase, MOVED];
        let words = words.map(|reason| reason.to_string());
        let expected = [
            "unlisted",
            "only a base",
            "null base",
            "moved by pair 7, 0x8 to 0x90",
        ];
        assert_eq!(words, expected);
    }
}
