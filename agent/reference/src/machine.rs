//! The machines whose frames are relocated, the DWARF numbers of their two
//! pointers, and which registers can hold a pointer of a pair.

use crate::editions::{AARCH64, AMD64};
use crate::Refusal;

/// A machine. A section doesn't say its machine; who moves a frame does.
#[derive(Clone, Copy, Debug, PartialEq, Eq)]
pub(crate) enum Machine {
    /// AMD64: RBP is DWARF 6 and RSP DWARF 7.
    Amd64,
    /// AArch64: X29 is DWARF 29 and SP DWARF 31.
    Aarch64,
}

impl Machine {
    /// The machine of a number, or refusal 33: a machine that is none.
    pub(crate) fn of_number(number: u64) -> Result<Machine, Refusal> {
        match number {
            AMD64 => Ok(Machine::Amd64),
            AARCH64 => Ok(Machine::Aarch64),
            _ => Err(Refusal::at(33, 0)),
        }
    }

    /// The DWARF number of the frame pointer.
    pub(crate) fn frame_pointer(self) -> u16 {
        match self {
            Machine::Amd64 => 6,
            Machine::Aarch64 => 29,
        }
    }

    /// The DWARF number of the stack pointer.
    pub(crate) fn stack_pointer(self) -> u16 {
        match self {
            Machine::Amd64 => 7,
            Machine::Aarch64 => 31,
        }
    }

    /// Whether a register is a slot: under 16 on AMD64 and under 32 on AArch64,
    /// and neither of the two pointers.
    pub(crate) fn is_slot(self, register: u16) -> bool {
        let limit = match self {
            Machine::Amd64 => 16,
            Machine::Aarch64 => 32,
        };
        let pointers = [self.frame_pointer(), self.stack_pointer()];
        register < limit && !pointers.contains(&register)
    }
}
