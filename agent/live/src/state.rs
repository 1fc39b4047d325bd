//! What a move reads and changes: the stack, and the registers of each frame.

use crate::image::Image;
use crate::library::Registers;

/// Where one pointer is.
#[derive(Clone, Copy, Debug, PartialEq, Eq, PartialOrd, Ord)]
pub enum Slot {
    /// In the eight bytes from an address on.
    Memory(u64),
    /// In a register, by its DWARF number.
    Register(u16),
}

/// The stack of a stopped thread, and the registers of its frames, deepest first. Each frame has its own,
/// so that a slot is one of a frame.
#[derive(Clone, Debug, PartialEq, Eq)]
pub struct State {
    /// The stack.
    pub image: Image,
    /// The registers of each frame.
    pub registers: Vec<Registers>,
}

impl State {
    /// What a slot of a frame holds.
    pub fn content(&self, frame: usize, slot: Slot) -> u64 {
        match slot {
            Slot::Memory(address) => self.image.word(address),
            Slot::Register(register) => self.registers[frame][usize::from(register)],
        }
    }

    /// Sets what a slot of a frame holds.
    pub fn set(&mut self, frame: usize, slot: Slot, content: u64) {
        match slot {
            Slot::Memory(address) => self.image.set(address, content),
            Slot::Register(register) => self.registers[frame][usize::from(register)] = content,
        }
    }
}
