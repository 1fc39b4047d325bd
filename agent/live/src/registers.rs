//! The registers of stopped frames, and where they are kept while their frames wait.
//!
//! A frame's registers are those that it finds when its call returns. Only what a callee has to keep can
//! hold a pointer over a call, and each such register is then in memory: whoever uses it for himself saves
//! it first. So the home of a register is the word that the nearest frame below saved it in, or, where
//! none of them uses it, the word in which the stop itself saved it.

use crate::library::{Machine, Registers};
use crate::memory::{word, Memory};
use crate::prologue::Saved;

/// What a callee has to keep, by DWARF number, in the order in which the stop saves it: RBX, RBP and R12
/// to R15; x19 to x29.
fn kept(machine: Machine) -> &'static [u16] {
    match machine {
        Machine::Amd64 => &[15, 14, 13, 12, 3, 6],
        Machine::Aarch64 => &[19, 20, 21, 22, 23, 24, 25, 26, 27, 28, 29],
    }
}

/// Where the registers of one frame are while it waits: for each that a callee has to keep the address of
/// a word, and of all others nothing is known.
#[derive(Clone, Debug, PartialEq, Eq)]
pub struct Homes {
    machine: Machine,
    words: [Option<u64>; 32],
}

impl Homes {
    /// Those of the frame that called the stop, which saved them from this address on.
    pub fn at_the_stop(machine: Machine, saved: u64) -> Homes {
        let mut words = [None; 32];
        for (&register, word) in kept(machine).iter().zip((saved..).step_by(8)) {
            words[usize::from(register)] = Some(word);
        }
        Homes { machine, words }
    }

    /// Those of the caller of a frame, where these are the frame's own: what its function saved is where
    /// it saved it, below the end of the frame, and all else is where it was.
    pub fn of_the_caller(&self, saved: &Saved, end: u64) -> Homes {
        let mut words = self.words;
        for &register in kept(self.machine) {
            if let Some(below) = saved.place(register) {
                words[usize::from(register)] = Some(end - below);
            }
        }
        Homes { words, ..*self }
    }

    /// The home of a register, where it is known.
    pub fn of(&self, register: u16) -> Option<u64> {
        self.words.get(usize::from(register)).copied().flatten()
    }

    /// The frame's registers, its stack pointer among them. What is not known is 0, and no map may name it.
    ///
    /// # Safety
    ///
    /// The frames and the stop that saved them wait.
    pub unsafe fn read(&self, memory: &dyn Memory, stack_pointer: u64) -> Registers {
        // SAFETY: the caller's.
        let content = |home: u64| unsafe { word(memory, home) };
        let mut registers = self.words.map(|home| home.map_or(0, content));
        registers[usize::from(self.machine.stack_pointer())] = stack_pointer;
        registers
    }
}

#[cfg(test)]
mod tests {
    use super::*;

    /// A frame that saves RBX and R15 hides those of its caller, and lets the others through.
    #[test]
    fn a_register_is_where_it_was_saved_last() {
        let deepest = Homes::at_the_stop(Machine::Amd64, 0x1000);
        let saved = Saved {
            general: vec![(15, 8), (3, 16)],
            others: 0,
        };
        let caller = deepest.of_the_caller(&saved, 0x2000);
        assert_eq!(deepest.of(15), Some(0x1000));
        assert_eq!(deepest.of(6), Some(0x1028));
        assert_eq!(caller.of(15), Some(0x1ff8));
        assert_eq!(caller.of(3), Some(0x1ff0));
        for through in [6, 12, 13, 14] {
            assert_eq!(caller.of(through), deepest.of(through));
        }
        for unknown in [0, 5, 7, 11, 16, 31, 32] {
            assert_eq!(caller.of(unknown), None);
        }
    }

    /// x30 is saved too, but no callee keeps it for its caller.
    #[test]
    fn the_return_address_is_no_register_of_the_caller() {
        let deepest = Homes::at_the_stop(Machine::Aarch64, 0x1000);
        let saved = Saved {
            general: vec![(30, 16), (19, 8)],
            others: 2,
        };
        let caller = deepest.of_the_caller(&saved, 0x2000);
        assert_eq!((caller.of(19), caller.of(20)), (Some(0x1ff8), Some(0x1008)));
        assert_eq!((caller.of(29), caller.of(30)), (Some(0x1050), None));
    }
}
