//! The machines whose frames are moved.

/// How many registers a frame has in a list, by their DWARF numbers, on both machines.
pub const REGISTERS: usize = 32;

/// What a frame's registers hold: that of the register with the DWARF number n stands at n.
///
/// They are the contents that the registers have when the call in the frame has returned. A callee may have
/// put some of them on the stack; then they are to be fetched from there. On AMD64 the numbers from 16 on are
/// neither read nor written.
pub type Registers = [u64; REGISTERS];

/// The machine that a frame stopped on: which two registers its slots in memory are counted from, and which
/// registers can hold a pointer themselves.
///
/// A section doesn't say its machine. Who moves a frame says it, and it is the same for all frames of a
/// thread. A pair whose memory is counted from any other register, also from the other machine's, is refused
/// by 18, and so is one in a register that isn't [`a slot`](Machine::is_slot).
///
/// # Examples
///
/// ```
/// use treskibben::Machine;
///
/// assert_eq!((Machine::Amd64.frame_pointer(), Machine::Amd64.stack_pointer()), (6, 7));
/// assert_eq!((Machine::Aarch64.frame_pointer(), Machine::Aarch64.stack_pointer()), (29, 31));
/// ```
#[derive(Clone, Copy, Debug, PartialEq, Eq, Hash)]
pub enum Machine {
    /// AMD64, also called x86-64: the frame pointer is RBP, and the stack pointer RSP.
    Amd64,
    /// AArch64, also called arm64: the frame pointer is X29, and the stack pointer SP.
    Aarch64,
}

impl Machine {
    /// The number that `treskibben.h` has for it.
    pub const fn number(self) -> u64 {
        match self {
            Machine::Amd64 => 0,
            Machine::Aarch64 => 1,
        }
    }

    /// The DWARF number of the frame pointer.
    pub const fn frame_pointer(self) -> u16 {
        match self {
            Machine::Amd64 => 6,
            Machine::Aarch64 => 29,
        }
    }

    /// The DWARF number of the stack pointer.
    pub const fn stack_pointer(self) -> u16 {
        match self {
            Machine::Amd64 => 7,
            Machine::Aarch64 => 31,
        }
    }

    /// Whether the register of this DWARF number can hold a pointer: one below 16 on AMD64 or below 32 on
    /// AArch64 that is neither the frame pointer nor the stack pointer.
    ///
    /// ```
    /// use treskibben::Machine;
    ///
    /// // RBX, and RBP; X19, and the link register.
    /// assert!(Machine::Amd64.is_slot(3) && !Machine::Amd64.is_slot(6));
    /// assert!(Machine::Aarch64.is_slot(19) && Machine::Aarch64.is_slot(30));
    /// ```
    pub const fn is_slot(self, register: u16) -> bool {
        let below = match self {
            Machine::Amd64 => 16,
            Machine::Aarch64 => 32,
        };
        let pointer = register == self.frame_pointer() || register == self.stack_pointer();
        register < below && !pointer
    }

    /// The registers of a frame whose frame pointer and stack pointer hold these; all others hold 0.
    ///
    /// That is enough for a frame all of whose pointers are on the stack. The others are set by their
    /// numbers.
    ///
    /// ```
    /// use treskibben::Machine;
    ///
    /// let mut registers = Machine::Amd64.registers(0x7040, 0x7000);
    /// assert_eq!((registers[6], registers[7]), (0x7040, 0x7000));
    /// registers[3] = 0x50000; // RBX
    /// ```
    pub const fn registers(self, frame_pointer: u64, stack_pointer: u64) -> Registers {
        let mut registers = [0; REGISTERS];
        registers[self.frame_pointer() as usize] = frame_pointer;
        registers[self.stack_pointer() as usize] = stack_pointer;
        registers
    }
}
