//! Finding the frames of a stopped thread.
//!
//! A frame's record has its return address, and the function's stack size leads from the frame's
//! stack pointer to its end. On AMD64 the caller's return address stands there, and the caller's RSP
//! is eight above it. On AArch64 the end is the caller's sp, and the return address is in the frame,
//! where the function's first instructions put it. They also tell which registers of its caller the
//! function saved, and where.

use crate::library::{Machine, Registers};
use crate::maps::{Maps, Place, Site};
use crate::memory::{word, Memory};
use crate::prologue::{self, Saved};
use crate::registers::Homes;
use crate::state::Slot;

/// A frame that was found, with what the maps say of it.
#[derive(Clone, Debug)]
pub struct Stopped {
    /// The machine.
    pub machine: Machine,
    /// The statepoint.
    pub site: Site,
    /// The return address that its record has.
    pub address: u64,
    /// Its registers, as they were when it was found.
    pub registers: Registers,
    /// Where they are kept.
    pub homes: Homes,
    /// What the function saved.
    pub saved: Saved,
}

impl Stopped {
    /// The address of the frame's first byte.
    pub fn stack_pointer(&self) -> u64 {
        self.registers[usize::from(self.machine.stack_pointer())]
    }

    /// The byte after the frame's extent.
    pub fn end(&self) -> u64 {
        self.stack_pointer() + self.site.stack_size
    }

    /// The slots of each pointer of a pair, base first; none where it has none.
    pub fn slots(&self, pair: [Place; 2]) -> Vec<[Slot; 2]> {
        let [bases, deriveds] = pair.map(|place| self.pointers(place));
        let both = bases.into_iter().zip(deriveds);
        both.map(|(base, derived)| [base, derived]).collect()
    }

    /// The slots of all pointers of all pairs.
    pub fn all_slots(&self) -> impl Iterator<Item = [Slot; 2]> + '_ {
        self.site.pairs.iter().flat_map(|&pair| self.slots(pair))
    }

    /// How many pointers the pairs have; a null pair counts as one.
    pub fn pointer_count(&self) -> u64 {
        let pairs = self.site.pairs.iter();
        pairs
            .map(|&pair| self.slots(pair).len().max(1) as u64)
            .sum()
    }

    /// The slots of the pointers at a place, of which those in memory rise.
    fn pointers(&self, place: Place) -> Vec<Slot> {
        let own = [self.machine.frame_pointer(), self.machine.stack_pointer()];
        match place {
            Place::Memory(register, offset, count) if own.contains(&register) => {
                let from = self.registers[usize::from(register)];
                let first = from.wrapping_add_signed(offset.into());
                let words = (first..).step_by(8).take(count.into());
                words.map(Slot::Memory).collect()
            }
            Place::Register(register) => vec![Slot::Register(register)],
            _ => Vec::new(),
        }
    }

    /// Whether a slot is addressed by the frame pointer.
    pub fn uses_frame_pointer(&self) -> bool {
        let own = self.machine.frame_pointer();
        let mut places = self.site.pairs.iter().flatten();
        places.any(|place| matches!(place, Place::Memory(register, ..) if *register == own))
    }

    /// The registers that are slots, each as often as it is one.
    pub fn register_slots(&self) -> impl Iterator<Item = u16> + '_ {
        let places = self.site.pairs.iter().flatten();
        places.filter_map(|place| match place {
            Place::Register(register) => Some(*register),
            _ => None,
        })
    }
}

/// The walk came to an address that no map has, before it came to the end.
#[derive(Clone, Copy, Debug, PartialEq, Eq)]
pub struct Lost {
    /// How many frames were found.
    pub frames: usize,
    /// The address.
    pub address: u64,
}

/// Where a program was stopped.
#[derive(Clone, Copy, Debug)]
pub struct Deepest {
    /// The return address of the call that stopped it.
    pub address: u64,
    /// The stack pointer, as it is when that call has returned.
    pub stack_pointer: u64,
    /// Where the stop saved what a callee has to keep, in the order that [`Homes`] has. It is below the
    /// stack pointer, and nothing between is written while the program waits.
    pub saved: u64,
}

/// A stopped program, as a walk needs it.
pub struct Thread<'a> {
    /// The machine.
    pub machine: Machine,
    /// Its memory.
    pub memory: &'a dyn Memory,
    /// Whether the frame pointer is one in every function.
    pub chained: bool,
    /// The return address of the program itself.
    pub entered: u64,
    /// An address above all its frames.
    pub top: u64,
}

/// A frame whose address may be one of the program's.
struct Next {
    address: u64,
    stack_pointer: u64,
    homes: Homes,
}

impl Thread<'_> {
    /// All frames of a program from the stopped call up, deepest first. The walk ends at the first
    /// address that no map has, which has to be `entered`.
    ///
    /// Without frame pointers no slot may be addressed by the frame pointer: it is then a register like
    /// any other.
    ///
    /// # Safety
    ///
    /// `deepest` is of a frame of the program that waits for the stopped call, and all bytes from its
    /// saved registers to `top` belong to frames that wait.
    pub unsafe fn walk(&self, maps: &Maps, deepest: Deepest) -> Result<Vec<Stopped>, Lost> {
        let mut frames = Vec::new();
        let mut next = Next {
            address: deepest.address,
            stack_pointer: deepest.stack_pointer,
            homes: Homes::at_the_stop(self.machine, deepest.saved),
        };
        while let Some(site) = maps.find(next.address) {
            // SAFETY: the map says that the address is of a frame of the program, which waits.
            let stopped = unsafe { self.stopped(site, next) };
            let number = frames.len();
            assert!(stopped.end() + 8 <= self.top, "frame {number} has no end");
            let by_stack_pointer = self.chained || !stopped.uses_frame_pointer();
            assert!(by_stack_pointer, "frame {number} uses the frame pointer");
            for register in stopped.register_slots() {
                let own = stopped.saved.place(register).is_some();
                assert!(own, "frame {number} does not save register {register}");
            }
            // SAFETY: the frame waits, and its caller's return address is below `top`.
            next = unsafe { self.caller(&stopped) };
            frames.push(stopped);
        }
        if next.address == self.entered {
            return Ok(frames);
        }
        Err(Lost {
            frames: frames.len(),
            address: next.address,
        })
    }

    /// # Safety
    ///
    /// The frame waits, as do all that are below it.
    unsafe fn stopped(&self, site: Site, next: Next) -> Stopped {
        let mut code = vec![0; prologue::length(self.machine)];
        // SAFETY: the map says that a function of the program is there, and each has more bytes.
        unsafe { self.memory.read(site.function, &mut code) };
        // SAFETY: the homes are in the frames below, or where the stop saved the registers.
        let registers = unsafe { next.homes.read(self.memory, next.stack_pointer) };
        Stopped {
            machine: self.machine,
            site,
            address: next.address,
            registers,
            homes: next.homes,
            saved: prologue::saved(self.machine, &code),
        }
    }

    /// The frame above, whether it is one of the program or not.
    ///
    /// # Safety
    ///
    /// The frame waits, and so does the one that its return address leads to.
    unsafe fn caller(&self, stopped: &Stopped) -> Next {
        let end = stopped.end();
        // Where the return address stands, and the stack pointer above.
        let (at, above) = match self.machine {
            Machine::Amd64 => (end, end + 8),
            Machine::Aarch64 => {
                let below = stopped.saved.return_address();
                (end - below.expect("a function that calls saves x30"), end)
            }
        };
        let homes = stopped.homes.of_the_caller(&stopped.saved, end);
        if self.chained {
            // The frame pointer points to the saved one, which stands before the return address.
            let own = self.machine.frame_pointer();
            let pointer = stopped.registers[usize::from(own)];
            assert_eq!(pointer + 8, at, "the frame pointer and the return address");
            assert_eq!(homes.of(own), Some(pointer), "the saved frame pointer");
        }
        // SAFETY: the word is one of the frame or the one after it.
        let address = unsafe { word(self.memory, at) };
        Next {
            address,
            stack_pointer: above,
            homes,
        }
    }
}
