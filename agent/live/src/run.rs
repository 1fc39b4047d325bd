//! One run of a program: stopped, moved and let go on, or only counted.

use crate::frames::{Deepest, Lost, Stopped, Thread};
use crate::guest::{Guest, Told};
use crate::heap::{Heap, Object, Table};
use crate::image::Image;
use crate::maps::Maps;
use crate::memory::Memory;
use crate::mover::{Mover, RefusedFrame};
use crate::program::{Code, Program};
use crate::state::{Slot, State};
use crate::stop;
use crate::system::Own;
use std::collections::BTreeSet;
use std::rc::Rc;

/// The number that takes part in the checksum; odd, so that `choose` takes its first object.
const SEED: u64 = 0x5DEE_CE66_D001;

/// At which of a program's stops the heap is moved.
#[derive(Clone, Copy, Debug, PartialEq, Eq)]
pub enum Stops {
    /// At none: the stops are only counted.
    None,
    /// At each, from heap to heap.
    All,
    /// At one, counted from 0.
    Only(usize),
}

/// What happened at a stop where heap and frames were to be moved.
pub struct Stop {
    /// Its number in the run, from 0.
    pub number: usize,
    /// The frames that were found, deepest first.
    pub frames: Vec<Stopped>,
    /// The objects as they were.
    pub objects: Vec<Object>,
    /// Where they went.
    pub table: Table,
    /// The stack and all registers before.
    pub before: State,
    /// The stack and all registers after. In this stack the registers are not written back yet.
    pub after: State,
    /// The number of pointers of all frames.
    pub pointers: u64,
}

impl Stop {
    /// The slots of all pointers of all frames, base first, each with its frame.
    fn slots(&self) -> impl Iterator<Item = (usize, [Slot; 2])> + '_ {
        let numbered = self.frames.iter().enumerate();
        numbered.flat_map(|(frame, at)| at.all_slots().map(move |slots| (frame, slots)))
    }

    fn assert_only_derived_slots_changed(&self) {
        let mut rest = self.after.clone();
        for (frame, [_, derived]) in self.slots() {
            rest.set(frame, derived, self.before.content(frame, derived));
        }
        assert_eq!(rest, self.before, "what is no derived slot");
    }

    /// Whether each derived slot is its old content plus the new start of its old base minus that
    /// old base.
    pub fn keeps_the_rule(&self) -> bool {
        self.slots().all(|(frame, [base, derived])| {
            let old_base = self.before.content(frame, base);
            let new_base = self.table.moved(old_base);
            let old = self.before.content(frame, derived);
            let new = new_base.map(|new| old.wrapping_add(new).wrapping_sub(old_base));
            new == Some(self.after.content(frame, derived))
        })
    }

    /// The stack with the registers that are slots written back to where they are kept, which is where
    /// their frames take them up when their calls return.
    ///
    /// Frames can have one home of a register between them, but no more than one of them can have a
    /// pointer in it: who uses a register saves it, so that those above have another home. And no slot in
    /// memory is a home: a compiler spills its pointers elsewhere. Both are asserted, because a move knows
    /// nothing of homes.
    fn written_back(&self) -> Image {
        let mut stack = self.after.image.clone();
        let mut taken: BTreeSet<u64> = BTreeSet::new();
        for (_, slots) in self.slots() {
            let memory = |slot| match slot {
                Slot::Memory(address) => Some(address),
                Slot::Register(_) => None,
            };
            taken.extend(slots.into_iter().filter_map(memory));
        }
        for (frame, stopped) in self.frames.iter().enumerate() {
            let own: BTreeSet<u16> = stopped.register_slots().collect();
            for register in own {
                let home = stopped.homes.of(register);
                let home = home.expect("a register that a callee has to keep");
                let mut near = taken.range(home - 7..home + 8);
                assert_eq!(near.next(), None, "slots that share a byte with {home:#x}");
                taken.insert(home);
                stack.set(home, self.after.content(frame, Slot::Register(register)));
            }
        }
        stack
    }
}

/// Why nothing was moved at a stop. The program runs on as if it had not been stopped.
#[derive(Clone, Debug)]
pub enum Trouble {
    /// The frames could not all be found.
    Lost(Lost),
    /// A frame was refused.
    Refused(RefusedFrame),
}

/// What came of a run.
pub struct Outcome {
    /// What the program returned.
    pub checksum: u64,
    /// How often it was stopped, moved or not.
    pub passed: usize,
    /// What happened at the stops at which the heap was to be moved.
    pub stops: Vec<Result<Stop, Trouble>>,
}

/// A run that is under way.
pub(crate) struct Running {
    maps: Rc<Maps>,
    program: &'static Program,
    mover: Mover,
    at: Stops,
    memory: Rc<dyn Memory>,
    /// The return address of the call that enters the program.
    entered: u64,
    /// An address above all frames of the program.
    top: u64,
    heap: Heap,
    passed: usize,
    stops: Vec<Result<Stop, Trouble>>,
}

/// The maps of a program, and of others that are in the same section.
pub fn maps(program: &Program) -> Rc<Maps> {
    Rc::new(Maps::cut(program.section()))
}

/// Runs a program on a fresh heap. One for AArch64 runs under an emulator; where it dies there, this
/// process ends.
pub fn run(maps: &Rc<Maps>, program: &'static Program, mover: Mover, at: Stops) -> Outcome {
    let running = |memory: Rc<dyn Memory>, entered, top| Running {
        maps: Rc::clone(maps),
        program,
        mover,
        at,
        heap: Heap::first(&memory),
        memory,
        entered,
        top,
        passed: 0,
        stops: Vec::new(),
    };
    let (running, checksum) = match &program.code {
        Code::Here(entry) => {
            let mark = 0_u8;
            let top = (&raw const mark).expose_provenance() as u64;
            let running = running(Rc::new(Own), stop::entered(), top);
            let root = running.heap.root();
            // SAFETY: the programs are those of `llvm/live`, and the heap is one of ours. It can be
            // read until a stop retires it, where the frames move with it; if the mover is a wrong
            // one, the program is meant to die of it.
            unsafe { stop::during(running, *entry, root, SEED) }
        }
        Code::Guest(code) => {
            let guest = Rc::new(Guest::start(code.file));
            let memory: Rc<dyn Memory> = Rc::clone(&guest) as _;
            guided(
                &guest,
                code.number,
                running(memory, guest.entered, guest.top),
            )
        }
    };
    Outcome {
        checksum,
        passed: running.passed,
        stops: running.stops,
    }
}

/// Leads a program under the emulator to its end: the run, and its result.
fn guided(guest: &Guest, number: u64, mut running: Running) -> (Running, u64) {
    let mut told = guest.go(running.heap.root(), SEED, number);
    loop {
        match told {
            Told::Stopped(deepest) => {
                // SAFETY: the frame is one of the emulated program, which waits.
                unsafe { running.stopped(deepest) };
                told = guest.go_on();
            }
            Told::Ended(checksum) => return (running, checksum),
        }
    }
}

impl Running {
    /// The program was stopped: moves its heap and its frames, if this stop is one to do it at.
    ///
    /// # Safety
    ///
    /// The frame is of the program, which waits until this returns.
    pub(crate) unsafe fn stopped(&mut self, deepest: Deepest) {
        let number = self.passed;
        self.passed += 1;
        if self.at == Stops::All || self.at == Stops::Only(number) {
            // SAFETY: the caller's.
            let stop = unsafe { self.restore(number, deepest) };
            self.stops.push(stop);
        }
    }

    /// Moves heap and frames, or neither.
    ///
    /// # Safety
    ///
    /// As for `stopped`.
    unsafe fn restore(&mut self, number: usize, deepest: Deepest) -> Result<Stop, Trouble> {
        let thread = Thread {
            machine: self.program.machine,
            memory: &*self.memory,
            chained: self.program.frame_pointers,
            entered: self.entered,
            top: self.top,
        };
        // SAFETY: the caller's; the program's frames end below those of the function that called the
        // program, and `top` is in those.
        let walked = unsafe { thread.walk(&self.maps, deepest) };
        let frames = walked.map_err(Trouble::Lost)?;
        // From the registers that the stop saved, which are below all frames, to the end of the uppermost.
        let first = deepest.saved;
        let end = frames.iter().map(Stopped::end).max().unwrap_or(first);
        let before = State {
            // SAFETY: all these bytes are of the stop and of the frames that were found, which wait.
            image: unsafe { Image::take(&*self.memory, first, end) },
            registers: frames.iter().map(|stopped| stopped.registers).collect(),
        };
        let objects = self.heap.objects().to_vec();
        let (new, table) = self.heap.copy();
        let mut after = before.clone();
        let moved = self.mover.apply(&mut after, &frames, &table, &objects);
        let pointers = moved.map_err(Trouble::Refused)?;
        let listed = frames.iter().map(Stopped::pointer_count).sum();
        assert_eq!(pointers, listed, "the count that the mover gives");
        let stop = Stop {
            number,
            frames,
            objects,
            table,
            before,
            after,
            pointers,
        };
        stop.assert_only_derived_slots_changed();
        let stack = stop.written_back();
        std::mem::replace(&mut self.heap, new).retire();
        // SAFETY: as for `take`; nothing but derived slots has changed, and the words from which those that
        // are registers are taken up again. The program reads all of them again after the calls.
        unsafe { stack.put_back(&*self.memory) };
        Ok(stop)
    }
}
