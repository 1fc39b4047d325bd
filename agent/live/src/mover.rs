//! Who moves the frames: the library, the second implementation, or a mover that does it wrong.
//!
//! The wrong ones are the worthless programs and the slips that the papers name. With each of them
//! the run must not come to the right checksum, or the runs with the right ones would show nothing.

use crate::frames::Stopped;
use crate::heap::{Object, Table};
use crate::image::Image;
use crate::library::{self, Machine, Refusal, Registers};
use crate::maps::Site;
use crate::state::State;
use crate::wrong;
use std::collections::BTreeSet;

/// Who moves the frames.
#[derive(Clone, Copy, Debug, PartialEq, Eq)]
pub enum Mover {
    /// The library, all frames of a map in one call, from the deepest up.
    Library,
    /// The library, from the uppermost frame down: the order must not count.
    Backwards,
    /// The library, each frame in a call of its own.
    Singly,
    /// The second implementation.
    Second,
    /// The library, with a table in which the first object is missing.
    ShortTable,
    /// The library, with the deepest frame once more at the end of the list.
    Twice,
    /// The library, told that the frames are of the other machine.
    OtherMachine,
    /// Accepts all frames and writes nothing.
    Nothing,
    /// Writes only pair 0 of each frame.
    PairZero,
    /// Writes only the first pointer of each pair.
    FirstPointer,
    /// Moves each pointer of a pair with the base of the one that is as far from the pair's end.
    Falling,
    /// Moves only the first frame, the deepest.
    FirstFrame,
    /// Writes each pair before it reads the next.
    InTurn,
    /// Finds the object by the derived pointer.
    ByDerived,
    /// Moves all, and leaves the registers as they were.
    RegistersLeft,
    /// Takes the registers at the stop for those of every frame.
    StopRegisters,
}

/// The movers that do it right.
pub const RIGHT: [Mover; 4] = [
    Mover::Library,
    Mover::Backwards,
    Mover::Singly,
    Mover::Second,
];

/// The movers that are refused.
pub const REFUSED: [Mover; 3] = [Mover::ShortTable, Mover::Twice, Mover::OtherMachine];

/// The movers that leave old pointers: the program dies where it follows one.
pub const FATAL: [Mover; 4] = [
    Mover::Nothing,
    Mover::PairZero,
    Mover::FirstFrame,
    Mover::InTurn,
];

/// The mover that makes new pointers, but wrong ones.
pub const WRONG: Mover = Mover::ByDerived;

/// The mover that leaves old pointers where a pair has several.
pub const FATAL_TO_VECTORS: Mover = Mover::FirstPointer;

/// The mover that makes wrong pointers where a pair has several.
pub const WRONG_FOR_VECTORS: Mover = Mover::Falling;

/// The mover that leaves old pointers where one is in a register.
pub const FATAL_TO_REGISTERS: Mover = Mover::RegistersLeft;

/// The mover that is right only where no frame saves a register that one above has a pointer in.
pub const WRONG_FOR_REGISTERS: Mover = Mover::StopRegisters;

/// A refused frame: its number in the walk, and the refusal.
#[derive(Clone, Debug)]
pub struct RefusedFrame {
    /// The frame, counted from the deepest.
    pub frame: usize,
    /// What the maps say of it.
    pub site: Site,
    /// Number and place; of a list, the place is the frame's position among those of its map.
    pub refusal: Refusal,
}

impl Mover {
    /// The mover of a name.
    pub fn named(name: &str) -> Option<Mover> {
        let all = RIGHT.into_iter().chain(FATAL).chain(REFUSED);
        let vectors = [FATAL_TO_VECTORS, WRONG_FOR_VECTORS];
        let registers = [FATAL_TO_REGISTERS, WRONG_FOR_REGISTERS];
        let mut all = all.chain([WRONG]).chain(vectors).chain(registers);
        all.find(|mover| mover.name() == name)
    }

    /// Its name on the command line.
    pub fn name(self) -> &'static str {
        match self {
            Mover::Library => "library",
            Mover::Backwards => "backwards",
            Mover::Singly => "singly",
            Mover::Second => "second",
            Mover::ShortTable => "short-table",
            Mover::Twice => "twice",
            Mover::OtherMachine => "other-machine",
            Mover::Nothing => "nothing",
            Mover::PairZero => "pair-0",
            Mover::FirstPointer => "first-pointer",
            Mover::Falling => "falling",
            Mover::FirstFrame => "first-frame",
            Mover::InTurn => "in-turn",
            Mover::ByDerived => "by-derived",
            Mover::RegistersLeft => "registers-left",
            Mover::StopRegisters => "stop-registers",
        }
    }

    /// Moves the frames, and gives the number of their pointers. After a refusal the state is to be thrown
    /// away.
    pub fn apply(
        self,
        state: &mut State,
        frames: &[Stopped],
        table: &Table,
        objects: &[Object],
    ) -> Result<u64, RefusedFrame> {
        let all: Vec<usize> = (0..frames.len()).collect();
        let backwards = || all.iter().rev().copied().collect::<Vec<usize>>();
        let twice = || [&all[..], &all[..1]].concat();
        match self {
            Mover::Library => by_map(library::thread, state, frames, &all, table),
            Mover::Backwards => by_map(library::thread, state, frames, &backwards(), table),
            Mover::Second => by_map(library::second_thread, state, frames, &all, table),
            Mover::ShortTable => {
                by_map(library::thread, state, frames, &all, &table.without_first())
            }
            Mover::Twice => by_map(library::thread, state, frames, &twice(), table),
            Mover::OtherMachine => by_map(of_the_other, state, frames, &all, table),
            _ => one_by_one(frames, |at| match self {
                Mover::Singly => singly(state, at, table),
                Mover::PairZero => wrong::some(state, at, table, |pair, _| pair == 0),
                Mover::FirstPointer => wrong::some(state, at, table, |_, pointer| pointer == 0),
                Mover::Falling => Ok(wrong::falling(state, at, table)),
                Mover::InTurn => Ok(wrong::in_turn(state, at, table)),
                Mover::ByDerived => Ok(wrong::by_derived(state, at, table, objects)),
                Mover::RegistersLeft => wrong::registers_left(state, at, table),
                Mover::StopRegisters => {
                    wrong::stop_registers(state, &frames[0].registers, at, table)
                }
                Mover::FirstFrame if at.0 == 0 => singly(state, at, table),
                _ => Ok(at.1.pointer_count()),
            }),
        }
    }
}

/// A move of all frames of a list by the map that they are in: their addresses, and their registers.
type Thread =
    fn(&[u8], &mut Image, &Table, Machine, &[u64], &mut [Registers]) -> Result<u64, Refusal>;

fn of_the_other(
    map: &[u8],
    image: &mut Image,
    table: &Table,
    machine: Machine,
    addresses: &[u64],
    registers: &mut [Registers],
) -> Result<u64, Refusal> {
    let other = match machine {
        Machine::Amd64 => Machine::Aarch64,
        Machine::Aarch64 => Machine::Amd64,
    };
    library::thread(map, image, table, other, addresses, registers)
}

/// Moves the frames of each map in one call, in this order.
fn by_map(
    thread: Thread,
    state: &mut State,
    frames: &[Stopped],
    order: &[usize],
    table: &Table,
) -> Result<u64, RefusedFrame> {
    let maps: BTreeSet<usize> = frames.iter().map(|stopped| stopped.site.map).collect();
    let mut pointers = 0;
    for map in maps {
        let in_map = |frame: &usize| frames[*frame].site.map == map;
        let own: Vec<usize> = order.iter().copied().filter(in_map).collect();
        let addresses: Vec<u64> = own.iter().map(|frame| frames[*frame].address).collect();
        let mut registers: Vec<Registers> =
            own.iter().map(|frame| state.registers[*frame]).collect();
        let Stopped { machine, site, .. } = &frames[own[0]];
        let image = &mut state.image;
        let moved = thread(
            site.bytes,
            image,
            table,
            *machine,
            &addresses,
            &mut registers,
        );
        pointers += moved.map_err(|refusal| refused(frames, own[refusal.1 as usize], refusal))?;
        for (frame, registers) in own.into_iter().zip(registers) {
            state.registers[frame] = registers;
        }
    }
    Ok(pointers)
}

/// A frame, and its number in the walk.
pub(crate) type At<'a> = (usize, &'a Stopped);

/// Moves the frames one after the other.
fn one_by_one(
    frames: &[Stopped],
    mut moved: impl FnMut(At) -> Result<u64, Refusal>,
) -> Result<u64, RefusedFrame> {
    let numbered = frames.iter().enumerate();
    let pointers = numbered.map(|at| moved(at).map_err(|refusal| refused(frames, at.0, refusal)));
    pointers.sum()
}

/// Moves one frame by the library.
pub(crate) fn singly(
    state: &mut State,
    (frame, stopped): At,
    table: &Table,
) -> Result<u64, Refusal> {
    let Stopped { machine, site, .. } = stopped;
    let State { image, registers } = state;
    let own = &mut registers[frame];
    library::relocate(site.bytes, image, table, *machine, stopped.address, own)
}

fn refused(frames: &[Stopped], frame: usize, refusal: Refusal) -> RefusedFrame {
    RefusedFrame {
        frame,
        site: frames[frame].site.clone(),
        refusal,
    }
}
