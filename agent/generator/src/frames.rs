//! Stopped frames: sections with statepoints, the image of a stack with frames on it, the registers
//! of each frame, and a move table. In version 1 a frame names its function, and has its offset in
//! place of the address; the records then stand in any order, whatever that of the functions is. A
//! scene is made whole, so that every frame of it is accepted; [`faults`] aims at the refusals of a
//! frame, [`guests`] adds frames that share bytes with others, and [`plain`] says how a frame is
//! answered and what becomes of the image and of the registers. [`thread`] makes lists of frames,
//! [`reasons`] asks for slots, [`named`] makes editions that allow a move or don't, [`mod@bench`] makes
//! frames of the bench controller's product, [`twice`] frames that are moved twice, and [`split`] cuts the
//! image into pieces.

pub mod bench;
mod building;
mod cells;
pub mod faults;
mod functions;
pub mod guests;
mod machines;
pub mod named;
pub mod plain;
mod pool;
pub mod reasons;
pub mod split;
mod table;
pub mod thread;
pub mod twice;

use crate::layout::{Section, Version};
use crate::questions::addresses;
use crate::rng::Rng;
pub use machines::{registers, slot_registers, MACHINES};
use pool::Pool;
pub use table::Table;

/// The most bytes of an image.
pub const MOST_IMAGE: usize = 1_048_576;
/// The most entries of a move table.
pub const MOST_MOVES: usize = 65_536;
/// The most pointers of a statepoint, and of a pair. In version 1 each pair is one.
pub const MOST_POINTERS: usize = 256;
/// The most frames of a thread.
pub const MOST_FRAMES: usize = 4_096;

/// How many numbers the list of a frame's registers has.
pub const REGISTERS: usize = 32;

/// A frame, and where its statepoint stands in the section.
#[derive(Clone, Copy, Debug, PartialEq, Eq)]
pub struct Stop {
    /// The address of its record; in version 1 the offset.
    pub address: u64,
    /// What its registers hold, by DWARF number, frame pointer and stack pointer among them.
    pub registers: [u64; REGISTERS],
    /// How many numbers the list of registers has that is lent where the frame is moved alone: 32, or
    /// it is refused by 25.
    pub listed: usize,
    /// The number of its record, and that of its function.
    pub record: usize,
    pub function: usize,
    /// The function number that is handed in: in version 1 that of its function, and in version 3,
    /// which doesn't read it, any.
    pub named: u64,
}

impl Stop {
    /// The list of registers that is lent where the frame is moved alone: the first ones, or all and
    /// more behind them, which are like the last.
    pub fn lent(&self) -> Vec<u64> {
        let mut list = self.registers.to_vec();
        list.resize(self.listed, self.registers[REGISTERS - 1]);
        list
    }
}

/// Frames on a stack.
#[derive(Clone, Debug)]
pub struct Scene {
    pub section: Section,
    pub image: Vec<u8>,
    /// The address of the image's first byte.
    pub first: u64,
    pub table: Table,
    /// The number of the machine that is handed in.
    pub machine: u64,
    /// The frames. Their extents share no byte.
    pub stops: Vec<Stop>,
}

/// How large a frame is: how many slots it has on the stack and how many in registers, as far as its
/// machine has so many, and how many pointers its pairs have, null pairs one each.
#[derive(Clone, Copy, Debug)]
pub struct Size {
    pub cells: usize,
    pub registers: usize,
    pub pointers: usize,
    /// Whether the slots on the stack stand one after the other and all hold bases, so that a pair of
    /// version 3 finds room for many pointers.
    pub wide: bool,
}

/// How many slots a frame has in registers: often none, mostly a few, now and then all.
fn in_registers(rng: &mut Rng) -> usize {
    rng.pick(&[0, 0, 0, 1, 1, 2, 3, 5, 14, REGISTERS])
}

impl Size {
    /// Mostly a few pointers in a few slots; now and then many, up to 256.
    pub fn any(rng: &mut Rng) -> Size {
        let (cells, pointers) = match rng.below(40) {
            0 => {
                let cells = rng.pick(&[1, 20, 80, 256, 258]);
                (cells, MOST_POINTERS - rng.below(2))
            }
            1..=3 => (rng.below(40), rng.below(60)),
            _ => return Size::few(rng),
        };
        Size {
            cells,
            registers: in_registers(rng),
            pointers,
            wide: rng.one_in(4),
        }
    }

    /// Slots one after the other, for pairs of many pointers.
    pub fn wide(rng: &mut Rng) -> Size {
        let (cells, pointers) = match rng.below(6) {
            0 => {
                let cells = rng.pick(&[20, 130, 255, 256, 258]);
                (cells, MOST_POINTERS - rng.below(2))
            }
            1 => (1 + rng.below(60), rng.below(60)),
            _ => (1 + rng.below(12), rng.below(20)),
        };
        Size {
            cells,
            registers: in_registers(rng),
            pointers,
            wide: true,
        }
    }

    /// A few pointers in a few slots.
    pub fn few(rng: &mut Rng) -> Size {
        Size {
            cells: rng.pick(&[0, 1, 1, 2, 3, 4, 6, 9]),
            registers: in_registers(rng),
            pointers: rng.below(10),
            wide: rng.one_in(4),
        }
    }
}

/// A function number that is handed in for a frame of this function, where there are so many.
fn named(rng: &mut Rng, version: Version, function: usize, functions: usize) -> u64 {
    match (version, rng.below(4)) {
        (Version::One, _) | (Version::Three, 0) => function as u64,
        (Version::Three, 1) => functions as u64 + rng.number(3),
        (Version::Three, _) => rng.number(64),
    }
}

/// What a frame at each record has as its address: in version 1 the offset.
pub(crate) fn keys(section: &Section) -> Vec<u64> {
    match section.version {
        Version::One => section.records.iter().map(|r| r.offset.into()).collect(),
        Version::Three => addresses(section).map(|(_, address)| address).collect(),
    }
}

impl Scene {
    /// One frame.
    pub fn one(rng: &mut Rng) -> Scene {
        let (table, size) = (Table::any(rng), Size::any(rng));
        Scene::of(rng, table, &[size])
    }

    /// One frame, mostly of version 3, with pairs of many pointers.
    pub fn wide(rng: &mut Rng) -> Scene {
        let (table, size) = (Table::any(rng), Size::wide(rng));
        let version = match rng.one_in(6) {
            true => Version::One,
            false => Version::Three,
        };
        Scene::of_version(rng, version, table, &[size])
    }

    /// So many frames, of which some stand at the same statepoint.
    pub fn many(rng: &mut Rng, count: usize) -> Scene {
        let table = Table::any(rng);
        let sizes: Vec<Size> = (0..count).map(|_| Size::any(rng)).collect();
        Scene::of(rng, table, &sizes)
    }

    /// Frames of these sizes, with a section of either version.
    pub fn of(rng: &mut Rng, table: Table, sizes: &[Size]) -> Scene {
        let version = rng.pick(&Version::ALL);
        Scene::of_version(rng, version, table, sizes)
    }

    /// Frames of these sizes, with a section of this version, on either machine.
    pub fn of_version(rng: &mut Rng, version: Version, table: Table, sizes: &[Size]) -> Scene {
        let noise = functions::noise(rng, version);
        let (machine, _) = rng.pick(&MACHINES);
        loop {
            if let Some(scene) = building::build(rng, &table, sizes, &noise, machine) {
                return scene;
            }
        }
    }

    /// What the frame pointer of a frame holds.
    pub fn frame_pointer(&self, stop: usize) -> u64 {
        let [of_frame, _] = registers(self.machine);
        self.stops[stop].registers[usize::from(of_frame)]
    }

    /// What the stack pointer of a frame holds.
    pub fn stack_pointer(&self, stop: usize) -> u64 {
        let [_, of_stack] = registers(self.machine);
        self.stops[stop].registers[usize::from(of_stack)]
    }

    /// Sets the frame pointer of a frame.
    pub fn set_frame_pointer(&mut self, stop: usize, content: u64) {
        let [of_frame, _] = registers(self.machine);
        self.stops[stop].registers[usize::from(of_frame)] = content;
    }

    /// Sets the stack pointer of a frame.
    pub fn set_stack_pointer(&mut self, stop: usize, content: u64) {
        let [_, of_stack] = registers(self.machine);
        self.stops[stop].registers[usize::from(of_stack)] = content;
    }

    /// The place of a frame's first byte in the image, as a whole number.
    pub(crate) fn start(&self, stop: usize) -> i128 {
        i128::from(self.stack_pointer(stop)) - i128::from(self.first)
    }

    /// The constants of the section, its version, and the machine.
    pub(crate) fn pool(&self) -> Pool<'_> {
        Pool {
            version: self.section.version,
            constants: &self.section.constants,
            machine: self.machine,
        }
    }

    /// The stack size of a frame's function: in version 1 of the one that is handed in, where there
    /// is one.
    pub fn stack_size(&self, stop: usize) -> u64 {
        let (functions, own) = (&self.section.functions, self.stops[stop]);
        let handed_in = match self.section.version {
            Version::One => usize::try_from(own.named).ok(),
            Version::Three => None,
        };
        let function = handed_in.and_then(|named| functions.get(named));
        function.unwrap_or(&functions[own.function]).stack_size
    }

    /// The section with the pairs of every statepoint in another order.
    pub fn permuted(&self, rng: &mut Rng) -> Section {
        let mut section = self.section.clone();
        for record in &mut section.records {
            if let Some(first) = plain::first_pair(record) {
                let mut pairs: Vec<_> = record.locations[first..].chunks_exact(2).collect();
                shuffle(rng, &mut pairs);
                let pairs = pairs.concat();
                record.locations.splice(first.., pairs);
            }
        }
        section
    }
}

/// Puts the items in any order.
pub fn shuffle<T>(rng: &mut Rng, items: &mut [T]) {
    for last in (1..items.len()).rev() {
        items.swap(last, rng.below(last + 1));
    }
}

#[cfg(test)]
mod tests;
#[cfg(test)]
mod tests_named;
#[cfg(test)]
mod tests_reasons;
#[cfg(test)]
mod tests_registers;
#[cfg(test)]
mod tests_shapes;
