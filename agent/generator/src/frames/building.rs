//! A scene made step by step: the frames are laid out on the image, then each gets its contents and
//! its statepoint, and last the functions are put into a section.

use super::cells::Cells;
use super::functions::{self, Group, Taken};
use super::{keys, named, shuffle, Pool, Scene, Size, Stop, Table, REGISTERS};
use crate::layout::{Record, Section, Version};
use crate::rng::Rng;
use std::ops::Range;

/// A frame that is laid out on the image.
struct Laid<'a> {
    cells: &'a Cells,
    pointers: usize,
    /// The frame whose statepoint it stands at: itself, or the first of those that stand there.
    of: usize,
    /// Its first byte in the image.
    at: usize,
}

impl Laid<'_> {
    fn stretch(&self) -> Range<usize> {
        self.at..self.at + self.cells.length
    }
}

/// Lays the frames out one after the other, with bytes between them.
fn lay_out<'a>(rng: &mut Rng, cells: &'a [Cells], sizes: &[Size]) -> (Vec<u8>, Vec<Laid<'a>>) {
    let mut image = gap(rng);
    let mut frames: Vec<Laid> = Vec::new();
    for (nth, cells) in cells.iter().enumerate() {
        // Sometimes the function of the frame before is called again, by itself.
        let before = frames.last().filter(|_| rng.one_in(6));
        let (cells, pointers, of) = match before {
            Some(before) => (before.cells, before.pointers, before.of),
            None => (cells, sizes[nth].pointers, nth),
        };
        let at = image.len();
        image.resize(at + cells.length, 0);
        image.extend(gap(rng));
        frames.push(Laid {
            cells,
            pointers,
            of,
            at,
        });
    }
    (image, frames)
}

/// Bytes between frames.
fn gap(rng: &mut Rng) -> Vec<u8> {
    let count = rng.pick(&[0, 0, 1, 7, 8, 16, 24]);
    (0..count).map(|_| rng.byte()).collect()
}

/// An address from which an image of this length fits: often the lowest or the highest there is.
fn first_address(rng: &mut Rng, length: usize) -> u64 {
    let most = u64::MAX - length as u64;
    match rng.below(8) {
        0 => 0,
        1 => rng.number(8),
        2 | 3 => most,
        4 => most - rng.number(8),
        5 => 0x7000,
        _ => rng.word().min(most),
    }
}

/// What there is so far.
struct Building<'a> {
    table: &'a Table,
    constants: Vec<u64>,
    image: Vec<u8>,
    first: u64,
    version: Version,
    machine: u64,
    groups: Vec<Group>,
    /// Records that belong to no function, as all do in version 1.
    strays: Vec<Record>,
    taken: Taken,
    /// The frame pointer minus the stack pointer of each frame, modulo 2^64.
    distances: Vec<u64>,
    /// What the registers of each frame hold, but for these two.
    registers: Vec<[u64; REGISTERS]>,
}

/// Frames of these sizes, in a section that has the noise too. None where a frame that is to stand
/// at the statepoint of the one before cannot: its frame pointer would be no address.
pub(super) fn build(
    rng: &mut Rng,
    table: &Table,
    sizes: &[Size],
    noise: &Section,
    machine: u64,
) -> Option<Scene> {
    let mut constants = noise.constants.clone();
    constants.extend([0, rng.number(64).max(1)]);
    let cells = sizes.iter().map(|size| Cells::any(rng, size, machine));
    let cells: Vec<Cells> = cells.collect();
    let (image, frames) = lay_out(rng, &cells, sizes);
    let mut building = Building {
        table,
        constants,
        first: first_address(rng, image.len()),
        image,
        version: noise.version,
        machine,
        groups: functions::groups_of(noise),
        strays: match noise.version {
            Version::One => noise.records.clone(),
            Version::Three => Vec::new(),
        },
        taken: Taken::new(keys(noise).into_iter(), std::iter::empty()),
        distances: Vec::new(),
        registers: Vec::new(),
    };
    for (nth, frame) in frames.iter().enumerate() {
        let stretch = &mut building.image[frame.stretch()];
        let mut registers = [0; REGISTERS];
        frame.cells.fill(rng, table, stretch, &mut registers);
        building.registers.push(registers);
        let distance = match frame.of == nth {
            true => building.stand(rng, frame),
            false => building.stand_again(nth, frame, &frames[frame.of]),
        };
        building.distances.push(distance);
    }
    building.finish(rng, &frames)
}

impl Building<'_> {
    /// Makes the frame's statepoint, and gives the frame pointer minus the stack pointer.
    fn stand(&mut self, rng: &mut Rng, frame: &Laid) -> u64 {
        let stack_pointer = self.first + frame.at as u64;
        let pool = Pool {
            version: self.version,
            constants: &self.constants,
            machine: self.machine,
        };
        let registers = self.registers.last().expect("those of the frame");
        let mut record = functions::statepoint(rng, pool);
        let frame_pointer = frame.cells.frame_pointer(rng, stack_pointer);
        frame.cells.pairs(
            rng,
            frame.pointers,
            [frame_pointer, stack_pointer],
            pool,
            (&self.image[frame.stretch()], registers),
            self.table,
            &mut record,
        );
        let (version, length) = (self.version, frame.cells.length as u64);
        let group = functions::standing(rng, version, length, &record, frame.of, &mut self.taken);
        self.groups.push(group);
        frame_pointer.wrapping_sub(stack_pointer)
    }

    /// Has the frame stand at the statepoint of the one before, with the same contents, and gives
    /// the frame pointer minus the stack pointer.
    fn stand_again(&mut self, nth: usize, frame: &Laid, same: &Laid) -> u64 {
        self.image.copy_within(same.stretch(), frame.at);
        self.registers[nth] = self.registers[frame.of];
        let group = self.groups.last_mut();
        group.expect("that of the frame before").stops.push(nth);
        *self.distances.last().expect("that of the frame before")
    }

    /// The scene, where the frame pointer of every frame is an address.
    fn finish(self, rng: &mut Rng, frames: &[Laid]) -> Option<Scene> {
        let stop = |registers: &[u64; REGISTERS]| Stop {
            address: 0,
            registers: *registers,
            listed: REGISTERS,
            record: 0,
            function: 0,
            named: 0,
        };
        let section = Section {
            version: self.version,
            constants: self.constants,
            ..Section::default()
        };
        let mut scene = Scene {
            section,
            image: self.image,
            first: self.first,
            table: self.table.clone(),
            machine: self.machine,
            stops: self.registers.iter().map(stop).collect(),
        };
        for (nth, (frame, distance)) in frames.iter().zip(&self.distances).enumerate() {
            let stack_pointer = self.first + frame.at as u64;
            let frame_pointer = stack_pointer.wrapping_add(*distance);
            if (frame_pointer >= stack_pointer) != (*distance < 1 << 63) {
                return None;
            }
            scene.set_frame_pointer(nth, frame_pointer);
            scene.set_stack_pointer(nth, stack_pointer);
        }
        place(rng, &mut scene, self.groups, self.strays);
        Some(scene)
    }
}

/// Puts the functions into the section in any order, and the records with them, or in version 1 in an
/// order of their own; and notes where the statepoints stand.
fn place(rng: &mut Rng, scene: &mut Scene, mut groups: Vec<Group>, strays: Vec<Record>) {
    shuffle(rng, &mut groups);
    let count = groups.len();
    // Each record, and the frames that stand at it.
    let mut records: Vec<(Record, Vec<usize>)> = Vec::new();
    for (function, group) in groups.into_iter().enumerate() {
        for stop in &group.stops {
            let stop = &mut scene.stops[*stop];
            stop.function = function;
            stop.named = named(rng, group.version, function, count);
            stop.address = group.address();
        }
        let at = |nth: usize| match nth == group.at {
            true => group.stops.clone(),
            false => Vec::new(),
        };
        let own = group.records.iter().cloned().enumerate();
        records.extend(own.map(|(nth, record)| (record, at(nth))));
        scene.section.functions.push(group.function);
    }
    records.extend(strays.into_iter().map(|record| (record, Vec::new())));
    if scene.section.version == Version::One {
        shuffle(rng, &mut records);
        add_twin(rng, scene);
    }
    for (nth, (record, stops)) in records.into_iter().enumerate() {
        stops
            .iter()
            .for_each(|stop| scene.stops[*stop].record = nth);
        scene.section.records.push(record);
    }
}

/// Sometimes adds a function of the same stack size as some frame's, which that frame names from then
/// on: its record is found whatever function is handed in.
fn add_twin(rng: &mut Rng, scene: &mut Scene) {
    if scene.stops.is_empty() || !rng.one_in(3) {
        return;
    }
    let nth = rng.below(scene.stops.len());
    let functions = &mut scene.section.functions;
    let twin = functions[scene.stops[nth].function].clone();
    scene.stops[nth].function = functions.len();
    scene.stops[nth].named = functions.len() as u64;
    functions.push(twin);
}
