//! The functions of a scene's section: those with the statepoints that frames stand at, and others.

use super::{registers, slot_registers, Pool};
use crate::layout::{Function, LiveOut, Location, Record, Section, Version};
use crate::rng::Rng;
use crate::valid::Shape;
use crate::{older, valid};
use std::collections::BTreeSet;

/// A function of the section with its records, and the frames that stand at one of them. In version 1
/// nothing but the frames says that they belong together.
pub(super) struct Group {
    pub(super) version: Version,
    pub(super) function: Function,
    pub(super) records: Vec<Record>,
    /// The number of that record among these, and those of the frames.
    pub(super) at: usize,
    pub(super) stops: Vec<usize>,
}

impl Group {
    /// The addresses of the records; in version 1 the offsets.
    fn addresses(&self) -> impl Iterator<Item = u64> + '_ {
        self.records.iter().map(|record| self.address_of(record))
    }

    fn address_of(&self, record: &Record) -> u64 {
        let start = match self.version {
            Version::One => 0,
            Version::Three => self.function.address,
        };
        start + u64::from(record.offset)
    }

    /// The address of the record that frames stand at.
    pub(super) fn address(&self) -> u64 {
        self.address_of(&self.records[self.at])
    }
}

/// The addresses that records have, in version 1 the offsets, and those of them at which frames stand:
/// these have to be the address of one record only.
#[derive(Default)]
pub(super) struct Taken {
    all: BTreeSet<u64>,
    stops: BTreeSet<u64>,
}

impl Taken {
    /// The addresses of records and of frames.
    pub(super) fn new(
        records: impl Iterator<Item = u64>,
        stops: impl Iterator<Item = u64>,
    ) -> Taken {
        Taken {
            all: records.collect(),
            stops: stops.collect(),
        }
    }

    /// Adds a function with a statepoint for frames, unless an address would be there twice.
    fn add(&mut self, group: &Group) -> bool {
        let own = group.address();
        let alone = group.addresses().filter(|other| *other == own).count() == 1;
        let free = alone && !self.all.contains(&own);
        if !free || group.addresses().any(|other| self.stops.contains(&other)) {
            return false;
        }
        self.all.extend(group.addresses());
        self.stops.insert(own);
        true
    }
}

/// Functions, constants and records that have nothing to do with the frames.
pub(super) fn noise(rng: &mut Rng, version: Version) -> Section {
    let shape = Shape {
        functions: rng.below(3),
        constants: rng.below(3),
        records: rng.below(4),
        locations: 5,
        live_outs: 2,
    };
    match version {
        Version::One => older::shaped(rng, &shape),
        Version::Three => valid::shaped(rng, &shape),
    }
}

/// The functions of a section, each with its records, in version 1 with none; no frame stands at any.
pub(super) fn groups_of(section: &Section) -> Vec<Group> {
    let mut records = section.records.iter().cloned();
    let group = |function: &Function| Group {
        version: section.version,
        function: function.clone(),
        records: records
            .by_ref()
            .take(function.record_count as usize)
            .collect(),
        at: 0,
        stops: Vec::new(),
    };
    section.functions.iter().map(group).collect()
}

fn function(rng: &mut Rng, stack_size: u64) -> Function {
    let address = match rng.below(4) {
        0 => rng.number(22),
        1 => u64::MAX - rng.number(16),
        _ => rng.word(),
    };
    Function {
        address,
        stack_size,
        record_count: 0,
    }
}

/// A function of this stack size with the statepoint, whose address no other record has, and which is
/// that of the frame of this number.
pub(super) fn standing(
    rng: &mut Rng,
    version: Version,
    stack_size: u64,
    record: &Record,
    stop: usize,
    taken: &mut Taken,
) -> Group {
    loop {
        let function = function(rng, stack_size);
        let group = group(rng, version, function, record.clone(), stop);
        if taken.add(&group) {
            return group;
        }
    }
}

/// A function with the statepoint and, sometimes, records before and after it.
fn group(
    rng: &mut Rng,
    version: Version,
    mut function: Function,
    mut record: Record,
    stop: usize,
) -> Group {
    let most = match version {
        Version::One => u64::MAX,
        Version::Three => u64::MAX - function.address,
    };
    let room = most.min(u64::from(u32::MAX)) as usize;
    record.offset = match rng.below(8) {
        0 | 1 => room as u32,
        2 => rng.below(room.min(64) + 1) as u32,
        _ => rng.below(room + 1) as u32,
    };
    let at = rng.pick(&[0, 0, 1, 2]);
    let mut records = Vec::new();
    for _ in 0..at + rng.pick(&[0, 0, 1]) {
        records.push(bystander(rng, room));
    }
    records.insert(at, record);
    if version == Version::Three {
        function.record_count = records.len() as u64;
    }
    Group {
        version,
        function,
        records,
        at,
        stops: vec![stop],
    }
}

/// A record that no frame stands at, with an offset of at most `room`.
fn bystander(rng: &mut Rng, room: usize) -> Record {
    let offset = rng.below(room + 1) as u32;
    let outs = rng.below(2);
    let live_out = LiveOut {
        register: 7,
        size: 8,
    };
    Record {
        id: rng.word(),
        offset,
        locations: Vec::new(),
        live_outs: vec![live_out; outs],
    }
}

/// A statepoint without pairs: three constants and, sometimes, deoptimisation values.
pub(super) fn statepoint(rng: &mut Rng, pool: Pool) -> Record {
    let deopt = if rng.one_in(3) { rng.below(5) } else { 0 };
    let mut locations: Vec<Location> = (0..3)
        .map(|_| Location {
            kind: 4,
            size: pool.size(rng),
            register: rng.number(16) as u16,
            offset: rng.number(32) as u32,
        })
        .collect();
    locations[2].offset = deopt as u32;
    for _ in 0..deopt {
        let kind = 1 + rng.below(5) as u8;
        let offset = match kind {
            5 => rng.below(pool.constants.len()) as u32,
            _ => rng.number(32) as u32,
        };
        locations.push(Location {
            kind,
            size: 8,
            register: match rng.one_in(2) {
                true => registers(pool.machine)[1],
                false => rng.pick(&slot_registers(pool.machine)),
            },
            offset: if kind == 1 { 0 } else { offset },
        });
    }
    Record {
        id: rng.word(),
        offset: 0,
        locations,
        live_outs: Vec::new(),
    }
}
