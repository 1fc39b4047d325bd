//! Frames of the bench controller's product: sections that keep its profile, ways to break it, and the
//! place of the breach.

use super::plain::{self, first_pair};
use super::{Scene, Size, Table};
use crate::layout::{Function, LiveOut, Location, Record, Section, Version};
use crate::questions::addresses;
use crate::rng::Rng;

/// The most records of a section, and the most pointers of a record.
pub const MOST_RECORDS: usize = 64;
pub const MOST_OF_RECORD: usize = 16;

/// A way to break the profile.
#[derive(Clone, Copy, Debug, PartialEq, Eq)]
pub enum Breach {
    /// A record is no statepoint.
    NoStatepoint,
    /// A pair of a record has a wrong form.
    Form,
    /// A record has over 16 pointers.
    Pointers,
    /// A record has the address of the one before.
    Equal,
    /// A record has a lower address than the one before.
    Falling,
    /// There are over 64 records.
    Records,
    /// The section is of version 1. It is the last breach that a section can be given.
    Version,
    /// The machine is another, or none. It is the last breach of all.
    Machine,
}

impl Breach {
    /// All of them.
    pub const ALL: [Breach; 8] = [
        Breach::NoStatepoint,
        Breach::Form,
        Breach::Pointers,
        Breach::Equal,
        Breach::Falling,
        Breach::Records,
        Breach::Version,
        Breach::Machine,
    ];
}

/// The place of the first breach: 0 for version and machine, and else the lowest record with any.
pub fn breach(scene: &Scene) -> Option<u64> {
    if scene.section.version != Version::Three || scene.machine != 0 {
        return Some(0);
    }
    breaches(scene).first().copied()
}

/// The records that break the profile, of a section of version 3 on AMD64.
pub fn breaches(scene: &Scene) -> Vec<u64> {
    let section = &scene.section;
    let mut before = None;
    let mut breaches = Vec::new();
    for (nth, (record, (_, address))) in section.records.iter().zip(addresses(section)).enumerate()
    {
        let rises = before.is_none_or(|before| before < address);
        if nth >= MOST_RECORDS || !rises || !fits(scene, record) {
            breaches.push(nth as u64);
        }
        before = Some(address);
    }
    breaches
}

/// Whether a record is a statepoint of right pairs with at most 16 pointers.
fn fits(scene: &Scene, record: &Record) -> bool {
    let Some(first) = first_pair(record) else {
        return false;
    };
    let mut pointers = 0;
    for pair in record.locations[first..].chunks_exact(2) {
        if !plain::is_null(scene, pair) && !plain::is_form(scene, pair) {
            return false;
        }
        pointers += plain::pointers_of(Version::Three, pair);
    }
    pointers <= MOST_OF_RECORD
}

/// Up to three frames in a section of version 3 that keeps the profile.
pub fn scene(rng: &mut Rng) -> Scene {
    loop {
        let (table, frames) = (Table::any(rng), 1 + rng.below(3));
        let size = |_| {
            let few = Size::few(rng);
            Size {
                pointers: few.pointers + rng.pick(&[0, 0, 7]),
                ..few
            }
        };
        let sizes: Vec<Size> = (0..frames).map(size).collect();
        let mut scene = Scene::of_version(rng, Version::Three, table, &sizes);
        if scene.machine == 0 {
            keep(rng, &mut scene);
            debug_assert_eq!(breach(&scene), None);
            return scene;
        }
    }
}

/// Leaves out the records that no frame stands at, adds some statepoints, and orders all by address.
fn keep(rng: &mut Rng, scene: &mut Scene) {
    let stands = |nth: usize| scene.stops.iter().any(|stop| stop.record == nth);
    let owners: Vec<(usize, u64)> = addresses(&scene.section).collect();
    let mut parts: Vec<(u64, Function, Vec<Record>)> = Vec::new();
    for (nth, (owner, address)) in owners.iter().enumerate().filter(|(nth, _)| stands(*nth)) {
        let function = scene.section.functions[*owner].clone();
        let record = scene.section.records[nth].clone();
        parts.push((*address, function, vec![record]));
    }
    for _ in 0..rng.pick(&[0, 1, 3, 8, 30, MOST_RECORDS - 3]) {
        let part = more(rng, scene);
        if parts.iter().all(|(address, ..)| *address != part.0) {
            parts.push(part);
        }
    }
    order(scene, parts);
}

/// One more function with a statepoint, and the statepoint's address.
fn more(rng: &mut Rng, scene: &Scene) -> (u64, Function, Vec<Record>) {
    let pool = scene.pool();
    let mut record = Record {
        id: rng.word(),
        offset: rng.number(20) as u32,
        locations: vec![constant(0), constant(0), constant(0)],
        live_outs: Vec::new(),
    };
    for _ in 0..rng.below(MOST_OF_RECORD + 1) {
        let pair = match rng.one_in(2) {
            true => [pool.register(rng), pool.register(rng)],
            false => [pool.null(rng), pool.null(rng)],
        };
        record.locations.extend(pair);
    }
    let function = Function {
        address: rng.word() >> 1,
        stack_size: rng.number(64),
        record_count: 1,
    };
    let address = function.address + u64::from(record.offset);
    (address, function, vec![record])
}

fn constant(offset: u32) -> Location {
    Location {
        kind: 4,
        size: 8,
        register: 0,
        offset,
    }
}

/// Puts functions with their records into the section in the order of their addresses; the frames find
/// theirs again.
fn order(scene: &mut Scene, mut parts: Vec<(u64, Function, Vec<Record>)>) {
    parts.sort_by_key(|(address, ..)| *address);
    put(
        scene,
        parts
            .into_iter()
            .map(|(_, function, records)| (function, records)),
    );
}

/// Puts functions with their records into the section in this order; the frames find theirs again.
fn put(scene: &mut Scene, parts: impl Iterator<Item = (Function, Vec<Record>)>) {
    scene.section.functions.clear();
    scene.section.records.clear();
    for (mut function, records) in parts {
        function.record_count = records.len() as u64;
        scene.section.functions.push(function);
        scene.section.records.extend(records);
    }
    find(scene);
}

/// Has each frame stand at the first record of its address.
fn find(scene: &mut Scene) {
    let owners: Vec<(usize, u64)> = addresses(&scene.section).collect();
    for stop in &mut scene.stops {
        let nth = owners.iter().position(|(_, own)| *own == stop.address);
        stop.record = nth.expect("the frame's record");
        stop.function = owners[stop.record].0;
    }
}

/// Breaks the profile in this way, if the section has a part that can be broken so.
pub fn break_by(rng: &mut Rng, scene: &mut Scene, way: Breach) {
    let wrong = [scene.pool().wrong_slot(rng), scene.pool().register(rng)];
    let null = [scene.pool().null(rng), scene.pool().null(rng)];
    let count = scene.section.records.len();
    let nth = rng.below(count);
    let record = &mut scene.section.records[nth];
    match way {
        Breach::NoStatepoint => no_statepoint(rng, record),
        Breach::Form => {
            let first = first_pair(record).unwrap_or(record.locations.len());
            let pairs = (record.locations.len() - first) / 2;
            let at = first + 2 * rng.below(pairs + 1);
            record.locations.splice(at..at, wrong);
        }
        Breach::Pointers => {
            for _ in 0..=MOST_OF_RECORD {
                record.locations.extend(null.clone());
            }
        }
        Breach::Equal | Breach::Falling => disorder(rng, scene, way == Breach::Equal),
        Breach::Records => many(rng, scene),
        Breach::Version => older(&mut scene.section),
        Breach::Machine => scene.machine = rng.pick(&[1, 1, 2, 1 << 32, u64::MAX]),
    }
}

fn no_statepoint(rng: &mut Rng, record: &mut Record) {
    let third = record.locations.get_mut(2);
    match (rng.below(3), third) {
        (0, _) => record.locations.truncate(rng.below(3)),
        (1, Some(deopt)) => deopt.offset = u32::MAX,
        _ => record.live_outs.push(LiveOut {
            register: 3,
            size: 8,
        }),
    }
}

/// Makes the section one of version 1, which has no record counts and sizes of one byte.
fn older(section: &mut Section) {
    section.version = Version::One;
    for function in &mut section.functions {
        function.record_count = 0;
    }
    for location in section.records.iter_mut().flat_map(|r| &mut r.locations) {
        location.size &= 0xff;
    }
}

/// The functions with their records.
fn parts(section: &Section) -> Vec<(Function, Vec<Record>)> {
    let mut records = section.records.iter().cloned();
    let part = |function: &Function| {
        let own = records.by_ref().take(function.record_count as usize);
        (function.clone(), own.collect())
    };
    section.functions.iter().map(part).collect()
}

/// Has two functions change places, or one stand there twice.
fn disorder(rng: &mut Rng, scene: &mut Scene, equal: bool) {
    let mut parts = parts(&scene.section);
    let (one, other) = (rng.below(parts.len()), rng.below(parts.len()));
    match equal {
        true => parts.insert(one, parts[one].clone()),
        false => parts.swap(one, other),
    }
    put(scene, parts.into_iter());
}

/// Adds statepoints until there are over 64.
fn many(rng: &mut Rng, scene: &mut Scene) {
    let over = MOST_RECORDS + 1 + rng.pick(&[0, 0, 0, 1, 40]);
    let mut all: Vec<(u64, Function, Vec<Record>)> = Vec::new();
    let mut own = addresses(&scene.section).map(|(_, address)| address);
    for (function, records) in parts(&scene.section) {
        let first = own.by_ref().take(records.len()).next();
        all.push((first.unwrap_or(function.address), function, records));
    }
    drop(own);
    while all.iter().map(|(.., records)| records.len()).sum::<usize>() < over {
        let part = more(rng, scene);
        if all.iter().all(|(address, ..)| *address != part.0) {
            all.push(part);
        }
    }
    order(scene, all);
}
