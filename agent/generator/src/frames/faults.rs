//! Faults that aim at one refusal of a frame. On a scene without fault each gives exactly that
//! refusal, and says at which place.

mod pairs;
mod standing;

use super::{plain, registers, Scene, MOST_IMAGE, MOST_MOVES, REGISTERS};
use crate::layout::{LiveOut, Record};
use crate::rng::Rng;
use pairs::{base, collision, form, many_pointers, outside};
use standing::{extent, no_record, shared};

/// The refusals of a frame that are not its section's.
pub const NUMBERS: [u64; 13] = [10, 12, 13, 14, 15, 16, 17, 18, 19, 20, 21, 25, 33];

/// Those that are one frame's own where it is moved alone, whatever the other frames are.
pub const ALONE: [u64; 10] = [10, 12, 15, 16, 17, 18, 19, 20, 21, 25];

/// Those that are one frame's own in a thread too.
pub const OWN: [u64; 9] = [10, 12, 15, 16, 17, 18, 19, 20, 21];

/// Lists and images past their limits are large: there are few of them.
const LARGE: usize = 40;

/// Makes this refusal that of the frame, and says at which place it is. `None` where the scene has
/// no part that can be damaged so; it is then as it was.
pub fn aim(rng: &mut Rng, number: u64, scene: &mut Scene, stop: usize) -> Option<u64> {
    match number {
        10 => no_record(rng, scene, stop),
        12 => no_statepoint(rng, scene, stop),
        13 => image(rng, scene),
        14 => table(rng, scene),
        15 => shared(rng, scene, stop),
        16 => extent(rng, scene, stop),
        17 => many_pointers(rng, scene, stop),
        18 => form(rng, scene, stop),
        19 => outside(rng, scene, stop),
        20 => collision(rng, scene, stop),
        21 => base(rng, scene, stop),
        25 => list(rng, scene, stop),
        33 => machine(rng, scene),
        _ => None,
    }
}

/// Gives one frame in so many a fault of its own, as a thread's frame can have it. Frames at a statepoint
/// with a fault already get none.
pub fn scatter(rng: &mut Rng, scene: &mut Scene, many: usize) {
    scatter_of(rng, scene, many, &OWN);
}

/// Gives one frame in so many a fault of these numbers. Frames at a statepoint with a fault already get
/// none.
pub fn scatter_of(rng: &mut Rng, scene: &mut Scene, many: usize, numbers: &[u64]) {
    let mut faulty: Vec<usize> = Vec::new();
    for stop in 0..scene.stops.len() {
        let record = scene.stops[stop].record;
        let fresh = faulty
            .iter()
            .all(|other| scene.stops[*other].record != record);
        if fresh && rng.one_in(many) {
            let number = rng.pick(numbers);
            aim(rng, number, scene, stop);
            faulty.push(stop);
        }
    }
}

fn record_of(scene: &mut Scene, stop: usize) -> &mut Record {
    &mut scene.section.records[scene.stops[stop].record]
}

fn no_statepoint(rng: &mut Rng, scene: &mut Scene, stop: usize) -> Option<u64> {
    let pool = scene.section.constants.len();
    let odd = scene.pool().null(rng);
    let record = record_of(scene, stop);
    let count = record.locations.len();
    let past = count as u64 - 2;
    plain::first_pair(record)?;
    match rng.below(6) {
        0 => record.locations.truncate(rng.below(3)),
        1 => {
            let location = &mut record.locations[rng.below(3)];
            location.kind = rng.pick(&[1, 2, 3, 5]);
            if location.kind == 5 {
                location.offset = rng.below(pool) as u32;
            }
        }
        2 => record.locations[2].offset = rng.pick(&[u32::MAX, 1 << 31, u32::MAX - 1]),
        3 => record.locations[2].offset = (past + rng.number(30)).min(i32::MAX as u64) as u32,
        4 if count > 3 && record.locations[2].offset > 0 => record.locations[2].offset -= 1,
        4 if count > 3 => record.locations[2].offset += 1,
        4 => record.locations.push(odd),
        _ => {
            let live_out = LiveOut {
                register: 7,
                size: 8,
            };
            record.live_outs = vec![live_out; 1 + rng.below(3)];
        }
    }
    Some(0)
}

/// A number that is no machine: the next one, one where a narrower number would be one, or any.
fn machine(rng: &mut Rng, scene: &mut Scene) -> Option<u64> {
    let own = scene.machine;
    scene.machine = match rng.below(4) {
        0 => 2,
        1 => u64::MAX - rng.number(2),
        2 => own + rng.pick(&[1 << 8, 1 << 16, 1 << 32, 1 << 63]),
        _ => 2 + rng.number(62),
    };
    Some(0)
}

/// Lends a list of registers that isn't 32 long: one less, one more, none, or any.
fn list(rng: &mut Rng, scene: &mut Scene, stop: usize) -> Option<u64> {
    let any = rng.below(REGISTERS);
    let twice = 2 * REGISTERS;
    scene.stops[stop].listed = rng.pick(&[31, 31, 33, 33, 0, 0, 16, any, twice, 1_000]);
    Some(0)
}

/// Hands in the other machine: the frames are then of one machine, and their section of the other. The
/// pointers of the other machine hold what this one's do, so that each frame is where it was.
pub fn other_machine(scene: &mut Scene) {
    let own = registers(scene.machine);
    scene.machine = 1 - scene.machine;
    let others = registers(scene.machine);
    for stop in &mut scene.stops {
        for (from, to) in own.into_iter().zip(others) {
            stop.registers[usize::from(to)] = stop.registers[usize::from(from)];
        }
    }
}

fn image(rng: &mut Rng, scene: &mut Scene) -> Option<u64> {
    if rng.one_in(LARGE) {
        scene.image.resize(MOST_IMAGE + 1 + rng.below(9), 0);
        scene.first = scene.first.min(u64::MAX - scene.image.len() as u64);
        return Some(0);
    }
    if scene.image.is_empty() {
        scene.image.push(0);
    }
    let length = scene.image.len();
    scene.first = u64::MAX - rng.below(length) as u64;
    if rng.one_in(2) {
        scene.first = u64::MAX - length as u64 + 1;
    }
    Some(0)
}

fn table(rng: &mut Rng, scene: &mut Scene) -> Option<u64> {
    let (olds, news) = (&mut scene.table.olds, &mut scene.table.news);
    let count = olds.len();
    if rng.one_in(LARGE) {
        *olds = (1..=MOST_MOVES as u64 + 1 + rng.below(3) as u64).collect();
        *news = olds.clone();
        return Some(0);
    }
    match rng.below(7) {
        0 if count > 0 => drop(news.pop()),
        1 if count > 0 => drop(olds.pop()),
        2 if count > 1 => {
            let nth = rng.below(count - 1);
            olds[nth + 1] = olds[nth];
        }
        3 if count > 1 => {
            let nth = rng.below(count - 1);
            olds.swap(nth, nth + 1);
        }
        4 if count > 0 => olds[0] = 0,
        5 if count > 0 => news[rng.below(count)] = 0,
        6 => news.push(rng.word().max(1)),
        _ => olds.push(u64::MAX),
    }
    Some(0)
}
