//! Faults of where a frame stands: no record or no function, several records, and no extent inside the
//! image. In version 1 they can come of the function that is handed in.

use super::record_of;
use crate::frames::{keys, named, Scene};
use crate::layout::{Function, Version};
use crate::rng::Rng;

/// An address that no record has; in version 1 an offset, or a function that isn't there.
pub(super) fn no_record(rng: &mut Rng, scene: &mut Scene, stop: usize) -> Option<u64> {
    if scene.section.version == Version::One && rng.one_in(2) {
        return no_function(rng, scene, stop);
    }
    let own = scene.stops[stop].address;
    let function = scene.section.functions[scene.stops[stop].function].address;
    let taken = keys(&scene.section);
    loop {
        let address = match rng.below(8) {
            0 => own.wrapping_add(1),
            1 => own.wrapping_sub(1),
            2 => own ^ 1 << rng.below(64),
            3 => function,
            4 => function.wrapping_add(own),
            5 | 6 => own.wrapping_add(rng.pick(&[1 << 32, 1 << 33, 1 << 63])),
            _ => rng.number(64),
        };
        if !taken.contains(&address) {
            scene.stops[stop].address = address;
            return Some(0);
        }
    }
}

/// A function number that is none: the next one, one where a narrower number would be one, or any. Now
/// and then there are also two records at the offset, or none.
fn no_function(rng: &mut Rng, scene: &mut Scene, stop: usize) -> Option<u64> {
    let record = scene.stops[stop].record;
    let others = scene.stops.iter().filter(|other| other.record == record);
    // Two records would be a fault of every frame that stands there.
    let alone = others.count() == 1;
    match rng.below(6) {
        0 | 1 if alone => drop(shared(rng, scene, stop)),
        2 => scene.stops[stop].address = scene.stops[stop].address.wrapping_add(1 << 32),
        _ => {}
    }
    let count = scene.section.functions.len() as u64;
    let own = scene.stops[stop].function as u64;
    scene.stops[stop].named = match rng.below(8) {
        0 | 1 => count,
        2 => count + 1,
        3..=5 => own + rng.pick(&[1 << 32, 1 << 33, 1 << 63]),
        6 => u64::MAX,
        _ => count + rng.number(63),
    };
    Some(0)
}

/// One more record with the address, before all others or behind them. In version 3 it is another
/// function's.
pub(super) fn shared(rng: &mut Rng, scene: &mut Scene, stop: usize) -> Option<u64> {
    let own = scene.stops[stop].address;
    let mut record = record_of(scene, stop).clone();
    if rng.one_in(2) {
        record.locations.clear();
    }
    let version = scene.section.version;
    let below = match version {
        Version::One => own,
        Version::Three => rng.pick(&[0, 1, u64::from(u32::MAX)]).min(own),
    };
    record.offset = below as u32;
    let function = (version == Version::Three).then(|| Function {
        address: own - below,
        stack_size: scene.stack_size(stop),
        record_count: 1,
    });
    if rng.one_in(2) {
        scene.section.functions.extend(function);
        scene.section.records.push(record);
        return Some(0);
    }
    let moved = usize::from(function.is_some());
    scene.section.functions.splice(0..0, function);
    scene.section.records.insert(0, record);
    for stop in &mut scene.stops {
        stop.function += moved;
        stop.record += 1;
    }
    Some(0)
}

/// An unknown stack size, or an extent that is not inside the image. In version 1 it is often that of
/// one more function, which the frame then names.
pub(super) fn extent(rng: &mut Rng, scene: &mut Scene, stop: usize) -> Option<u64> {
    let end = scene.first + scene.image.len() as u64;
    let size = scene.stack_size(stop);
    let far = rng.number(24);
    let near = rng.below(9) as u64;
    let (first, own) = (scene.first, scene.stops[stop]);
    let stack_pointer = scene.stack_pointer(stop);
    let wrong = match rng.below(6) {
        1 => u64::MAX - 1 - rng.number(4),
        2 => end - stack_pointer + 1 + near,
        3 if first > 0 => {
            scene.set_stack_pointer(stop, first - 1 - near.min(first - 1));
            return Some(0);
        }
        4 => match (end - size).checked_add(1 + near + far) {
            Some(stack_pointer) => {
                scene.set_stack_pointer(stop, stack_pointer);
                return Some(0);
            }
            None => u64::MAX,
        },
        // The extent would be inside if it could wrap.
        5 => 0u64.wrapping_sub(stack_pointer - first).max(1 << 32),
        _ => u64::MAX,
    };
    let version = scene.section.version;
    if version == Version::One && rng.one_in(2) {
        let function = scene.section.functions.len();
        scene.section.functions.push(Function {
            stack_size: wrong,
            ..scene.section.functions[own.function].clone()
        });
        scene.stops[stop].function = function;
        scene.stops[stop].named = named(rng, version, function, function + 1);
    } else {
        scene.section.functions[own.function].stack_size = wrong;
    }
    Some(0)
}
