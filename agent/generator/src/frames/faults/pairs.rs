//! Faults of the pairs of a frame: too many pointers, a wrong form, slots outside the frame, slots that
//! collide, and bases of no object. Of a pair with several pointers any may be the one at fault.

use super::record_of;
use crate::frames::plain::{self, Slot};
use crate::frames::{registers, Pool, Scene, MOST_POINTERS};
use crate::layout::{Location, Version};
use crate::rng::Rng;

/// Pairs of more than 256 pointers, often of just one more. In version 1 only the number of pairs
/// counts; in version 3 some have many pointers, wherever their slots are.
pub(super) fn many_pointers(rng: &mut Rng, scene: &mut Scene, stop: usize) -> Option<u64> {
    let nth = scene.stops[stop].record;
    let first = plain::first_pair(&scene.section.records[nth])?;
    let over = MOST_POINTERS + 1 + rng.pick(&[0, 0, 0, 1, 255]);
    let wide = scene.section.version == Version::Three && !rng.one_in(4);
    if wide && rng.one_in(3) {
        widen(rng, scene, stop, over);
    }
    let mut count = plain::pointers(scene, stop);
    while count < over {
        let most = (over - count).min(MOST_POINTERS);
        let pointers = match (wide, rng.below(3)) {
            (false, _) | (_, 0) => 1,
            (_, 1) => most,
            _ => 1 + rng.below(most),
        };
        let pool = scene.pool();
        let pair = match pointers {
            1 if rng.one_in(3) => [pool.register(rng), pool.register(rng)],
            1 => [pool.null(rng), pool.null(rng)],
            _ => anywhere(rng, scene.machine, pointers),
        };
        let locations = &mut scene.section.records[nth].locations;
        let at = first + 2 * rng.below((locations.len() - first) / 2 + 1);
        locations.splice(at..at, pair);
        count += pointers;
    }
    Some(0)
}

/// Has a pair on the stack so many more pointers that all are as many as asked for, if there is one that
/// can.
fn widen(rng: &mut Rng, scene: &mut Scene, stop: usize, over: usize) {
    let slots = plain::slots(scene, stop);
    let stack = |slot: &Slot| slot.on_stack().is_some();
    let wide = |pair: &plain::Slots| !pair.is_empty() && pair.iter().flatten().all(stack);
    let numbers: Vec<usize> = (0..slots.len()).filter(|nth| wide(&slots[*nth])).collect();
    if numbers.is_empty() {
        return;
    }
    let pair = rng.pick(&numbers);
    let own = slots[pair].len();
    let pointers = over.saturating_sub(plain::pointers(scene, stop) - own);
    if (own..=MOST_POINTERS).contains(&pointers) {
        for which in 0..2 {
            location(scene, stop, pair, which).size = 8 * pointers as u16;
        }
    }
}

/// A pair of so many pointers with its slots anywhere.
fn anywhere(rng: &mut Rng, machine: u64, pointers: usize) -> [Location; 2] {
    [(); 2].map(|()| Location {
        kind: 3,
        size: 8 * pointers as u16,
        register: rng.pick(&registers(machine)),
        offset: rng.number(32) as u32,
    })
}

pub(super) fn form(rng: &mut Rng, scene: &mut Scene, stop: usize) -> Option<u64> {
    let constants = scene.section.constants.clone();
    let pool = Pool {
        version: scene.section.version,
        constants: &constants,
        machine: scene.machine,
    };
    let record = record_of(scene, stop);
    let first = plain::first_pair(record)?;
    let count = (record.locations.len() - first) / 2;
    if count == 0 {
        return None;
    }
    let mut lowest = count;
    for _ in 0..1 + rng.below(2) {
        let pair = rng.below(count);
        wrong_form(rng, pool, &mut record.locations[first + 2 * pair..][..2]);
        lowest = lowest.min(pair);
    }
    Some(lowest as u64)
}

/// Gives a pair a wrong form, whatever it is before.
fn wrong_form(rng: &mut Rng, pool: Pool, pair: &mut [Location]) {
    let one = rng.below(2);
    let pointers = 1 + rng.below(3);
    let mut slot = Location {
        kind: 3,
        size: pool.slot_size(rng, pointers),
        register: registers(pool.machine)[1],
        offset: 8,
    };
    if [1, 3].contains(&pair[1 - one].kind) {
        slot.size = pair[1 - one].size;
    }
    match rng.below(12) {
        0..=3 => {
            let sizes = pool.wrong_sizes(rng);
            for (location, size) in pair.iter_mut().zip(sizes) {
                *location = Location {
                    size,
                    ..slot.clone()
                };
            }
        }
        4 => {
            pair[1 - one] = match rng.one_in(2) {
                true => pool.register(rng),
                false => slot,
            };
            pair[one] = pool.null(rng);
        }
        // A register beside memory of another size, or of the same that no register has.
        5 => {
            slot.size = 16;
            pair[1 - one] = slot;
            pair[one] = pool.register(rng);
            if rng.one_in(2) {
                pair[one].size = 16;
            }
        }
        _ => pair[one] = wrong_location(rng, pool, slot),
    }
}

/// A location that is no slot, whatever stands beside it, made of one that is.
fn wrong_location(rng: &mut Rng, pool: Pool, mut slot: Location) -> Location {
    match rng.below(6) {
        0 => slot.kind = rng.pick(&[1, 2]),
        1 => slot.register = pool.wrong_register(rng),
        2..=4 => slot = pool.wrong_slot(rng),
        _ => {
            let constant = pool.constants.iter().position(|constant| *constant != 0);
            (slot.kind, slot.offset) = match constant {
                Some(nth) if rng.one_in(2) => (5, nth as u32),
                _ => (4, rng.pick(&[1, u32::MAX, 1 << 31])),
            };
        }
    }
    slot
}

/// The numbers of the pairs that have slots.
fn with_slots(scene: &Scene, stop: usize) -> Option<Vec<usize>> {
    plain::first_pair(&scene.section.records[scene.stops[stop].record])?;
    let slots = plain::slots(scene, stop);
    let numbers: Vec<usize> = (0..slots.len())
        .filter(|nth| !slots[*nth].is_empty())
        .collect();
    (!numbers.is_empty()).then_some(numbers)
}

/// The location of a pair, the base's or the derived one's.
fn location(scene: &mut Scene, stop: usize, pair: usize, which: usize) -> &mut Location {
    let record = record_of(scene, stop);
    let first = plain::first_pair(record).expect("a statepoint");
    &mut record.locations[first + 2 * pair + which]
}

/// A slot outside the frame, of a pair that has one on the stack. Of a pair with several pointers it is
/// often the last one's only.
pub(super) fn outside(rng: &mut Rng, scene: &mut Scene, stop: usize) -> Option<u64> {
    plain::first_pair(record_of(scene, stop))?;
    let mut on_stack = Vec::new();
    for (nth, slots) in plain::slots(scene, stop).iter().enumerate() {
        let first = slots.iter().take(1).flatten().enumerate();
        let first = first.filter(|(_, slot)| slot.on_stack().is_some());
        on_stack.extend(first.map(|(which, _)| (nth, which)));
    }
    if on_stack.is_empty() {
        return None;
    }
    let (pair, which) = rng.pick(&on_stack);
    if rng.one_in(2) && wrap(rng, scene, stop, pair, which) {
        return Some(pair as u64);
    }
    let size = scene.stack_size(stop) as i32;
    let length = 8 * plain::slots(scene, stop)[pair].len() as i32;
    let near = rng.below(8) as i32;
    let offset = match rng.below(7) {
        0 => -1 - near,
        1 | 2 => size - length + 1 + near,
        3 => size + rng.number(20) as i32,
        4 => -1 - rng.number(20) as i32,
        5 => i32::MIN + near,
        _ => i32::MAX - near,
    };
    let [_, own] = registers(scene.machine);
    let location = location(scene, stop, pair, which);
    location.register = own;
    location.offset = offset as u32;
    Some(pair as u64)
}

/// Has the frame pointer and an offset whose sum modulo 2^64 is the slot, but which is no address as a whole
/// number. False where the slot lies too far from the ends of the addresses.
fn wrap(rng: &mut Rng, scene: &mut Scene, stop: usize, pair: usize, which: usize) -> bool {
    const REACH: i128 = 1 << 31;
    let [of_frame, of_stack] = registers(scene.machine);
    let slots = plain::slots(scene, stop);
    let from_start = slots[pair][0][which].on_stack().expect("on the stack");
    let target = i128::from(scene.stack_pointer(stop)) + from_start;
    let above = i128::from(u64::MAX) + 1;
    let more = rng.below(100) as i128;
    let distance = match () {
        // the frame pointer is small, and the offset negative.
        () if above - target + more <= REACH => target - above - more,
        // the frame pointer is large, and the offset positive.
        () if target + 1 + more < REACH => target + 1 + more,
        () => return false,
    };
    for (nth, slots) in slots.iter().enumerate() {
        let first = slots.iter().take(1).flatten();
        for (which, slot) in first.enumerate() {
            if let Some(slot) = slot.on_stack() {
                let location = location(scene, stop, nth, which);
                location.register = of_stack;
                location.offset = slot as u32;
            }
        }
    }
    let frame_pointer = (target - distance).rem_euclid(above) as u64;
    scene.set_frame_pointer(stop, frame_pointer);
    let location = location(scene, stop, pair, which);
    location.register = of_frame;
    location.offset = distance as i32 as u32;
    true
}

/// Slots that collide, by another place of a pair's location: one of its slots comes to lie over that of
/// some pointer, or becomes the derived slot of one with another base, on the stack or in a register.
pub(super) fn collision(rng: &mut Rng, scene: &mut Scene, stop: usize) -> Option<u64> {
    let numbers = with_slots(scene, stop)?;
    let slots = plain::slots(scene, stop);
    let before = record_of(scene, stop).clone();
    for _ in 0..8 {
        let (pair, other) = (rng.pick(&numbers), rng.pick(&numbers));
        let (own, other) = (slots[pair].len(), rng.pick(&slots[other]));
        let (which, slot) = match rng.below(2) {
            0 => (1, other[1]),
            _ => {
                let over = rng.pick(&other);
                (rng.below(2), beside(rng, over))
            }
        };
        // That slot is the pair's first, its last, or any.
        let nth = match rng.below(3) {
            0 => 0,
            1 => own - 1,
            _ => rng.below(own),
        };
        if !put(scene, stop, pair, which, own, nth, slot) {
            continue;
        }
        match plain::answer(scene, stop) {
            (20, place) => return Some(place),
            _ => *record_of(scene, stop) = before.clone(),
        }
    }
    None
}

/// Eight bytes that share some with a slot on the stack; a register is as it is.
fn beside(rng: &mut Rng, slot: Slot) -> Slot {
    let distance = 1 + rng.below(7) as i128;
    let sign = rng.pick(&[1, -1]);
    match slot {
        Slot::Stack(at) => Slot::Stack(at + sign * distance),
        Slot::Register(_) => slot,
    }
}

/// Has the nth of a pair's so many slots, as base or derived, be this one. False where the frame has no
/// room for all of them, or several would be a register.
fn put(
    scene: &mut Scene,
    stop: usize,
    pair: usize,
    which: usize,
    count: usize,
    nth: usize,
    slot: Slot,
) -> bool {
    let size = i128::from(scene.stack_size(stop));
    let [_, of_stack] = registers(scene.machine);
    let (kind, register, offset) = match slot {
        Slot::Stack(at) => (3, of_stack, at - 8 * nth as i128),
        Slot::Register(number) => (1, number as u16, 0),
    };
    let fits = match kind {
        3 => (0..=size - 8 * count as i128).contains(&offset),
        _ => count == 1,
    };
    if fits {
        let location = location(scene, stop, pair, which);
        *location = Location {
            kind,
            size: location.size,
            register,
            offset: offset as u32,
        };
    }
    fits
}

/// A base that is neither 0 nor an old start, by another content or by another table. Of a pair with
/// several pointers it is often the last one's.
pub(super) fn base(rng: &mut Rng, scene: &mut Scene, stop: usize) -> Option<u64> {
    let numbers = with_slots(scene, stop)?;
    let pair = &plain::slots(scene, stop)[rng.pick(&numbers)];
    let [base, _] = match rng.one_in(2) {
        true => pair[pair.len() - 1],
        false => rng.pick(pair),
    };
    let old = plain::content(scene, stop, base);
    if let (Ok(nth), true) = (scene.table.olds.binary_search(&old), rng.one_in(3)) {
        scene.table.olds.remove(nth);
        scene.table.news.remove(nth);
    } else {
        let content = match rng.below(5) {
            0 => old.wrapping_add(8),
            1 => old.wrapping_sub(1),
            2 => old.wrapping_add(1),
            3 => old ^ 1 << rng.below(64),
            _ => rng.number(64),
        };
        plain::set_content(scene, stop, base, content);
        if plain::answer(scene, stop).0 != 21 {
            plain::set_content(scene, stop, base, old);
            return None;
        }
    }
    match plain::answer(scene, stop) {
        (21, place) => Some(place),
        other => panic!("a base out of the table gives {other:?}"),
    }
}
