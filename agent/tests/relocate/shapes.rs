//! Shapes that random frames must have often enough.

use generator::frames::plain::{self, Slot};
use generator::frames::{registers, Scene};
use generator::layout::Location;
use generator::Version;

/// A shape: its name, and whether a frame with this number as answer has it.
pub type Shape = (&'static str, fn(&Scene, u64) -> bool);

pub const SHAPES: [Shape; 22] = [
    ("accepted, a null pair of kind 5", |scene, number| {
        number == 0 && pairs(scene).iter().any(|pair| pair[0].kind == 5)
    }),
    ("accepted, a null pair of both kinds", |scene, number| {
        number == 0
            && pairs(scene)
                .iter()
                .any(|pair| pair[0].kind + pair[1].kind == 9)
    }),
    ("accepted, slots from the frame pointer", |scene, number| {
        number == 0
            && pairs(scene)
                .iter()
                .any(|pair| pair[0].kind == 3 && pair[0].register == registers(scene.machine)[0])
    }),
    (
        "accepted, negative offsets from the frame pointer",
        |scene, number| {
            let below = |pair: &&[Location; 2]| pair[1].kind == 3 && (pair[1].offset as i32) < 0;
            number == 0 && pairs(scene).iter().any(|pair| below(&pair))
        },
    ),
    (
        "accepted, a derived slot shared by two base slots",
        |scene, number| number == 0 && shared(scene),
    ),
    (
        "accepted, a base slot that another pair derives",
        |scene, number| {
            let slots = plain_slots(scene, number);
            let moved = |base: Slot| slots.iter().any(|pair| pair[1] == base && pair[0] != base);
            slots.iter().any(|pair| moved(pair[0]))
        },
    ),
    (
        "accepted, a base slot that no pair derives",
        |scene, number| {
            let slots = plain_slots(scene, number);
            slots
                .iter()
                .any(|pair| slots.iter().all(|other| other[1] != pair[0]))
        },
    ),
    ("accepted, a base of 0", |scene, number| {
        let slots = plain_slots(scene, number);
        slots
            .iter()
            .any(|pair| plain::content(scene, 0, pair[0]) == 0)
    }),
    ("accepted, an empty frame", |scene, number| {
        number == 0 && scene.stack_size(0) == 0
    }),
    ("accepted, at the top of the addresses", |scene, number| {
        number == 0 && scene.first.checked_add(scene.image.len() as u64) == Some(u64::MAX)
    }),
    ("accepted, 255 or 256 pointers", |scene, number| {
        number == 0 && plain::pointers(scene, 0) >= 255
    }),
    (
        "refused by 19, an offset that would wrap",
        |scene, number| {
            let sum = |one: &Location| {
                let register = if one.register == registers(scene.machine)[0] {
                    scene.frame_pointer(0)
                } else {
                    scene.stack_pointer(0)
                };
                i128::from(register) + i128::from(one.offset as i32)
            };
            let wraps =
                |one: &Location| u64::try_from(sum(one)).is_err() && inside(scene, sum(one));
            let on_stack = |one: &&Location| one.kind == 3;
            number == 19 && pairs(scene).iter().flatten().filter(on_stack).any(wraps)
        },
    ),
    (
        "version 3, accepted, a function that is not there",
        |scene, number| {
            let accepted = number == 0 && scene.section.version == Version::Three;
            accepted && named(scene).is_none()
        },
    ),
    (
        "version 1, accepted, slots of size 0 and 8 in one pair",
        |scene, number| {
            let sizes = |pair: &[Location; 2]| pair[0].kind == 3 && pair[0].size != pair[1].size;
            first(scene) && number == 0 && pairs(scene).iter().any(sizes)
        },
    ),
    ("version 1, accepted, several functions", |scene, number| {
        first(scene) && number == 0 && scene.section.functions.len() > 2
    }),
    (
        "version 1, accepted, past the last address in its function",
        |scene, number| {
            let own = named(scene).map(|nth| scene.section.functions[nth].address);
            let over = own.is_some_and(|own| own.checked_add(scene.stops[0].address).is_none());
            first(scene) && number == 0 && over
        },
    ),
    ("version 1, 10 by the function alone", |scene, number| {
        first(scene) && number == 10 && named(scene).is_none() && there(scene) == 1
    }),
    (
        "version 1, 10 by the function, and two records",
        |scene, number| first(scene) && number == 10 && named(scene).is_none() && there(scene) == 2,
    ),
    (
        "version 1, 10 by a function that is there in 32 bits",
        |scene, number| {
            let cut = scene.stops[0].named as u32 as usize;
            let wide = scene.stops[0].named > u64::from(u32::MAX);
            first(scene) && number == 10 && wide && cut < scene.section.functions.len()
        },
    ),
    ("version 1, 10 by the offset alone", |scene, number| {
        first(scene) && number == 10 && named(scene).is_some()
    }),
    (
        "version 1, 10 by an offset that is there in 32 bits",
        |scene, number| {
            let address = scene.stops[0].address;
            let cut = |offset: u32| address > u64::from(u32::MAX) && offset == address as u32;
            let mut offsets = scene.section.records.iter().map(|record| record.offset);
            first(scene) && number == 10 && named(scene).is_some() && offsets.any(cut)
        },
    ),
    (
        "version 1, 16 of a function beside one that would do",
        |scene, number| {
            let size = scene.stack_size(0);
            let inside = |other: u64| other < size && other <= scene.image.len() as u64;
            let mut sizes = scene.section.functions.iter().map(|one| one.stack_size);
            first(scene) && number == 16 && sizes.any(inside)
        },
    ),
];

pub fn first(scene: &Scene) -> bool {
    scene.section.version == Version::One
}

/// The function that is handed in, where it is there.
fn named(scene: &Scene) -> Option<usize> {
    let named = usize::try_from(scene.stops[0].named).ok();
    named.filter(|nth| *nth < scene.section.functions.len())
}

/// How many records of version 1 are at the frame's offset.
fn there(scene: &Scene) -> usize {
    let offset = scene.stops[0].address;
    let records = scene.section.records.iter();
    records
        .filter(|record| u64::from(record.offset) == offset)
        .count()
}

/// The pairs of the frame's statepoint.
pub fn pairs(scene: &Scene) -> Vec<[Location; 2]> {
    let record = &scene.section.records[scene.stops[0].record];
    let first = plain::first_pair(record).expect("a statepoint");
    let pairs = record.locations[first..].chunks_exact(2);
    pairs
        .map(|pair| [pair[0].clone(), pair[1].clone()])
        .collect()
}

/// The slots of an accepted frame.
pub fn plain_slots(scene: &Scene, number: u64) -> Vec<[Slot; 2]> {
    match number {
        0 => plain::slots(scene, 0).into_iter().flatten().collect(),
        _ => Vec::new(),
    }
}

fn shared(scene: &Scene) -> bool {
    let slots = plain_slots(scene, 0);
    let other = |pair: &[Slot; 2]| {
        slots
            .iter()
            .any(|two| two[1] == pair[1] && two[0] != pair[0])
    };
    slots.iter().any(other)
}

/// Whether a sum modulo 2^64 would be a slot in the frame.
fn inside(scene: &Scene, sum: i128) -> bool {
    let wrapped = sum.rem_euclid(1 << 64);
    let rsp = i128::from(scene.stack_pointer(0));
    let size = scene.stack_size(0);
    (rsp..=rsp + i128::from(size) - 8).contains(&wrapped)
}
