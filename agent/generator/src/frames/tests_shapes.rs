//! Shapes that random frames with slots in registers must have often enough.

use super::plain::{self, Slot};
use super::{registers, Scene};
use crate::layout::{Location, Version};

/// The locations of the only frame's pairs.
fn pairs(scene: &Scene) -> Vec<[Location; 2]> {
    let record = &scene.section.records[scene.stops[0].record];
    let first = plain::first_pair(record).expect("a statepoint");
    let two = |pair: &[Location]| [pair[0].clone(), pair[1].clone()];
    record.locations[first..].chunks_exact(2).map(two).collect()
}

/// The pair that an answer of 18 names.
fn named(scene: &Scene, answer: (u64, u64)) -> Option<[Location; 2]> {
    (answer.0 == 18).then(|| pairs(scene)[answer.1 as usize].clone())
}

/// The pointers of an accepted frame.
pub(super) fn pointers(scene: &Scene, answer: (u64, u64)) -> Vec<[Slot; 2]> {
    match answer.0 {
        0 => plain::slots(scene, 0).concat(),
        _ => Vec::new(),
    }
}

/// Whether a pair of wrong form has a register that is so.
fn wrong(scene: &Scene, answer: (u64, u64), is: impl Fn(&Location, &Location) -> bool) -> bool {
    named(scene, answer).is_some_and(|[one, two]| {
        let register = |own: &Location, other: &Location| own.kind == 1 && is(own, other);
        register(&one, &two) || register(&two, &one)
    })
}

/// Whether some two of a frame's pointers are so.
fn some_two(of: &[[Slot; 2]], are: impl Fn(&[Slot; 2], &[Slot; 2]) -> bool) -> bool {
    of.iter().any(|one| of.iter().any(|other| are(one, other)))
}

fn is_register(slot: Slot) -> bool {
    slot.in_register().is_some()
}

/// A shape: its name, and whether a frame with this answer has it.
pub(super) type Shape = (&'static str, fn(&Scene, (u64, u64)) -> bool);

pub(super) const SHAPES: [Shape; 23] = [
    ("accepted, both in registers", |scene, answer| {
        let all = pointers(scene, answer);
        all.iter()
            .any(|two| two.iter().all(|slot| is_register(*slot)))
    }),
    ("accepted, a base on the stack", |scene, answer| {
        let all = pointers(scene, answer);
        all.iter()
            .any(|two| !is_register(two[0]) && is_register(two[1]))
    }),
    ("accepted, a base in a register", |scene, answer| {
        let all = pointers(scene, answer);
        all.iter()
            .any(|two| is_register(two[0]) && !is_register(two[1]))
    }),
    (
        "accepted, a derived register of two bases",
        |scene, answer| {
            some_two(&pointers(scene, answer), |one, other| {
                is_register(one[1]) && one[1] == other[1] && one[0] != other[0]
            })
        },
    ),
    ("accepted, a base that another derives", |scene, answer| {
        some_two(&pointers(scene, answer), |one, other| {
            is_register(one[0]) && one[0] == other[1] && other[0] != one[0]
        })
    }),
    ("accepted, a base that no pair derives", |scene, answer| {
        let all = pointers(scene, answer);
        let derived = |slot| all.iter().any(|two| two[1] == slot);
        all.iter()
            .any(|two| is_register(two[0]) && !derived(two[0]))
    }),
    ("accepted, a base register of 0", |scene, answer| {
        let zero = |slot| plain::content(scene, 0, slot) == 0;
        let all = pointers(scene, answer);
        all.iter().any(|two| is_register(two[0]) && zero(two[0]))
    }),
    ("accepted, size 0 of a register", |scene, answer| {
        let zero = |one: &Location| one.kind == 1 && one.size == 0;
        answer.0 == 0 && pairs(scene).iter().flatten().any(zero)
    }),
    ("accepted, registers beside wide pairs", |scene, answer| {
        let slots = if answer.0 == 0 {
            plain::slots(scene, 0)
        } else {
            Vec::new()
        };
        let register = slots
            .iter()
            .flatten()
            .flatten()
            .any(|slot| is_register(*slot));
        register && slots.iter().any(|pair| pair.len() > 1)
    }),
    ("18, the frame pointer", |scene, answer| {
        wrong(scene, answer, |own, _| {
            own.register == registers(scene.machine)[0]
        })
    }),
    ("18, the stack pointer", |scene, answer| {
        wrong(scene, answer, |own, _| {
            own.register == registers(scene.machine)[1]
        })
    }),
    ("18, 16 to 31 on AMD64", |scene, answer| {
        let amd64 = scene.machine == 0;
        wrong(scene, answer, |own, _| {
            amd64 && (16..32).contains(&own.register)
        })
    }),
    ("18, a register from 32 on", |scene, answer| {
        wrong(scene, answer, |own, _| own.register >= 32)
    }),
    ("18, an offset", |scene, answer| {
        wrong(scene, answer, |own, _| own.offset != 0)
    }),
    ("18, size 16 of a register", |scene, answer| {
        wrong(scene, answer, |own, _| own.size == 16)
    }),
    ("18, size 0 in version 3", |scene, answer| {
        let three = scene.section.version == Version::Three;
        wrong(scene, answer, |own, _| three && own.size == 0)
    }),
    ("18, memory of 16 beside 8", |scene, answer| {
        wrong(scene, answer, |own, other| {
            own.size == 8 && other.kind == 3 && other.size == 16
        })
    }),
    ("18, memory of 16 beside 16", |scene, answer| {
        wrong(scene, answer, |own, other| {
            own.size == 16 && other.kind == 3 && other.size == 16
        })
    }),
    ("18, a register beside a null", |scene, answer| {
        wrong(scene, answer, |_, other| {
            [4, 5].contains(&other.kind) && other.offset == 0
        })
    }),
    ("19, beside a register", |scene, answer| {
        answer.0 == 19 && {
            let pair = &plain::slots(scene, 0)[answer.1 as usize];
            pair.iter().flatten().any(|slot| is_register(*slot))
        }
    }),
    (
        "20, a derived register of unequal bases",
        |scene, answer| {
            answer.0 == 20 && {
                let slots = plain::slots(scene, 0);
                let base = |two: &[Slot; 2]| plain::content(scene, 0, two[0]);
                let upto = slots[..=answer.1 as usize].concat();
                some_two(&upto, |one, other| {
                    is_register(one[1]) && one[1] == other[1] && base(one) != base(other)
                })
            }
        },
    ),
    ("21, a base in a register", |scene, answer| {
        answer.0 == 21 && {
            let pair = &plain::slots(scene, 0)[answer.1 as usize];
            pair.iter().any(|two| is_register(two[0]))
        }
    }),
    ("17, registers among the pairs", |scene, answer| {
        answer.0 == 17 && pairs(scene).iter().flatten().any(|one| one.kind == 1)
    }),
];
