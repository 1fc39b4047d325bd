//! Shapes of frames with slots in registers, which random frames must have often enough.

use crate::shapes::{first, pairs, plain_slots};
use generator::frames::plain::{self, Slot};
use generator::frames::{registers, Scene};
use generator::layout::Location;

/// A shape: its name, and whether a frame with this number and place as answer has it.
type Shape = (&'static str, fn(&Scene, (u64, u64)) -> bool);

pub const SHAPES: [Shape; 22] = [
    ("accepted, both in registers", |scene, answer| {
        some(scene, answer, |[base, derived]| {
            register(base) && register(derived)
        })
    }),
    ("accepted, a base in memory", |scene, answer| {
        some(scene, answer, |[base, derived]| {
            !register(base) && register(derived)
        })
    }),
    ("accepted, a base in a register", |scene, answer| {
        some(scene, answer, |[base, derived]| {
            register(base) && !register(derived)
        })
    }),
    ("accepted, a register and itself", |scene, answer| {
        some(scene, answer, |[base, derived]| {
            register(base) && base == derived
        })
    }),
    (
        "accepted, a derived register of two base slots",
        |scene, answer| {
            two(scene, answer, |one, other| {
                register(one[1]) && one[1] == other[1] && one[0] != other[0]
            })
        },
    ),
    (
        "accepted, a base register that another pair derives",
        |scene, answer| {
            two(scene, answer, |one, other| {
                register(one[0]) && one[0] == other[1] && other[0] != one[0]
            })
        },
    ),
    (
        "accepted, a base register that no pair derives",
        |scene, answer| {
            let all = plain_slots(scene, answer.0);
            let derived = |slot| all.iter().any(|two| two[1] == slot);
            all.iter().any(|two| register(two[0]) && !derived(two[0]))
        },
    ),
    ("accepted, a base register of 0", |scene, answer| {
        let zero = |slot| plain::content(scene, 0, slot) == 0;
        some(scene, answer, |[base, _]| register(base) && zero(base))
    }),
    (
        "accepted, version 1, a register of size 0",
        |scene, answer| {
            let zero = |one: &Location| one.kind == 1 && one.size == 0;
            answer.0 == 0 && first(scene) && pairs(scene).iter().flatten().any(zero)
        },
    ),
    (
        "accepted, registers beside pairs of several pointers",
        |scene, answer| {
            let several = || plain::slots(scene, 0).iter().any(|pair| pair.len() > 1);
            some(scene, answer, |[base, _]| register(base)) && several()
        },
    ),
    ("18 by the frame pointer", |scene, answer| {
        wrong(scene, answer, |own, _| {
            own.register == registers(scene.machine)[0]
        })
    }),
    ("18 by the stack pointer", |scene, answer| {
        wrong(scene, answer, |own, _| {
            own.register == registers(scene.machine)[1]
        })
    }),
    ("18 by 16 to 31 on AMD64", |scene, answer| {
        let amd64 = scene.machine == 0;
        wrong(scene, answer, |own, _| {
            amd64 && (16..32).contains(&own.register)
        })
    }),
    ("18 by a register from 32 on", |scene, answer| {
        wrong(scene, answer, |own, _| own.register >= 32)
    }),
    ("18 by an offset", |scene, answer| {
        wrong(scene, answer, |own, _| own.offset != 0)
    }),
    ("18 by a register of size 16", |scene, answer| {
        wrong(scene, answer, |own, _| own.size == 16)
    }),
    (
        "18 by a register of size 0 in version 3",
        |scene, answer| !first(scene) && wrong(scene, answer, |own, _| own.size == 0),
    ),
    (
        "18 by memory of 16 beside a register of 8",
        |scene, answer| {
            wrong(scene, answer, |own, other| {
                own.size == 8 && other.kind == 3 && other.size == 16
            })
        },
    ),
    ("17, registers among the pairs", |scene, answer| {
        answer.0 == 17 && pairs(scene).iter().flatten().any(|one| one.kind == 1)
    }),
    ("19 of a pair with a register", |scene, answer| {
        at_fault(scene, answer, 19, |two| {
            two.iter().any(|slot| register(*slot))
        })
    }),
    (
        "20 by a register derived from bases that differ",
        |scene, answer| {
            let base = |two: &[Slot; 2]| plain::content(scene, 0, two[0]);
            let up_to = |place: u64| plain::slots(scene, 0)[..=place as usize].concat();
            answer.0 == 20 && {
                let all = up_to(answer.1);
                let differ = |one: &[Slot; 2], other: &[Slot; 2]| {
                    register(one[1]) && one[1] == other[1] && base(one) != base(other)
                };
                all.iter()
                    .any(|one| all.iter().any(|other| differ(one, other)))
            }
        },
    ),
    ("21 by a base in a register", |scene, answer| {
        at_fault(scene, answer, 21, |two| register(two[0]))
    }),
];

fn register(slot: Slot) -> bool {
    slot.in_register().is_some()
}

/// Whether some pointer of an accepted frame is so.
fn some(scene: &Scene, answer: (u64, u64), is: impl Fn([Slot; 2]) -> bool) -> bool {
    plain_slots(scene, answer.0).into_iter().any(is)
}

/// Whether some two pointers of an accepted frame are so.
fn two(scene: &Scene, answer: (u64, u64), are: impl Fn(&[Slot; 2], &[Slot; 2]) -> bool) -> bool {
    let all = plain_slots(scene, answer.0);
    all.iter()
        .any(|one| all.iter().any(|other| are(one, other)))
}

/// Whether the pair that a refusal of this number names has a pointer that is so.
fn at_fault(
    scene: &Scene,
    answer: (u64, u64),
    number: u64,
    is: impl Fn(&[Slot; 2]) -> bool,
) -> bool {
    answer.0 == number && plain::slots(scene, 0)[answer.1 as usize].iter().any(is)
}

/// Whether the pair of wrong form that 18 names has a register that is so, beside the other location.
fn wrong(scene: &Scene, answer: (u64, u64), is: impl Fn(&Location, &Location) -> bool) -> bool {
    answer.0 == 18 && {
        let [one, two] = &pairs(scene)[answer.1 as usize];
        let own = |own: &Location, other: &Location| own.kind == 1 && is(own, other);
        own(one, two) || own(two, one)
    }
}
