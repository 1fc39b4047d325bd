//! Random frames with many pointers a pair, with faults of their pairs, and shapes that they must have
//! often enough.

use crate::common::{assert_often, count_random, say};
use crate::shapes::{first, pairs, Shape};
use crate::{compare, make};
use generator::frames::plain::{self, Slot};
use generator::frames::{registers, Scene, MOST_POINTERS};
use generator::layout::Location;
use generator::Rng;

/// Frames in a run, in parts.
const PARTS: u64 = 650;
const FRAMES_A_PART: u64 = 200;

/// The refusals of pairs.
const OF_PAIRS: [u64; 5] = [17, 18, 19, 20, 21];

/// How often each number was the answer, 0 to 21, and how often each shape was seen.
const ANSWERS: usize = 22;
type Counts = [u64; ANSWERS + WIDE.len()];

/// How often each shape must be seen at least.
const LEAST: u64 = 300;

/// Moves a random frame, whole or with faults of its pairs.
fn run(rng: &mut Rng, counts: &mut Counts) {
    let mut scene = Scene::wide(rng);
    let faults: Vec<u64> = (0..rng.pick(&[0, 1, 1, 1, 2, 2, 3]))
        .map(|_| rng.pick(&OF_PAIRS))
        .collect();
    let known = make(rng, &mut scene, &faults);
    let number = compare(&scene, &scene.section.encode(), Some(known));
    counts[number as usize] += 1;
    for (count, (_, shows)) in counts[ANSWERS..].iter_mut().zip(WIDE) {
        *count += u64::from(shows(&scene, number));
    }
}

#[test]
fn random_wide_frames() {
    let counts = count_random("frames of wide pairs", PARTS, FRAMES_A_PART, run);
    let (numbers, shapes) = counts.split_at(ANSWERS);
    say(&format!(
        "frames of wide pairs, 0 and 17 to 21: {:?}",
        [&numbers[..1], &numbers[17..]].concat()
    ));
    say(&format!("shapes of wide pairs: {shapes:?}"));
    assert_often(&[&numbers[..1], &numbers[17..]].concat(), |nth| {
        format!("answer {} of 0 and 17 to 21", nth)
    });
    for (count, (name, _)) in shapes.iter().zip(WIDE) {
        assert!(*count >= LEAST, "{name}: only {count} times");
    }
}

const WIDE: [Shape; 24] = [
    ("accepted, pairs of several pointers", |scene, number| {
        number == 0 && !widths(scene).is_empty()
    }),
    (
        "accepted, a pair of more than 16 pointers",
        |scene, number| number == 0 && widths(scene).iter().any(|width| *width > 16),
    ),
    (
        "accepted, 255 or 256 pointers in a few pairs",
        |scene, number| number == 0 && plain::pointers(scene, 0) >= 255 && pairs(scene).len() < 30,
    ),
    (
        "accepted, 255 or 256 pointers, null pairs and pairs of several among them",
        |scene, number| {
            let many = number == 0 && plain::pointers(scene, 0) >= 255;
            many && !widths(scene).is_empty() && pairs(scene).iter().any(is_null)
        },
    ),
    (
        "accepted, base and derived of a pair overlap by some of its slots",
        |scene, number| {
            let within = |pair: &plain::Slots| (1..8 * pair.len() as u128).contains(&apart(pair));
            number == 0 && plain::slots(scene, 0).iter().any(within)
        },
    ),
    (
        "accepted, two pairs share some of their slots",
        |scene, number| number == 0 && overlap(scene),
    ),
    (
        "17 in version 3, exactly 257 pointers in fewer pairs",
        |scene, number| {
            let over = !first(scene) && number == 17 && pairs(scene).len() <= MOST_POINTERS;
            over && plain::pointers(scene, 0) == MOST_POINTERS + 1
        },
    ),
    (
        "17 in version 3, null pairs only past the limit",
        |scene, number| {
            let nulls = || pairs(scene).iter().filter(|pair| is_null(pair)).count();
            !first(scene) && number == 17 && nulls() > MOST_POINTERS
        },
    ),
    ("17 in version 3, and a slot outside", |scene, number| {
        !first(scene) && number == 17 && outside(scene).is_some()
    }),
    ("17 in version 3, and a collision", |scene, number| {
        let inside = !first(scene) && number == 17 && outside(scene).is_none();
        inside && plain::answer(scene, 0).0 == 20
    }),
    (
        "17 in version 3, and a base of no object",
        |scene, number| {
            let inside = !first(scene) && number == 17 && outside(scene).is_none();
            inside && plain::answer(scene, 0).0 == 21
        },
    ),
    ("18 in version 3, and over 256 pointers", |scene, number| {
        !first(scene) && number == 18 && pairs(scene).len() > MOST_POINTERS
    }),
    ("17 in version 1, and a wrong form", |scene, number| {
        first(scene) && number == 17 && pairs(scene).iter().any(|pair| !right_1(pair))
    }),
    (
        "18 in version 3 by unequal sizes, each right",
        |scene, number| {
            let unequal = |[base, derived]: &[Location; 2]| base.size != derived.size;
            by_size(scene, number, |pair| {
                unequal(pair) && pair.iter().all(right)
            })
        },
    ),
    (
        "18 in version 3 by one byte more or less, both",
        |scene, number| {
            let beside = |size: u16| size > 8 && [1, 7].contains(&(size % 8));
            by_size(scene, number, |[base, derived]| {
                base.size == derived.size && beside(base.size)
            })
        },
    ),
    ("18 in version 3 by size 0 of both", |scene, number| {
        by_size(scene, number, |pair| pair.iter().all(|one| one.size == 0))
    }),
    ("18 in version 3 by size 2,056 of both", |scene, number| {
        by_size(scene, number, |pair| {
            pair.iter().all(|one| one.size == 2_056)
        })
    }),
    ("18 in version 1 by size 16", |scene, number| {
        let sixteen = |pair: &[Location; 2]| pair.iter().any(|one| one.kind == 3 && one.size == 16);
        first(scene) && number == 18 && pairs(scene).iter().any(sixteen)
    }),
    ("19 by the last pointer alone", |scene, number| {
        number == 19 && only_last(scene, beyond)
    }),
    ("19 by the first pointer alone", |scene, number| {
        let first_only = |pair: &plain::Slots| {
            let mut pointers = pair.iter().map(|pointer| beyond(scene, pointer));
            pair.len() > 1 && pointers.next() == Some(true) && !pointers.any(|is| is)
        };
        number == 19 && plain::slots(scene, 0).iter().any(first_only)
    }),
    ("20 in a pair by itself", |scene, number| {
        let own = |pair: &plain::Slots| {
            let apart = apart(pair);
            pair.len() > 1 && !apart.is_multiple_of(8) && apart < 8 * pair.len() as u128
        };
        number == 20 && plain::slots(scene, 0).iter().any(own)
    }),
    (
        "20 with pairs of several pointers, at a later pair",
        |scene, number| number == 20 && !widths(scene).is_empty() && plain::answer(scene, 0).1 > 0,
    ),
    ("21 by the last pointer alone", |scene, number| {
        let lost = |scene: &Scene, pointer: &[Slot; 2]| {
            let old = plain::content(scene, 0, pointer[0]);
            scene.table.moved(old).is_none()
        };
        number == 21 && only_last(scene, lost)
    }),
    (
        "21 of a later pair with several pointers",
        |scene, number| number == 21 && !widths(scene).is_empty() && plain::answer(scene, 0).1 > 0,
    ),
];

/// Whether a pair of the right form is null.
fn is_null(pair: &[Location; 2]) -> bool {
    [4, 5].contains(&pair[0].kind)
}

/// How far apart the locations of a pair on the stack are; 0 of any other.
fn apart(pair: &plain::Slots) -> u128 {
    match pair.first() {
        Some([Slot::Stack(one), Slot::Stack(two)]) => one.abs_diff(*two),
        _ => 0,
    }
}

/// The numbers of pointers of the pairs that have several, where all pairs have the right form.
fn widths(scene: &Scene) -> Vec<usize> {
    let slots = plain::slots(scene, 0).into_iter();
    slots
        .map(|pair| pair.len())
        .filter(|one| *one > 1)
        .collect()
}

/// Whether two pairs share a slot and have others of their own.
fn overlap(scene: &Scene) -> bool {
    let stretches: Vec<[i128; 2]> = plain::slots(scene, 0)
        .iter()
        .filter(|pair| pair.len() > 1)
        .filter_map(|pair| {
            let start = pair[0][0].on_stack()?;
            Some([start, start + 8 * pair.len() as i128])
        })
        .collect();
    let shifted = |[one, end]: &[i128; 2], [other, _]: &[i128; 2]| one < other && other < end;
    stretches
        .iter()
        .any(|one| stretches.iter().any(|other| shifted(one, other)))
}

/// Whether a slot of a pointer is not wholly inside the frame.
fn beyond(scene: &Scene, pointer: &[Slot; 2]) -> bool {
    let size = i128::from(scene.stack_size(0));
    let mut on_stack = pointer.iter().filter_map(|slot| slot.on_stack());
    on_stack.any(|slot| slot < 0 || slot + 8 > size)
}

/// The lowest pair with a slot outside the frame.
fn outside(scene: &Scene) -> Option<usize> {
    let slots = plain::slots(scene, 0);
    slots
        .iter()
        .position(|pair| pair.iter().any(|pointer| beyond(scene, pointer)))
}

/// Whether some pair of several pointers has the fault in the last one alone.
fn only_last(scene: &Scene, fault: impl Fn(&Scene, &[Slot; 2]) -> bool) -> bool {
    plain::slots(scene, 0).iter().any(|pair| {
        let (last, before) = match pair.split_last() {
            Some((last, before)) if !before.is_empty() => (last, before),
            _ => return false,
        };
        fault(scene, last) && !before.iter().any(|pointer| fault(scene, pointer))
    })
}

/// Whether a location's size is that of 1 to 256 pointers.
fn right(location: &Location) -> bool {
    location.size.is_multiple_of(8) && (8..=2_048).contains(&location.size)
}

/// Whether a pair of version 1 has slots of the right size.
fn right_1(pair: &[Location; 2]) -> bool {
    is_null(pair) || pair.iter().all(|one| [0, 8].contains(&one.size))
}

/// Whether a pair of version 3 is refused by 18 for its sizes alone, which are so.
fn by_size(scene: &Scene, number: u64, are: impl Fn(&[Location; 2]) -> bool) -> bool {
    let slots = |pair: &[Location; 2]| {
        let own = registers(scene.machine);
        let slot = |one: &Location| one.kind == 3 && own.contains(&one.register);
        pair.iter().all(slot)
    };
    let refused = !first(scene) && number == 18;
    refused && pairs(scene).iter().any(|pair| slots(pair) && are(pair))
}
