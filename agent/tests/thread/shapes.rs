//! Sorts of positions and shapes of lists that random lists must have often enough.

use generator::frames::thread::Thread;
use generator::frames::{plain, Scene};
use generator::Version;
use std::ops::Range;

/// A sort of position: its name, and whether a position in a list of so many frames is of it.
type Position = (&'static str, fn(usize, usize) -> bool);

pub const POSITIONS: [Position; 5] = [
    ("the first frame", |at, _| at == 0),
    ("the second frame", |at, _| at == 1),
    ("a frame among others", |at, frames| {
        (2..8).contains(&at) && at + 1 < frames
    }),
    ("a late frame", |at, _| at >= 8),
    ("the last frame of several", |at, frames| {
        at > 0 && at + 1 == frames
    }),
];

/// A shape: its name, and whether a list with this answer has it.
type Shape = (&'static str, fn(&Thread, (u64, u64)) -> bool);

pub const SHAPES: [Shape; 23] = [
    ("accepted, a list of none", |thread, answer| {
        answer.0 == 0 && thread.order.is_empty()
    }),
    ("accepted, extents that touch", |thread, answer| {
        answer.0 == 0 && some_two(thread, |one, other| one.end == other.start)
    }),
    (
        "accepted, an empty extent inside another",
        |thread, answer| {
            let within = |one: &Range<i128>, other: &Range<i128>| {
                other.start < one.start && one.end < other.end
            };
            answer.0 == 0 && some_two(thread, |one, other| one.is_empty() && within(one, other))
        },
    ),
    ("accepted, two equal empty extents", |thread, answer| {
        answer.0 == 0 && some_two(thread, |one, other| one.is_empty() && one == other)
    }),
    (
        "accepted, two frames at one statepoint",
        |thread, answer| {
            let record = |stop: &usize| thread.scene.stops[*stop].record;
            let two = thread.order.windows(2).filter(|two| two[0] != two[1]);
            answer.0 == 0 && two.clone().any(|two| record(&two[0]) == record(&two[1]))
        },
    ),
    ("26 by the same frame twice", |thread, answer| {
        let (number, at) = (answer.0, answer.1 as usize);
        number == 26 && thread.order[..at].contains(&thread.order[at])
    }),
    ("26 by a frame inside an earlier one", |thread, answer| {
        shared(thread, answer, |own, other| {
            other.start < own.start && own.end < other.end
        })
    }),
    ("26 by a frame around an earlier one", |thread, answer| {
        shared(thread, answer, |own, other| {
            own.start < other.start && other.end < own.end
        })
    }),
    ("26 by one byte only", |thread, answer| {
        let bytes = |own: &Range<i128>, other: &Range<i128>| {
            own.end.min(other.end) - own.start.max(other.start)
        };
        shared(thread, answer, |own, other| bytes(own, other) == 1)
    }),
    (
        "26 by a frame that is not the one before",
        |thread, answer| {
            let at = answer.1 as usize;
            let before = |own: &Range<i128>| extent(&thread.scene, thread.order[at - 1]) != *own;
            at > 1
                && shared(thread, answer, |own, other| {
                    before(other) && meet(own, other)
                })
        },
    ),
    (
        "a later frame has a number that would come first",
        |thread, answer| {
            let [one, two] = if first(thread) { [17, 18] } else { [18, 17] };
            let order = [10, 15, 12, 16, one, two, 19, 20, 21];
            let rank = |number: u64| order.iter().position(|one| *one == number);
            let later = thread.order.iter().skip(answer.1 as usize + 1);
            let mut numbers = later.map(|stop| rank(plain::own_refusal(&thread.scene, *stop).0));
            rank(answer.0)
                .is_some_and(|own| numbers.any(|other| other.is_some_and(|other| other < own)))
        },
    ),
    (
        "version 3, accepted, frames of pairs with several pointers",
        |thread, answer| answer.0 == 0 && wide(thread) > 1,
    ),
    (
        "version 3, 17 of a late frame that has at most 256 pairs",
        |thread, answer| {
            let late = !first(thread) && answer.0 == 17 && answer.1 > 0;
            late && pairs(thread, answer.1 as usize) <= 256
        },
    ),
    (
        "version 1, accepted, frames of several functions",
        |thread, answer| {
            let two = |two: &[usize]| named(thread, two[0]) != named(thread, two[1]);
            first(thread) && answer.0 == 0 && thread.order.windows(2).any(two)
        },
    ),
    (
        "version 1, a late frame's function is not there",
        |thread, answer| {
            let functions = thread.scene.section.functions.len() as u64;
            let late = first(thread) && answer.0 == 10 && answer.1 > 0;
            late && named(thread, thread.order[answer.1 as usize]) >= functions
        },
    ),
    (
        "version 1, 25 by one to three numbers more than frames with registers",
        |thread, answer| first(thread) && answer.0 == 25 && thread.rest > 0,
    ),
    ("25 by an odd list", |thread, answer| {
        answer.0 == 25 && thread.rest % 2 == 1
    }),
    ("25 by registers that are too few", |thread, answer| {
        let frames = thread.list().len() / 2;
        answer.0 == 25 && thread.registers().len() < 32 * frames
    }),
    ("25 by registers that are too many", |thread, answer| {
        let frames = thread.list().len() / 2;
        answer.0 == 25 && thread.rest == 0 && thread.registers().len() > 32 * frames
    }),
    (
        "accepted, registers of several frames change",
        |thread, answer| answer.0 == 0 && changed(thread) > 1,
    ),
    (
        "accepted, one register of two frames, with other contents",
        |thread, answer| {
            let two = |two: &[usize]| {
                let [one, other] = [two[0], two[1]].map(|stop| derived(thread, stop));
                let differ = |(register, content): &(usize, u64)| {
                    other
                        .iter()
                        .any(|(own, held)| own == register && held != content)
                };
                two[0] != two[1] && one.iter().any(differ)
            };
            answer.0 == 0 && thread.order.windows(2).any(two)
        },
    ),
    (
        "refused, and registers of an earlier frame would change",
        |thread, answer| {
            let own = [10, 12, 15, 16, 17, 18, 19, 20, 21, 26].contains(&answer.0);
            own && thread.order[..answer.1 as usize].iter().any(|stop| {
                let registers = &thread.scene.stops[*stop].registers;
                plain::moved_registers(&thread.scene, *stop) != *registers
            })
        },
    ),
    (
        "version 3, accepted, a function that is not there",
        |thread, answer| {
            let functions = thread.scene.section.functions.len() as u64;
            let mut stops = thread.order.iter();
            !first(thread) && answer.0 == 0 && stops.any(|stop| named(thread, *stop) >= functions)
        },
    ),
];

fn first(thread: &Thread) -> bool {
    thread.scene.section.version == Version::One
}

/// How many frames of an accepted list have a register that changes.
fn changed(thread: &Thread) -> usize {
    let before = thread.registers();
    let after = thread.moved_registers();
    let frames = before.chunks(32).zip(after.chunks(32));
    frames.filter(|(before, after)| before != after).count()
}

/// The registers that are derived slots of a frame, and what they hold before the move.
fn derived(thread: &Thread, stop: usize) -> Vec<(usize, u64)> {
    let slots = plain::slots(&thread.scene, stop).concat();
    let registers = slots
        .iter()
        .filter_map(|[_, derived]| derived.in_register());
    let held = |register: usize| thread.scene.stops[stop].registers[register];
    registers
        .map(|register| (register, held(register)))
        .collect()
}

/// How many frames of an accepted list have a pair of several pointers.
fn wide(thread: &Thread) -> usize {
    let several = |stop: &&usize| {
        let slots = plain::slots(&thread.scene, **stop);
        slots.iter().any(|pair| pair.len() > 1)
    };
    thread.order.iter().filter(several).count()
}

/// The number of pairs of the frame at a position.
fn pairs(thread: &Thread, position: usize) -> usize {
    let stop = thread.scene.stops[thread.order[position]];
    let record = &thread.scene.section.records[stop.record];
    let first = plain::first_pair(record).expect("a statepoint");
    (record.locations.len() - first) / 2
}

/// The function number that is handed in for a frame.
fn named(thread: &Thread, stop: usize) -> u64 {
    thread.scene.stops[stop].named
}

/// A frame's extent by its bytes in the image.
fn extent(scene: &Scene, stop: usize) -> Range<i128> {
    let start = i128::from(scene.stack_pointer(stop)) - i128::from(scene.first);
    start..start + i128::from(scene.stack_size(stop))
}

fn meet(one: &Range<i128>, other: &Range<i128>) -> bool {
    one.start.max(other.start) < one.end.min(other.end)
}

/// Whether the extents of some two frames are so.
fn some_two(thread: &Thread, are: impl Fn(&Range<i128>, &Range<i128>) -> bool) -> bool {
    let extents: Vec<Range<i128>> = thread
        .order
        .iter()
        .map(|stop| extent(&thread.scene, *stop))
        .collect();
    let others = |nth: usize| {
        extents
            .iter()
            .enumerate()
            .filter(move |(other, _)| *other != nth)
    };
    extents
        .iter()
        .enumerate()
        .any(|(nth, one)| others(nth).any(|(_, other)| are(one, other)))
}

/// Whether a list is refused by 26, and the frame and some earlier one are so.
fn shared(
    thread: &Thread,
    answer: (u64, u64),
    are: impl Fn(&Range<i128>, &Range<i128>) -> bool,
) -> bool {
    let (number, at) = (answer.0, answer.1 as usize);
    let of = |stop: &usize| extent(&thread.scene, *stop);
    number == 26
        && thread.order[..at]
            .iter()
            .any(|other| are(&of(&thread.order[at]), &of(other)))
}
