//! Lists at their limits: of frames, of numbers, of the image; and one bad frame anywhere in a long one.

use crate::calls::{Call, Outcome};
use crate::common::{say, seed};
use generator::frames::faults::{aim, OWN};
use generator::frames::thread::Thread;
use generator::frames::{guests, shuffle, Scene, Size, Stop, Table};
use generator::frames::{MOST_FRAMES, MOST_IMAGE, REGISTERS};
use generator::layout::{Function, Location, Record, Section};
use generator::{Rng, Version};
use treskibben::Machine;

/// Compares the move of a list, and with what is known of it. It is moved on both machines.
pub fn expect(thread: &Thread) -> Outcome {
    let outcome = expect_on_one(thread);
    // AMD64 has fewer registers.
    if let Some(scene) = thread.scene.on_other_machine() {
        let other = Thread {
            scene,
            ..thread.clone()
        };
        let other = expect_on_one(&other);
        assert!(
            outcome.answer() == other.answer() && outcome.image == other.image,
            "on the other machine {} at {}",
            other.number,
            other.place
        );
    }
    outcome
}

fn expect_on_one(thread: &Thread) -> Outcome {
    let (section, list) = (thread.scene.section.encode(), thread.list());
    let call = Call::with(&thread.scene, &section, &list[..], thread.registers());
    let outcome = call.compare();
    let known = thread.answer();
    if (outcome.number, outcome.place) != known {
        call.fail(&format!("{outcome:?}, known beforehand {known:?}"));
    }
    if outcome.number == 0 {
        assert_eq!(outcome.count, thread.pointers());
        assert!(outcome.image == thread.moved());
        assert!(outcome.registers == thread.moved_registers());
    }
    outcome
}

/// A function with 24 bytes of stack and one statepoint of two pairs.
fn one_statepoint(version: Version) -> Section {
    let location = |kind, register, offset| Location {
        kind,
        size: 8,
        register,
        offset,
    };
    let mut locations = vec![location(4, 0, 0); 3];
    locations.extend([8, 8, 8, 16].map(|offset| location(3, 7, offset)));
    Section {
        version,
        functions: vec![Function {
            address: 0x1000,
            stack_size: 24,
            record_count: u64::from(version == Version::Three),
        }],
        constants: vec![0],
        records: vec![Record {
            id: 7,
            offset: 0x20,
            locations,
            live_outs: Vec::new(),
        }],
    }
}

/// The function has called itself so often: frames one above the other, all at the one statepoint, each
/// with an object of its own.
pub fn deep(version: Version, frames: usize) -> Thread {
    let base = |nth: usize| 0x50000 + 0x40 * nth as u64;
    let slots = |nth: usize| [nth as u64, base(nth), base(nth) + 8];
    let words = (0..frames).flat_map(slots);
    let address = match version {
        Version::One => 0x20,
        Version::Three => 0x1020,
    };
    let stop = |nth: usize| Stop {
        address,
        registers: Machine::Amd64.registers(0, 0x7000 + 24 * nth as u64),
        listed: REGISTERS,
        record: 0,
        function: 0,
        named: 0,
    };
    Thread::of(Scene {
        section: one_statepoint(version),
        image: words.flat_map(u64::to_le_bytes).collect(),
        first: 0x7000,
        table: Table {
            olds: (0..frames).map(base).collect(),
            news: (0..frames).map(|nth| base(frames - nth)).collect(),
        },
        machine: 0,
        stops: (0..frames).map(stop).collect(),
    })
}

#[test]
fn lists_of_every_length() {
    let lengths = [
        0,
        1,
        2,
        3,
        100,
        MOST_FRAMES - 1,
        MOST_FRAMES,
        MOST_FRAMES + 1,
        5_000,
    ];
    for (frames, version) in lengths
        .into_iter()
        .flat_map(|frames| Version::ALL.map(|version| (frames, version)))
    {
        for rest in 0..4 {
            let mut thread = deep(version, frames);
            thread.rest = rest;
            let fits = rest == 0 && frames <= MOST_FRAMES;
            let outcome = expect(&thread);
            assert_eq!(outcome.number, if fits { 0 } else { 25 });
            assert_eq!(outcome.count, if fits { 2 * frames as u64 } else { 0 });
            // 25 comes before any frame's own, and after the table's.
            if let Some(stop) = thread.scene.stops.first_mut() {
                stop.address += 1;
                assert_eq!(expect(&thread).number, if fits { 10 } else { 25 });
            }
            thread.scene.table.news.push(1);
            let (section, list) = (thread.scene.section.encode(), thread.list());
            let registers = thread.registers();
            let outcome = Call::with(&thread.scene, &section, &list[..], registers).compare();
            assert_eq!((outcome.number, outcome.place), (14, 0));
        }
    }
}

/// The function number that is handed in is read in version 1, in any frame of a long list, and in
/// version 3 in none.
#[test]
fn function_numbers_of_a_long_list() {
    for named in [1, 1 << 32, u64::MAX] {
        for position in [0, 1, 2_047, MOST_FRAMES - 1] {
            let mut thread = deep(Version::One, MOST_FRAMES);
            thread.scene.stops[position].named = named;
            let outcome = expect(&thread);
            assert_eq!((outcome.number, outcome.place), (10, position as u64));
            let mut thread = deep(Version::Three, MOST_FRAMES);
            thread.scene.stops[position].named = named;
            assert_eq!(expect(&thread).number, 0);
        }
    }
}

/// The orders of a list of so many frames.
pub fn orders(rng: &mut Rng, frames: usize) -> [Vec<usize>; 3] {
    let rising: Vec<usize> = (0..frames).collect();
    let falling = rising.iter().rev().copied().collect();
    let mut any = rising.clone();
    shuffle(rng, &mut any);
    [rising, falling, any]
}

#[test]
fn one_bad_frame_anywhere_in_a_long_list() {
    let mut rng = Rng::new(seed("one bad frame in a long list"));
    let mut numbers = [0; 27];
    let orders = Version::ALL.map(|version| (version, orders(&mut rng, MOST_FRAMES)));
    let orders = orders.into_iter().flat_map(|(version, orders)| {
        orders.map(|order| Thread {
            order,
            ..deep(version, MOST_FRAMES)
        })
    });
    for whole in orders {
        expect(&whole);
        let any = rng.below(MOST_FRAMES);
        for position in [0, 1, 2, 2_047, 2_048, any, MOST_FRAMES - 2, MOST_FRAMES - 1] {
            for fault in 0..5 {
                let mut thread = whole.clone();
                spoil(&mut rng, &mut thread, fault, position);
                let outcome = expect(&thread);
                numbers[outcome.number as usize] += 1;
                let at = outcome.place as usize;
                assert!(
                    at == position || outcome.number == 26,
                    "{fault} at {position}"
                );
            }
        }
    }
    let found = [10, 16, 21, 26].map(|number: usize| numbers[number]);
    assert_eq!(found.iter().sum::<u64>(), 2 * 3 * 8 * 5);
    assert!(found.iter().all(|count| *count >= 2 * 24), "{numbers:?}");
}

/// Spoils the frame at a position: it has no record, is not inside the image, has a base of no object,
/// is a frame of another position once more, or shares a byte with the one below it.
fn spoil(rng: &mut Rng, thread: &mut Thread, fault: usize, position: usize) {
    let stop = thread.order[position];
    let scene = &mut thread.scene;
    let at = 24 * stop + 8;
    match fault {
        0 => scene.stops[stop].address += 0x20,
        1 => {
            let past = scene.first + scene.image.len() as u64 - 23;
            scene.set_stack_pointer(stop, past);
        }
        2 => scene.image[at] ^= 1,
        3 => {
            let other = (position + 1 + rng.below(MOST_FRAMES - 1)) % MOST_FRAMES;
            thread.order[position] = thread.order[other];
        }
        _ => {
            // A frame of null pairs in its stead, which reaches into the frame beside it.
            let up = stop == 0;
            let rsp = scene.stack_pointer(stop) - u64::from(!up);
            let guest = guests::stand(rng, scene, rsp, 25);
            thread.order[position] = guest;
        }
    }
}

/// Frames at as many statepoints, in a section of some thousand records.
#[test]
fn wide_lists_with_every_fault() {
    let mut rng = Rng::new(seed("wide lists"));
    for version in Version::ALL {
        let table = Table::of(&mut rng, 300);
        let sizes: Vec<Size> = (0..MOST_FRAMES).map(|_| Size::any(&mut rng)).collect();
        let scene = Scene::of_version(&mut rng, version, table, &sizes);
        let mut thread = Thread::of(scene);
        shuffle(&mut rng, &mut thread.order);
        let records = thread.scene.section.records.len();
        let pointers = expect(&thread).count;
        say(&format!(
            "{MOST_FRAMES} frames with {pointers} pointers, {records} records"
        ));
        for number in OWN {
            wide_fault(&mut rng, &thread, number);
        }
    }
}

/// Gives a frame of the list this fault, first, last, and at some positions between until there is one
/// that can have it.
fn wide_fault(rng: &mut Rng, thread: &Thread, number: u64) {
    let between: Vec<usize> = (0..200).map(|_| rng.below(MOST_FRAMES)).collect();
    let mut hit = false;
    for (nth, position) in [0, MOST_FRAMES - 1].into_iter().chain(between).enumerate() {
        if hit && nth > 2 {
            return;
        }
        let mut faulty = thread.clone();
        let stop = faulty.order[position];
        if aim(rng, number, &mut faulty.scene, stop).is_some() {
            assert_eq!(expect(&faulty).number, number);
            hit = true;
        }
    }
    assert!(hit, "no frame can have {number}");
}

/// So many frames of null pairs, of this size each, at these bytes of the image.
fn stretches(rng: &mut Rng, length: usize, frames: impl Iterator<Item = (usize, u64)>) -> Thread {
    let mut thread = deep(rng.pick(&Version::ALL), 0);
    let scene = &mut thread.scene;
    scene.image = vec![0xa5; length];
    let mut sizes: Vec<(u64, Stop)> = Vec::new();
    for (at, size) in frames {
        let rsp = scene.first + at as u64;
        // One statepoint for each size.
        let known = sizes.iter().find(|(of, _)| *of == size);
        let stop = match known {
            Some((_, stop)) => *stop,
            None => {
                let guest = guests::stand(rng, scene, rsp, size);
                let stop = scene.stops.swap_remove(guest);
                sizes.push((size, stop));
                stop
            }
        };
        scene.stops.push(stop);
        scene.set_stack_pointer(scene.stops.len() - 1, rsp);
    }
    Thread::of(thread.scene)
}

/// Frames that fill the largest image to its last byte, without and with a shared byte.
#[test]
fn frames_that_fill_the_image() {
    let mut rng = Rng::new(seed("frames that fill the image"));
    let size = MOST_IMAGE / MOST_FRAMES;
    let full = (0..MOST_FRAMES).map(|nth| (size * nth, size as u64));
    let full = stretches(&mut rng, MOST_IMAGE, full);
    for order in orders(&mut rng, MOST_FRAMES) {
        let mut thread = Thread {
            order,
            ..full.clone()
        };
        assert_eq!(expect(&thread).number, 0);
        for nth in [1, 2, MOST_FRAMES / 2, MOST_FRAMES - 1] {
            let stack_pointer = thread.scene.stack_pointer(nth);
            thread.scene.set_stack_pointer(nth, stack_pointer - 1);
            let outcome = expect(&thread);
            let places =
                [nth - 1, nth].map(|stop| thread.order.iter().position(|one| *one == stop));
            let later = places.iter().flatten().max().copied();
            assert_eq!((outcome.number, Some(outcome.place as usize)), (26, later));
            thread.scene.set_stack_pointer(nth, stack_pointer);
        }
    }
}

/// Frames one byte long, one frame as long as the image, and empty frames everywhere.
#[test]
fn short_long_and_empty_frames() {
    let mut rng = Rng::new(seed("short, long and empty frames"));
    let bytes = |count: usize| (0..count).map(|at| (at, 1));
    assert_eq!(expect(&stretches(&mut rng, 4_096, bytes(4_096))).number, 0);
    let twice = bytes(4_095).chain([(17, 1)]);
    let outcome = expect(&stretches(&mut rng, 4_096, twice));
    assert_eq!((outcome.number, outcome.place), (26, 4_095));

    let empty = |count: usize, step: usize| (0..count).map(move |nth| (step * nth, 0));
    let all = [(0, 4_095)].into_iter();
    let mixed = all.clone().chain(empty(4_095, 1));
    assert_eq!(expect(&stretches(&mut rng, 4_095, mixed)).number, 0);
    let mixed = empty(4_094, 1).chain(all.clone()).chain([(4_094, 1)]);
    let outcome = expect(&stretches(&mut rng, 4_095, mixed));
    assert_eq!((outcome.number, outcome.place), (26, 4_095));
    for length in [0, 1, 24] {
        let outcome = expect(&stretches(&mut rng, length, empty(MOST_FRAMES, 0)));
        assert_eq!(outcome.number, 0);
        // At the image's end, and one byte past it.
        let last = empty(4_000, 0).chain([(length, 0)]);
        assert_eq!(expect(&stretches(&mut rng, length, last)).number, 0);
        let past = empty(4_000, 0).chain([(length + 1, 0)]);
        let outcome = expect(&stretches(&mut rng, length, past));
        assert_eq!((outcome.number, outcome.place), (16, 4_000));
    }
}

/// The call needs about 264 KiB of stack, whatever the list.
#[test]
fn a_thread_with_little_stack() {
    const STACK: usize = 280 * 1024;
    for version in Version::ALL {
        let thread = deep(version, MOST_FRAMES);
        let (section, list) = (thread.scene.section.encode(), thread.list());
        let expected = thread.moved();
        let registers = thread.registers();
        let moved = move || Call::with(&thread.scene, &section, &list[..], registers).by_library();
        let little = std::thread::Builder::new().stack_size(STACK).spawn(moved);
        let outcome = little.expect("a thread").join().expect("no panic");
        assert_eq!(outcome.count, 2 * MOST_FRAMES as u64);
        assert!(outcome.image == expected);
    }
}
