//! Slots in registers: every register, every form, lists of every length, every mix of memory and register in
//! two pairs, and random frames that have them.

use crate::calls::{Call, Outcome};
use crate::common::{assert_often, count_random, say};
use crate::limits::frame;
use crate::register_shapes::SHAPES;
use crate::{compare, make};
use generator::frames::faults::{aim, NUMBERS};
use generator::frames::{plain, slot_registers, Scene, MACHINES, REGISTERS};
use generator::layout::Location;
use generator::{Rng, Version};

/// Where the starts of the frames here are moved.
const OLD: [u64; 2] = [0x50000, 0x60000];
const NEW: [u64; 2] = [0x90000, 0x10];

/// The move of the only frame of a scene.
fn moved(scene: &Scene) -> Outcome {
    let section = scene.section.encode();
    Call::of(scene, &section, 0).compare()
}

fn in_register(register: u16) -> Location {
    Location {
        kind: 1,
        size: 8,
        register,
        offset: 0,
    }
}

/// A frame of these pairs on a machine, with these words on the stack, all of whose registers but its pointers
/// hold numbers of their own.
fn of_pairs(version: Version, machine: u64, pairs: &[[Location; 2]], words: &[u64]) -> Scene {
    let mut scene = frame(version, &[], words);
    scene.machine = machine;
    scene.section.constants.push(0);
    scene.stops[0].registers = std::array::from_fn(|nth| 0xdddd_dddd_dddd_dd00 + nth as u64);
    scene.set_stack_pointer(0, 0x7000);
    scene.set_frame_pointer(0, 0x7000);
    let locations = &mut scene.section.records[0].locations;
    locations.extend(pairs.iter().flatten().cloned());
    scene
}

/// Memory at an offset from the stack pointer of a machine.
fn in_memory(machine: u64, offset: u32) -> Location {
    Location {
        kind: 3,
        register: MACHINES[machine as usize].1[1],
        offset,
        ..in_register(0)
    }
}

fn versions_and_machines() -> impl Iterator<Item = (Version, u64)> {
    let machines = MACHINES.into_iter().map(|(machine, _)| machine);
    machines.flat_map(|machine| Version::ALL.map(|version| (version, machine)))
}

/// Every register that a location can name, with itself as base: those below 16 of AMD64 and below 32 of
/// AArch64 are slots, but for the two pointers. No other register and no byte changes.
#[test]
fn every_register() {
    let others = [0x100, 0x103, 0x10c, 0x300, 0xc00, u16::MAX];
    for (version, machine) in versions_and_machines() {
        for register in (0..300).chain(others) {
            let own = in_register(register);
            let pairs = [[own.clone(), own.clone()], [own, in_memory(machine, 8)]];
            let mut scene = of_pairs(version, machine, &pairs, &[7, 0x50008, 9]);
            if let Some(content) = scene.stops[0].registers.get_mut(usize::from(register)) {
                *content = OLD[0];
            }
            let pointers = MACHINES[machine as usize].1;
            let slot = register < [16, 32][machine as usize] && !pointers.contains(&register);
            if pointers.contains(&register) {
                scene.stops[0].registers[usize::from(register)] = 0x7000;
            }
            let outcome = moved(&scene);
            if !slot {
                assert_eq!(outcome.answer(), (18, 0, 0), "{register} on {machine}");
                continue;
            }
            assert_eq!(outcome.answer(), (0, 0, 2), "{register} on {machine}");
            let mut registers = scene.stops[0].registers;
            registers[usize::from(register)] = NEW[0];
            assert_eq!(outcome.registers, registers, "{register} on {machine}");
            let words = [7, 0x90008, 9_u64].map(u64::to_le_bytes).concat();
            assert_eq!(outcome.image, words, "{register} on {machine}");
        }
    }
}

/// Every size up to 300 and some more, and offsets, of a register as base, as derived and as both; the other
/// location is a register of size 8, or memory of size 8 or of the same size.
#[test]
fn sizes_and_offsets() {
    let sizes = (0..=300).chain([1_024, 2_048, 2_056, 0x0800, 0x8000, u16::MAX]);
    let sizes: Vec<(u16, u32)> = sizes.map(|size| (size, 0)).collect();
    let offsets = [1, 8, 0x100, 1 << 16, 1 << 31, u32::MAX].map(|offset| (8, offset));
    for (version, machine) in versions_and_machines() {
        for (size, offset) in sizes.iter().chain(&offsets).copied() {
            // Sizes of version 1 are one byte.
            if version == Version::One && size > 255 {
                continue;
            }
            let own = Location {
                size,
                offset,
                ..in_register(3)
            };
            let memory = in_memory(machine, 16);
            let wide = Location {
                size,
                ..memory.clone()
            };
            for other in [in_register(5), memory, wide, own.clone()] {
                for pair in [[own.clone(), other.clone()], [other.clone(), own.clone()]] {
                    let mut scene =
                        of_pairs(version, machine, std::slice::from_ref(&pair), &[0; 64]);
                    scene.stops[0].registers[3] = 0;
                    scene.stops[0].registers[5] = 0;
                    let right = match version {
                        Version::One => pair.iter().all(|one| [0, 8].contains(&one.size)),
                        Version::Three => pair.iter().all(|one| one.size == 8),
                    };
                    let answer = match right && offset == 0 {
                        true => (0, 0, 1),
                        false => (18, 0, 0),
                    };
                    assert_eq!(moved(&scene).answer(), answer, "{pair:?}");
                }
            }
        }
    }
}

/// Kinds 2, 4 and 5 are no slots beside a register, also a constant of 0.
#[test]
fn a_register_beside_what_is_no_slot() {
    for (version, machine) in versions_and_machines() {
        for (kind, offset) in [(2, 0), (2, 8), (4, 0), (4, 8), (5, 0)] {
            let other = Location {
                kind,
                offset,
                ..in_register(3)
            };
            for pair in [[in_register(3), other.clone()], [other, in_register(3)]] {
                let mut scene = of_pairs(version, machine, &[pair], &[0; 3]);
                scene.stops[0].registers[3] = 0;
                assert_eq!(moved(&scene).answer(), (18, 0, 0), "kind {kind}");
            }
        }
    }
}

/// Lists of every length: 25 but for 32, after 14 and before 10, and nothing is written.
#[test]
fn lists_of_every_length() {
    let mut rng = Rng::new(25);
    for (version, machine) in versions_and_machines() {
        for listed in (0..=70).chain([256, 1_024, 65_536]) {
            let own = in_register(3);
            let mut scene = of_pairs(version, machine, &[[own.clone(), own]], &[0; 3]);
            scene.stops[0].registers[3] = OLD[0];
            scene.stops[0].listed = listed;
            let outcome = moved(&scene);
            let answer = if listed == REGISTERS {
                (0, 0, 1)
            } else {
                (25, 0, 0)
            };
            assert_eq!(outcome.answer(), answer, "{listed}");
            assert_eq!(outcome.registers.len(), listed);
            for number in [10, 12, 16, 18, 21] {
                let mut scene = scene.clone();
                if aim(&mut rng, number, &mut scene, 0).is_some() {
                    let due = if listed == REGISTERS { number } else { 25 };
                    assert_eq!(moved(&scene).number, due, "{listed}");
                }
            }
            for number in [14, 13, 33] {
                let mut scene = scene.clone();
                aim(&mut rng, number, &mut scene, 0);
                assert_eq!(moved(&scene).number, number, "{listed}");
            }
        }
    }
}

/// Two pairs whose four locations are each one of two registers and two words, with contents that are equal
/// and unequal starts, 0, and no start: answer, image and registers are those worked out plainly.
#[test]
fn every_mix_of_two_pairs() {
    let contents = [OLD[0], OLD[1], 0, 0x12345];
    let mut numbers = [0; 22];
    for (version, machine) in versions_and_machines() {
        let slots = [
            in_register(3),
            in_register(12),
            in_memory(machine, 0),
            in_memory(machine, 8),
        ];
        for mix in 0..4_usize.pow(4) {
            let slot = |nth: u32| slots[mix / 4_usize.pow(nth) % 4].clone();
            let pairs = [[slot(0), slot(1)], [slot(2), slot(3)]];
            for held in 0..4_usize.pow(4) {
                let content = |nth: u32| contents[held / 4_usize.pow(nth) % 4];
                let words = [content(0), content(1), 7];
                let mut scene = of_pairs(version, machine, &pairs, &words);
                scene.stops[0].registers[3] = content(2);
                scene.stops[0].registers[12] = content(3);
                let known = plain::refusal(&scene, 0);
                compare(&scene, &scene.section.encode(), Some(known));
                numbers[known.0 as usize] += 1;
            }
        }
    }
    assert_often(&[numbers[0], numbers[20], numbers[21]], |nth| {
        format!("answer {}", [0, 20, 21][nth])
    });
}

/// A frame of AMD64 or AArch64 whose pairs are made of registers 3, 12 and 14 and of the word at the stack
/// pointer, which is the first old start: the answer, and what the three registers hold after the call.
fn shared(
    (version, machine): (Version, u64),
    pairs: &[[&Location; 2]],
    held: [u64; 3],
) -> ((u64, u64, u64), [u64; 3]) {
    let pairs: Vec<[Location; 2]> = pairs.iter().map(|pair| pair.map(Clone::clone)).collect();
    let mut scene = of_pairs(version, machine, &pairs, &[OLD[0], 0, 0]);
    for (register, content) in [3, 12, 14].into_iter().zip(held) {
        scene.stops[0].registers[register] = content;
    }
    let outcome = moved(&scene);
    let held = [3, 12, 14].map(|register| outcome.registers[register]);
    (outcome.answer(), held)
}

/// A derived register of two pairs, written out: fine with equal old bases, wherever they are, and else 20 at
/// the later pair.
#[test]
fn shared_derived_registers() {
    let ([a, b, c], [old, other]) = ([3, 12, 14].map(in_register), OLD);
    let up = NEW[0] - OLD[0];
    for on in versions_and_machines() {
        let word = in_memory(on.1, 0);
        // Two base registers, and a register and a word.
        for (base, held) in [(&a, old), (&word, 7)] {
            let pairs = [[base, &c], [&b, &c]];
            let same = shared(on, &pairs, [held, old, old + 8]);
            assert_eq!(same, ((0, 0, 2), [held, old, old + 8 + up]));
            let unequal = shared(on, &pairs, [held, other, old + 8]);
            assert_eq!(unequal, ((20, 1, 0), [held, other, old + 8]));
        }
        let pairs = [[&a, &c], [&b, &c]];
        assert_eq!(shared(on, &pairs, [0, 0, 5]), ((0, 0, 2), [0, 0, 5]));
        assert_eq!(shared(on, &pairs, [0, old, 5]), ((20, 1, 0), [0, old, 5]));
        // No object, twice the same: 21 at the first.
        assert_eq!(shared(on, &pairs, [9, 9, 5]), ((21, 0, 0), [9, 9, 5]));
    }
}

/// A register that is a base of one pair and derived in another is read as it was lent.
#[test]
fn bases_that_are_derived() {
    let ([a, b], [old, other]) = ([3, 12].map(in_register), OLD);
    let (up, down) = (NEW[0] - OLD[0], OLD[1] - NEW[1]);
    for on in versions_and_machines() {
        // Each derives the other, in either order of the pairs.
        for pairs in [[[&a, &b], [&b, &a]], [[&b, &a], [&a, &b]]] {
            let moved = [old.wrapping_sub(down), other + up, 0];
            assert_eq!(shared(on, &pairs, [old, other, 0]), ((0, 0, 2), moved));
        }
        // A base that is derived from itself moves; the one that is derived from it keeps its distance.
        for pairs in [[[&a, &a], [&a, &b]], [[&a, &b], [&a, &a]]] {
            let moved = [old + up, old + 24 + up, 0];
            assert_eq!(shared(on, &pairs, [old, old + 24, 0]), ((0, 0, 2), moved));
        }
    }
}

/// A register's number is no address: memory that begins at it, or near it, is another slot.
#[test]
fn registers_overlap_nothing() {
    for (version, machine) in versions_and_machines() {
        for register in slot_registers(machine) {
            for near in -9..=9 {
                let own = in_register(register);
                let pairs = [[own.clone(), own.clone()], [own, in_memory(machine, 0)]];
                let mut scene = of_pairs(version, machine, &pairs, &[0x50008, 0, 0]);
                // The image begins at the register's number, or near it.
                let first = u64::from(register).wrapping_add_signed(near);
                let Some(first) = Some(first).filter(|first| *first < 100) else {
                    continue;
                };
                scene.first = first;
                scene.set_stack_pointer(0, first);
                scene.stops[0].registers[usize::from(register)] = OLD[0];
                assert_eq!(moved(&scene).answer(), (0, 0, 2), "{register} {near}");
            }
        }
    }
}

/// Frames in a run, in parts.
const PARTS: u64 = 500;
const FRAMES_A_PART: u64 = 400;

/// How often each number was the answer, 0 to 33; how often each register was a base and a derived slot of an
/// accepted frame, on each machine; and how often each shape was seen.
const ANSWERS: usize = 34;
const USED: usize = 2 * 2 * REGISTERS;
type Counts = [u64; ANSWERS + USED + SHAPES.len()];

/// How often each shape must be seen at least.
const LEAST: u64 = 300;

fn run(rng: &mut Rng, counts: &mut Counts) {
    let mut scene = match rng.below(4) {
        0 => Scene::wide(rng),
        _ => Scene::one(rng),
    };
    // Forms have the most ways of being wrong.
    let faults: Vec<u64> = (0..rng.pick(&[0, 0, 1, 1, 1, 2]))
        .map(|_| match rng.below(3) {
            0 => 18,
            _ => rng.pick(&NUMBERS),
        })
        .collect();
    let known = make(rng, &mut scene, &faults);
    compare(&scene, &scene.section.encode(), Some(known));
    counts[known.0 as usize] += 1;
    let (used, shapes) = counts[ANSWERS..].split_at_mut(USED);
    if known.0 == 0 {
        for pointer in plain::slots(&scene, 0).concat() {
            for (which, slot) in pointer.into_iter().enumerate() {
                if let Some(register) = slot.in_register() {
                    used[REGISTERS * (2 * scene.machine as usize + which) + register] += 1;
                }
            }
        }
    }
    if ![13, 14, 33].contains(&known.0) {
        for (count, (_, shows)) in shapes.iter_mut().zip(SHAPES) {
            *count += u64::from(shows(&scene, known));
        }
    }
}

#[test]
fn random_frames_with_registers() {
    let counts = count_random("frames with registers", PARTS, FRAMES_A_PART, run);
    let (numbers, rest) = counts.split_at(ANSWERS);
    let (used, shapes) = rest.split_at(USED);
    say(&format!(
        "frames with registers, answers 0 to 33: {numbers:?}"
    ));
    say(&format!("registers that are slots: {used:?}"));
    say(&format!("shapes of registers: {shapes:?}"));
    for number in NUMBERS.into_iter().chain([0]) {
        assert_often(&[numbers[number as usize]], |_| format!("answers {number}"));
    }
    for (nth, count) in used.iter().enumerate() {
        let (machine, register) = (nth / (2 * REGISTERS), nth % REGISTERS);
        match slot_registers(machine as u64).contains(&(register as u16)) {
            true => assert!(*count >= LEAST, "{register} of {machine}: {count}"),
            false => assert_eq!(*count, 0, "{register} of {machine}"),
        }
    }
    for (count, (name, _)) in shapes.iter().zip(SHAPES) {
        assert!(*count >= LEAST, "{name}: only {count} times");
    }
}
