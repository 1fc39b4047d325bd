//! Frames at the limits: of tables, of images, of the number of pointers, and of slots that pairs share.

use crate::calls::{Call, Outcome};
use crate::common::seed;
use generator::frames::{plain, registers, Scene, Size, Stop, Table};
use generator::frames::{MOST_IMAGE, MOST_MOVES, MOST_POINTERS, REGISTERS};
use generator::layout::{Function, Location, Record, Section};
use generator::{Rng, Version};
use treskibben::Machine;

/// Compares the move of the only frame, which is accepted exactly if no number is given. It is moved on
/// both machines.
pub fn expect(scene: &Scene, number: u64) -> Outcome {
    let outcome = expect_on_one(scene, number);
    // AMD64 has fewer registers.
    if let Some(twin) = scene.on_other_machine() {
        let other = expect_on_one(&twin, number);
        assert!(
            outcome.answer() == other.answer() && outcome.image == other.image,
            "{outcome:?}, on the other machine {other:?}"
        );
    }
    outcome
}

fn expect_on_one(scene: &Scene, number: u64) -> Outcome {
    let section = scene.section.encode();
    let outcome = Call::of(scene, &section, 0).compare();
    let place = if number < 18 { 0 } else { outcome.place };
    assert_eq!((outcome.number, outcome.place), (number, place));
    if number == 0 {
        assert_eq!(outcome.count, plain::pointers(scene, 0) as u64);
        assert!(outcome.image == plain::moved(scene, [0]));
        assert!(outcome.registers == plain::moved_registers(scene, 0));
    }
    outcome
}

pub const FEW: Size = Size {
    cells: 6,
    registers: 2,
    pointers: 8,
    wide: false,
};

#[test]
fn tables_at_their_limit() {
    let mut rng = Rng::new(seed("tables at their limit"));
    for count in [0, 1, 2, MOST_MOVES - 1, MOST_MOVES] {
        for nth in 0..40 {
            let table = Table::of(&mut rng, count);
            let version = Version::ALL[nth % 2];
            let mut scene = Scene::of_version(&mut rng, version, table, &[FEW]);
            expect(&scene, 0);
            // The first, the last and the middle entry, one after the other, in every base.
            for nth in [0, count / 2, count.saturating_sub(1)] {
                if let Some(old) = scene.table.olds.get(nth).copied() {
                    set_bases(&mut scene, old);
                    expect(&scene, 0);
                }
            }
            if count == MOST_MOVES {
                scene.table.news.push(1);
                expect(&scene, 14);
                let last = scene.table.olds[count - 1];
                scene.table.olds.push(last.wrapping_add(1));
                expect(&scene, 14);
            }
        }
    }
}

/// Sets every base slot to this content. Shared derived slots keep bases that are equal.
fn set_bases(scene: &mut Scene, old: u64) {
    for [base, _] in plain::slots(scene, 0).into_iter().flatten() {
        plain::set_content(scene, 0, base, old);
    }
}

#[test]
fn lists_of_every_two_lengths() {
    let mut rng = Rng::new(1);
    let lengths = [0, 1, 2, MOST_MOVES - 1, MOST_MOVES, MOST_MOVES + 1];
    let mut scene = Scene::of(
        &mut rng,
        Table::default(),
        &[Size {
            cells: 0,
            registers: 0,
            pointers: 1,
            ..FEW
        }],
    );
    for olds in lengths {
        for news in lengths {
            scene.table.olds = (1..=olds as u64).collect();
            scene.table.news = vec![u64::MAX; news];
            let fits = olds == news && olds <= MOST_MOVES;
            expect(&scene, if fits { 0 } else { 14 });
        }
    }
}

#[test]
fn images_at_their_limit() {
    let mut rng = Rng::new(seed("images at their limit"));
    for length in [0, 1, 7, 8, MOST_IMAGE - 1, MOST_IMAGE, MOST_IMAGE + 1] {
        let most = u64::MAX - length as u64;
        for first in [0, 1, 0x7000, most - 1, most, most.wrapping_add(1)] {
            let over =
                length > MOST_IMAGE || u128::from(first) + length as u128 > u128::from(u64::MAX);
            let cells = if length < 256 { 0 } else { 6 };
            let table = Table::of(&mut rng, 3);
            let size = Size {
                cells,
                registers: 0,
                ..FEW
            };
            let mut scene = Scene::of(&mut rng, table, &[size]);
            let stretch = stretch_of(&scene);
            let own = scene.stops[0].function;
            scene.section.functions[own].stack_size = stretch.len() as u64;
            if stretch.len() > length {
                continue;
            }
            // At the image's first byte, at its last, and one past that.
            for at in [0, length - stretch.len(), length - stretch.len() + 1] {
                let Some(rsp) = first.checked_add(at as u64) else {
                    continue;
                };
                let mut scene = moved_to(&scene, first, length, rsp);
                let inside = at + stretch.len() <= length;
                if inside {
                    scene.image[at..at + stretch.len()].copy_from_slice(&stretch);
                }
                let number = match (over, inside) {
                    (true, _) => 13,
                    (false, false) => 16,
                    (false, true) => 0,
                };
                expect(&scene, number);
            }
        }
    }
}

/// The frame's own bytes; none where it has no slots.
fn stretch_of(scene: &Scene) -> Vec<u8> {
    let at = (scene.stack_pointer(0) - scene.first) as usize;
    let size = scene.stack_size(0) as usize;
    let slots = plain::slots(scene, 0).into_iter().flatten().count();
    match slots {
        0 => Vec::new(),
        _ => scene.image[at..at + size].to_vec(),
    }
}

/// The scene with an image of zeros and the frame elsewhere, all its slots counted from
/// the stack pointer.
fn moved_to(scene: &Scene, first: u64, length: usize, rsp: u64) -> Scene {
    let mut scene = scene.clone();
    let (slots, [_, of_stack]) = (plain::slots(&scene, 0), registers(scene.machine));
    let record = &mut scene.section.records[scene.stops[0].record];
    let from = plain::first_pair(record).expect("a statepoint");
    for (pair, slots) in record.locations[from..].chunks_exact_mut(2).zip(slots) {
        for (location, slot) in pair.iter_mut().zip(slots.into_iter().take(1).flatten()) {
            location.register = of_stack;
            location.offset = slot.on_stack().expect("no registers here") as u32;
        }
    }
    scene.first = first;
    scene.image = vec![0; length];
    scene.set_stack_pointer(0, rsp);
    scene.set_frame_pointer(0, rsp);
    scene
}

#[test]
fn pointers_at_their_limit() {
    let mut rng = Rng::new(seed("pointers at their limit"));
    for count in [
        0,
        1,
        2,
        MOST_POINTERS - 1,
        MOST_POINTERS,
        MOST_POINTERS + 1,
        1_000,
        32_700,
    ] {
        for (cells, wide) in [0, 1, 40, 256]
            .into_iter()
            .flat_map(|cells| [(cells, false), (cells, true)])
        {
            let size = Size {
                cells,
                registers: count % 7,
                pointers: count,
                wide,
            };
            for version in Version::ALL {
                let table = Table::of(&mut rng, 4);
                let scene = Scene::of_version(&mut rng, version, table, &[size]);
                expect(&scene, if count > MOST_POINTERS { 17 } else { 0 });
            }
        }
    }
}

/// A statepoint at offset 0x20 with these pairs of offsets from RSP.
fn statepoint(pairs: &[[i32; 2]]) -> Record {
    let location = |kind, register, offset: i32| Location {
        kind,
        size: 8,
        register,
        offset: offset as u32,
    };
    let mut locations = vec![location(4, 0, 0); 3];
    let slots = pairs.iter().flatten();
    locations.extend(slots.map(|offset| location(3, 7, *offset)));
    Record {
        id: 7,
        offset: 0x20,
        locations,
        live_outs: Vec::new(),
    }
}

/// A frame of these pairs of offsets from RSP, with these words on the stack, in a section of either
/// version; 0x50000 is moved to 0x90000, and 0x60000 to 0x10.
pub fn frame(version: Version, pairs: &[[i32; 2]], words: &[u64]) -> Scene {
    let (address, record_count) = match version {
        Version::One => (0x20, 0),
        Version::Three => (0x1020, 1),
    };
    let function = Function {
        address: 0x1000,
        stack_size: 8 * words.len() as u64,
        record_count,
    };
    Scene {
        section: Section {
            version,
            functions: vec![function],
            constants: Vec::new(),
            records: vec![statepoint(pairs)],
        },
        image: words.iter().flat_map(|word| word.to_le_bytes()).collect(),
        first: 0x7000,
        table: Table {
            olds: vec![0x50000, 0x60000],
            news: vec![0x90000, 0x10],
        },
        machine: 0,
        stops: vec![Stop {
            address,
            registers: Machine::Amd64.registers(0, 0x7000),
            listed: REGISTERS,
            record: 0,
            function: 0,
            named: 0,
        }],
    }
}

#[test]
fn shared_derived_slots() {
    for version in Version::ALL {
        let frame = |pairs: &[[i32; 2]], words: &[u64]| frame(version, pairs, words);
        // Two base slots with the same base, which share a derived slot.
        let scene = frame(&[[0, 16], [8, 16]], &[0x50000, 0x50000, 0x50008]);
        let image = frame(&[], &[0x50000, 0x50000, 0x90008]).image;
        assert_eq!(expect(&scene, 0).image, image);
        // The bases differ, though both are old starts; and where neither is one.
        for bases in [[0x50000, 0x60000], [0x50000, 0], [1, 2]] {
            let scene = frame(&[[0, 16], [8, 16]], &[bases[0], bases[1], 0x50008]);
            assert_eq!(expect(&scene, 20).place, 1);
        }
        // Both bases are the same that is no old start.
        let scene = frame(&[[0, 16], [8, 16]], &[1, 1, 0x50008]);
        assert_eq!(expect(&scene, 21).place, 0);
        // Each derives the other: both are read before either is written.
        let scene = frame(&[[0, 8], [8, 0]], &[0x50000, 0x60000]);
        let image = frame(&[], &[0x50000u64.wrapping_sub(0x5fff0), 0x60000 + 0x40000]).image;
        assert_eq!(expect(&scene, 0).image, image);
        // Base slots that overlap collide too; the pair's own two do.
        for (pairs, place) in [
            ([[0, 24], [4, 24]], 1),
            ([[0, 24], [8, 1]], 1),
            ([[7, 0], [0, 0]], 0),
        ] {
            let scene = frame(&pairs, &[0, 0, 0, 0]);
            assert_eq!(expect(&scene, 20).place, place);
        }
    }
}

#[test]
fn every_offset_around_a_frame() {
    for (offset, version) in (-20..45).flat_map(|at| Version::ALL.map(|version| (at, version))) {
        for pair in [[offset, 0], [0, offset], [offset; 2]] {
            let scene = frame(version, &[[0, 0], pair], &[0; 3]);
            let outside = !(0..=16).contains(&offset);
            let apart = offset == 0 || offset >= 8;
            let number = match (outside, apart) {
                (true, _) => 19,
                (false, false) => 20,
                (false, true) => 0,
            };
            let outcome = expect(&scene, number);
            assert_eq!(outcome.place, u64::from(number != 0));
        }
    }
}

/// Function numbers and offsets of version 1 at the edges of what is there, and past 32 bits.
#[test]
fn functions_and_offsets_at_their_limits() {
    let mut scene = frame(Version::One, &[[0, 8]], &[0x50000, 0x50008]);
    let mut unknown = scene.section.functions[0].clone();
    unknown.stack_size = u64::MAX;
    scene.section.functions.push(unknown);
    let mut last = scene.section.records[0].clone();
    last.offset = u32::MAX;
    scene.section.records.push(last);
    const MAX: u64 = u32::MAX as u64;
    for (offset, record) in [(0x20, Some(0)), (MAX, Some(1)), (0, None), (0x1020, None)] {
        for (function, number) in [
            (0, 0),
            (1, 16),
            (2, 10),
            (3, 10),
            (1 << 32, 10),
            (u64::MAX, 10),
        ] {
            for high in [0, 1 << 32, 1 << 63] {
                let stop = &mut scene.stops[0];
                (stop.address, stop.named) = (offset + high, function);
                stop.record = record.unwrap_or(0);
                let there = record.is_some() && high == 0;
                expect(&scene, if there { number } else { 10 });
            }
        }
    }
    scene.section.records[1].offset = 0x20;
    for (function, number) in [(0, 15), (1, 15), (2, 10), (1 << 32, 10)] {
        let stop = &mut scene.stops[0];
        (stop.address, stop.named) = (0x20, function);
        expect(&scene, number);
    }
}
