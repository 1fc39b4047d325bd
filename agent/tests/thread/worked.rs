//! Lists made of row I's frame, written out by hand; also as version 1 has it.

use crate::calls::{Call, Outcome};

const H: &[u8] = include_bytes!("../../../samples/h-statepoint.section");

/// Where the stack size and the offset of the last slot stand in row H.
const STACK_SIZE: usize = 24;
const LAST_OFFSET: usize = 136;

/// Row H as version 1 has it.
const H_1: &[u8] = include_bytes!("../../../samples/h-version-1.section");

/// A frame's two numbers, and its stack pointer.
type One = ([u64; 2], u64);

/// Row I's frame. Version 3 doesn't read the function number.
const I: One = ([0x1020, 5], 0x7000);

/// Three stretches of row I's length. The second has a base of 0, the third one that is no old start.
fn image() -> Vec<u8> {
    let slots = [1, 0x50000, 0x54e20, 2, 0, 0x1234, 3, 0x50008, 0x54e20_u64];
    slots.map(u64::to_le_bytes).concat()
}

/// Row I's frame at another RSP.
fn at(rsp: u64) -> One {
    ([0x1020, u64::MAX], rsp)
}

/// The same in version 1: offset 0x20 in function 0.
fn at_1(rsp: u64) -> One {
    ([0x20, 0], rsp)
}

/// The registers of frames: the stack pointer of either machine is the frame's, and no other is a slot here.
fn registers(frames: &[One]) -> Vec<u64> {
    let own = |(_, rsp): &One| {
        let mut registers = [0xdddd_dddd_dddd_dddd; 32];
        (registers[7], registers[31]) = (*rsp, *rsp);
        registers
    };
    frames.iter().flat_map(own).collect()
}

fn numbers(frames: &[One]) -> Vec<u64> {
    frames.iter().flat_map(|(numbers, _)| *numbers).collect()
}

fn moved_on(section: &[u8], frames: &[One]) -> Outcome {
    on(0, section, frames)
}

/// The same on the machine of this number.
fn on(machine: u64, section: &[u8], frames: &[One]) -> Outcome {
    let call = Call {
        section,
        image: &image(),
        first: 0x7000,
        olds: &[0x50000],
        news: &[0x90000],
        machine,
        frames: &numbers(frames)[..],
        registers: registers(frames),
    };
    call.compare()
}

/// Number and place of a refusal.
fn refused(frames: &[One]) -> (u64, u64) {
    let outcome = moved_on(H, frames);
    assert_eq!((outcome.count, &outcome.image), (0, &image()));
    assert_eq!(outcome.registers, registers(frames));
    (outcome.number, outcome.place)
}

#[test]
fn accepted_lists() {
    let mut moved = image();
    let accepted = |section: &[u8], frames: &[One], image: &[u8]| {
        let outcome = moved_on(section, frames);
        assert_eq!(outcome.answer(), (0, 0, 2 * frames.len() as u64));
        assert_eq!(outcome.image, image);
        assert_eq!(outcome.registers, registers(frames));
    };
    accepted(H, &[], &moved);
    accepted(H_1, &[], &moved);
    moved[8..16].copy_from_slice(&0x90000_u64.to_le_bytes());
    moved[16..24].copy_from_slice(&0x94e20_u64.to_le_bytes());
    accepted(H, &[I], &moved);
    accepted(H_1, &[at_1(0x7000)], &moved);
    accepted(H, &[I, at(0x7018)], &moved);
    accepted(H, &[at(0x7018), I], &moved);
    accepted(H_1, &[at_1(0x7000), at_1(0x7018)], &moved);
}

/// Row I's frame with its base in RBX, which is derived from itself, and the slot at RSP + 16 from RBX: each
/// frame has an RBX of its own.
#[test]
fn bases_in_registers() {
    let r = include_bytes!("../../../samples/r-registers.section");
    let frames = [at(0x7018), I];
    let run = |rbx: [u64; 2]| {
        let mut registers = registers(&frames);
        (registers[3], registers[32 + 3]) = (rbx[0], rbx[1]);
        let call = Call {
            section: r,
            image: &image(),
            first: 0x7000,
            olds: &[0x50000, 0x60000],
            news: &[0x90000, 0x10],
            machine: 0,
            frames: &numbers(&frames)[..],
            registers,
        };
        let outcome = call.compare();
        let words = [5, 2].map(|word: usize| {
            let bytes = outcome.image[8 * word..8 * word + 8].try_into();
            u64::from_le_bytes(bytes.unwrap())
        });
        let rbx = [outcome.registers[3], outcome.registers[32 + 3]];
        (outcome.answer(), rbx, words)
    };
    let there = [0x1234, 0x54e20];
    let moved = run([0x60000, 0x50000]);
    let words = [0x1234_u64.wrapping_sub(0x5fff0), 0x94e20];
    assert_eq!(moved, ((0, 0, 4), [0x10, 0x90000], words));
    let moved = run([0, 0x50000]);
    assert_eq!(moved, ((0, 0, 4), [0, 0x90000], [0x1234, 0x94e20]));
    for (rbx, place) in [([0x60000, 0x50008], 1), ([1, 0x50000], 0)] {
        assert_eq!(run(rbx), ((21, place, 0), rbx, there));
    }
}

/// Each frame is judged on the image as lent: row I's frame twice is 26, not 21.
#[test]
fn shared_bytes() {
    assert_eq!(refused(&[I, I]), (26, 1));
    assert_eq!(refused(&[I, at(0x7018), I]), (26, 2));
    assert_eq!(refused(&[I, at(0x7018), at(0x7018), I]), (26, 2));
    // A frame of no pairs, over the end of the one before by one byte, and beside it.
    let mut none = H.to_vec();
    none.truncate(68);
    none[54] = 3;
    none.extend([4, 0, 8, 0, 0, 0, 0, 0, 0, 0, 0, 0].repeat(2));
    none.extend([0; 12]);
    for (rsp, number) in [(0x7017, 26), (0x7018, 0), (0x7019, 0), (0x7001, 26)] {
        let outcome = moved_on(&none, &[I, at(rsp)]);
        assert_eq!(outcome.number, number, "{rsp:#x}");
    }
    none[STACK_SIZE] = 0;
    assert_eq!(moved_on(&none, &[I; 100]).number, 0);
}

#[test]
fn refused_frames() {
    let nowhere = ([0x1021, 0], 0x7000);
    assert_eq!(refused(&[at(0x7030), nowhere]), (21, 0));
    assert_eq!(refused(&[nowhere, at(0x7030)]), (10, 0));
    assert_eq!(refused(&[I, at(0x7018), at(0x7030)]), (21, 2));
    assert_eq!(refused(&[I, I, at(0x7031)]), (16, 2));
    assert_eq!(refused(&[I, at(0x6fff)]), (16, 1));
    let mut outside = H.to_vec();
    outside[LAST_OFFSET] = 17;
    let outcome = moved_on(&outside, &[I]);
    assert_eq!((outcome.number, outcome.place), (19, 0), "19 of pair 1");
}

/// A thread has one machine: row I's frame is of AMD64, and with SP in place of RSP of AArch64.
#[test]
fn one_machine_for_all_frames() {
    let mut arm = H.to_vec();
    [92, 104, 116, 128]
        .into_iter()
        .for_each(|slot| arm[slot + 4] = 31);
    let list = [I, at(0x7018)];
    assert_eq!(on(1, &arm, &list), moved_on(H, &list));
    for (machine, section) in [(0, &arm[..]), (1, H)] {
        let outcome = on(machine, section, &list);
        assert_eq!((outcome.number, outcome.place), (18, 0));
        assert_eq!(on(machine, section, &[]).number, 0);
    }
    for machine in [2, u64::MAX] {
        for list in [&[][..], &list] {
            let outcome = on(machine, H, list);
            assert_eq!((outcome.number, outcome.place), (33, 0));
            assert_eq!(on(machine, &H[..151], list).number, 4);
        }
    }
}

#[test]
fn version_1() {
    let refused = |frames: &[One]| {
        let outcome = moved_on(H_1, frames);
        assert_eq!((outcome.count, &outcome.image), (0, &image()));
        assert_eq!(outcome.registers, registers(frames));
        (outcome.number, outcome.place)
    };
    let i = at_1(0x7000);
    assert_eq!(moved_on(H_1, &[]).number, 0);
    assert_eq!(refused(&[i, i]), (26, 1));
    assert_eq!(refused(&[i, at_1(0x7017)]), (26, 1));
    assert_eq!(refused(&[i, at_1(0x7030)]), (21, 1));
    assert_eq!(refused(&[i, at_1(0x7031)]), (16, 1));
    for function in [1, 1 << 32, u64::MAX] {
        assert_eq!(refused(&[i, ([0x20, function], 0x7018)]), (10, 1));
    }
    for offset in [0x1020, 0x21, (1 << 32) + 0x20] {
        assert_eq!(refused(&[i, ([offset, 0], 0x7018)]), (10, 1));
    }
}

/// 25 reads two, and 32 registers for each frame, in both versions.
#[test]
fn lists_that_make_no_frames() {
    let frames = [at_1(0x7000), at_1(0x7018), at_1(0x7030)];
    let (list, all) = (numbers(&frames), registers(&frames));
    let run = |section: &[u8], numbers: usize, registers: usize| {
        let call = Call {
            section,
            image: &image(),
            first: 0x7000,
            olds: &[0x50000],
            news: &[0x90000],
            machine: 0,
            frames: &list[..numbers],
            registers: all[..registers].to_vec(),
        };
        let outcome = call.compare();
        (outcome.number, outcome.place)
    };
    for length in 0..=6 {
        for registers in 0..=96 {
            if length % 2 == 1 || registers != 16 * length {
                assert_eq!(run(H, length, registers), (25, 0), "{length} {registers}");
                assert_eq!(run(H_1, length, registers), (25, 0), "{length} {registers}");
            }
        }
    }
    assert_eq!(run(H_1, 4, 64), (0, 0));
    assert_eq!(run(H_1, 6, 96), (21, 2));
    assert_eq!(run(H, 6, 96), (10, 0));
}
