//! Which locations of kind 1 are slots, 25 of a single frame, and what of the
//! registers is read and written.

use super::*;
use crate::editions::{AARCH64, AMD64};
use crate::fixtures::*;
use crate::section::encode_version_1;

/// Both machines with their frame pointer, their stack pointer and their slots.
const MACHINES: [(u64, [u16; 2], u16); 2] = [(AMD64, [6, 7], 16), (AARCH64, [29, 31], 32)];

/// Row I with other pairs on a machine, and all slots and registers 0 but for
/// the stack pointer.
fn on(machine: u64, pairs: &[(Location, Location)]) -> Move {
    let mut row = Move::of_pairs(8, pairs).on(machine);
    row.registers.fill(0);
    row.set_stack_pointer(0x7000);
    row
}

/// The same frame in a section of version 1.
fn on_1(machine: u64, pairs: &[(Location, Location)]) -> Move {
    let mut row = on(machine, pairs);
    let functions = [function(0x1000, 64, 0)];
    row.section = encode_version_1(&functions, &[], &[statepoint(0x20, pairs)]);
    row.frame.address = 0x20;
    row
}

/// A slot on the stack.
fn memory(machine: u64) -> Location {
    location(3, 8, if machine == AMD64 { 7 } else { 31 }, 8)
}

#[test]
fn a_register_is_moved_by_its_base() {
    for (machine, slot, other) in [(AMD64, 3, 12), (AARCH64, 19, 28)] {
        let pairs = [
            (register(slot), register(slot)),
            (register(slot), register(other)),
        ];
        let mut row = on(machine, &pairs);
        row.registers[slot as usize] = 0x50000;
        row.registers[other as usize] = 0x54E20;
        let mut after = row.registers.clone();
        after[slot as usize] = 0x90000;
        after[other as usize] = 0x94E20;
        let image = row.image.clone();
        assert_eq!(row.run(), Ok(2));
        assert_eq!((row.registers, row.image), (after, image));
    }
}

/// Every register number as base, as derived and as both: under 16 on AMD64,
/// under 32 on AArch64, and neither pointer. 6 and 7 are slots on AArch64, and
/// so is 30.
#[test]
fn every_register_number() {
    for (machine, pointers, limit) in MACHINES {
        for number in (0..300).chain([0x0103, 0x0300, 0x1000, 0xFF03, u16::MAX]) {
            let right = number < limit && !pointers.contains(&number);
            let (own, fine) = (register(number), memory(machine));
            let pairs = [
                (own.clone(), own.clone()),
                (own.clone(), fine.clone()),
                (fine.clone(), own.clone()),
            ];
            for pair in pairs {
                let expected = if right { Ok(2) } else { refusal(18, 1) };
                let pairs = [(fine.clone(), fine.clone()), pair];
                assert_eq!(on(machine, &pairs).run(), expected, "{number} on {machine}");
                assert_eq!(on_1(machine, &pairs).run(), expected, "{number}, version 1");
            }
        }
    }
    let slots = |machine| {
        let right = |number: &u16| {
            let pair = (register(*number), register(*number));
            on(machine, &[pair]).run().is_ok()
        };
        (0..100).filter(right).collect::<Vec<u16>>()
    };
    assert_eq!(
        slots(AMD64),
        [0, 1, 2, 3, 4, 5, 8, 9, 10, 11, 12, 13, 14, 15]
    );
    let all: Vec<u16> = (0..=28).chain([30]).collect();
    assert_eq!(slots(AARCH64), all);
}

/// Size 8 alone in version 3, 0 or 8 in version 1, and each location by itself
/// there.
#[test]
fn sizes_of_a_register() {
    let of = |size| location(1, size, 3, 0);
    for size in 0..300 {
        let expected = |right| if right { Ok(1) } else { refusal(18, 0) };
        let pair = [(of(size), of(size))];
        assert_eq!(on(AMD64, &pair).run(), expected(size == 8), "{size}");
        if size < 256 {
            let right = size == 0 || size == 8;
            assert_eq!(on_1(AMD64, &pair).run(), expected(right), "{size}");
            for beside in [of(0), of(8), rsp(8), location(3, 0, 7, 8)] {
                let pair = [(of(size), beside)];
                assert_eq!(on_1(AMD64, &pair).run(), expected(right), "{size}");
            }
        }
    }
}

/// Memory of 16 beside a register of 16 is 18 for the register, and beside one
/// of 8 for the sizes.
#[test]
fn version_3_wants_equal_sizes_of_both_sorts() {
    let memory = |size| location(3, size, 7, 0);
    let own = |size| location(1, size, 3, 0);
    for (base, derived, right) in [
        (memory(16), own(16), false),
        (own(16), memory(16), false),
        (own(16), own(16), false),
        (memory(16), own(8), false),
        (own(8), memory(16), false),
        (memory(8), own(0), false),
        (own(0), memory(8), false),
        (own(8), memory(0), false),
        (memory(8), own(8), true),
        (own(8), memory(8), true),
        (memory(16), memory(16), true),
    ] {
        let answer = on(AMD64, &[(base, derived)]).run();
        assert_eq!(answer.is_ok(), right);
        if !right {
            assert_eq!(answer, refusal(18, 0));
        }
    }
}

#[test]
fn the_offset_of_a_register_is_0() {
    for offset in [1, -1, 8, -8, i32::MIN, i32::MAX] {
        let off = location(1, 8, 3, offset);
        for pair in [
            (off.clone(), off.clone()),
            (off.clone(), register(3)),
            (register(3), off.clone()),
            (rsp(8), off.clone()),
        ] {
            let pairs = std::slice::from_ref(&pair);
            assert_eq!(on(AMD64, pairs).run(), refusal(18, 0));
            assert_eq!(on_1(AMD64, pairs).run(), refusal(18, 0));
        }
    }
    let (null, one) = (small(0), register(3));
    assert_eq!(on(AMD64, &[(null, one)]).run(), refusal(18, 0));
}

/// 25 at 0 for every length but 32, after 14 and before 10; and then there is
/// no extent.
#[test]
fn a_single_frames_list_has_32_numbers() {
    for length in [0, 1, 8, 16, 31, 32, 33, 64, 1_000] {
        let mut row = Move::row_i();
        row.registers.resize(length, 0x7000);
        let (right, whole) = (length == 32, Some((0x7000, 0x7018)));
        assert_eq!(row.extent(), whole.filter(|_| right), "{length}");
        assert_eq!(
            row.clone().run(),
            if right { Ok(2) } else { refusal(25, 0) }
        );
        row.frame.address = 5;
        let expected = if right { 10 } else { 25 };
        assert_eq!(row.clone().run(), refusal(expected, 0), "before 10");
        let unequal = &mut row.clone();
        unequal.new_starts.clear();
        assert_eq!(unequal.run(), refusal(14, 0), "after 14");
        unequal.first = u64::MAX;
        assert_eq!(unequal.run(), refusal(13, 0), "after 13");
        unequal.machine = 2;
        assert_eq!(unequal.run(), refusal(33, 0), "after 33");
        unequal.section[151] = 9;
        assert_eq!(unequal.run(), refusal(3, 151), "after 1 to 9");
        let mut older = Move::row_i_1();
        older.registers.resize(length, 0x7000);
        older.frame.function = 9;
        assert_eq!(older.run(), refusal(expected, 0), "in version 1 too");
    }
}

/// Frame and stack pointer come from the list, by the machine's own numbers.
#[test]
fn the_pointers_come_from_the_list() {
    for (machine, [of_frame, of_stack], _) in MACHINES {
        let at = |number, offset| location(3, 8, number, offset);
        let pairs = [(at(of_stack, 0), at(of_frame, -8))];
        let mut row = on(machine, &pairs);
        row.registers = noise();
        row.registers[of_frame as usize] = 0x7010;
        row.registers[of_stack as usize] = 0x7000;
        row.set(0, 0x50000);
        row.set(8, 0x50007);
        assert_eq!(row.extent(), Some((0x7000, 0x7040)));
        assert_eq!(row.clone().run(), Ok(1));
        row.registers[of_frame as usize] = 0x7018;
        row.set(16, 0x50001);
        assert_eq!(row.run(), Ok(1));
        assert_eq!((row.slot(8), row.slot(16)), (0x50007, 0x90001));
        row.registers[of_stack as usize] = 0x7001;
        assert_eq!(row.run(), refusal(16, 0));
    }
}

/// They are never written: a second move has the same extent.
#[test]
fn the_pointers_stay_as_they_are() {
    for (machine, pointers, limit) in MACHINES {
        let slots: Vec<u16> = (0..limit)
            .filter(|number| !pointers.contains(number))
            .collect();
        let pairs: Vec<_> = slots
            .iter()
            .map(|number| (register(*number), register(*number)))
            .collect();
        let mut row = on(machine, &pairs);
        let before = row.extent();
        row.old_starts = vec![0x7000, 0x50000];
        row.new_starts = vec![0x8000, 0x90000];
        row.registers.fill(0x7000);
        let mut after = row.registers.clone();
        for number in slots {
            after[number as usize] = 0x8000;
        }
        assert_eq!(row.run(), Ok(pairs.len() as u64));
        assert_eq!(row.registers, after);
        assert_eq!(row.extent(), before);
    }
}

/// Registers 16 to 31 on AMD64 are neither read nor written.
#[test]
fn registers_from_16_on_count_for_nothing_on_amd64() {
    for fill in [0, 7, 0x50000, 0x7000, u64::MAX] {
        let pairs = [(register(15), register(15)), (rsp(8), register(0))];
        let mut row = on(AMD64, &pairs);
        row.registers[16..].fill(fill);
        row.registers[15] = 0x50000;
        row.registers[0] = 3;
        assert_eq!(row.run(), Ok(2));
        assert_eq!((row.registers[15], row.registers[0]), (0x90000, 3));
        assert_eq!(row.registers[16..], [fill; 16]);
    }
}

/// 16 is tested for a frame whose pairs are all in registers, 12 and 15 too.
#[test]
fn a_frame_of_registers_alone_stands_as_any_other() {
    let pairs = [(register(3), register(3))];
    let mut row = on(AMD64, &pairs);
    row.set_stack_pointer(0x7001);
    assert_eq!(row.run(), refusal(16, 0));
    row.section = one_function(u64::MAX, &[], &[statepoint(0x20, &pairs)]);
    assert_eq!(row.run(), refusal(16, 0));
    row.section = one_function(0, &[], &[statepoint(0x20, &pairs)]);
    assert_eq!(row.run(), Ok(1), "an empty extent is enough");
    let two = [statepoint(0x20, &pairs), statepoint(0x20, &pairs)];
    row.section = one_function(0, &[], &two);
    assert_eq!(row.run(), refusal(15, 0));
}

/// 257 pairs of registers are too many, in both versions, and 256 are not.
#[test]
fn pointers_in_registers_are_counted() {
    let pair = (register(3), register(3));
    for (count, expected) in [(256, Ok(256)), (257, refusal(17, 0))] {
        let pairs = vec![pair.clone(); count];
        assert_eq!(on(AMD64, &pairs).run(), expected);
        assert_eq!(on_1(AMD64, &pairs).run(), expected);
    }
    let pointers = [vec![pair; 100], vec![(rsp(0), rsp(0)); 156]].concat();
    assert_eq!(on(AMD64, &pointers).run(), Ok(256));
    let wrong = (register(7), register(7));
    let many = [pointers, vec![wrong]].concat();
    assert_eq!(on(AMD64, &many).run(), refusal(18, 256), "18 before 17");
    assert_eq!(on_1(AMD64, &many).run(), refusal(17, 0), "17 before 18");
}
