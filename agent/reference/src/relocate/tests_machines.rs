//! Frames of both machines: their registers, the extent, and numbers that are
//! no machine.

use super::*;
use crate::editions::{AARCH64, AMD64};
use crate::fixtures::*;
use crate::section::encode_version_1;

/// A slot at a register plus an offset.
fn at(register: u16, offset: i32) -> Location {
    location(3, 8, register, offset)
}

/// The frame and stack pointers of both machines.
const MACHINES: [(u64, u16, u16); 2] = [(AMD64, 6, 7), (AARCH64, 29, 31)];

/// Row I with other pairs, on a machine.
fn on(machine: u64, pairs: &[(Location, Location)]) -> Move {
    Move::of_pairs(8, pairs).on(machine)
}

#[test]
fn row_i_on_aarch64() {
    let mut row = Move::row_i().on(AARCH64);
    assert_eq!(row.run(), refusal(18, 0), "RSP is no pointer of it");
    for slot in [92, 104, 116, 128] {
        row.section[slot + 4] = 31;
    }
    assert_eq!(row.run(), Ok(2));
    assert_eq!((row.slot(8), row.slot(16)), (0x90000, 0x94E20));
    let mut row = row.on(AMD64);
    assert_eq!(row.run(), refusal(18, 0), "SP is none of AMD64");
}

/// Every register, as base and as derived: those of the machine alone name
/// slots.
#[test]
fn any_other_register_is_18() {
    for (machine, frame_pointer, stack_pointer) in MACHINES {
        let registers = (0..140).chain([262, 263, 285, 287, 0x0600, 0x1D00, u16::MAX]);
        for register in registers {
            let own = [frame_pointer, stack_pointer].contains(&register);
            let fine = at(stack_pointer, 8);
            for pair in [
                (at(register, 0), fine.clone()),
                (fine.clone(), at(register, 0)),
                (at(register, 0), at(register, 0)),
            ] {
                let mut row = on(machine, &[pair]);
                row.set_frame_pointer(0x7010);
                let expected = if own { Ok(1) } else { refusal(18, 0) };
                assert_eq!(row.run(), expected, "{register} on {machine}");
            }
        }
    }
}

#[test]
fn slots_are_at_the_machines_pointers_plus_offset() {
    for (machine, frame_pointer, stack_pointer) in MACHINES {
        let pairs = [
            (at(stack_pointer, 0), at(frame_pointer, -8)),
            (at(frame_pointer, 8), at(stack_pointer, 24)),
        ];
        let mut row = on(machine, &pairs);
        row.set_frame_pointer(0x7010);
        for (slot, content) in [0x50000, 0x50001, 0, 7].into_iter().enumerate() {
            row.set(8 * slot, content);
        }
        row.set(24, 0x50000);
        assert_eq!(row.run(), Ok(2));
        assert_eq!(
            [0, 8, 16, 24].map(|at| row.slot(at)),
            [0x50000, 0x90001, 0, 0x90000]
        );
    }
}

#[test]
fn the_extent_begins_at_the_stack_pointer() {
    for (machine, frame_pointer, stack_pointer) in MACHINES {
        for (first, number) in [(-8, 19), (0, 0), (56, 0), (57, 19)] {
            for (register, base) in [(stack_pointer, 0), (frame_pointer, 0x28)] {
                let mut row = on(
                    machine,
                    &[(at(register, first - base), at(register, first - base))],
                );
                row.set_frame_pointer(0x7000 + base as u64);
                let expected = if number == 0 {
                    Ok(1)
                } else {
                    refusal(number, 0)
                };
                assert_eq!(row.run(), expected, "{first} on {machine}");
            }
        }
        let mut row = on(machine, &[]);
        row.set_frame_pointer(0);
        assert_eq!(row.run(), Ok(0));
        row.set_pointers(0x7000, 0x7001);
        assert_eq!(row.run(), refusal(16, 0));
    }
}

#[test]
fn a_number_that_is_no_machine_is_33_after_the_sections_own_and_before_13() {
    for machine in [2, 3, 6, 29, 255, 256, 257, 1 << 32, (1 << 32) + 1, u64::MAX] {
        let mut row = Move::row_i();
        row.machine = machine;
        assert_eq!(row.run(), refusal(33, 0), "{machine}");
        row.image = vec![0; 1_048_577];
        row.new_starts.clear();
        row.frame.address = 5;
        assert_eq!(row.run(), refusal(33, 0), "13, 14 and 10 too");
        row.machine = AARCH64;
        assert_eq!(row.clone().run(), refusal(13, 0));
        row.machine = machine;
        row.section[0] = 2;
        assert_eq!(row.run(), refusal(2, 0), "the section's own is first");
        row.section[0] = 3;
        row.section[128] = 9;
        assert_eq!(row.run(), refusal(6, 128));
    }
}

#[test]
fn version_1_has_both_machines_too() {
    for (machine, _, stack_pointer) in MACHINES {
        for (register, expected) in [
            (6, machine == AMD64),
            (7, machine == AMD64),
            (29, machine == AARCH64),
            (31, machine == AARCH64),
        ] {
            let pair = (at(stack_pointer, 8), at(register, 16));
            let records = [statepoint(0x20, &[pair])];
            let mut row = Move::row_i_1().on(machine);
            row.section = encode_version_1(&[function(0x1000, 24, 0)], &[], &records);
            row.set_frame_pointer(0x7000);
            let expected = if expected { Ok(1) } else { refusal(18, 0) };
            assert_eq!(row.run(), expected, "{register} on {machine}");
        }
    }
}

#[test]
fn null_pairs_have_any_register() {
    for (machine, ..) in MACHINES {
        let pairs = [6, 7, 29, 31].map(|register| (location(4, 8, register, 0), small(0)));
        assert_eq!(on(machine, &pairs).run(), Ok(4));
    }
}
