//! The worked rows I to L and what stands beside them, written out by hand; also as version 1 has them.

use crate::calls::{Call, Outcome};
use treskibben::Frame;

const H: &[u8] = include_bytes!("../../../samples/h-statepoint.section");

/// The first bytes of row H's four slots.
const SLOTS: [usize; 4] = [92, 104, 116, 128];

/// Row H as version 1 has it, and the first bytes of its four slots.
const H_1: &[u8] = include_bytes!("../../../samples/h-version-1.section");
const SLOTS_1: [usize; 4] = [72, 80, 88, 96];

fn image(slots: [u64; 2]) -> Vec<u8> {
    [0xeeee_eeee_eeee_eeee, slots[0], slots[1]]
        .map(u64::to_le_bytes)
        .concat()
}

/// Row I's frame. Version 3 doesn't read the function.
const I: Frame = Frame {
    address: 0x1020,
    function: 77,
};

/// The same in version 1: offset 0x20 in function 0.
const I_1: Frame = Frame {
    address: 0x20,
    function: 0,
};

/// Its registers: the stack pointer of either machine is 0x7000, and no other is a slot here.
fn registers() -> Vec<u64> {
    let mut registers = vec![0xdddd_dddd_dddd_dddd; 32];
    (registers[7], registers[31]) = (0x7000, 0x7000);
    registers
}

/// Row I with this section, these slots and this new start.
fn row(section: &[u8], slots: [u64; 2], new: u64) -> Outcome {
    let frames = if section[0] == 1 { I_1 } else { I };
    with_frame(section, slots, new, frames)
}

fn with_frame(section: &[u8], slots: [u64; 2], new: u64, frames: Frame) -> Outcome {
    on(0, section, slots, new, frames)
}

/// The same on the machine of this number.
fn on(machine: u64, section: &[u8], slots: [u64; 2], new: u64, frames: Frame) -> Outcome {
    let call = Call {
        section,
        image: &image(slots),
        first: 0x7000,
        olds: &[0x50000],
        news: &[new],
        machine,
        frames,
        registers: registers(),
    };
    call.compare()
}

fn moved(slots: [u64; 2]) -> Outcome {
    Outcome {
        number: 0,
        place: 0,
        count: 2,
        image: image(slots),
        registers: registers(),
    }
}

/// Row H with another last offset, which is the last four bytes of its location.
fn last_offset(offset: u8) -> [Vec<u8>; 2] {
    let (mut newer, mut older) = (H.to_vec(), H_1.to_vec());
    newer[SLOTS[3] + 8] = offset;
    older[SLOTS_1[3] + 4] = offset;
    [newer, older]
}

/// Row H with the pairs exchanged: the last two slots first, and twice the first slot behind them.
fn exchanged(section: &[u8], slots: [usize; 4], length: usize) -> Vec<u8> {
    let mut section = section.to_vec();
    section.copy_within(slots[2]..slots[3] + length, slots[0]);
    section.copy_within(slots[0]..slots[0] + length, slots[2]);
    section.copy_within(slots[0]..slots[0] + length, slots[3]);
    section
}

#[test]
fn rows_i_to_l() {
    let i = [0x50000, 0x54e20];
    let orders = [exchanged(H, SLOTS, 12), exchanged(H_1, SLOTS_1, 8)];
    for (section, exchanged) in [H, H_1].into_iter().zip(&orders) {
        assert_eq!(row(section, i, 0x90000), moved([0x90000, 0x94e20]), "I");
        assert_ne!(exchanged, section);
        assert_eq!(row(exchanged, i, 0x90000), moved([0x90000, 0x94e20]), "J");
        let k = row(section, [0x50000, 0x4b1e0], 0x90000);
        assert_eq!(k, moved([0x90000, 0x8b1e0]), "K");
        let l = row(section, [0x50000, 0x4ffe0], 0x10);
        assert_eq!(l, moved([0x10, 0xffff_ffff_ffff_fff0]), "L");
    }
}

fn refused(outcome: Outcome, slots: [u64; 2]) -> (u64, u64) {
    assert_eq!((outcome.count, &outcome.image), (0, &image(slots)));
    assert_eq!(outcome.registers, registers());
    (outcome.number, outcome.place)
}

#[test]
fn refusals_beside_the_rows() {
    let (i, inner) = ([0x50000, 0x54e20], [0x50008, 0x54e20]);
    for section in [H, H_1] {
        assert_eq!(refused(row(section, inner, 0x90000), inner), (21, 0));
    }
    for (offset, number) in [(17, 19), (12, 20)] {
        for section in last_offset(offset) {
            assert_eq!(refused(row(&section, i, 0x90000), i), (number, 1));
        }
    }
}

/// Row I with SP in place of RSP is moved on AArch64, and on AMD64 a pair of wrong form; row I itself the
/// other way round. Any other number is no machine, whatever the frame.
#[test]
fn row_i_on_both_machines() {
    let i = [0x50000, 0x54e20];
    for (section, slots, register, frame) in [(H, SLOTS, 4, I), (H_1, SLOTS_1, 2, I_1)] {
        let mut arm = section.to_vec();
        slots.iter().for_each(|slot| arm[slot + register] = 31);
        let own = [(0, section), (1, &arm[..])];
        for (machine, section) in own {
            let outcome = on(machine, section, i, 0x90000, frame);
            assert_eq!(outcome, moved([0x90000, 0x94e20]));
            let outcome = on(1 - machine, section, i, 0x90000, frame);
            assert_eq!(refused(outcome, i), (18, 0));
            for machine in [2, 3, 29, 1 << 32, u64::MAX] {
                let nowhere = Frame {
                    address: 5,
                    ..frame
                };
                for frame in [frame, nowhere] {
                    let outcome = on(machine, section, i, 0x90000, frame);
                    assert_eq!(refused(outcome, i), (33, 0));
                }
                let outcome = on(machine, &section[1..], i, 0x90000, frame);
                assert_eq!(refused(outcome, i), (2, 0));
            }
        }
    }
}

/// What version 1 reads of a frame: the function, and the offset in place of the address.
#[test]
fn row_i_in_version_1() {
    let i = [0x50000, 0x54e20];
    let frame = |frame| refused(with_frame(H_1, i, 0x90000, frame), i);
    for function in [1, 2, 1 << 32, u64::MAX] {
        assert_eq!(frame(Frame { function, ..I_1 }), (10, 0));
    }
    for address in [0, 0x1f, 0x21, 0x1020, (1 << 32) + 0x20] {
        assert_eq!(frame(Frame { address, ..I_1 }), (10, 0));
    }
    // Sizes of 0 in all slots; and of 7 in the last, of pair 1.
    let mut sizes = H_1.to_vec();
    SLOTS_1.iter().for_each(|slot| sizes[slot + 1] = 0);
    assert_eq!(row(&sizes, i, 0x90000), moved([0x90000, 0x94e20]));
    sizes[SLOTS_1[3] + 1] = 7;
    assert_eq!(refused(row(&sizes, i, 0x90000), i), (18, 1));
    // A second function, whose stack size is not known.
    let mut two = H_1.to_vec();
    two[4] = 2;
    two.splice(32..32, [[0, 0x20, 0, 0, 0, 0, 0, 0], [0xff; 8]].concat());
    let other = Frame { function: 1, ..I_1 };
    assert_eq!(refused(with_frame(&two, i, 0x90000, other), i), (16, 0));
    assert_eq!(row(&two, i, 0x90000), moved([0x90000, 0x94e20]));
    // The record once more: one offset used in two functions is 15 for both.
    two[12] = 2;
    let record = H_1[32..].to_vec();
    two.extend(record);
    assert_eq!(refused(row(&two, i, 0x90000), i), (15, 0));
    assert_eq!(refused(with_frame(&two, i, 0x90000, other), i), (15, 0));
    let absent = Frame { function: 2, ..I_1 };
    assert_eq!(refused(with_frame(&two, i, 0x90000, absent), i), (10, 0));
}
