//! Row I on the bench, by hand: what is moved, what is 50, and what comes before what.

use crate::calls::{Call, Outcome};
use crate::controlled::{check, compare, Controlled};
use crate::under::stores::Stored;
use generator::editions::Settings;
use generator::frames::named::Named;
use generator::Rng;
use treskibben::Frame;

const C: &[u8] = include_bytes!("../../../samples/c-empty.section");
const H: &[u8] = include_bytes!("../../../samples/h-statepoint.section");
const H_1: &[u8] = include_bytes!("../../../samples/h-version-1.section");

/// The kind of row H's third location, the register of its first pair's base, and that of its last location.
const CONSTANT: usize = 80;
const BASE: usize = 96;
const LAST: usize = 132;

fn image(slots: [u64; 2]) -> Vec<u8> {
    [7, slots[0], slots[1]].map(u64::to_le_bytes).concat()
}

/// Edition 1 is 256, AMD64 and version 3; 2 the same for AArch64; 3 for version 1; 4 allows one pointer; 5 is
/// retired.
fn stored(edition: u64) -> Stored {
    let right = Settings {
        largest_count: 256,
        machine: 0,
        version_1: false,
        version_3: true,
    };
    let live = vec![
        (1, right),
        (
            2,
            Settings {
                machine: 1,
                ..right
            },
        ),
        (
            3,
            Settings {
                version_1: true,
                version_3: false,
                ..right
            },
        ),
        (
            4,
            Settings {
                largest_count: 1,
                ..right
            },
        ),
    ];
    let named = Named {
        greatest: 5,
        live,
        edition,
    };
    Stored::of(&mut Rng::new(1), &named)
}

/// Row I under an edition: the section, the machine, the first address, the base and how many registers there are.
struct Row<'a> {
    edition: u64,
    section: &'a [u8],
    machine: u64,
    first: u64,
    base: u64,
    listed: usize,
}

const I: Row = Row {
    edition: 1,
    section: H,
    machine: 0,
    first: 0x7000,
    base: 0x50000,
    listed: 32,
};

impl Row<'_> {
    fn frame(&self) -> Outcome {
        let frame = Frame {
            address: 0x1020,
            function: 0,
        };
        self.moved(frame)
    }

    fn moved(&self, frame: Frame) -> Outcome {
        let (image, stored) = (image([self.base, 0x54e20]), stored(self.edition));
        let stored = &stored;
        let list = [frame.address, frame.function];
        let mut registers = vec![0xdddd_dddd_dddd_dddd; 32];
        (registers[7], registers[31]) = (0x7000, 0x7000);
        registers.resize(self.listed, 0);
        let outcome = compare(&self.call(&image, stored, frame, &registers));
        let thread = compare(&self.call(&image, stored, &list[..], &registers));
        // The place of a frame's own refusal is its position, 0, in a thread.
        let frames_own = matches!(outcome.number, 10..=21);
        assert_eq!(thread.number, outcome.number);
        assert_eq!(thread.place, if frames_own { 0 } else { outcome.place });
        assert!(thread.image == outcome.image && thread.registers == outcome.registers);
        outcome
    }

    fn call<'b, F>(
        &'b self,
        image: &'b [u8],
        stored: &'b Stored,
        frames: F,
        registers: &[u64],
    ) -> Call<'b, Controlled<'b, F>> {
        Call {
            section: self.section,
            image,
            first: self.first,
            olds: &[0x50000],
            news: &[0x90000],
            machine: self.machine,
            frames: Controlled { stored, frames },
            registers: registers.to_vec(),
        }
    }

    fn refused(&self) -> (u64, u64) {
        let outcome = self.frame();
        (outcome.number, outcome.place)
    }
}

/// Row H with one byte changed.
fn with(at: usize, byte: u8) -> Vec<u8> {
    let mut section = H.to_vec();
    section[at] = byte;
    section
}

#[test]
fn row_i_is_moved() {
    let outcome = I.frame();
    assert_eq!(outcome.answer(), (0, 0, 2));
    assert_eq!(outcome.image, image([0x90000, 0x94e20]));
    assert_eq!(check(H), (0, 0));
    assert_eq!(check(C), (0, 0), "no records");
    assert_eq!(Row { section: C, ..I }.refused(), (10, 0));
    assert_eq!(Row { base: 5, ..I }.refused(), (21, 0));
}

#[test]
fn breaches_of_row_h() {
    for (at, byte, what) in [
        (CONSTANT, 1, "no statepoint"),
        (BASE, 31, "the other machine's register"),
        (LAST, 5, "another register"),
        (LAST - 4, 1, "a register with an offset"),
    ] {
        let section = with(at, byte);
        let row = Row {
            section: &section,
            ..I
        };
        assert_eq!(row.refused(), (50, 0), "{what}");
        assert_eq!(check(&section), (50, 0), "{what}");
    }
    // 19 and 20 are no breach.
    for (offset, number) in [(17, 19), (12, 20)] {
        let section = with(LAST + 4, offset);
        let row = Row {
            section: &section,
            ..I
        };
        assert_eq!(row.refused(), (number, 1));
        assert_eq!(check(&section), (0, 0));
    }
}

/// 31, 1 to 9, 50, 33, 13, 14, 25 and the frame's own.
#[test]
fn the_order_of_refusals() {
    let broken = with(CONSTANT, 1);
    let row = |edition, section, machine| Row {
        edition,
        section,
        machine,
        first: u64::MAX,
        listed: 31,
        ..I
    };
    for edition in [5, 0, 6, 1 << 32] {
        assert_eq!(row(edition, &H[..151], 1).refused(), (31, 0));
    }
    assert_eq!(row(1, &H[..151], 1).refused(), (4, 40));
    assert_eq!(row(1, &broken[..151], 0).refused(), (4, 40));
    for edition in [1, 2, 3, 4] {
        assert_eq!(row(edition, &broken, 0).refused(), (50, 0), "the record");
        assert_eq!(row(edition, H_1, 0).refused(), (50, 0), "the version");
        for machine in [1, 2, 256, 1 << 32, u64::MAX] {
            assert_eq!(row(edition, H, machine).refused(), (50, 0), "the machine");
        }
    }
    for edition in [2, 3] {
        assert_eq!(row(edition, H, 0).refused(), (33, 0));
    }
    assert_eq!(row(4, H, 0).refused(), (13, 0), "before 25 and 17");
    let few = Row {
        edition: 4,
        listed: 31,
        ..I
    };
    assert_eq!(few.refused(), (25, 0), "before 17");
    assert_eq!(Row { edition: 4, ..I }.refused(), (17, 0));
    let elsewhere = Row { edition: 4, ..I }.moved(Frame::new(0x1021));
    assert_eq!(elsewhere.answer(), (10, 0, 0), "before 17");
}

/// The machine is tested before the records: 50 is at 0, and not at the record.
#[test]
fn the_machine_comes_before_the_records() {
    let two = two_records();
    let row = |machine| Row {
        section: &two,
        machine,
        ..I
    };
    assert_eq!(row(0).refused(), (50, 1));
    assert_eq!(row(1).refused(), (50, 0));
    assert_eq!(row(2).refused(), (50, 0));
    assert_eq!(check(&two), (50, 1), "the check knows no machine");
}

/// Row H's record twice: the second has the address of the first.
fn two_records() -> Vec<u8> {
    let mut section = H.to_vec();
    section.extend_from_slice(&H[40..]);
    (section[12], section[32]) = (2, 2);
    section
}
