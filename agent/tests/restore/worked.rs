//! The worked rows I to L under the edition that they name, one with 256, AMD64 and version 3, and what stands
//! beside them, written out by hand.

use crate::calls::{Call, Outcome};
use crate::under::stores::Stored;
use crate::under::Under;
use generator::editions::Settings;
use generator::frames::named::Named;
use generator::Rng;
use treskibben::Frame;

const H: &[u8] = include_bytes!("../../../samples/h-statepoint.section");
const H_1: &[u8] = include_bytes!("../../../samples/h-version-1.section");

/// The edition of the worked rows.
const WORKED: Settings = Settings {
    largest_count: 256,
    machine: 0,
    version_1: false,
    version_3: true,
};

/// The store in which edition 1 is of the worked rows, 2 is retired, and 3 has these settings.
fn store(edition: u64, settings: Settings) -> Stored {
    let live = vec![(1, WORKED), (3, settings)];
    let (rng, greatest) = (&mut Rng::new(edition), 3);
    let named = Named {
        greatest,
        live,
        edition,
    };
    Stored::of(rng, &named)
}

/// A word that is no slot, and two slots.
fn image(slots: [u64; 2]) -> Vec<u8> {
    let words = [0xeeee_eeee_eeee_eeee, slots[0], slots[1]];
    words.map(u64::to_le_bytes).concat()
}

/// Row I with these slots, this new start and this section, on a machine and under an edition.
fn row(
    section: &[u8],
    slots: [u64; 2],
    new: u64,
    machine: u64,
    (edition, settings): (u64, Settings),
) -> Outcome {
    let mut registers = vec![0; 32];
    (registers[7], registers[31]) = (0x7000, 0x7000);
    let address = if section[0] == 1 { 0x20 } else { 0x1020 };
    let (function, stored) = (0, &store(edition, settings));
    let frames = Frame { address, function };
    let call = Call {
        section,
        image: &image(slots),
        first: 0x7000,
        olds: &[0x50000],
        news: &[new],
        machine,
        frames: Under { stored, frames },
        registers,
    };
    call.compare()
}

/// Number, place and count of row I as it is, on a machine and under an edition.
fn answer(section: &[u8], machine: u64, edition: (u64, Settings)) -> (u64, u64, u64) {
    row(section, [0x50000, 0x54e20], 0x90000, machine, edition).answer()
}

#[test]
fn rows_i_to_l() {
    let rows = [
        ([0x50000, 0x54e20], 0x90000, [0x90000, 0x94e20]),
        ([0x50000, 0x4b1e0], 0x90000, [0x90000, 0x8b1e0]),
        ([0x50000, 0x4ffe0], 0x10, [0x10, 0xffff_ffff_ffff_fff0]),
    ];
    for (slots, new, moved) in rows {
        let outcome = row(H, slots, new, 0, (1, WORKED));
        assert_eq!(outcome.answer(), (0, 0, 2));
        assert_eq!(outcome.image, image(moved));
    }
}

#[test]
fn editions_that_are_none() {
    for edition in [0, 2, 4, 1 << 32, (1 << 32) + 1, u64::MAX] {
        assert_eq!(answer(H, 0, (edition, WORKED)), (31, 0, 0), "{edition}");
        // It is looked for before the section and the machine are.
        assert_eq!(answer(&H[..15], 2, (edition, WORKED)), (31, 0, 0));
    }
}

#[test]
fn versions_and_machines_that_are_not_allowed() {
    let one = Settings {
        version_1: true,
        version_3: false,
        ..WORKED
    };
    let both = Settings {
        version_1: true,
        ..WORKED
    };
    let arm = Settings { machine: 1, ..both };
    assert_eq!(answer(H_1, 0, (1, WORKED)), (33, 0, 0));
    assert_eq!(answer(H_1, 0, (3, one)), (0, 0, 2));
    assert_eq!(answer(H, 0, (3, one)), (33, 0, 0));
    for section in [H, H_1] {
        assert_eq!(answer(section, 0, (3, both)), (0, 0, 2));
        assert_eq!(answer(section, 0, (3, arm)), (33, 0, 0));
        // The machine is allowed, and the locations are counted from the other one's register.
        assert_eq!(answer(section, 1, (3, arm)), (18, 0, 0));
        for machine in [1, 2, 1 << 32, u64::MAX] {
            assert_eq!(answer(section, machine, (3, both)), (33, 0, 0));
        }
        // The section's own come first.
        assert_eq!(answer(&section[..15], 2, (3, both)), (1, 0, 0));
    }
}

#[test]
fn more_pointers_than_the_editions() {
    let most = |largest_count| Settings {
        largest_count,
        version_1: true,
        ..WORKED
    };
    for section in [H, H_1] {
        assert_eq!(answer(section, 0, (3, most(1))), (17, 0, 0));
        assert_eq!(answer(section, 0, (3, most(2))), (0, 0, 2));
        // 17 comes before 21: the base is no old start.
        let inner = [0x50008, 0x54e20];
        let refused = |most| row(section, inner, 0x90000, 0, (3, most)).answer();
        assert_eq!(refused(most(1)), (17, 0, 0));
        assert_eq!(refused(most(2)), (21, 0, 0));
    }
}

/// Row H with the pair of its last two locations of this size: N pointers, and N + 1 with the first pair.
fn wide(size: u16) -> Vec<u8> {
    let mut section = H.to_vec();
    for location in [116, 128] {
        section[location + 2..][..2].copy_from_slice(&size.to_le_bytes());
    }
    section
}

/// A size of right form under every edition: what its count refuses is 17, and not 18.
#[test]
fn a_pair_with_more_pointers_than_the_editions() {
    let most = |largest_count| Settings {
        largest_count,
        ..WORKED
    };
    let answer = |size, count| answer(&wide(size), 0, (3, most(count)));
    assert_eq!(answer(8 * 200, 100), (17, 0, 0));
    assert_eq!(answer(8 * 256, 100), (17, 0, 0));
    assert_eq!(answer(8 * 257, 100), (18, 1, 0));
    assert_eq!(answer(8 * 200 + 4, 100), (18, 1, 0));
    // As many as it allows, with the first pair: 19, as the frame has no room for them.
    assert_eq!(answer(8 * 99, 100), (19, 1, 0));
    assert_eq!(answer(8 * 100, 100), (17, 0, 0));
}
