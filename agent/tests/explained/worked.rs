//! Row I and what stands beside it, explained by hand.

use crate::calls::Call;
use crate::frames::explain;
use crate::under::stores::Stored;
use crate::under::Under;
use generator::editions::Settings;
use generator::frames::named::Named;
use generator::Rng;
use treskibben::Frame;

const H: &[u8] = include_bytes!("../../../samples/h-statepoint.section");
const H_1: &[u8] = include_bytes!("../../../samples/h-version-1.section");
const R: &[u8] = include_bytes!("../../../samples/r-registers.section");

/// Where the four locations of row H's two pairs stand in version 3.
const LOCATIONS: [usize; 4] = [92, 104, 116, 128];

/// The rows of row I's frame with this section, these three words of stack and this content of RBX.
fn rows(section: &[u8], words: [u64; 3], rbx: u64) -> Result<Vec<u64>, (u64, u64)> {
    let own = Settings {
        largest_count: 256,
        machine: 0,
        version_1: true,
        version_3: true,
    };
    let named = Named {
        greatest: 1,
        live: vec![(1, own)],
        edition: 1,
    };
    let stored = &Stored::of(&mut Rng::new(1), &named);
    let mut registers = vec![0; 32];
    (registers[3], registers[7]) = (rbx, 0x7000);
    let address = if section[0] == 1 { 0x20 } else { 0x1020 };
    let frames = Frame {
        address,
        function: 0,
    };
    let call = Call {
        section,
        image: &words.map(u64::to_le_bytes).concat(),
        first: 0x7000,
        olds: &[0x50000, 0x60000],
        news: &[0x90000, 0x10],
        machine: 0,
        frames: Under { stored, frames },
        registers,
    };
    explain(&call, |needed| needed + 1).0
}

#[test]
fn row_i() {
    let first = [1, 0x7008, 0x50000, 3, 0, 0x50000, 0x90000];
    let second = [1, 0x7010, 0x54e20, 3, 1, 0x50000, 0x90000];
    let expected = [&[0, 0][..], &first, &first, &[0, 1], &first, &second].concat();
    for section in [H, H_1] {
        let told = rows(section, [7, 0x50000, 0x54e20], 1);
        assert_eq!(told, Ok(expected.clone()));
        // A base that is no old start.
        assert_eq!(rows(section, [7, 0x50008, 0x54e20], 1), Err((21, 0)));
    }
}

#[test]
fn null_bases() {
    let first = [1, 0x7008, 0, 2, 0, 0, 0];
    let second = [1, 0x7010, 0x54e20, 2, 0, 0, 0];
    let expected = [&[0, 0][..], &first, &first, &[0, 1], &first, &second].concat();
    for section in [H, H_1] {
        assert_eq!(rows(section, [7, 0, 0x54e20], 1), Ok(expected.clone()));
    }
}

/// RBX with itself as base, and the slot at RSP + 16 that is derived from it.
#[test]
fn registers() {
    let rbx = [2, 3, 0x60000, 3, 0, 0x60000, 0x10];
    let slot = [1, 0x7010, 5, 3, 1, 0x60000, 0x10];
    let expected = [&[0, 0][..], &rbx, &rbx, &[0, 1], &rbx, &slot].concat();
    assert_eq!(rows(R, [7, 8, 5], 0x60000), Ok(expected));
}

/// A null pair, and a pair of two pointers that share a slot: the base of the second is derived in the first.
#[test]
fn several_pointers() {
    let mut section = H.to_vec();
    for at in &LOCATIONS[..2] {
        section[*at..][..12].copy_from_slice(&[4, 0, 8, 0, 7, 0, 0, 0, 0, 0, 0, 0]);
    }
    for (at, offset) in LOCATIONS[2..].iter().zip([0, 8]) {
        section[*at..][..12].copy_from_slice(&[3, 0, 16, 0, 7, 0, 0, 0, offset, 0, 0, 0]);
    }
    let slots = [
        [1, 0x7000, 0x50000, 1, 0, 0, 0],
        [1, 0x7008, 0x60000, 3, 1, 0x50000, 0x90000],
        [1, 0x7010, 5, 3, 1, 0x60000, 0x10],
    ];
    let null = [0; 16];
    let pointers = [[slots[0], slots[1]], [slots[1], slots[2]]];
    let [one, two] = pointers.map(|slots| [&[0, 1][..], slots.as_flattened()].concat());
    let expected = [&null[..], &one, &two].concat();
    assert_eq!(rows(&section, [0x50000, 0x60000, 5], 1), Ok(expected));
}
