//! Linked sections of the worked rows, answered by hand.

use crate::library::{fill, find, maps};
use crate::rows::{c_and_zero, c_with, C, H, H_1};

/// Row H with its function at another address, a multiple of 256 below 0x10000.
fn h_at(address: u64) -> Vec<u8> {
    let mut bytes = H.to_vec();
    bytes[17] = (address >> 8) as u8;
    bytes
}

#[test]
fn maps_of_the_rows() {
    let two = [C, C].concat();
    assert_eq!(maps(&C), Ok(vec![(0, 16)]));
    assert_eq!(maps(&two), Ok(vec![(0, 16), (16, 16)]));
    let rows = [&H[..], &C, &h_at(0x2000), &H_1].concat();
    let places = [(0, 152), (152, 16), (168, 152), (320, 112)];
    assert_eq!(maps(&rows), Ok(places.to_vec()));
    assert_eq!(maps(&[]), Err((1, 0)));
    assert_eq!(maps(&[3; 15]), Err((1, 0)));
    // Row E: what is left is under 16 bytes.
    assert_eq!(maps(&c_and_zero()), Err((1, 16)));
    assert_eq!(maps(&[&C[..], &[0; 16]].concat()), Err((2, 16)));
}

#[test]
fn refused_rows_behind_others() {
    for (row, number, place) in [
        (c_with(0, 2), 2, 0),
        (c_with(2, 1), 3, 2),
        (c_with(12, 1), 5, 12),
        (c_with(4, 1), 4, 16),
        (H[..151].to_vec(), 4, 40),
    ] {
        assert_eq!(maps(&row), Err((number, place)));
        assert_eq!(maps(&[&C[..], &row].concat()), Err((number, 16 + place)));
        let late = [&H[..], &H_1, &C, &row].concat();
        assert_eq!(maps(&late), Err((number, 280 + place)));
        assert_eq!(find(&late, 0x1020), Err((number, 280 + place)));
    }
    // Row G takes the bytes of the rows behind it for a function, whose record count is a version, 3.
    let taken = [&c_with(4, 1)[..], &C, &C].concat();
    assert_eq!(maps(&taken), Err((5, 12)));
}

#[test]
fn lists_of_maps() {
    let two = [&H[..], &C].concat();
    let mut list = [9; 5];
    assert_eq!(fill(&two, &mut list), [0, 0, 2]);
    assert_eq!(list, [0, 152, 152, 16, 9]);
    let mut short = [9; 3];
    assert_eq!(fill(&two, &mut short), [24, 0, 0]);
    assert_eq!(fill(&c_and_zero(), &mut short), [1, 16, 0]);
    assert_eq!(short, [9; 3]);
}

#[test]
fn addresses_over_all_maps() {
    let rows = [&C[..], &H, &h_at(0x2000)].concat();
    assert_eq!(find(&rows, 0x1020), Ok([1, 0, 0, 1]));
    assert_eq!(find(&rows, 0x2020), Ok([2, 0, 0, 1]));
    assert_eq!(find(&rows, 0x1000), Err((10, 0)));
    assert_eq!(find(&H.repeat(3), 0x1020), Ok([0, 0, 0, 3]));
    let older = [&H[..], &C, &H_1, &H_1].concat();
    assert_eq!(find(&older, 0x1020), Err((27, 168)));
    assert_eq!(find(&older, 7), Err((27, 168)));
}
