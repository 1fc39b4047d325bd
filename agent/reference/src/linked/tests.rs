//! The maps of a linked section, worked out by hand.

use super::*;
use crate::fixtures::*;

/// Row C as version 1 has it.
pub(super) fn row_c_1() -> Vec<u8> {
    with(row_c(), 0, 1)
}

/// Row H with its function at another address below 0x10000, a multiple of 256.
pub(super) fn row_h_at(address: u64) -> Vec<u8> {
    with(row_h(), 17, (address >> 8) as u8)
}

/// The first byte and the length of each map, or the refusal.
fn cut(parts: &[&[u8]]) -> Result<Vec<(usize, usize)>, Refusal> {
    let maps = maps(&parts.concat())?;
    Ok(maps.iter().map(|map| (map.first, map.length)).collect())
}

#[test]
fn a_section_that_is_one_map_is_cut_nowhere() {
    assert_eq!(cut(&[&row_c()]), Ok(vec![(0, 16)]));
    assert_eq!(cut(&[&row_c_1()]), Ok(vec![(0, 16)]));
    assert_eq!(cut(&[&row_h()]), Ok(vec![(0, 152)]));
    assert_eq!(cut(&[&row_h_1()]), Ok(vec![(0, 112)]));
}

#[test]
fn maps_stand_one_after_the_other() {
    assert_eq!(cut(&[&row_c(), &row_c()]), Ok(vec![(0, 16), (16, 16)]));
    let rows = [row_h(), row_c(), row_h_at(0x2000)];
    let rows = rows.each_ref().map(Vec::as_slice);
    assert_eq!(cut(&rows), Ok(vec![(0, 152), (152, 16), (168, 152)]));
    let mixed = [row_c_1(), row_h(), row_h_1(), row_c()];
    let mixed = mixed.each_ref().map(Vec::as_slice);
    let places = vec![(0, 16), (16, 152), (168, 112), (280, 16)];
    assert_eq!(cut(&mixed), Ok(places));
}

#[test]
fn bytes_left_over_that_are_no_header_are_1_at_the_first_of_them() {
    assert_eq!(cut(&[]), refusal(1, 0));
    assert_eq!(cut(&[&[3; 15]]), refusal(1, 0));
    for count in 1..16 {
        // Row E where it is one zero byte; and the start of one more row C.
        assert_eq!(cut(&[&row_c(), &[0; 15][..count]]), refusal(1, 16));
        assert_eq!(
            cut(&[&row_h(), &row_c(), &row_c()[..count]]),
            refusal(1, 168)
        );
    }
}

#[test]
fn sixteen_zeros_are_a_header_of_version_0() {
    assert_eq!(cut(&[&row_c(), &[0; 16]]), refusal(2, 16));
    assert_eq!(cut(&[&row_h(), &[0; 40]]), refusal(2, 152));
}

/// Rows D, F and G, and row H with one fault, each as a map of its own and then
/// behind others.
#[test]
fn any_other_refusal_stands_at_its_place_in_the_whole() {
    let location = with(row_h(), 56, 6);
    let faults = [
        (with(row_c(), 0, 2), 2, 0),
        (with(row_c(), 3, 1), 3, 3),
        (with(row_c(), 12, 1), 5, 12),
        (with(row_c(), 4, 1), 4, 16),
        (with(row_h(), 148, 9), 3, 148),
        (with(row_h(), 4, 7), 4, 136),
        (row_h()[..151].to_vec(), 4, 40),
        (location, 6, 56),
        (with(row_h(), 128, 5), 7, 128),
        // The function at 2^64 - 16, so that its record is at 2^64 + 16.
        (
            [
                &row_h()[..16],
                &0xFFFF_FFFF_FFFF_FFF0_u64.to_le_bytes(),
                &row_h()[24..],
            ]
            .concat(),
            8,
            40,
        ),
    ];
    for (fault, number, place) in faults {
        assert_eq!(cut(&[&fault]), refusal(number, place));
        assert_eq!(cut(&[&row_c(), &fault]), refusal(number, 16 + place));
        assert_eq!(
            cut(&[&row_h(), &row_h_1(), &fault]),
            refusal(number, 264 + place)
        );
    }
}

/// Row G states a function that it doesn't have, and takes the bytes after it.
#[test]
fn a_map_that_says_too_much_runs_into_the_next() {
    let row_g = with(row_c(), 4, 1);
    assert_eq!(cut(&[&row_g]), refusal(4, 16));
    // 16 of the function's 24 bytes are there.
    assert_eq!(cut(&[&row_g, &row_c()]), refusal(4, 16));
    // The record count is the third row's version, 3, and no record is stated.
    assert_eq!(cut(&[&row_g, &row_c(), &row_c()]), refusal(5, 12));
    // Version 1 has functions of 16 bytes and no counts: one row C is taken.
    let row_g_1 = with(row_c_1(), 4, 1);
    assert_eq!(cut(&[&row_g_1, &row_c()]), Ok(vec![(0, 32)]));
    let three = [&row_g_1[..], &row_c(), &row_c()];
    assert_eq!(cut(&three), Ok(vec![(0, 32), (32, 16)]));
}

#[test]
fn the_first_refused_map_is_the_one_that_is_given() {
    let (row_d, row_f) = (with(row_c(), 0, 2), with(row_c(), 12, 1));
    assert_eq!(cut(&[&row_c(), &row_f, &row_d]), refusal(5, 28));
    assert_eq!(cut(&[&row_d, &row_f]), refusal(2, 0));
}

#[test]
fn the_whole_is_at_most_as_long_as_a_section() {
    let most = row_c().repeat(MAX_SECTION / 16);
    let maps = maps(&most).unwrap();
    assert_eq!(maps.len(), 1_048_576);
    let last = Map {
        first: 16_777_200,
        length: 16,
    };
    assert_eq!(maps.last(), Some(&last));
    assert_eq!(cut(&[&most, &[3]]), refusal(1, 0));
    assert_eq!(cut(&[&most, &row_c()]), refusal(1, 0));
    // Also where a map is refused.
    let damaged = with(most, 0, 2);
    assert_eq!(cut(&[&damaged]), refusal(2, 0));
    assert_eq!(cut(&[&damaged, &row_c()]), refusal(1, 0));
}

#[test]
fn a_list_gets_two_numbers_a_map() {
    let two = [row_h(), row_c()].concat();
    let mut list = [9; 6];
    assert_eq!(fill_maps(&two, &mut list), Ok(2));
    assert_eq!(list, [0, 152, 152, 16, 9, 9]);
    let mut exact = [9; 4];
    assert_eq!(fill_maps(&two, &mut exact), Ok(2));
    assert_eq!(exact, [0, 152, 152, 16]);
    for room in 0..4 {
        let mut short = [9; 4];
        assert_eq!(fill_maps(&two, &mut short[..room]), refusal(24, 0));
        assert_eq!(short, [9; 4]);
    }
}

#[test]
fn a_refused_section_comes_before_a_list_that_is_too_short() {
    let row_e = [row_c(), vec![0]].concat();
    let mut list = [9; 4];
    assert_eq!(fill_maps(&row_e, &mut []), refusal(1, 16));
    assert_eq!(fill_maps(&row_e, &mut list), refusal(1, 16));
    assert_eq!(list, [9; 4]);
}

#[test]
fn cutting_and_joining_give_the_same_bytes() {
    let mut random = Random(0x1111);
    for _ in 0..2_000 {
        let parts: Vec<Vec<u8>> = (0..1 + random.below(6)).map(|_| random.section()).collect();
        let whole = parts.concat();
        let maps = maps(&whole).unwrap();
        let cut: Vec<&[u8]> = maps
            .iter()
            .map(|map| &whole[map.first..][..map.length])
            .collect();
        assert_eq!(cut, parts);
    }
}

/// What is a map stays one where it stands alone, whatever comes after it; and
/// 9 is never given.
#[test]
fn damaged_sections_are_cut_into_maps_up_to_the_damage() {
    let mut random = Random(0x2222);
    let mut refused = 0;
    for _ in 0..5_000 {
        let parts: Vec<Vec<u8>> = (0..1 + random.below(4)).map(|_| random.section()).collect();
        let mut whole = parts.concat();
        let at = random.below(whole.len() as u64) as usize;
        whole[at] ^= 1 << random.below(8);
        whole.truncate(whole.len() - random.below(3) as usize);
        match maps(&whole) {
            Ok(maps) => {
                for map in maps {
                    assert_eq!(check(&whole[map.first..][..map.length]), Ok(()));
                }
            }
            Err(refusal) => {
                refused += 1;
                assert!((1..=8).contains(&refusal.number));
                assert!(refusal.place <= whole.len() as u64);
            }
        }
    }
    assert!(refused > 1_000, "{refused}");
}
