//! Version 1 of the section: its layout, its refusals, and the ones that it
//! doesn't have.

use super::*;
use crate::fixtures::*;

/// Row C with first byte 1.
fn row_c_1() -> Vec<u8> {
    with(row_c(), 0, 1)
}

#[test]
fn row_c_with_first_byte_1_is_accepted_and_empty() {
    assert_eq!(check(&row_c_1()), Ok(()));
    let read = read(&row_c_1()).unwrap();
    assert_eq!(read.version, Version::One);
    assert!(read.functions.is_empty() && read.constants.is_empty() && read.records.is_empty());
    assert_eq!(encode_version_1(&[], &[], &[]), row_c_1());
}

#[test]
fn rows_b_e_and_g_are_answered_as_in_version_3() {
    assert_eq!(check(&row_c_1()[..15]), refusal(1, 0));
    assert_eq!(check(&[row_c_1(), vec![0]].concat()), refusal(9, 16));
    assert_eq!(check(&with(row_c_1(), 4, 1)), refusal(4, 16));
}

#[test]
fn row_f_is_4_at_the_missing_record() {
    assert_eq!(check(&with(row_c_1(), 12, 1)), refusal(4, 16));
    assert_eq!(check(&with(row_c_1(), 15, 0xFF)), refusal(4, 16));
}

#[test]
fn row_h_is_accepted_and_read() {
    assert_eq!(row_h_1().len(), 112);
    assert_eq!(check(&row_h_1()), Ok(()));
    let section = read(&row_h_1()).unwrap();
    assert_eq!(section.version, Version::One);
    assert_eq!(section.functions, [function(0x1000, 24, 0)]);
    let expected = Record {
        first: 32,
        length: 80,
        address: 0,
        ..row_h_record()
    };
    assert_eq!(section.records, [expected]);
}

#[test]
fn row_h_is_encoded() {
    let records = [statepoint(0x20, &[(rsp(8), rsp(8)), (rsp(8), rsp(16))])];
    let written = encode_version_1(&[function(0x1000, 24, 9)], &[], &records);
    assert_eq!(written, row_h_1(), "the record count is left out");
}

/// Two functions, a constant and two records with live-outs, by hand.
fn by_hand() -> Vec<u8> {
    hex("01 00 00 00  02 00 00 00  01 00 00 00  02 00 00 00
         00 20 00 00 00 00 00 00  FF FF FF FF FF FF FF FF
         FF FF FF FF FF FF FF FF  10 00 00 00 00 00 00 00
         EF CD AB 89 67 45 23 01
         2A 00 00 00 00 00 00 00  04 00 00 80  00 00  01 00
         05 FF 11 22 00 00 00 00
         00 00  02 00
         07 00 00 08
         FF FF 00 FF
         00 00 00 00
         2B 00 00 00 00 00 00 00  FF FF FF FF  00 00  02 00
         02 00 06 00 F8 FF FF FF
         01 10 FF FF 01 00 00 00
         00 00  01 00
         03 00 00 10")
}

#[test]
fn a_section_with_all_parts_is_read_as_written_by_hand() {
    let section = read(&by_hand()).unwrap();
    assert_eq!(
        section.functions,
        [function(0x2000, u64::MAX, 0), function(u64::MAX, 16, 0)]
    );
    assert_eq!(section.constants, [0x0123_4567_89AB_CDEF]);
    let [one, two] = &section.records[..] else {
        panic!("{section:?}");
    };
    assert_eq!((one.id, one.offset), (42, 0x8000_0004));
    assert_eq!((one.first, one.length), (56, 40));
    assert_eq!(one.locations, [location(5, 255, 0x2211, 0)]);
    assert_eq!(one.live_outs, [live_out(7, 8), live_out(0xFFFF, 0xFF)]);
    assert_eq!((two.id, two.offset), (43, u32::MAX));
    assert_eq!((two.first, two.length), (96, 40));
    assert_eq!(
        two.locations,
        [location(2, 0, 6, -8), location(1, 16, 0xFFFF, 1)]
    );
    assert_eq!(two.live_outs, [live_out(3, 16)]);
}

/// No padding after the locations, whatever their number; that after the
/// live-outs as in version 3.
#[test]
fn locations_have_no_padding() {
    for num_locations in 0..5 {
        for (num_live_outs, rest) in [8, 8, 16, 16, 24].into_iter().enumerate() {
            let live_outs = vec![live_out(3, 8); num_live_outs];
            let records = [record(0, vec![rsp(0); num_locations], live_outs)];
            let section = encode_version_1(&[], &[], &records);
            assert_eq!(section.len(), 16 + 16 + 8 * num_locations + rest);
            let length = 16 + 8 * num_locations + rest;
            assert_eq!(read(&section).unwrap().records[0].length, length);
        }
    }
}

/// Every byte of a location but the kind may hold any number.
#[test]
fn each_required_zero_is_3_in_its_own_place() {
    let zeros = [1, 2, 3, 44, 45, 104, 105, 108, 109, 110, 111];
    for at in 0..112 {
        let checked = check(&with(row_h_1(), at, 0x80));
        if zeros.contains(&at) {
            assert_eq!(checked, refusal(3, at as u64));
        } else {
            assert!(!matches!(checked, Err(Refusal { number: 3, .. })), "{at}");
        }
    }
    assert_eq!(check(&with(by_hand(), 86, 1)), refusal(3, 86), "a live-out");
}

#[test]
fn the_second_byte_of_a_location_may_hold_any_number_and_is_the_size() {
    for size in 0..=255 {
        let section = with(row_h_1(), 97, size);
        let read = read(&section).unwrap();
        assert_eq!(read.records[0].locations[6].size, u16::from(size));
    }
}

#[test]
fn refusals_3_6_and_7_are_judged_from_left_to_right() {
    let mut section = with(row_h_1(), 96, 5);
    section[108] = 1;
    section[104] = 1;
    assert_eq!(check(&section), refusal(7, 96), "before the live-outs");
    for (at, byte, number) in [(88, 0, 6), (80, 5, 7), (72, 6, 6), (45, 1, 3), (44, 1, 3)] {
        section[at] = byte;
        assert_eq!(check(&section), refusal(number, at as u64));
    }
}

#[test]
fn refusal_7_is_for_an_index_that_is_negative_or_not_in_the_pool() {
    let index = |offset| {
        let records = [record(0, vec![rsp(0), location(5, 8, 0, offset)], vec![])];
        check(&encode_version_1(
            &[function(0, 0, 0)],
            &[1, 2, 3],
            &records,
        ))
    };
    assert_eq!(index(0), Ok(()));
    assert_eq!(index(2), Ok(()));
    for offset in [3, i32::MAX, -1, i32::MIN] {
        assert_eq!(index(offset), refusal(7, 16 + 16 + 24 + 16 + 8));
    }
}

#[test]
fn refusal_5_is_not_given() {
    let record = record(0, vec![], vec![]);
    let records = |count: usize| vec![record.clone(); count];
    for num_functions in 0..3 {
        for num_records in 0..3 {
            let functions = vec![function(0x1000, 8, 77); num_functions];
            let section = encode_version_1(&functions, &[], &records(num_records));
            assert_eq!(check(&section), Ok(()));
            let end = section.len() as u64;
            let more = with(section.clone(), 12, num_records as u8 + 1);
            assert_eq!(check(&more), refusal(4, end));
            if num_records > 0 {
                let fewer = with(section, 12, num_records as u8 - 1);
                assert_eq!(check(&fewer), refusal(9, end - 24));
            }
        }
    }
}

#[test]
fn refusal_8_is_not_given() {
    let functions = [function(u64::MAX, 8, 0)];
    let section = encode_version_1(&functions, &[], &[record(u32::MAX, vec![], vec![])]);
    assert_eq!(check(&section), Ok(()));
}

#[test]
fn refusal_4_is_at_the_first_part_not_inside() {
    let functions = [function(0, 0, 0), function(1, 0, 0)];
    let section = encode_version_1(&functions, &[5, 6], &[record(0, vec![], vec![])]);
    for (length, place) in [
        (16, 16),
        (31, 16),
        (32, 32),
        (47, 32),
        (48, 48),
        (55, 48),
        (56, 56),
        (63, 56),
        (64, 64),
        (87, 64),
    ] {
        assert_eq!(check(&section[..length]), refusal(4, place), "{length}");
    }
    assert_eq!(check(&section[..88]), Ok(()));
    for length in 32..112 {
        assert_eq!(check(&row_h_1()[..length]), refusal(4, 32), "{length}");
    }
}

#[test]
fn a_cut_record_is_4_before_its_bytes() {
    let section = with(with(row_h_1(), 44, 1), 48, 9);
    assert_eq!(check(&section[..111]), refusal(4, 32));
    assert_eq!(check(&section), refusal(3, 44));
}

#[test]
fn the_bytes_of_one_version_are_another_section_in_the_other() {
    // The record's ID is the count, and it has no locations: its offset, at 48,
    // stands where two bytes have to be zero.
    assert_eq!(check(&with(row_h(), 0, 1)), refusal(3, 48));
    // The function's record count is the record's ID, 7.
    assert_eq!(check(&with(row_h_1(), 0, 3)), refusal(5, 12));
}

#[test]
fn refusal_1_is_for_lengths_outside_16_to_16777216() {
    let mut section = encode_version_1(&vec![function(1, 2, 0); 1_048_575], &[], &[]);
    assert_eq!(section.len(), 16_777_216);
    assert_eq!(check(&section), Ok(()));
    section.push(0);
    assert_eq!(check(&section), refusal(1, 0));
}
