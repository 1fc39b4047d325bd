//! Questions on version 1: by function number and offset, 27, and those that
//! are asked as before.

use super::{by_address, by_function, live_out, location, record, Found};
use crate::fixtures::{self as given, function, refusal, row_c, row_h, row_h_1, with};
use crate::section::encode_version_1;

/// Two functions, and records at the offsets 8, 0x10, 8 and 2^32 - 1.
fn section() -> Vec<u8> {
    let functions = [function(0x100, 8, 0), function(0x200, 8, 0)];
    let locations = vec![given::location(5, 255, 0, 1), given::location(4, 3, 7, -2)];
    let records = [
        given::record(8, vec![], vec![]),
        given::record(0x10, locations, vec![given::live_out(3, 8)]),
        given::record(8, vec![], vec![]),
        given::record(u32::MAX, vec![], vec![]),
    ];
    encode_version_1(&functions, &[10, 20], &records)
}

fn found(record: u64, function: u64, sharing: u64) -> Found {
    Found {
        record,
        function,
        sharing,
    }
}

#[test]
fn by_function_finds_the_first_record_at_the_offset_and_counts_them() {
    assert_eq!(by_function(&row_h_1(), 0, 0x20), Ok(found(0, 0, 1)));
    assert_eq!(by_function(&section(), 0, 0x10), Ok(found(1, 0, 1)));
    assert_eq!(by_function(&section(), 0, 8), Ok(found(0, 0, 2)));
    assert_eq!(
        by_function(&section(), 0, u32::MAX.into()),
        Ok(found(3, 0, 1))
    );
}

/// No owner is known, so that every function finds the same record, and the
/// answer has the function that was asked for.
#[test]
fn every_function_finds_the_same_record() {
    assert_eq!(by_function(&section(), 1, 8), Ok(found(0, 1, 2)));
    assert_eq!(by_function(&section(), 1, 0x10), Ok(found(1, 1, 1)));
}

#[test]
fn by_function_gives_10_if_there_is_no_such_function_or_record() {
    for function in [2, 3, 1 << 32, u64::MAX] {
        assert_eq!(by_function(&section(), function, 8), refusal(10, 0));
    }
    for offset in [0, 7, 9, 0x108, u64::MAX] {
        assert_eq!(by_function(&section(), 0, offset), refusal(10, 0));
    }
    assert_eq!(by_function(&with(row_c(), 0, 1), 0, 0), refusal(10, 0));
}

/// Neither number is cut to 32 bits.
#[test]
fn numbers_of_64_bits_are_not_cut() {
    assert_eq!(by_function(&section(), 0, (1 << 32) + 8), refusal(10, 0));
    assert_eq!(by_function(&section(), 1 << 32, 8), refusal(10, 0));
    assert_eq!(by_function(&section(), (1 << 32) + 1, 8), refusal(10, 0));
    assert_eq!(by_function(&section(), 0, u64::MAX), refusal(10, 0));
}

#[test]
fn each_of_the_two_questions_is_27_on_the_other_version() {
    for address in [0, 8, 0x20, 0x108, 0x1020] {
        assert_eq!(by_address(&row_h_1(), address), refusal(27, 0));
        assert_eq!(by_address(&section(), address), refusal(27, 0));
    }
    for (function, offset) in [(0, 0x20), (0, 0x1020), (9, 0x20), (u64::MAX, 0)] {
        assert_eq!(by_function(&row_h(), function, offset), refusal(27, 0));
    }
    assert_eq!(by_function(&row_c(), 0, 0), refusal(27, 0));
    assert_eq!(by_address(&with(row_c(), 0, 1), 0), refusal(27, 0));
}

#[test]
fn the_sections_own_refusal_comes_before_27_and_10() {
    let damaged = with(row_h_1(), 96, 9);
    assert_eq!(by_address(&damaged, 5), refusal(6, 96));
    assert_eq!(by_function(&damaged, 5, 5), refusal(6, 96));
    assert_eq!(by_function(&with(row_h(), 128, 9), 0, 0), refusal(6, 128));
    assert_eq!(by_function(&with(row_h(), 0, 2), 0, 0), refusal(2, 0));
}

#[test]
fn records_are_numbered_in_section_order() {
    let section = section();
    let starts = 16 + 2 * 16 + 2 * 8;
    assert_eq!(record(&section, 0), Ok(&section[starts..starts + 24]));
    // 16, two locations, 4 and one live-out.
    assert_eq!(record(&section, 1), Ok(&section[starts + 24..starts + 64]));
    assert_eq!(record(&section, 3), Ok(&section[section.len() - 24..]));
    assert_eq!(record(&section, 4), refusal(10, 0));
    assert_eq!(record(&row_h_1(), 0), Ok(&row_h_1()[32..]));
}

#[test]
fn locations_and_live_outs_are_asked_for_as_in_version_3() {
    let answer = |number| {
        let it = location(&section(), 1, number).unwrap();
        (it.kind, it.size, it.register, it.offset, it.constant)
    };
    assert_eq!(answer(0), (5, 255, 0, 1, 20));
    assert_eq!(answer(1), (4, 3, 7, -2, u64::MAX - 1));
    assert_eq!(location(&section(), 1, 2), refusal(11, 0));
    assert_eq!(location(&section(), 4, 2), refusal(10, 0));
    assert_eq!(live_out(&section(), 1, 0), Ok(given::live_out(3, 8)));
    assert_eq!(live_out(&section(), 1, 1), refusal(11, 0));
}
