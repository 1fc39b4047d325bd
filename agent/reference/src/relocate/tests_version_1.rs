//! Frames of version 1: the function that is handed in, the offset in place of
//! the address, and sizes of 0.

use super::*;
use crate::fixtures::*;
use crate::section::{encode_version_1, RecordData};

/// The refusal of a changed row I.
fn refused(change: impl Fn(&mut Move)) -> (u64, u64) {
    let mut row = Move::row_i_1();
    change(&mut row);
    let refusal = row.run().unwrap_err();
    (refusal.number, refusal.place)
}

/// Functions of these stack sizes, and these records.
fn section(sizes: &[u64], records: &[RecordData]) -> Vec<u8> {
    let functions: Vec<Function> = sizes
        .iter()
        .map(|size| function(0x1000, *size, 0))
        .collect();
    encode_version_1(&functions, &[0], records)
}

/// Row H's statepoint.
fn row_h_record() -> RecordData {
    statepoint(0x20, &[(rsp(8), rsp(8)), (rsp(8), rsp(16))])
}

#[test]
fn row_i() {
    let mut row = Move::row_i_1();
    assert_eq!(row.run(), Ok(2));
    assert_eq!((row.slot(8), row.slot(16)), (0x90000, 0x94E20));
    assert_eq!(row.image[..8], [0xEE; 8]);
}

#[test]
fn the_address_holds_the_offset() {
    assert_eq!(refused(|row| row.frame.address = 0x1020), (10, 0));
    assert_eq!(refused(|row| row.frame.address = 0x21), (10, 0));
    assert_eq!(refused(|row| row.frame.address = (1 << 32) + 0x20), (10, 0));
}

#[test]
fn a_function_that_is_not_there_is_10() {
    for function in [1, 2, 1 << 32, u64::MAX] {
        assert_eq!(refused(|row| row.frame.function = function), (10, 0));
    }
    assert_eq!(
        refused(|row| row.section = section(&[], &[row_h_record()])),
        (10, 0)
    );
}

#[test]
fn a_function_that_is_not_there_comes_before_two_records() {
    let two = [row_h_record(), row_h_record()];
    assert_eq!(refused(|row| row.section = section(&[24], &two)), (15, 0));
    assert_eq!(
        refused(|row| {
            row.section = section(&[24], &two);
            row.frame.function = 1;
        }),
        (10, 0)
    );
}

#[test]
fn refusal_15_counts_the_records_at_the_offset() {
    let other = record(0x20, vec![], vec![]);
    let records = [row_h_record(), other];
    for function in [0, 1] {
        assert_eq!(
            refused(|row| {
                row.section = section(&[24, 24], &records);
                row.frame.function = function;
            }),
            (15, 0),
            "one offset used in two functions is 15 for both"
        );
    }
}

/// Every function number finds the one record, and the extent is that
/// function's.
#[test]
fn the_stack_size_is_the_named_functions() {
    for (function, expected) in [
        (0, Ok(2)),
        (1, refusal(19, 1)),
        (2, refusal(16, 0)),
        (3, refusal(16, 0)),
        (4, refusal(10, 0)),
    ] {
        let mut row = Move::row_i_1();
        row.section = section(&[24, 16, u64::MAX, 25], &[row_h_record()]);
        row.frame.function = function;
        assert_eq!(row.run(), expected, "{function}");
    }
}

#[test]
fn the_function_is_not_read_in_version_3() {
    for function in [0, 1, 1 << 32, u64::MAX] {
        let mut row = Move::row_i();
        row.frame.function = function;
        assert_eq!(row.run(), Ok(2));
        assert_eq!(row.extent(), Some((0x7000, 0x7018)));
    }
}

/// Each location of a pair needs 0 or 8 by itself, and the slot has 8 bytes
/// either way.
#[test]
fn a_pair_needs_size_0_or_8() {
    for base in 0..=255 {
        for derived in [0, 1, 4, 7, 8, 9, 16, 255] {
            let pair = (location(3, base, 7, 8), location(3, derived, 7, 16));
            let mut row = Move::row_i_1();
            row.section = section(&[24], &[statepoint(0x20, &[(rsp(8), rsp(8)), pair])]);
            let fits = [0, 8].contains(&base) && [0, 8].contains(&derived);
            let expected = if fits { Ok(2) } else { refusal(18, 1) };
            assert_eq!(row.run(), expected, "{base} {derived}");
            if fits {
                assert_eq!((row.slot(8), row.slot(16)), (0x90000, 0x94E20));
            }
        }
    }
}

#[test]
fn size_0_is_18_in_version_3() {
    let pair = (location(3, 0, 7, 8), rsp(16));
    assert_eq!(Move::of_pairs(3, &[pair]).run(), refusal(18, 0));
}

#[test]
fn null_pairs_may_have_any_size() {
    let null = (location(4, 77, 9, 0), location(5, 255, 1, 0));
    let mut row = Move::row_i_1();
    row.section = section(&[24], &[statepoint(0x20, &[null])]);
    assert_eq!(row.run(), Ok(1));
}

#[test]
fn a_frame_whose_function_is_not_there_has_no_extent() {
    let row = Move::row_i_1();
    assert_eq!(row.extent(), Some((0x7000, 0x7018)));
    let of = |section: &[u8], address, function| {
        let frame = Frame { address, function };
        extent(section, row.machine, frame, &row.registers)
    };
    assert_eq!(of(&row.section, 0x20, 1), None);
    assert_eq!(of(&row.section, 0x1020, 0), None);
    let unknown = section(&[24, u64::MAX], &[row_h_record()]);
    assert_eq!(of(&unknown, 0x20, 0), Some((0x7000, 0x7018)));
    assert_eq!(of(&unknown, 0x20, 1), None);
    let twice = section(&[24], &[row_h_record(), row_h_record()]);
    assert_eq!(of(&twice, 0x20, 0), None);
}

#[test]
fn the_order_is_as_in_version_3() {
    let long = vec![0; 1_048_577];
    assert_eq!(refused(|row| row.section[96] = 9), (6, 96));
    assert_eq!(
        refused(|row| {
            row.image = long.clone();
            row.new_starts.clear();
            row.frame.function = 1;
        }),
        (13, 0)
    );
    assert_eq!(
        refused(|row| {
            row.new_starts.clear();
            row.frame.function = 1;
        }),
        (14, 0)
    );
    let alone = |size, record: &RecordData| {
        refused(|row| row.section = section(&[size], std::slice::from_ref(record)))
    };
    let plain = record(0x20, vec![], vec![]);
    assert_eq!(alone(u64::MAX, &plain), (12, 0));
    let many = statepoint(0x20, &vec![(small(1), rsp(0)); 257]);
    assert_eq!(alone(25, &many), (16, 0));
    assert_eq!(alone(24, &many), (17, 0));
}

#[test]
fn beside_the_rows_it_is_as_in_version_3() {
    assert_eq!(refused(|row| row.set(8, 0x50008)), (21, 0));
    assert_eq!(refused(|row| row.section[100] = 17), (19, 1));
    assert_eq!(refused(|row| row.section[100] = 12), (20, 1));
}
