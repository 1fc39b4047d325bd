//! The open points of the section, each as it is read here.

use super::*;
use crate::fixtures::*;

#[test]
fn a_record_cut_anywhere_is_4_at_its_first_byte() {
    for length in 40..152 {
        assert_eq!(check(&row_h()[..length]), refusal(4, 40), "{length}");
    }
    let live_outs = vec![live_out(1, 8), live_out(2, 8)];
    let section = one_function(
        8,
        &[],
        &[record(0, vec![], vec![]), record(0, vec![], live_outs)],
    );
    for length in 64..section.len() {
        assert_eq!(check(&section[..length]), refusal(4, 64), "{length}");
    }
}

#[test]
fn a_cut_record_is_4_before_8_and_before_its_bytes() {
    let mut section = row_h();
    section[16..24].fill(0xFF);
    section[52] = 1;
    section[56] = 9;
    section.pop();
    assert_eq!(check(&section), refusal(4, 40));
    section.push(0);
    assert_eq!(check(&section), refusal(8, 40));
    section[16..24].fill(0);
    assert_eq!(check(&section), refusal(3, 52));
    section[52] = 0;
    assert_eq!(check(&section), refusal(6, 56));
}

#[test]
fn only_the_two_counts_decide_whether_a_record_is_cut() {
    let section = with(row_h(), 55, 0xFF);
    assert_eq!(check(&section), refusal(4, 40), "NumLocations 0xFF07");
    let section = with(row_h(), 146, 1);
    assert_eq!(
        check(&section),
        Ok(()),
        "one live-out takes the place of the padding"
    );
    let section = with(row_h(), 146, 2);
    assert_eq!(check(&section), refusal(4, 40));
}

#[test]
fn the_first_byte_of_4_may_be_the_sections_length() {
    assert_eq!(check(&row_h()[..40]), refusal(4, 40));
    assert_eq!(check(&with(row_c(), 8, 1)), refusal(4, 16));
}

#[test]
fn refusal_5_comes_after_all_tables_and_before_any_record() {
    assert_eq!(check(&with(row_h(), 12, 2)[..60]), refusal(5, 12));
    assert_eq!(check(&with(with(row_c(), 12, 1), 8, 1)), refusal(4, 16));
    let section = encode(
        &[function(u64::MAX, 0, 2)],
        &[],
        &[record(9, vec![], vec![])],
    );
    assert_eq!(check(&section), refusal(5, 12));
}

#[test]
fn record_counts_are_added_exactly() {
    let half = function(0, 0, 1 << 63);
    assert_eq!(
        check(&encode(&[half.clone(), half.clone()], &[], &[])),
        refusal(5, 12)
    );
    let functions = [half.clone(), half, function(0, 0, 1)];
    assert_eq!(
        check(&encode(&functions, &[], &[record(0, vec![], vec![])])),
        refusal(5, 12)
    );
    let counts = [function(0, 0, 1 << 32), function(0, 0, 1)];
    assert_eq!(
        check(&encode(&counts, &[], &[record(0, vec![], vec![])])),
        refusal(5, 12)
    );
}

#[test]
fn a_record_at_2_64_minus_1_is_accepted() {
    let last = [function(u64::MAX - 0x20, 0, 1)];
    let section = encode(&last, &[], &[record(0x20, vec![], vec![])]);
    assert_eq!(check(&section), Ok(()));
    assert_eq!(read(&section).unwrap().records[0].address, u64::MAX);
    let past = encode(&last, &[], &[record(0x21, vec![], vec![])]);
    assert_eq!(check(&past), refusal(8, 40));
}

#[test]
fn a_function_without_records_never_gives_8() {
    assert_eq!(
        check(&encode(&[function(u64::MAX, 8, 0)], &[], &[])),
        Ok(())
    );
}

#[test]
fn each_required_zero_is_3_in_its_own_place() {
    let mut zeros = vec![1, 2, 3, 52, 53];
    for location in [56, 68, 80, 92, 104, 116, 128] {
        zeros.extend([location + 1, location + 6, location + 7]);
    }
    zeros.extend([140, 141, 142, 143, 144, 145, 148, 149, 150, 151]);
    for at in 0..152 {
        let checked = check(&with(row_h(), at, 0x80));
        if zeros.contains(&at) {
            assert_eq!(checked, refusal(3, at as u64));
        } else {
            assert!(!matches!(checked, Err(Refusal { number: 3, .. })), "{at}");
        }
    }
}

#[test]
fn the_first_of_several_nonzero_bytes_is_the_place() {
    let mut section = row_h();
    for at in [
        151, 149, 145, 144, 143, 141, 135, 134, 129, 75, 74, 69, 53, 52, 3, 1,
    ] {
        section[at] = 1;
        assert_eq!(check(&section), refusal(3, at as u64));
    }
}

#[test]
fn an_entry_that_takes_the_place_of_padding_is_not_padding() {
    let section = with(row_h(), 146, 1);
    for (at, expected) in [
        (148, Ok(())),
        (149, Ok(())),
        (150, refusal(3, 150)),
        (151, Ok(())),
    ] {
        assert_eq!(check(&with(section.clone(), at, 1)), expected);
    }
}

#[test]
fn refusal_7_comes_after_3_in_its_location_and_before_the_padding() {
    let mut section = with(row_h(), 128, 5);
    section[140] = 1;
    assert_eq!(check(&section), refusal(7, 128));
    for zero in [129, 134, 135] {
        assert_eq!(
            check(&with(section.clone(), zero, 1)),
            refusal(3, zero as u64)
        );
    }
}

#[test]
fn refusal_7_comes_before_the_next_location() {
    assert_eq!(check(&with(with(row_h(), 116, 5), 128, 0)), refusal(7, 116));
}

#[test]
fn refusal_6_comes_before_3_in_its_location_and_excludes_7() {
    let section = with(with(row_h(), 128, 6), 129, 1);
    assert_eq!(check(&section), refusal(6, 128));
    assert_eq!(check(&with(row_h(), 128, 6)), refusal(6, 128));
}

#[test]
fn a_negative_offset_is_7_whatever_num_constants_is() {
    let index = |offset: i32| {
        let mut entry = [5, 0, 8, 0, 0, 0, 0, 0, 0, 0, 0, 0];
        entry[8..].copy_from_slice(&offset.to_le_bytes());
        location_fault(&entry, 80, 0xFFFF_FFFF)
    };
    assert_eq!(
        index(i32::MIN),
        Some(Refusal {
            number: 7,
            place: 80
        })
    );
    assert_eq!(
        index(-1),
        Some(Refusal {
            number: 7,
            place: 80
        })
    );
    assert_eq!(index(i32::MAX), None);
}

#[test]
fn places_are_places_in_the_whole_section() {
    let functions = [function(0, 0, 1), function(0, 0, 1)];
    let second = record(0, vec![location(9, 8, 0, 0)], vec![]);
    let section = encode(&functions, &[1], &[record(0, vec![], vec![]), second]);
    assert_eq!(check(&section), refusal(6, 16 + 48 + 8 + 24 + 16));
}

#[test]
fn sizes_and_registers_are_never_tested() {
    for kind in 1..=5 {
        let locations = vec![location(kind, 0xFFFF, 0xFFFF, 0), location(kind, 0, 0, 0)];
        let live_outs = vec![live_out(0xFFFF, 0), live_out(0, 0xFF)];
        let section = one_function(0, &[0], &[record(0, locations, live_outs)]);
        assert_eq!(check(&section), Ok(()));
    }
}
