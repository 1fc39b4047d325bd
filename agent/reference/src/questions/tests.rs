//! Questions that are accepted, and refusals 10 and 11.

use super::{by_address, live_out, location, record, Content, Found};
use crate::fixtures::{self as given, function, rbp, refusal, row_c, row_h, small, with};
use crate::section::{encode, encode_version_1};

/// Two functions whose records meet at one address: 0x110 holds records 1, 2
/// and 4, 0x100 record 0, and 0x118 record 3.
fn shared() -> Vec<u8> {
    let functions = [
        function(0x100, 8, 2),
        function(0x50, 8, 0),
        function(0x108, 8, 3),
    ];
    let locations = vec![
        small(-1),
        given::location(5, 8, 0, 1),
        given::location(1, 4, 17, 9),
        rbp(-8),
        given::location(2, 8, 7, i32::MIN),
    ];
    let records = [
        given::record(0, vec![], vec![]),
        given::record(
            0x10,
            locations,
            vec![given::live_out(3, 8), given::live_out(0xABCD, 0xEF)],
        ),
        given::record(8, vec![small(5)], vec![]),
        given::record(0x10, vec![], vec![]),
        given::record(8, vec![], vec![]),
    ];
    encode(&functions, &[10, 0xFEDC_BA98_7654_3210], &records)
}

#[test]
fn by_address_finds_the_first_record_and_counts_those_that_share_it() {
    assert_eq!(
        by_address(&row_h(), 0x1020),
        Ok(Found {
            record: 0,
            function: 0,
            sharing: 1
        })
    );
    assert_eq!(
        by_address(&shared(), 0x100),
        Ok(Found {
            record: 0,
            function: 0,
            sharing: 1
        })
    );
    assert_eq!(
        by_address(&shared(), 0x118),
        Ok(Found {
            record: 3,
            function: 2,
            sharing: 1
        })
    );
}

#[test]
fn by_address_never_gives_15() {
    assert_eq!(
        by_address(&shared(), 0x110),
        Ok(Found {
            record: 1,
            function: 0,
            sharing: 3
        })
    );
}

#[test]
fn by_address_gives_10_exactly_if_no_record_has_it() {
    for address in [0, 0x1000, 0x101F, 0x1021, 0x20, u64::MAX] {
        assert_eq!(by_address(&row_h(), address), refusal(10, 0));
    }
    assert_eq!(by_address(&row_c(), 0), refusal(10, 0));
    assert_eq!(by_address(&shared(), 0x50), refusal(10, 0));
}

#[test]
fn by_record_number_gives_the_bytes_themselves() {
    let section = row_h();
    let bytes = record(&section, 0).unwrap();
    assert_eq!(bytes, &section[40..152]);
    assert_eq!(bytes.as_ptr(), section[40..].as_ptr());
    let section = shared();
    let starts = 16 + 3 * 24 + 2 * 8;
    assert_eq!(record(&section, 0), Ok(&section[starts..starts + 24]));
    // 16, five locations and their padding, 4, two live-outs and their padding.
    assert_eq!(
        record(&section, 1),
        Ok(&section[starts + 24..starts + 24 + 96])
    );
    assert_eq!(record(&section, 4), Ok(&section[section.len() - 24..]));
}

#[test]
fn by_record_number_gives_10_past_the_last_record() {
    assert_eq!(record(&row_h(), 1), refusal(10, 0));
    assert_eq!(record(&row_h(), u64::MAX), refusal(10, 0));
    assert_eq!(record(&row_c(), 0), refusal(10, 0));
    assert_eq!(record(&shared(), 5), refusal(10, 0));
}

#[test]
fn a_location_has_its_fields_and_no_constant_for_kinds_1_to_3() {
    let answer = |number| location_answer(&shared(), 1, number);
    assert_eq!(answer(2), (1, 4, 17, 9, 0));
    assert_eq!(answer(3), (3, 8, 6, -8, 0));
    assert_eq!(answer(4), (2, 8, 7, i32::MIN, 0));
}

fn location_answer(section: &[u8], record: u64, number: u64) -> (u8, u16, u16, i32, u64) {
    let answer = location(section, record, number).unwrap();
    (
        answer.kind,
        answer.size,
        answer.register,
        answer.offset,
        answer.constant,
    )
}

/// Register for kind 1, memory for kind 3, and none for the others; from the
/// kind alone, whatever size, register and offset are.
#[test]
fn the_content_place_follows_from_the_kind() {
    let places = [
        (1, Content::Register, 1),
        (2, Content::None, 0),
        (3, Content::Memory, 2),
        (4, Content::None, 0),
        (5, Content::None, 0),
    ];
    let shapes = [
        (8, 3, 0),
        (0, 7, 1),
        (16, 99, -1),
        (255, u16::MAX, i32::MAX),
    ];
    for ((kind, content, number), (size, register, offset)) in places
        .into_iter()
        .flat_map(|place| shapes.map(|shape| (place, shape)))
    {
        let offset = if kind == 5 { 0 } else { offset };
        let own = given::location(kind, size, register, offset);
        let records = [given::record(0, vec![small(0), own], vec![])];
        for section in [
            encode(&[function(0, 0, 1)], &[7], &records),
            encode_version_1(&[], &[7], &records),
        ] {
            let answer = location(&section, 0, 1).unwrap();
            assert_eq!((answer.kind, answer.content), (kind, content));
            assert_eq!(answer.content.number(), number);
        }
    }
}

#[test]
fn the_constant_of_kind_4_is_the_offset_modulo_2_64() {
    assert_eq!(location_answer(&shared(), 1, 0), (4, 8, 0, -1, u64::MAX));
    assert_eq!(location_answer(&shared(), 2, 0), (4, 8, 0, 5, 5));
}

#[test]
fn the_offset_of_kind_5_is_the_pool_entrys_number() {
    assert_eq!(
        location_answer(&shared(), 1, 1),
        (5, 8, 0, 1, 0xFEDC_BA98_7654_3210)
    );
}

#[test]
fn a_live_out_has_its_register_and_size() {
    assert_eq!(live_out(&shared(), 1, 0), Ok(given::live_out(3, 8)));
    assert_eq!(live_out(&shared(), 1, 1), Ok(given::live_out(0xABCD, 0xEF)));
}

#[test]
fn refusal_11_is_past_the_last_location_or_live_out() {
    assert_eq!(location(&row_h(), 0, 7), refusal(11, 0));
    assert_eq!(location(&shared(), 0, 0), refusal(11, 0));
    assert_eq!(location(&shared(), 1, 5), refusal(11, 0));
    assert_eq!(live_out(&row_h(), 0, 0), refusal(11, 0));
    assert_eq!(live_out(&shared(), 1, u64::MAX), refusal(11, 0));
}

#[test]
fn refusal_10_is_given_before_11() {
    assert_eq!(location(&row_h(), 1, 99), refusal(10, 0));
    assert_eq!(live_out(&row_h(), 1, 0), refusal(10, 0));
}

#[test]
fn the_sections_own_refusal_comes_first() {
    let damaged = with(row_h(), 128, 9);
    assert_eq!(by_address(&damaged, 5), refusal(6, 128));
    assert_eq!(record(&damaged, 0), refusal(6, 128));
    assert_eq!(location(&damaged, 7, 7), refusal(6, 128));
    assert_eq!(live_out(&damaged, 7, 7), refusal(6, 128));
}
