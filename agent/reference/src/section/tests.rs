//! The worked table's rows A to H, and each refusal from 1 to 9.

use super::*;
use crate::fixtures::*;

#[test]
fn rows_a_and_b_are_too_short() {
    assert_eq!(check(&[]), refusal(1, 0));
    assert_eq!(check(&[0; 15]), refusal(1, 0));
    assert_eq!(check(&row_c()[..15]), refusal(1, 0));
}

#[test]
fn row_c_is_accepted_and_empty() {
    assert_eq!(check(&row_c()), Ok(()));
    let empty = Section {
        version: Version::Three,
        functions: vec![],
        constants: vec![],
        records: vec![],
    };
    assert_eq!(read(&row_c()), Ok(empty));
    assert_eq!(encode(&[], &[], &[]), row_c());
}

#[test]
fn row_d_has_a_version_that_is_neither_1_nor_3() {
    assert_eq!(check(&with(row_c(), 0, 2)), refusal(2, 0));
    for version in (0..=255).filter(|version| ![1, 3].contains(version)) {
        assert_eq!(check(&with(row_c(), 0, version)), refusal(2, 0));
    }
}

#[test]
fn row_e_has_a_byte_after_the_last_record() {
    let mut section = row_c();
    section.push(0);
    assert_eq!(check(&section), refusal(9, 16));
}

#[test]
fn row_f_counts_a_record_that_no_function_has() {
    assert_eq!(check(&with(row_c(), 12, 1)), refusal(5, 12));
}

#[test]
fn row_g_counts_a_function_that_is_not_there() {
    assert_eq!(check(&with(row_c(), 4, 1)), refusal(4, 16));
}

#[test]
fn row_h_is_accepted_and_read() {
    assert_eq!(row_h().len(), 152);
    assert_eq!(check(&row_h()), Ok(()));
    let section = read(&row_h()).unwrap();
    assert_eq!(section.functions, [function(0x1000, 24, 1)]);
    assert_eq!(section.constants, []);
    assert_eq!(section.records, [row_h_record()]);
}

#[test]
fn row_h_is_encoded() {
    let records = [statepoint(0x20, &[(rsp(8), rsp(8)), (rsp(8), rsp(16))])];
    assert_eq!(encode(&[function(0x1000, 24, 1)], &[], &records), row_h());
}

#[test]
fn refusal_1_is_for_lengths_outside_16_to_16777216() {
    let mut section = with(row_c(), 8, 0xFE);
    section[9..11].copy_from_slice(&[0xFF, 0x1F]);
    section.resize(16_777_216, 0xAA);
    assert_eq!(check(&section), Ok(()), "2,097,150 constants");
    section.push(0);
    assert_eq!(check(&section), refusal(1, 0));
    section[0] = 9;
    assert_eq!(check(&section), refusal(1, 0));
}

#[test]
fn refusal_2_comes_before_3_in_the_header() {
    assert_eq!(check(&with(with(row_c(), 0, 2), 1, 1)), refusal(2, 0));
    assert_eq!(check(&with(row_c(), 1, 1)), refusal(3, 1));
    assert_eq!(check(&with(row_c(), 3, 0x80)), refusal(3, 3));
}

#[test]
fn refusal_3_in_the_header_comes_before_4() {
    assert_eq!(check(&with(with(row_c(), 4, 1), 2, 1)), refusal(3, 2));
}

#[test]
fn refusal_4_is_at_the_first_function_or_constant_not_inside() {
    let section = encode(&[function(0, 0, 0), function(1, 0, 0)], &[5, 6], &[]);
    assert_eq!(section.len(), 80);
    assert_eq!(check(&section), Ok(()));
    assert_eq!(check(&section[..39]), refusal(4, 16));
    assert_eq!(check(&section[..40]), refusal(4, 40));
    assert_eq!(check(&section[..63]), refusal(4, 40));
    assert_eq!(check(&section[..64]), refusal(4, 64));
    assert_eq!(check(&section[..71]), refusal(4, 64));
    assert_eq!(check(&section[..79]), refusal(4, 72));
    let many = with(with(section, 7, 0xFF), 11, 0xFF);
    assert_eq!(
        check(&many),
        refusal(4, 64),
        "functions to the end, and none at 64"
    );
}

#[test]
fn refusal_5_is_for_counts_that_differ_from_num_records() {
    assert_eq!(check(&with(row_h(), 12, 2)), refusal(5, 12));
    assert_eq!(check(&with(row_h(), 12, 0)), refusal(5, 12));
    assert_eq!(check(&with(row_h(), 32, 2)), refusal(5, 12));
    assert_eq!(check(&with(row_h(), 39, 1)), refusal(5, 12));
}

#[test]
fn refusal_6_is_at_the_kind_byte() {
    for kind in (0..=255).filter(|kind| !(1..=5).contains(kind)) {
        assert_eq!(check(&with(row_h(), 80, kind)), refusal(6, 80));
    }
    for kind in 1..=4 {
        assert_eq!(check(&with(row_h(), 80, kind)), Ok(()));
    }
}

#[test]
fn refusal_7_is_at_the_locations_first_byte() {
    assert_eq!(
        check(&with(row_h(), 80, 5)),
        refusal(7, 80),
        "no constants at all"
    );
    let index = |offset| {
        one_function(
            24,
            &[1, 2, 3],
            &[record(0, vec![location(5, 8, 0, offset)], vec![])],
        )
    };
    assert_eq!(check(&index(0)), Ok(()));
    assert_eq!(check(&index(2)), Ok(()));
    assert_eq!(check(&index(3)), refusal(7, 16 + 24 + 24 + 16));
    assert_eq!(check(&index(-1)), refusal(7, 16 + 24 + 24 + 16));
}

#[test]
fn refusal_8_is_at_the_records_first_byte_and_before_its_bytes() {
    let functions = [function(u64::MAX - 0x1F, 24, 1)];
    let mut section = encode(&functions, &[], &[record(0x20, vec![small(0)], vec![])]);
    assert_eq!(check(&section), refusal(8, 40));
    section[52] = 1;
    section[56] = 9;
    assert_eq!(check(&section), refusal(8, 40));
}

#[test]
fn refusal_9_comes_after_every_fault_of_a_record() {
    let mut section = row_h();
    section.extend([0; 3]);
    assert_eq!(check(&section), refusal(9, 152));
    assert_eq!(check(&with(section, 151, 1)), refusal(3, 151));
}

#[test]
fn bytes_of_a_record_are_judged_from_left_to_right() {
    let mut section = row_h();
    for (at, byte, number) in [
        (148, 1, 3),
        (145, 1, 3),
        (140, 1, 3),
        (116, 7, 6),
        (75, 1, 3),
        (68, 0, 6),
        (53, 1, 3),
    ] {
        section[at] = byte;
        assert_eq!(check(&section), refusal(number, at as u64));
    }
}

#[test]
fn padding_after_the_locations_is_from_num_locations() {
    // The slip: taking the padding after the locations from NumLiveOuts.
    let lengths = [[24, 24, 32], [40, 40, 48], [48, 48, 56], [64, 64, 72]];
    for (num_locations, row) in lengths.into_iter().enumerate() {
        for (num_live_outs, length) in row.into_iter().enumerate() {
            let live_outs = vec![live_out(3, 8); num_live_outs];
            let section =
                one_function(8, &[], &[record(0, vec![rsp(0); num_locations], live_outs)]);
            assert_eq!(section.len(), 40 + length);
            assert_eq!(read(&section).unwrap().records[0].length, length);
        }
    }
}

#[test]
fn a_section_with_live_outs_is_read_as_written_by_hand() {
    let section = hex("03 00 00 00  01 00 00 00  01 00 00 00  01 00 00 00
         00 20 00 00 00 00 00 00  FF FF FF FF FF FF FF FF  01 00 00 00 00 00 00 00
         EF CD AB 89 67 45 23 01
         2A 00 00 00 00 00 00 00  04 00 00 80  00 00  01 00
         05 00 10 00 11 00 00 00 00 00 00 00
         00 00 00 00
         00 00  02 00
         07 00 00 08
         FF FF 00 FF
         00 00 00 00");
    let expected = Record {
        id: 42,
        offset: 0x8000_0004,
        locations: vec![location(5, 16, 17, 0)],
        live_outs: vec![live_out(7, 8), live_out(0xFFFF, 0xFF)],
        first: 48,
        length: 48,
        function: 0,
        address: 0x8000_2004,
    };
    let read = read(&section).unwrap();
    assert_eq!(read.functions, [function(0x2000, u64::MAX, 1)]);
    assert_eq!(read.constants, [0x0123_4567_89AB_CDEF]);
    assert_eq!(read.records, [expected]);
    assert_eq!(check(&with(section.clone(), 86, 1)), refusal(3, 86));
    assert_eq!(check(&with(section, 90, 0x40)), refusal(3, 90));
}

#[test]
fn records_belong_to_functions_in_order() {
    let functions = [
        function(0x10, 0, 2),
        function(0x20, 0, 0),
        function(0x30, 0, 1),
    ];
    let records = [
        record(1, vec![], vec![]),
        record(2, vec![], vec![]),
        record(3, vec![], vec![]),
    ];
    let section = read(&encode(&functions, &[], &records)).unwrap();
    let owners: Vec<usize> = section
        .records
        .iter()
        .map(|record| record.function)
        .collect();
    let addresses: Vec<u64> = section
        .records
        .iter()
        .map(|record| record.address)
        .collect();
    let places: Vec<usize> = section.records.iter().map(|record| record.first).collect();
    assert_eq!(owners, [0, 0, 2]);
    assert_eq!(addresses, [0x11, 0x12, 0x33]);
    assert_eq!(places, [88, 112, 136]);
}

#[test]
fn a_section_that_is_read_encodes_to_the_same_bytes() {
    let mut random = Random(1);
    for _ in 0..2_000 {
        let bytes = random.section();
        let section = read(&bytes).unwrap();
        let records: Vec<RecordData> = section.records.iter().map(RecordData::from).collect();
        let written = write(
            section.version,
            &section.functions,
            &section.constants,
            &records,
        );
        assert_eq!(written, bytes);
    }
}

/// Walks the records at the front of `rest` byte by byte, and sees that each
/// is found clean exactly if it has no fault. Gives the first fault.
fn walk<const L: usize>(section: &[u8], mut rest: &[u8], num_constants: usize) -> Option<Refusal>
where
    [u8; L]: LocationEntry,
{
    let num_constants = num_constants as i64;
    let mut fault = None;
    while let Some((parts, after)) = Parts::<L>::split(rest) {
        let at = section.len() - rest.len();
        let found = first_fault(&parts, at, num_constants);
        assert_eq!(is_clean(&parts, num_constants), found.is_none());
        fault = fault.or(found);
        rest = after;
    }
    fault
}

#[test]
fn the_whole_record_check_agrees_with_the_walk_byte_by_byte() {
    let mut random = Random(2);
    for _ in 0..40_000 {
        let mut section = random.section();
        for _ in 0..random.below(4) {
            let at = random.below(section.len() as u64) as usize;
            section[at] = random.next() as u8;
        }
        let checked = check(&section);
        assert_eq!(read(&section).err(), checked.err());
        let Ok((version, header, rest)) = check_header(&section) else {
            continue;
        };
        let fault = match version {
            Version::One => check_tables_1(header, rest)
                .map(|tables| walk::<LOCATION_1>(&section, tables.records, tables.constants.len())),
            Version::Three => check_tables(header, rest)
                .map(|tables| walk::<LOCATION>(&section, tables.records, tables.constants.len())),
        };
        if checked.is_ok() {
            assert_eq!(fault, Ok(None));
        }
    }
}
