//! The open points of the flat proposal, each as it is read here.

use super::fixtures::{empty, worked};
use super::*;
use crate::fixtures::{hex, refusal, with};

/// One frame that names five frame registers by an index of 5 and a count of
/// 0. The registers are at 60, their padding of six bytes at 90, the end at 96.
fn five_registers() -> Vec<u8> {
    hex("02 00 00 00  20 00 00 00  20 00 00 00  3C 00 00 00
         60 00 00 00  60 00 00 00  60 00 00 00  00 00 00 00
         00 10 00 00 00 00 00 00  40 00 00 00  18 00 00 00
         00 00  07 00  00 00  05 00  00 00  00 00
         01 00  08 00  08  00
         02 00  10 00  08  00
         03 00  18 00  08  00
         04 00  20 00  08  00
         05 00  28 00  08  00
         00 00 00 00 00 00")
}

/// One frame and one record, without anything else: the frame registers are at
/// 60, the record at 64, its padding at 86, the end at 88.
fn one_record() -> Vec<u8> {
    hex("02 00 00 00  20 00 00 00  20 00 00 00  3C 00 00 00
         40 00 00 00  58 00 00 00  58 00 00 00  00 00 00 00
         F0 FF FF FF FF FF FF FF  40 00 00 00  18 00 00 00
         00 00  07 00  00 00  00 00  01 00  00 00
         00 00 00 00
         07 00 00 00 00 00 00 00  0F 00 00 00  05  00  00 00  00 00  00 00  00 00
         00 00")
}

/// The same with the record twice: the end is at 108, without padding.
fn two_records() -> Vec<u8> {
    hex("02 00 00 00  20 00 00 00  20 00 00 00  3C 00 00 00
         40 00 00 00  6C 00 00 00  6C 00 00 00  00 00 00 00
         F0 FF FF FF FF FF FF FF  40 00 00 00  18 00 00 00
         00 00  07 00  00 00  00 00  02 00  00 00
         00 00 00 00
         07 00 00 00 00 00 00 00  0F 00 00 00  05  00  00 00  00 00  00 00  00 00
         07 00 00 00 00 00 00 00  0F 00 00 00  05  00  00 00  00 00  00 00  00 00")
}

// 1. Header of 28 bytes, then padding to 32.

#[test]
fn the_constants_are_always_at_32() {
    let at_28 = hex("02 00 00 00  1C 00 00 00  1C 00 00 00  1C 00 00 00
                     1C 00 00 00  1C 00 00 00  1C 00 00 00  00 00 00 00");
    let at_40 = hex("02 00 00 00  28 00 00 00  28 00 00 00  28 00 00 00
                     28 00 00 00  28 00 00 00  28 00 00 00  00 00 00 00
                     00 00 00 00 00 00 00 00");
    assert_eq!(check(&at_28), refusal(38, 0));
    assert_eq!(check(&at_40), refusal(38, 0));
    for at in 28..32 {
        assert_eq!(check(&with(empty(), at, 1)), refusal(40, 0));
    }
}

// 2. The earliest aligned place after the array before.

#[test]
fn an_empty_arrays_offset_obeys_too() {
    for at in [4, 8, 12, 16, 20, 24] {
        for offset in [0x1F, 0x21, 0x22, 0x24, 0x28] {
            let section = with(empty(), at, offset);
            assert_eq!(check(&section), refusal(38, 0), "{at}: {offset}");
        }
    }
    // No frame registers: four bytes of padding all the same.
    assert_eq!(check(&one_record()), Ok(()));
    assert_eq!(read(&one_record()).unwrap().frame_registers, []);
    for at in 60..64 {
        assert_eq!(check(&with(one_record(), at, 1)), refusal(40, 0), "{at}");
    }
    let mut unpadded = one_record();
    unpadded.drain(60..64);
    unpadded[16] = 0x3C;
    unpadded[20] = 0x54;
    unpadded[24] = 0x54;
    assert_eq!(check(&unpadded), refusal(38, 0));
}

#[test]
fn an_odd_number_of_records_has_two_bytes_of_padding() {
    assert_eq!(read(&one_record()).unwrap().records.len(), 1);
    for at in [86, 87] {
        assert_eq!(check(&with(one_record(), at, 0x80)), refusal(40, 0));
    }
    let mut unpadded = one_record();
    unpadded.truncate(86);
    unpadded[20] = 0x56;
    unpadded[24] = 0x56;
    assert_eq!(check(&unpadded), refusal(38, 0));
}

#[test]
fn an_even_number_of_records_has_no_padding() {
    assert_eq!(two_records().len(), 108);
    assert_eq!(read(&two_records()).unwrap().records.len(), 2);
    let mut padded = [two_records(), vec![0; 4]].concat();
    padded[20] = 0x70;
    padded[24] = 0x70;
    assert_eq!(check(&padded), refusal(38, 0));
}

// 3. The section ends with the last live-out.

#[test]
fn there_is_no_padding_after_the_last_live_out() {
    // 233 and 229 bytes would be live-outs cut; 240 are three live-outs.
    for length in [237, 238, 239] {
        let section = [worked(), vec![0; length - 236]].concat();
        assert_eq!(check(&section), refusal(38, 0), "{length}");
    }
    let section = [worked(), hex("FF FF 00 FF")].concat();
    assert_eq!(live_out(&section, 2).unwrap().register, 0xFFFF);
}

// 4. The number of frame registers is the greatest index plus count.

#[test]
fn an_empty_register_range_counts_by_its_index() {
    assert_eq!(read(&five_registers()).unwrap().frame_registers.len(), 5);
    let last = frame_register(&five_registers(), 4).unwrap();
    assert_eq!((last.register, last.offset), (5, 40));
    assert_eq!(frame_register(&five_registers(), 5), refusal(11, 0));
}

#[test]
fn a_wrong_register_range_is_38_or_hidden_by_padding() {
    // At 54 the index. Four registers would end at 84 and the records begin
    // at 88, seven would end at 102; six end at 96, where the padding ended.
    assert_eq!(check(&with(five_registers(), 54, 4)), refusal(38, 0));
    assert_eq!(check(&with(five_registers(), 54, 7)), refusal(38, 0));
    let six = with(five_registers(), 54, 6);
    assert_eq!(check(&six), Ok(()));
    assert_eq!(read(&six).unwrap().frame_registers.len(), 6);
    assert_eq!(frame_register(&six, 5).unwrap().register, 0);
    // What six bytes of padding may not hold, a sixth register may.
    assert_eq!(check(&with(six, 90, 9)), Ok(()));
    assert_eq!(check(&with(five_registers(), 90, 9)), refusal(40, 0));
    for (at, number) in [(52, 2), (53, 1), (55, 1), (55, 0xFF)] {
        let section = with(five_registers(), at, number);
        assert_eq!(check(&section), refusal(38, 0), "never 39");
    }
}

#[test]
fn without_frames_there_are_no_frame_registers() {
    // Eight bytes where the frame registers would be.
    let section = hex("02 00 00 00  20 00 00 00  20 00 00 00  20 00 00 00
                       28 00 00 00  28 00 00 00  28 00 00 00  00 00 00 00
                       00 00 00 00 00 00 00 00");
    assert_eq!(check(&section), refusal(38, 0));
}

// 5. An index plus count, whatever the count; and no index of a constant.

#[test]
fn an_empty_range_past_the_end_is_39() {
    // At 56 the frame's number of records, at 58 their index.
    let none = with(one_record(), 56, 0);
    assert_eq!(check(&with(none.clone(), 58, 1)), Ok(()));
    assert_eq!(check(&with(none, 58, 2)), refusal(39, 0));
    // At 80 the record's location index, at 84 its live-out index.
    assert_eq!(check(&with(one_record(), 80, 1)), refusal(39, 0));
    assert_eq!(check(&with(one_record(), 84, 1)), refusal(39, 0));
}

#[test]
fn the_number_of_a_constant_is_not_tested() {
    // Location 4 has kind 5; there is one constant.
    for offset in [1, 0x7F, 0xFF] {
        let section = with(worked(), 224, offset);
        assert_eq!(location(&section, 4).unwrap().offset, i32::from(offset));
    }
    let section = with(worked(), 227, 0x80);
    assert_eq!(location(&section, 4).unwrap().offset, i32::MIN);
}

// 7. No refusal for kinds, sizes and used flags.

#[test]
fn kinds_sizes_and_registers_are_not_tested() {
    for byte in 0..=255 {
        let section = with(worked(), 188, byte);
        assert_eq!(location(&section, 0).unwrap().kind, byte);
        let section = with(worked(), 100, byte);
        assert_eq!(frame_register(&section, 0).unwrap().size, byte);
        let section = with(worked(), 231, byte);
        assert_eq!(live_out(&section, 0).unwrap().size, byte);
        let section = with(worked(), 132, byte);
        assert_eq!(record(&section, 0).unwrap().call_size, byte);
        let section = with(worked(), 59, byte);
        let base = frame(&section, 0).unwrap().base_register;
        assert_eq!(base, 6 | u16::from(byte) << 8);
    }
}

// 8. Record numbers are those of the whole array, and frames may share records.

#[test]
fn a_shared_record_has_one_number_in_both_frames() {
    let found = |frame, record| Ok(Found { frame, record });
    assert_eq!(lookup(&worked(), 0x40_1020), found(0, 1));
    assert_eq!(lookup(&worked(), 0x40_2020), found(1, 1));
    assert_eq!(lookup(&two_records(), u64::MAX), found(0, 0));
    // One record of the two, the second: record 1 of the array.
    let second = with(with(two_records(), 56, 1), 58, 1);
    assert_eq!(lookup(&second, u64::MAX), found(0, 1));
}

// 9. Sums don't wrap.

#[test]
fn a_sum_over_the_last_address_matches_nothing() {
    let found = Ok(Found {
        frame: 0,
        record: 0,
    });
    assert_eq!(lookup(&one_record(), u64::MAX), found);
    for offset in [0x10, 0x11, 0xFF] {
        let section = with(one_record(), 72, offset);
        let wrapped = u64::from(offset) - 0x10;
        assert_eq!(check(&section), Ok(()));
        assert_eq!(lookup(&section, wrapped), refusal(41, 0));
        assert_eq!(lookup(&section, u64::MAX), refusal(41, 0));
    }
}

#[test]
fn the_offset_has_32_bits_and_no_sign() {
    let section = with(worked(), 131, 0xFF);
    let found = lookup(&section, 0x40_1000 + 0xFF00_0010);
    assert_eq!(found.map(|found| found.record), Ok(0));
}

#[test]
fn the_functions_size_does_not_bound_its_records() {
    // Frame 0's function has 0x40 bytes; now it has none.
    let section = with(worked(), 48, 0);
    assert_eq!(lookup(&section, 0x40_1010), lookup(&worked(), 0x40_1010));
}

// 11. The check of versions 1 and 3 is what it was.

#[test]
fn the_check_of_versions_1_and_3_still_gives_2() {
    assert_eq!(crate::check(&worked()), refusal(2, 0));
    assert_eq!(crate::check(&empty()), refusal(2, 0));
    assert_eq!(crate::read(&worked()), refusal(2, 0));
}
