//! Flat sections that are accepted, the lookup and the questions.

use super::fixtures::{empty, worked, worked_data};
use super::*;
use crate::fixtures::{hex, refusal, with};

fn found(frame: u64, record: u64) -> Result<Found, Refusal> {
    Ok(Found { frame, record })
}

#[test]
fn the_worked_section_is_read() {
    assert_eq!(worked().len(), 236);
    assert_eq!(check(&worked()), Ok(()));
    assert_eq!(read(&worked()), Ok(worked_data()));
}

#[test]
fn the_least_section_holds_nothing() {
    let nothing = Flat {
        constants: vec![],
        frames: vec![],
        frame_registers: vec![],
        records: vec![],
        locations: vec![],
        live_outs: vec![],
    };
    assert_eq!(check(&empty()), Ok(()));
    assert_eq!(read(&empty()), Ok(nothing));
    assert_eq!(lookup(&empty(), 0), refusal(41, 0));
}

#[test]
fn flags_are_read_lowest_bit_first() {
    let flat = worked_data();
    let flags = |frame: &Frame| {
        [
            frame.has_frame(),
            frame.has_variable_size_alloca(),
            frame.has_stack_realignment(),
            frame.has_live_out_info(),
        ]
    };
    assert_eq!(flags(&flat.frames[0]), [true, false, false, true]);
    assert_eq!(flags(&flat.frames[1]), [false, true, true, false]);
    let spilled: Vec<bool> = flat
        .frame_registers
        .iter()
        .map(|r| r.is_spilled())
        .collect();
    assert_eq!(spilled, [true, true, false]);
    let live: Vec<bool> = flat.records.iter().map(|r| r.has_live_out_info()).collect();
    assert_eq!(live, [true, false, true]);
}

#[test]
fn ranges_are_index_and_count() {
    let flat = worked_data();
    assert_eq!(flat.frames[1].registers(), 1..3);
    assert_eq!(flat.frames[1].records(), 1..3);
    assert_eq!(flat.records[1].locations(), 3..5);
    assert_eq!(flat.records[1].live_outs(), 2..2);
}

#[test]
fn every_frame_field_has_its_own_bytes() {
    let section = hex("02 00 00 00  20 00 00 00  20 00 00 00  3C 00 00 00
                       48 00 00 00  60 00 00 00  60 00 00 00  00 00 00 00
                       01 02 03 04 05 06 07 08  11 12 13 14  21 22 23 24
                       0F 00  31 32  01 00  00 00  00 00  01 00
                       41 42  43 84  51  01
                       00 00 00 00 00 00
                       61 62 63 64 65 66 67 68  71 72 73 84  91  01  00 00  00 00  00 00  00 00
                       00 00");
    let flat = read(&section).unwrap();
    let frame = &flat.frames[0];
    assert_eq!(frame.address, 0x0807_0605_0403_0201);
    assert_eq!((frame.size, frame.stack_size), (0x1413_1211, 0x2423_2221));
    assert_eq!((frame.flags, frame.base_register), (15, 0x3231));
    assert_eq!((frame.registers(), frame.records()), (0..1, 1..1));
    let register = &flat.frame_registers[0];
    assert_eq!(
        (register.register, register.offset),
        (0x4241, 0x8443u16 as i16)
    );
    assert_eq!((register.size, register.flags), (0x51, 1));
    let record = &flat.records[0];
    assert_eq!(
        (record.id, record.offset),
        (0x6867_6665_6463_6261, 0x8473_7271)
    );
    assert_eq!((record.call_size, record.flags), (0x91, 1));
}

#[test]
fn lookup_finds_each_frames_own_records() {
    assert_eq!(lookup(&worked(), 0x40_1010), found(0, 0));
    assert_eq!(lookup(&worked(), 0x40_1020), found(0, 1));
    assert_eq!(lookup(&worked(), 0x40_2020), found(1, 1));
    assert_eq!(lookup(&worked(), 0x40_2010), found(1, 2));
}

#[test]
fn lookup_gives_41_exactly_if_no_record_of_a_frame_is_there() {
    let none = [
        0, 0x10, 0x40_1000, 0x40_100F, 0x40_1011, 0x40_2000, 0x40_2030,
    ];
    for address in none.into_iter().chain([u64::MAX, 0x1_0040_1010]) {
        assert_eq!(lookup(&worked(), address), refusal(41, 0), "{address:#x}");
    }
    // Frame 0 loses record 1, and frame 1 finds its own two as before.
    let section = with(worked(), 64, 1);
    assert_eq!(lookup(&section, 0x40_1020), refusal(41, 0));
    assert_eq!(lookup(&section, 0x40_2020), found(1, 1));
}

#[test]
fn the_first_frame_comes_before_the_first_record() {
    // Both frames at 0x401000, with records 1 and 2 in frame 0 and records 0
    // and 1 in frame 1; all three records have the offset 0x10.
    let section = with(with(worked(), 69, 0x10), 66, 1);
    let section = with(with(section, 94, 0), 150, 0x10);
    assert_eq!(check(&section), Ok(()));
    assert_eq!(lookup(&section, 0x40_1010), found(0, 1));
    // Frame 0 without records: frame 1 has them.
    assert_eq!(lookup(&with(section, 64, 0), 0x40_1010), found(1, 0));
}

#[test]
fn questions_by_number_give_every_entry() {
    let (section, flat) = (worked(), worked_data());
    for (number, entry) in (0..).zip(flat.frames) {
        assert_eq!(frame(&section, number), Ok(entry));
    }
    for (number, entry) in (0..).zip(flat.frame_registers) {
        assert_eq!(frame_register(&section, number), Ok(entry));
    }
    for (number, entry) in (0..).zip(flat.records) {
        assert_eq!(record(&section, number), Ok(entry));
    }
    for (number, entry) in (0..).zip(flat.locations) {
        assert_eq!(location(&section, number), Ok(entry));
    }
    for (number, entry) in (0..).zip(flat.live_outs) {
        assert_eq!(live_out(&section, number), Ok(entry));
    }
}

#[test]
fn a_frame_or_record_that_is_not_there_is_10() {
    for past in [0, 1, 1 << 32, u64::MAX - 3] {
        assert_eq!(frame(&worked(), 2 + past), refusal(10, 0));
        assert_eq!(record(&worked(), 3 + past), refusal(10, 0));
        assert_eq!(frame(&empty(), past), refusal(10, 0));
        assert_eq!(record(&empty(), past), refusal(10, 0));
    }
}

#[test]
fn a_register_location_or_live_out_that_is_not_there_is_11() {
    for past in [0, 1, 1 << 32, u64::MAX - 5] {
        assert_eq!(frame_register(&worked(), 3 + past), refusal(11, 0));
        assert_eq!(location(&worked(), 5 + past), refusal(11, 0));
        assert_eq!(live_out(&worked(), 2 + past), refusal(11, 0));
        assert_eq!(frame_register(&empty(), past), refusal(11, 0));
        assert_eq!(location(&empty(), past), refusal(11, 0));
        assert_eq!(live_out(&empty(), past), refusal(11, 0));
    }
}

#[test]
fn the_sections_own_refusal_comes_before_10_11_and_41() {
    for (at, byte, number) in [(0, 3, 37), (4, 0, 38), (26 + 40, 9, 39), (1, 1, 40)] {
        let damaged = with(worked(), at, byte);
        assert_eq!(lookup(&damaged, 0), refusal(number, 0));
        assert_eq!(frame(&damaged, 9), refusal(number, 0));
        assert_eq!(frame_register(&damaged, 9), refusal(number, 0));
        assert_eq!(record(&damaged, 9), refusal(number, 0));
        assert_eq!(location(&damaged, 9), refusal(number, 0));
        assert_eq!(live_out(&damaged, 9), refusal(number, 0));
        assert_eq!(read(&damaged), refusal(number, 0));
    }
    assert_eq!(lookup(&worked()[..31], 0), refusal(36, 0));
}
