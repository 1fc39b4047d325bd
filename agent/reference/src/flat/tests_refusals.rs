//! Refusals 36 to 40, each exactly where its line holds, and their order.

use super::fixtures::{empty, worked};
use super::*;
use crate::fixtures::{refusal, with};

/// Where the six offsets stand in the header, each with its array's alignment.
const OFFSETS: [(usize, u32); 6] = [(4, 8), (8, 8), (12, 4), (16, 8), (20, 4), (24, 2)];

/// The worked section with the number of four bytes at `at` changed.
fn with_number(at: usize, change: impl Fn(u32) -> u32) -> Vec<u8> {
    let mut section = worked();
    let field: &mut [u8; 4] = (&mut section[at..at + 4]).try_into().unwrap();
    *field = change(u32::from_le_bytes(*field)).to_le_bytes();
    section
}

/// A section of constants alone.
fn constants(count: usize) -> Vec<u8> {
    let mut section = vec![0xA5; 32 + 8 * count];
    section[..32].copy_from_slice(&empty());
    let end = (32 + 8 * count) as u32;
    for at in [8, 12, 16, 20, 24] {
        section[at..at + 4].copy_from_slice(&end.to_le_bytes());
    }
    section
}

#[test]
fn under_32_bytes_is_36() {
    for length in 0..32 {
        assert_eq!(check(&empty()[..length]), refusal(36, 0), "{length}");
        assert_eq!(check(&worked()[..length]), refusal(36, 0), "{length}");
        assert_eq!(check(&vec![0xFF; length]), refusal(36, 0), "{length}");
    }
}

#[test]
fn over_16_777_216_bytes_is_36() {
    let mut section = constants(2_097_148);
    assert_eq!(section.len(), 16_777_216);
    assert_eq!(check(&section), Ok(()));
    assert_eq!(read(&section).unwrap().constants.len(), 2_097_148);
    section.push(0);
    assert_eq!(check(&section), refusal(36, 0));
    section[0] = 3;
    assert_eq!(check(&section), refusal(36, 0), "36 comes before 37");
    section.pop();
    assert_eq!(check(&section), refusal(37, 0));
}

#[test]
fn any_version_but_2_is_37() {
    for version in (0..=255).filter(|&version| version != 2) {
        assert_eq!(check(&with(worked(), 0, version)), refusal(37, 0));
        assert_eq!(check(&with(empty(), 0, version)), refusal(37, 0));
    }
}

#[test]
fn an_offset_off_by_one_or_by_its_alignment_is_38() {
    for (at, alignment) in OFFSETS {
        for off in [1, 2, alignment, 2 * alignment] {
            let more = with_number(at, |offset| offset + off);
            assert_eq!(check(&more), refusal(38, 0), "{at}: {off} more");
            let less = with_number(at, |offset| offset - off);
            assert_eq!(check(&less), refusal(38, 0), "{at}: {off} less");
        }
        for offset in [0, 28, 31, 237, 240, 0x7FFF_FFFF, u32::MAX] {
            let section = with_number(at, |_| offset);
            assert_eq!(check(&section), refusal(38, 0), "{at}: {offset}");
        }
    }
}

#[test]
fn live_outs_that_begin_a_location_sooner_or_later_are_no_38() {
    // The records name every location and both live-outs.
    let sooner = with_number(24, |offset| offset - 8);
    assert_eq!(check(&sooner), refusal(39, 0));
    let later = with_number(24, |offset| offset + 8);
    assert_eq!(check(&later), refusal(39, 0));
}

#[test]
fn offsets_out_of_order_are_38() {
    for (one, _) in OFFSETS {
        for (other, _) in OFFSETS.into_iter().filter(|(other, _)| *other != one) {
            let mut section = worked();
            for byte in 0..4 {
                section.swap(one + byte, other + byte);
            }
            assert_eq!(check(&section), refusal(38, 0), "{one} and {other}");
        }
    }
}

#[test]
fn an_end_that_is_not_the_last_live_outs_is_38() {
    for cut in 1..=236 - 32 {
        // Whole live-outs less are another matter: the records name both.
        let number = if [4, 8].contains(&cut) { 39 } else { 38 };
        assert_eq!(check(&worked()[..236 - cut]), refusal(number, 0), "{cut}");
    }
    for more in 1..=12 {
        let section = [worked(), vec![0; more]].concat();
        let whole = more % 4 == 0;
        let answer = if whole { Ok(()) } else { refusal(38, 0) };
        assert_eq!(check(&section), answer, "{more}");
    }
}

#[test]
fn an_index_plus_count_past_its_array_is_39() {
    // Index and count of the records of frames 0 and 1, of the locations of
    // records 0 to 2, and of their live-outs.
    let past = [
        (66, 2),
        (64, 4),
        (94, 2),
        (92, 3),
        (136, 3),
        (134, 6),
        (158, 4),
        (156, 3),
        (180, 5),
        (178, 2),
        (140, 1),
        (138, 3),
        (162, 3),
        (160, 1),
        (184, 2),
        (182, 2),
    ];
    for (at, number) in past {
        assert_eq!(check(&with(worked(), at, number)), refusal(39, 0), "{at}");
        assert_eq!(check(&with(worked(), at, number - 1)), Ok(()), "{at}");
        assert_eq!(check(&with(worked(), at + 1, 0xFF)), refusal(39, 0), "{at}");
    }
}

#[test]
fn index_and_count_are_added_as_whole_numbers() {
    // 0xFFFF + 2 is 1 in sixteen bits.
    for (index, count) in [(66, 64), (94, 92), (136, 134), (162, 160)] {
        let section = with(with(worked(), index, 0xFF), index + 1, 0xFF);
        assert_eq!(check(&with(section, count, 2)), refusal(39, 0), "{index}");
    }
}

/// The reserved bits of the worked section, byte by byte.
fn reserved() -> Vec<(usize, u8)> {
    let whole = [1, 2, 3, 28, 29, 30, 31, 57, 85]
        .into_iter()
        .chain(114..120)
        .chain([186, 187, 189, 197, 205, 213, 221, 230, 234]);
    let frame_flags = [(56, 0xF0), (84, 0xF0)];
    let flags = [101, 107, 113, 133, 155, 177].map(|at| (at, 0xFE));
    let bits = whole.map(|at| (at, 0xFF)).chain(frame_flags).chain(flags);
    bits.collect()
}

#[test]
fn a_reserved_bit_is_40_and_no_other_bit_is() {
    let reserved = reserved();
    for at in 0..worked().len() {
        let mask = reserved.iter().find(|(byte, _)| *byte == at);
        for bit in 0..8 {
            let section = with(worked(), at, worked()[at] ^ 1 << bit);
            let is_reserved = mask.is_some_and(|(_, mask)| mask >> bit & 1 == 1);
            let answer = check(&section);
            assert_eq!(answer == refusal(40, 0), is_reserved, "{at}, bit {bit}");
        }
    }
}

#[test]
fn used_flags_and_free_fields_are_accepted() {
    for at in [56, 84] {
        for flags in 0..16 {
            assert_eq!(check(&with(worked(), at, flags)), Ok(()));
        }
    }
    for at in [101, 107, 113, 133, 155, 177] {
        assert_eq!(check(&with(worked(), at, 0)), Ok(()));
        assert_eq!(check(&with(worked(), at, 1)), Ok(()));
    }
}

#[test]
fn the_order_is_36_37_38_39_40() {
    let mut section = worked();
    section[1] = 1;
    assert_eq!(check(&section), refusal(40, 0));
    section[234] = 0x80;
    section[185] = 1;
    assert_eq!(check(&section), refusal(39, 0), "39 comes before 40");
    section.push(0);
    assert_eq!(check(&section), refusal(38, 0), "38 comes before 39");
    section[0] = 3;
    assert_eq!(check(&section), refusal(37, 0), "37 comes before 38");
    section.truncate(31);
    assert_eq!(check(&section), refusal(36, 0), "36 comes before 37");
}

#[test]
fn every_cut_section_and_every_changed_byte_is_answered() {
    for length in 0..236 {
        assert!(check(&worked()[..length]).is_err());
    }
    for at in 0..236 {
        for byte in 0..=255 {
            let section = with(worked(), at, byte);
            let flat = read(&section);
            assert_eq!(flat.clone().map(|_| ()), check(&section));
            let none = lookup(&section, 1);
            assert!(none.is_err());
        }
    }
}
