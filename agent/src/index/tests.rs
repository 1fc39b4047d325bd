use super::*;

/// Row C's header with so many records.
fn header(records: u32) -> Vec<u8> {
    let mut section = vec![3];
    section.resize(12, 0);
    section.extend(records.to_le_bytes());
    section
}

#[test]
fn room_is_made_for_the_records_that_can_be_there() {
    for length in 0..16 {
        assert_eq!(records(&header(u32::MAX)[..length]), 0, "{length}");
    }
    let mut section = header(3);
    for (length, room) in [(16, 0), (63, 2), (64, 2), (72, 3), (95, 3), (120, 3)] {
        section.resize(length, 0);
        assert_eq!(records(&section), room, "{length}");
    }
    let mut section = header(u32::MAX);
    section.resize(2 * SECTION_MOST, 0);
    assert_eq!(records(&section), 699_050);
}

/// A header that lies about its records makes no list that is longer than the section has room for.
#[test]
fn a_section_that_says_too_much_is_refused() {
    let section = header(u32::MAX);
    assert_eq!(Index::of(&section).unwrap_err().number(), 5);
    assert_eq!(Index::of(&[]).unwrap_err().number(), 1);
}

#[test]
fn numbers_beyond_the_list_are_a_panic_that_says_so() {
    for written in [0, 1, 4] {
        assert_eq!(inside(written, &[9; 4]), written as usize);
    }
    for written in [5, u64::MAX] {
        let payload = std::panic::catch_unwind(|| inside(written, &[9; 4])).expect_err("a panic");
        let text = *payload.downcast::<String>().expect("a panic with a text");
        let start = format!("libtreskibben answers that it wrote {written} numbers to a list of 4");
        assert_eq!(text, start);
    }
}
