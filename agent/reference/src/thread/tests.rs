//! The thread call by hand: its order, its positions, its limits, and shared
//! extents.

use super::*;
use crate::editions::{AARCH64, AMD64};
use crate::fixtures::*;
use crate::relocate::relocate;
use crate::section::{encode, Function};

/// Functions of stack sizes 24, 0, 8 and 2^64 - 1 at 0x1000, 0x2000, 0x3000
/// and 0x4000. Each has a statepoint at its offset 0x20, that of the first with
/// row H's pairs, the others with a null pair. Two records share 0x1040, and
/// the record at 0x1060 is no statepoint.
fn section() -> Vec<u8> {
    let sizes = [
        (0x1000, 24, 4),
        (0x2000, 0, 1),
        (0x3000, 8, 1),
        (0x4000, u64::MAX, 1),
    ];
    let functions: Vec<Function> = sizes
        .iter()
        .map(|&(address, size, count)| function(address, size, count))
        .collect();
    let null = [(small(0), small(0))];
    let records = [
        statepoint(0x20, &[(rsp(8), rsp(8)), (rsp(8), rsp(16))]),
        statepoint(0x40, &[]),
        statepoint(0x40, &[]),
        record(0x60, vec![], vec![]),
        statepoint(0x20, &null),
        statepoint(0x20, &null),
        statepoint(0x20, &null),
    ];
    encode(&functions, &[], &records)
}

/// Frames of the functions, and frames that are refused. The function numbers
/// are not read.
fn full(rsp: u64) -> [u64; 4] {
    [0x1020, 0, rsp, 9]
}
fn empty(rsp: u64) -> [u64; 4] {
    [0x2020, 0, rsp, u64::MAX]
}
fn word(rsp: u64) -> [u64; 4] {
    [0x3020, 0, rsp, 0]
}
const NOWHERE: [u64; 4] = [0x1021, 0, 0x7000, 0];
const TWICE: [u64; 4] = [0x1040, 0, 0x7000, 0];
const NO_STATEPOINT: [u64; 4] = [0x1060, 0, 0x7000, 0];
const UNKNOWN: [u64; 4] = [0x4020, 0, 0x7000, 0];

/// Three frames of row I's kind from 0x7000 on; the third has a base of no
/// object.
fn image() -> Vec<u8> {
    let slots = [1, 0x50000, 0x54E20, 2, 0, 0x1234, 3, 0x50008, 0x50010_u64];
    slots.into_iter().flat_map(u64::to_le_bytes).collect()
}

/// The answer to a list on a section and an image of row I's table. No frame of
/// it has pairs in registers, which stay as they were.
fn answer(section: &[u8], image: &mut [u8], frames: &[[u64; 4]]) -> Result<u64, Refusal> {
    let (list, mut registers) = lists(AMD64, frames);
    let before = registers.clone();
    let answer = thread(
        section,
        image,
        0x7000,
        &[0x50000],
        &[0x90000],
        AMD64,
        &list,
        &mut registers,
    );
    assert_eq!(registers, before);
    answer
}

/// The answer to a list, and the image after it.
fn run(frames: &[[u64; 4]]) -> (Result<u64, Refusal>, Vec<u8>) {
    let mut image = image();
    (answer(&section(), &mut image, frames), image)
}

/// A refused list leaves the image as it was.
fn refused(frames: &[[u64; 4]]) -> (u64, u64) {
    let (answer, after) = run(frames);
    assert_eq!(after, image());
    let refusal = answer.unwrap_err();
    (refusal.number, refusal.place)
}

#[test]
fn a_list_of_none_is_accepted() {
    assert_eq!(run(&[]), (Ok(0), image()));
    assert_eq!(
        thread(&row_c(), &mut [], 0, &[], &[], AMD64, &[], &mut []),
        Ok(0)
    );
}

#[test]
fn all_move_as_one_by_one_and_the_pointers_are_added() {
    let threads = [
        vec![full(0x7000), full(0x7018)],
        vec![full(0x7018), full(0x7000)],
        vec![
            full(0x7000),
            full(0x7018),
            word(0x7030),
            word(0x7038),
            empty(0x7000),
            empty(0x7000),
        ],
    ];
    for list in threads {
        let mut one_by_one = image();
        let mut sum = 0;
        for own in &list {
            let (frame, mut registers) = lists(AMD64, &[*own]);
            let pairs = relocate(
                &section(),
                &mut one_by_one,
                0x7000,
                &[0x50000],
                &[0x90000],
                AMD64,
                Frame {
                    address: frame[0],
                    function: frame[1],
                },
                &mut registers,
            );
            sum += pairs.unwrap();
        }
        assert_ne!(one_by_one, image());
        assert_eq!(run(&list), (Ok(sum), one_by_one));
    }
    assert_eq!(run(&[full(0x7000), word(0x7018)]).0, Ok(3));
}

#[test]
fn the_first_refused_frame_has_its_position() {
    assert_eq!(refused(&[full(0x7000), NOWHERE]), (10, 1));
    assert_eq!(refused(&[NOWHERE, full(0x7000)]), (10, 0));
    assert_eq!(refused(&[full(0x7000), TWICE]), (15, 1));
    assert_eq!(
        refused(&[full(0x7000), full(0x7018), NO_STATEPOINT]),
        (12, 2)
    );
    assert_eq!(refused(&[full(0x7000), full(0x7018), UNKNOWN]), (16, 2));
    assert_eq!(refused(&[full(0x7000), full(0x7031)]), (16, 1));
    assert_eq!(refused(&[word(0x6FFF)]), (16, 0));
    assert_eq!(refused(&[full(0x7000), full(0x7030)]), (21, 1));
}

/// The lowest position counts, whatever its number; the pair is lost.
#[test]
fn a_21_at_0_wins_over_a_10_at_1() {
    assert_eq!(refused(&[full(0x7030), NOWHERE]), (21, 0));
    assert_eq!(refused(&[NOWHERE, full(0x7030)]), (10, 0));
    assert_eq!(
        refused(&[full(0x7000), TWICE, NOWHERE, full(0x7030)]),
        (15, 1)
    );
}

#[test]
fn pairs_have_no_place() {
    let pairs = [(rsp(8), rsp(8)), (rsp(8), rsp(17))];
    let section = one_function(24, &[], &[statepoint(0x20, &pairs)]);
    let answer = answer(&section, &mut image(), &[full(0x7000), full(0x7018)]);
    assert_eq!(answer, refusal(19, 0), "19 of pair 1, in frame 0");
}

/// A thread's count is the pointers of its frames, a null pair one.
#[test]
fn pointers_are_added() {
    let wide = |offset| location(3, 16, 7, offset);
    let pairs = [(wide(0), wide(8)), (small(0), small(0))];
    let section = one_function(24, &[], &[statepoint(0x20, &pairs)]);
    let slots = [0x50000, 0, 0x60000, 0, 0x50000, 0x50008_u64];
    let mut image: Vec<u8> = slots.into_iter().flat_map(u64::to_le_bytes).collect();
    let answer = answer(&section, &mut image, &[full(0x7000), full(0x7018)]);
    assert_eq!(answer, Ok(6));
    let after = [0x50000, 0x40000, 0x60000, 0, 0x50000, 0x90008_u64];
    let after: Vec<u8> = after.into_iter().flat_map(u64::to_le_bytes).collect();
    assert_eq!(image, after);
}

/// Each frame is judged on the image as lent: the second of two equal ones is
/// not 21, though its base is moved by the first.
#[test]
fn a_frame_twice_is_26() {
    assert_eq!(refused(&[full(0x7000), full(0x7000)]), (26, 1));
    assert_eq!(
        refused(&[full(0x7000), full(0x7018), full(0x7000)]),
        (26, 2)
    );
}

#[test]
fn a_shared_byte_is_26_at_the_later_frame() {
    for inside in [0x7000, 0x7001, 0x7008, 0x700F, 0x7010, 0x7017] {
        let both = [full(0x7000), word(inside)];
        assert_eq!(refused(&both), (26, 1), "{inside:#x}");
        let [one, other] = both;
        assert_eq!(refused(&[other, one]), (26, 1), "{inside:#x}");
    }
    assert_eq!(run(&[full(0x7000), word(0x7018)]).0, Ok(3), "they touch");
    assert_eq!(run(&[word(0x7000), word(0x7008)]).0, Ok(2), "they touch");
    assert_eq!(refused(&[word(0x7000), word(0x7007)]), (26, 1));
}

/// With any earlier frame, not only the one before; and the first that shares.
#[test]
fn any_earlier_frame_counts() {
    let list = [
        word(0x7000),
        word(0x7040),
        word(0x7020),
        word(0x7030),
        word(0x7004),
    ];
    assert_eq!(refused(&list), (26, 4));
    let list = [word(0x7000), word(0x7040), word(0x703C), word(0x7004)];
    assert_eq!(refused(&list), (26, 2));
}

#[test]
fn empty_extents_share_nothing() {
    let inside = [0x7000, 0x7001, 0x7010, 0x7018, 0x7048].map(empty);
    let list = [&inside[..], &[full(0x7000)], &inside[..]].concat();
    assert_eq!(run(&list).0, Ok(12));
    assert_eq!(refused(&[empty(0x7049)]), (16, 0));
    assert_eq!(refused(&[empty(0x6FFF)]), (16, 0));
}

/// 26 is for lists of accepted frames only.
#[test]
fn a_refused_frame_comes_before_26() {
    assert_eq!(refused(&[word(0x7000), word(0x7000), NOWHERE]), (10, 2));
    assert_eq!(refused(&[word(0x7000), word(0x7000), UNKNOWN]), (16, 2));
    assert_eq!(
        refused(&[full(0x7000), full(0x7000), full(0x7030)]),
        (21, 2)
    );
}

/// One machine for all frames: on the other one row H's pairs have a wrong form.
/// A number that is none comes after the section's own refusal and before all
/// else.
#[test]
fn a_thread_has_one_machine() {
    let answer = |section: &[u8], machine, first, (list, mut registers): (Vec<u64>, Vec<u64>)| {
        let (olds, news) = ([0x50000], [0x90000]);
        let (image, registers) = (&mut image(), &mut registers);
        thread(
            section, image, first, &olds, &news, machine, &list, registers,
        )
    };
    let on = |machine| lists(machine, &[word(0x7018), full(0x7000)]);
    assert_eq!(answer(&section(), AMD64, 0x7000, on(AMD64)), Ok(3));
    let other = answer(&section(), AARCH64, 0x7000, on(AARCH64));
    assert_eq!(other, refusal(18, 1));
    let word = lists(AARCH64, &[word(0x7000)]);
    assert_eq!(answer(&section(), AARCH64, 0x7000, word), Ok(1));
    let odd = (vec![1], vec![]);
    for machine in [2, 7, 31, 1 << 32, u64::MAX] {
        for lists in [(vec![], vec![]), odd.clone(), on(AMD64), on(AARCH64)] {
            let answer = |section: &[u8], first| answer(section, machine, first, lists.clone());
            assert_eq!(answer(&section(), 0x7000), refusal(33, 0));
            assert_eq!(answer(&section(), u64::MAX), refusal(33, 0));
            assert_eq!(answer(&row_h()[..151], 0x7000), refusal(4, 40));
        }
    }
}

/// Section, image and table come before the lists, also where they are empty.
#[test]
fn what_all_frames_share_comes_first() {
    let long = vec![0; 1_048_577];
    let all = [
        (vec![], vec![]),
        (vec![1], vec![]),
        lists(AMD64, &[NOWHERE]),
    ];
    for (list, registers) in all {
        let answer = |section: &[u8], mut image: Vec<u8>, first| {
            let registers = &mut registers.clone();
            thread(
                section,
                &mut image,
                first,
                &[0],
                &[],
                AMD64,
                &list,
                registers,
            )
        };
        let section = section();
        assert_eq!(answer(&row_h()[..151], long.clone(), 0), refusal(4, 40));
        assert_eq!(answer(&section, long.clone(), 0), refusal(13, 0));
        assert_eq!(answer(&section, image(), u64::MAX - 71), refusal(13, 0));
        assert_eq!(answer(&section, image(), u64::MAX - 72), refusal(14, 0));
    }
}
