//! Restores under editions: 31 before all else, 33 after the section's own
//! refusal, and 17 by the edition's count.

use super::*;
use crate::editions::{AARCH64, AMD64};
use crate::fixtures::*;
use crate::section::{encode_version_1, Location};

/// Edition 1 is document 01's: 256, AMD64 and version 3. 2 is the same for
/// AArch64, 3 for version 1, 4 for both versions with a count of 2, 5 has been
/// retired, and 6 is both versions with 256.
fn store() -> Store {
    let mut store = Store::empty();
    let settings = |largest_count, machine, version_1, version_3| Settings {
        largest_count,
        machine,
        version_1,
        version_3,
    };
    for own in [
        settings(256, AMD64, false, true),
        settings(256, AARCH64, false, true),
        settings(256, AMD64, true, false),
        settings(2, AMD64, true, true),
        settings(256, AMD64, true, true),
        settings(256, AMD64, true, true),
    ] {
        store.make(own).unwrap();
    }
    store.retire(5).unwrap();
    store
}

/// The answer of a move under an edition; a refused one must leave image and
/// registers as they were.
fn run(edition: u64, row: &mut Move) -> Result<u64, Refusal> {
    let store = store();
    let before = (row.image.clone(), row.registers.clone());
    let restore = Restore {
        store: &store,
        edition,
        section: &row.section,
        first: row.first,
        old_starts: &row.old_starts,
        new_starts: &row.new_starts,
    };
    let slot = Slot::Address(0x7008);
    let why = restore.explain(&row.image, row.machine, row.frame, &row.registers, slot);
    let whole = restore.explain_frame(&row.image, row.machine, row.frame, &row.registers);
    let answer = restore.relocate(&mut row.image, row.machine, row.frame, &mut row.registers);
    match answer {
        Ok(pointers) => assert_eq!(whole.unwrap().len() as u64, pointers),
        Err(refusal) => {
            assert_eq!(why, Reason::Refused(refusal));
            assert_eq!(whole, Err(refusal));
            assert_eq!((&row.image, &row.registers), (&before.0, &before.1));
        }
    }
    answer
}

#[test]
fn document_01s_rows_name_an_edition_of_256_amd64_and_version_3() {
    let mut row = Move::row_i();
    assert_eq!(run(1, &mut row), Ok(2));
    assert_eq!((row.slot(8), row.slot(16)), (0x90000, 0x94E20));
    let mut row_k = Move::row_i();
    row_k.set(16, 0x4B1E0);
    assert_eq!(run(1, &mut row_k), Ok(2));
    assert_eq!(row_k.slot(16), 0x8B1E0);
    let mut row_l = Move::row_i();
    row_l.set(16, 0x4FFE0);
    row_l.new_starts = vec![0x10];
    assert_eq!(run(1, &mut row_l), Ok(2));
    assert_eq!(row_l.slot(16), 0xFFFF_FFFF_FFFF_FFF0);
}

/// 31 comes before everything: 0, a retired one, one that was never made, and
/// one that a narrower number would find.
#[test]
fn an_edition_that_is_none_is_31_before_all_else() {
    for edition in [0, 5, 7, 64, (1 << 32) - 1, 1 << 32, (1 << 32) + 1, u64::MAX] {
        assert_eq!(run(edition, &mut Move::row_i()), refusal(31, 0));
        let mut all = Move::row_i();
        all.section[0] = 2;
        all.machine = 9;
        all.first = u64::MAX;
        all.new_starts.clear();
        all.registers.clear();
        assert_eq!(run(edition, &mut all), refusal(31, 0), "{edition}");
        assert_eq!(run(1, &mut all), refusal(2, 0), "1 to 9 come next");
    }
}

/// A version that isn't allowed, or a machine that isn't the edition's.
#[test]
fn refusal_33_is_for_version_and_machine() {
    let of = |edition, version: u8, machine| {
        let row = match version {
            1 => Move::row_i_1(),
            _ => Move::row_i(),
        };
        let mut row = row.on(machine);
        let stack_pointer = if machine == AMD64 { 7 } else { 31 };
        let slots = match version {
            1 => [74, 82, 90, 98],
            _ => [96, 108, 120, 132],
        };
        for at in slots {
            row.section[at] = stack_pointer;
        }
        run(edition, &mut row)
    };
    for (edition, allowed) in [
        (1, [false, false, true, false]),
        (2, [false, false, false, true]),
        (3, [true, false, false, false]),
        (4, [true, false, true, false]),
        (6, [true, false, true, false]),
    ] {
        let all = [(1, AMD64), (1, AARCH64), (3, AMD64), (3, AARCH64)];
        for ((version, machine), allowed) in all.into_iter().zip(allowed) {
            let expected = if allowed { Ok(2) } else { refusal(33, 0) };
            assert_eq!(
                of(edition, version, machine),
                expected,
                "edition {edition}, version {version}, machine {machine}"
            );
        }
    }
}

/// 33 comes after 1 to 9 and before 13, 14, 25 and 10; a third machine is one
/// that no edition allows.
#[test]
fn the_place_of_33_in_the_order() {
    for machine in [AARCH64, 2, 255, 1 << 32, u64::MAX] {
        let mut row = Move::row_i();
        row.machine = machine;
        row.first = u64::MAX;
        row.new_starts.clear();
        row.registers.clear();
        row.frame.address = 0;
        assert_eq!(run(1, &mut row), refusal(33, 0));
        row.section[151] = 1;
        assert_eq!(run(1, &mut row), refusal(3, 151));
        row.section[151] = 0;
        row.machine = AMD64;
        assert_eq!(run(1, &mut row), refusal(13, 0));
        assert_eq!(run(3, &mut row), refusal(33, 0), "the version");
        row.first = 0x7000;
        assert_eq!(run(1, &mut row), refusal(14, 0));
        row.new_starts.push(1);
        assert_eq!(run(1, &mut row), refusal(25, 0));
        row.registers = noise();
        assert_eq!(run(1, &mut row), refusal(10, 0));
    }
}

/// The statepoint of these pairs in a section of either version.
fn of_pairs(version: u8, pairs: &[(Location, Location)]) -> Move {
    let mut row = Move::of_pairs(8, pairs);
    if version == 1 {
        let functions = [function(0x1000, 64, 0)];
        row.section = encode_version_1(&functions, &[], &[statepoint(0x20, pairs)]);
        row.frame.address = 0x20;
    }
    row
}

/// 17 reads the edition's count: pairs in version 1, pointers in version 3.
#[test]
fn refusal_17_reads_the_editions_count() {
    let null = (small(0), small(0));
    for version in [1, 3] {
        for (count, by_4) in [(0, Ok(0)), (2, Ok(2)), (3, refusal(17, 0))] {
            let pairs = vec![null.clone(); count];
            assert_eq!(run(4, &mut of_pairs(version, &pairs)), by_4);
            assert_eq!(run(6, &mut of_pairs(version, &pairs)), Ok(count as u64));
        }
        for (count, by_6) in [(256, Ok(256)), (257, refusal(17, 0))] {
            let pairs = vec![null.clone(); count];
            assert_eq!(run(6, &mut of_pairs(version, &pairs)), by_6);
            assert_eq!(run(4, &mut of_pairs(version, &pairs)), refusal(17, 0));
        }
        let wrong = (small(1), rsp(0));
        let by_4 = if version == 1 { 17 } else { 18 };
        assert_eq!(
            run(4, &mut of_pairs(version, &vec![wrong; 3])),
            refusal(by_4, 0)
        );
    }
    let wide = |pointers: u16| location(3, 8 * pointers, 7, 0);
    for (pointers, by_4) in [(2, Ok(2)), (3, refusal(17, 0)), (256, refusal(17, 0))] {
        let pair = (wide(pointers), wide(pointers));
        assert_eq!(run(4, &mut of_pairs(3, &[pair])), by_4);
    }
    let pair = (wide(257), wide(257));
    assert_eq!(
        run(4, &mut of_pairs(3, &[pair])),
        refusal(18, 0),
        "the form's own limit stays"
    );
}

/// A thread under an edition: the same places, and an index between 14 and 25.
#[test]
fn a_thread_names_an_edition_too() {
    let store = store();
    let run = |edition, section: &[u8], lists: (Vec<u64>, Vec<u64>), index: Option<&[u64]>| {
        let (olds, news) = ([0x50000], [0x90000]);
        let restore = Restore {
            store: &store,
            edition,
            section,
            first: 0x7000,
            old_starts: &olds,
            new_starts: &news,
        };
        let mut image = Move::row_i().image;
        let (list, mut registers) = lists;
        restore.thread(&mut image, AMD64, &list, &mut registers, index)
    };
    let one = || lists(AMD64, &[[0x1020, 0, 0x7000, 0]]);
    let odd = || (vec![1], vec![]);
    assert_eq!(run(1, &row_h(), one(), None), Ok(2));
    assert_eq!(run(1, &row_h(), one(), Some(&[0x1020, 0])), Ok(2));
    assert_eq!(run(5, &[], odd(), Some(&[])), refusal(31, 0));
    assert_eq!(run(1, &[], odd(), Some(&[])), refusal(1, 0));
    assert_eq!(run(1, &row_h_1(), odd(), Some(&[])), refusal(33, 0));
    assert_eq!(run(6, &row_h_1(), odd(), Some(&[])), refusal(27, 0));
    assert_eq!(run(1, &row_h(), odd(), Some(&[])), refusal(29, 0));
    assert_eq!(run(1, &row_h(), odd(), Some(&[0x1020, 0])), refusal(25, 0));
    let three = one_function(24, &[], &[statepoint(0x20, &vec![(rsp(8), rsp(8)); 3])]);
    assert_eq!(run(4, &three, one(), None), refusal(17, 0), "at position 0");
    assert_eq!(run(1, &three, one(), None), Ok(3));
    let two = lists(AMD64, &[[0x1020, 0, 0x7000, 0], [0x1020, 0, 0x7000, 0]]);
    assert_eq!(run(1, &row_h(), two, None), refusal(26, 1));
}

/// With 256, the machine and the version allowed, a restore answers as the move
/// without an edition does.
#[test]
fn without_a_limit_it_is_the_plain_move() {
    let changes: [fn(&mut Move); 8] = [
        |_| {},
        |row| row.frame.address = 5,
        |row| row.set_stack_pointer(0x7001),
        |row| row.section[132] = 5,
        |row| row.section[136] = 17,
        |row| row.section[136] = 12,
        |row| row.set(8, 3),
        |row| row.registers.truncate(31),
    ];
    for change in changes {
        let mut one = Move::row_i();
        change(&mut one);
        let mut other = one.clone();
        assert_eq!(run(1, &mut one), other.run());
        assert_eq!((one.image, one.registers), (other.image, other.registers));
    }
}
