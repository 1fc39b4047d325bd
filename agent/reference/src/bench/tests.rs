//! The profile of the bench controller: each breach by hand, the lowest record
//! with any, and the order.

use super::*;
use crate::editions::{Settings, Store, AARCH64};
use crate::fixtures::*;
use crate::section::{encode, Location, RecordData};

/// Edition 1 is 256, AMD64 and version 3; 2 the same for AArch64; 3 for version
/// 1; 4 has a count of 3; 5 is retired.
fn store() -> Store {
    let mut store = Store::empty();
    for (largest_count, machine, version_1, version_3) in [
        (256, AMD64, false, true),
        (256, AARCH64, false, true),
        (256, AMD64, true, false),
        (3, AMD64, false, true),
        (256, AMD64, false, true),
    ] {
        let settings = Settings {
            largest_count,
            machine,
            version_1,
            version_3,
        };
        store.make(settings).unwrap();
    }
    store.retire(5).unwrap();
    store
}

/// The answer of the bench's move under an edition, and of the base's; a refused
/// one must leave image and registers as they were.
fn run(edition: u64, row: &mut Move) -> Result<u64, Refusal> {
    let (store, before) = (store(), row.clone());
    let restore = Restore {
        store: &store,
        edition,
        section: &before.section,
        first: before.first,
        old_starts: &before.old_starts,
        new_starts: &before.new_starts,
    };
    let (machine, frame) = (before.machine, before.frame);
    let answer = relocate(&restore, &mut row.image, machine, frame, &mut row.registers);
    let mut base = before.clone();
    let plain = restore.relocate(&mut base.image, machine, frame, &mut base.registers);
    let after = (&row.image, &row.registers);
    match answer {
        Err(refusal) if refusal.number == 50 => {
            assert_eq!(after, (&before.image, &before.registers));
        }
        _ => {
            assert_eq!(answer, plain);
            assert_eq!(after, (&base.image, &base.registers));
        }
    }
    answer
}

/// Row I on one function of these records.
fn of(records: &[RecordData]) -> Move {
    Move {
        section: one_function(24, &[], records),
        ..Move::row_i()
    }
}

/// Row H's statepoint at an offset.
fn right(offset: u32) -> RecordData {
    statepoint(offset, &[(rsp(8), rsp(8)), (rsp(8), rsp(16))])
}

/// The place of 50 for one function of these records.
fn breach(records: &[RecordData]) -> Option<u64> {
    match run(1, &mut of(records)) {
        Err(Refusal { number: 50, place }) => Some(place),
        _ => None,
    }
}

#[test]
fn row_i_is_moved_as_the_base_does() {
    let mut row = Move::row_i();
    assert_eq!(run(1, &mut row), Ok(2));
    assert_eq!((row.slot(8), row.slot(16)), (0x90000, 0x94E20));
    let mut refused = Move::row_i();
    refused.set(8, 5);
    assert_eq!(run(1, &mut refused), refusal(21, 0));
    let mut none = Move::row_i();
    none.section = row_c();
    assert_eq!(run(1, &mut none), refusal(10, 0), "no records, no breach");
}

/// At most 64 records: number 64 is a breach, unless a lower one is.
#[test]
fn number_64_is_a_breach() {
    let many = |count: u32| (0..count).map(|nth| right(0x20 + nth)).collect::<Vec<_>>();
    assert_eq!(breach(&many(63)), None);
    assert_eq!(breach(&many(64)), None);
    assert_eq!(breach(&many(65)), Some(64));
    assert_eq!(breach(&many(200)), Some(64));
    let mut low = many(200);
    low[63] = record(0x20 + 63, vec![], vec![]);
    assert_eq!(breach(&low), Some(63));
}

/// Addresses strictly rise: the later of two breaches, equal ones too, within a
/// function and across functions.
#[test]
fn addresses_strictly_rise() {
    assert_eq!(breach(&[right(0x20), right(0x21)]), None);
    assert_eq!(breach(&[right(0x20), right(0x20)]), Some(1));
    assert_eq!(breach(&[right(0x20), right(0x1F)]), Some(1));
    assert_eq!(breach(&[right(0x10), right(0x20), right(0x18)]), Some(2));
    let across = |other| {
        let functions = [function(0x1000, 24, 1), function(other, 24, 1)];
        let mut row = Move::row_i();
        row.section = encode(&functions, &[], &[right(0x20), right(0)]);
        run(1, &mut row)
    };
    assert_eq!(across(0x1021), Ok(2));
    assert_eq!(across(0x1020), refusal(50, 1));
    assert_eq!(across(0x101F), refusal(50, 1));
    assert_eq!(across(0), refusal(50, 1));
}

/// 16 pointers in each, null pairs one each, whichever record it is.
#[test]
fn at_most_16_pointers_in_each() {
    let null = (small(0), small(0));
    let wide = |pointers: u16| {
        let one = location(3, 8 * pointers, 7, 0);
        (one.clone(), one)
    };
    let cases: [(Vec<(Location, Location)>, bool); 6] = [
        (vec![null.clone(); 16], true),
        (vec![null.clone(); 17], false),
        (vec![wide(16)], true),
        (vec![wide(17)], false),
        (vec![wide(15), null.clone()], true),
        (vec![wide(16), null], false),
    ];
    for (pairs, right_one) in cases {
        let records = [right(0x20), statepoint(0x40, &pairs)];
        let expected = if right_one { None } else { Some(1) };
        assert_eq!(breach(&records), expected);
    }
}

/// Every record a statepoint whose pairs pass 18: the slots of a record that no
/// frame stands at may be anywhere (19) or collide (20).
#[test]
fn every_record_is_a_statepoint_whose_pairs_pass_18() {
    let with = |pair: (Location, Location)| breach(&[right(0x20), statepoint(0x40, &[pair])]);
    assert_eq!(with((rsp(8), rsp(17))), None, "19");
    assert_eq!(with((rsp(8), rsp(12))), None, "20");
    assert_eq!(with((register(3), rsp(i32::MIN))), None);
    assert_eq!(with((register(7), rsp(8))), Some(1));
    assert_eq!(with((register(16), rsp(8))), Some(1));
    assert_eq!(with((location(3, 8, 31, 8), rsp(8))), Some(1));
    assert_eq!(with((location(3, 16, 7, 8), rsp(8))), Some(1), "sizes");
    assert_eq!(with((small(1), rsp(8))), Some(1));
    assert_eq!(
        breach(&[right(0x20), record(0x40, vec![], vec![])]),
        Some(1)
    );
    let live = record(0x40, vec![small(0); 3], vec![live_out(3, 8)]);
    assert_eq!(breach(&[right(0x20), live]), Some(1));
    assert_eq!(
        breach(&[record(0x10, vec![], vec![]), right(0x20)]),
        Some(0)
    );
}

/// The lowest record with any breach, whichever it is.
#[test]
fn the_lowest_record_with_any_breach() {
    let wrong = statepoint(0x40, &[(small(1), rsp(8))]);
    let many = statepoint(0x40, &vec![(small(0), small(0)); 17]);
    let none = record(0x40, vec![], vec![]);
    let falling = right(0x10);
    let all = [wrong, many, none, falling];
    for (nth, first) in all.iter().enumerate() {
        for second in &all {
            let records = [right(0x20), first.clone(), second.clone()];
            assert_eq!(breach(&records), Some(1), "{nth}");
        }
    }
}

/// 31 and 1 to 9 come first, 50 next, version and machine at 0 before the
/// records, and then 33 and the rest.
#[test]
fn the_order_of_refusals() {
    let bad = || of(&[right(0x20), right(0x10)]);
    assert_eq!(run(5, &mut bad()), refusal(31, 0));
    assert_eq!(run(0, &mut bad()), refusal(31, 0));
    let mut cut = bad();
    cut.section.pop();
    assert_eq!(run(5, &mut cut), refusal(31, 0));
    assert_eq!(run(1, &mut cut).unwrap_err().number, 4);
    let mut all = bad();
    all.first = u64::MAX;
    all.new_starts.clear();
    all.registers.clear();
    assert_eq!(run(1, &mut all), refusal(50, 1), "before 13, 14 and 25");
    assert_eq!(run(2, &mut all), refusal(50, 1), "before 33");
    assert_eq!(run(3, &mut all), refusal(50, 1), "before 33");
    for machine in [AARCH64, 2, 1 << 32, u64::MAX] {
        all.machine = machine;
        for edition in [1, 2, 3] {
            assert_eq!(run(edition, &mut all), refusal(50, 0), "the machine");
        }
    }
    let mut older = Move::row_i_1();
    for edition in [1, 3] {
        assert_eq!(run(edition, &mut older), refusal(50, 0), "the version");
    }
    assert_eq!(run(2, &mut Move::row_i()), refusal(33, 0));
    assert_eq!(run(3, &mut Move::row_i()), refusal(33, 0));
}

/// The check of a section alone: 1 to 9, the version, the records.
#[test]
fn a_section_is_checked_alone() {
    assert_eq!(check(&row_h()), Ok(()));
    assert_eq!(check(&row_c()), Ok(()));
    assert_eq!(check(&row_h()[..151]), refusal(4, 40));
    assert_eq!(check(&row_h_1()), refusal(50, 0));
    let bad = of(&[right(0x20), right(0x10)]).section;
    assert_eq!(check(&bad), refusal(50, 1));
    assert_eq!(check(&bad[..bad.len() - 1]), refusal(4, 152));
}

/// 17 under an edition with fewer than 16, of the frame's own record alone.
#[test]
fn the_editions_count_is_read_after_the_profile() {
    let null = (small(0), small(0));
    let records = |count| [statepoint(0x20, &vec![null.clone(); count]), right(0x40)];
    assert_eq!(run(4, &mut of(&records(3))), Ok(3));
    assert_eq!(run(4, &mut of(&records(4))), refusal(17, 0));
    assert_eq!(run(1, &mut of(&records(4))), Ok(4));
    assert_eq!(run(4, &mut of(&records(17))), refusal(50, 0));
}

/// A thread with 50 in the same place.
#[test]
fn a_thread_on_the_bench() {
    let store = store();
    let run = |edition, section: &[u8], machine, index: Option<&[u64]>| {
        let restore = Restore {
            store: &store,
            edition,
            section,
            first: 0x7000,
            old_starts: &[0x50000],
            new_starts: &[0x90000],
        };
        let (list, mut registers) = lists(AMD64, &[[0x1020, 0, 0x7000, 0]]);
        let mut image = Move::row_i().image;
        let answer = thread(&restore, &mut image, machine, &list, &mut registers, index);
        assert!(answer.is_ok() || image == Move::row_i().image);
        answer
    };
    let bad = of(&[right(0x20), right(0x10)]).section;
    assert_eq!(run(1, &row_h(), AMD64, None), Ok(2));
    assert_eq!(run(1, &row_h(), AMD64, Some(&[0x1020, 0])), Ok(2));
    assert_eq!(run(1, &row_h(), AMD64, Some(&[])), refusal(29, 0));
    assert_eq!(run(1, &bad, AMD64, Some(&[])), refusal(50, 1));
    assert_eq!(run(5, &bad, AMD64, None), refusal(31, 0));
    assert_eq!(run(2, &row_h(), AMD64, None), refusal(33, 0));
    assert_eq!(run(2, &row_h(), AARCH64, None), refusal(50, 0));
    assert_eq!(run(3, &row_h_1(), AMD64, Some(&[])), refusal(50, 0));
}
