//! Filling an index, and the lookup through one.

use super::{by_index, fill_index};
use crate::fixtures::{self as given, function, refusal, row_c, row_h, row_h_1, with, Random};
use crate::questions::{by_address, Found};
use crate::section::{encode, read};

/// Records at 0x310, 0x300, 0x100, 0x110, 0x300, 0x110 and 0x300, of functions
/// that don't rise either.
pub(super) fn shuffled() -> Vec<u8> {
    let functions = [
        function(0x300, 8, 2),
        function(0x50, 8, 0),
        function(0x100, 8, 3),
        function(0x10, 8, 2),
    ];
    let offsets = [0x10, 0, 0, 0x10, 0x200, 0x100, 0x2F0];
    let records = offsets.map(|offset| given::record(offset, vec![], vec![]));
    encode(&functions, &[], &records)
}

/// The index of [`shuffled`], written out by hand.
pub(super) const SHUFFLED: [u64; 14] = [
    0x100, 2, 0x110, 3, 0x110, 5, 0x300, 1, 0x300, 4, 0x300, 6, 0x310, 0,
];

/// A record at each of these addresses, each of a function of its own.
fn at(addresses: &[u64]) -> Vec<u8> {
    let functions: Vec<_> = addresses.iter().map(|&own| function(own, 8, 1)).collect();
    let record = given::record(0, vec![], vec![]);
    encode(&functions, &[], &vec![record; addresses.len()])
}

/// The index of an accepted section.
pub(super) fn index_of(section: &[u8]) -> Vec<u64> {
    let mut index = vec![0; 2 * read(section).unwrap().records.len()];
    assert_eq!(fill_index(section, &mut index), Ok(index.len() as u64));
    index
}

#[test]
fn entries_are_ordered_by_address_and_then_by_number() {
    assert_eq!(index_of(&row_c()), []);
    assert_eq!(index_of(&row_h()), [0x1020, 0]);
    assert_eq!(index_of(&shuffled()), SHUFFLED);
    assert_eq!(index_of(&at(&[1, 2, 3])), [1, 0, 2, 1, 3, 2]);
    assert_eq!(index_of(&at(&[3, 2, 1])), [1, 2, 2, 1, 3, 0]);
    assert_eq!(index_of(&at(&[5, 5, 5])), [5, 0, 5, 1, 5, 2]);
}

/// Addresses are compared as numbers of 64 bits without a sign.
#[test]
fn addresses_at_the_ends_and_in_the_middle() {
    let (last, middle) = (u64::MAX, 1 << 63);
    let section = at(&[last, middle, 0, middle - 1, 1 << 32]);
    let index = [0, 2, 1 << 32, 4, middle - 1, 3, middle, 1, last, 0];
    assert_eq!(index_of(&section), index);
}

#[test]
fn entries_beyond_the_written_ones_are_unchanged() {
    let mut index = [9; 20];
    assert_eq!(fill_index(&shuffled(), &mut index), Ok(14));
    assert_eq!(index[..14], SHUFFLED);
    assert_eq!(index[14..], [9; 6]);
    assert_eq!(fill_index(&row_c(), &mut index), Ok(0));
    assert_eq!(index[..14], SHUFFLED);
}

#[test]
fn a_list_that_is_too_short_is_24_and_unchanged() {
    for room in 0..14 {
        let mut index = vec![9; room];
        assert_eq!(fill_index(&shuffled(), &mut index), refusal(24, 0));
        assert_eq!(index, vec![9; room]);
    }
    assert_eq!(fill_index(&row_h(), &mut [9]), refusal(24, 0));
    assert_eq!(fill_index(&row_c(), &mut []), Ok(0));
}

#[test]
fn the_sections_own_refusal_comes_first_and_27_before_24() {
    for room in [0, 1, 2, 20] {
        let mut index = vec![9; room];
        let damaged = with(row_h(), 128, 9);
        assert_eq!(fill_index(&damaged, &mut index), refusal(6, 128));
        assert_eq!(fill_index(&row_h()[..15], &mut index), refusal(1, 0));
        assert_eq!(fill_index(&row_h_1(), &mut index), refusal(27, 0));
        let none = with(row_c(), 0, 1);
        assert_eq!(fill_index(&none, &mut index), refusal(27, 0));
        assert_eq!(index, vec![9; room]);
    }
}

#[test]
fn a_lookup_gives_the_first_record_its_function_and_how_many_share_it() {
    let found = |address| by_index(&shuffled(), &SHUFFLED, address);
    let expected = |record, function, sharing| {
        Ok(Found {
            record,
            function,
            sharing,
        })
    };
    assert_eq!(found(0x100), expected(2, 2, 1));
    assert_eq!(found(0x110), expected(3, 2, 2));
    assert_eq!(found(0x300), expected(1, 0, 3));
    assert_eq!(found(0x310), expected(0, 0, 1));
    for address in [0, 0xFF, 0x101, 0x10F, 0x200, 0x30F, 0x311, u64::MAX] {
        assert_eq!(found(address), refusal(10, 0));
    }
    assert_eq!(by_index(&row_c(), &[], 0), refusal(10, 0));
}

/// Lists with a number changed, numbers cut off at either end, and a record left
/// out.
fn changed_and_cut() -> Vec<Vec<u64>> {
    let mut wrong = vec![];
    for nth in 0..14 {
        for other in [SHUFFLED[nth] ^ 1, SHUFFLED[nth] + 1, u64::MAX] {
            let mut changed = SHUFFLED.to_vec();
            changed[nth] = other;
            wrong.push(changed);
        }
        wrong.push(SHUFFLED[..nth].to_vec());
        wrong.push(SHUFFLED[nth + 1..].to_vec());
        let mut missing = SHUFFLED.to_vec();
        missing.drain(nth / 2 * 2..nth / 2 * 2 + 2);
        wrong.push(missing);
    }
    wrong
}

/// Lists with two numbers or two records exchanged, and with a record twice.
fn exchanged_and_doubled() -> Vec<Vec<u64>> {
    let mut wrong = vec![];
    for (one, other) in (0..14).flat_map(|one| (0..one).map(move |other| (one, other))) {
        let mut exchanged = SHUFFLED.to_vec();
        exchanged.swap(one, other);
        if exchanged != SHUFFLED {
            wrong.push(exchanged);
        }
        if one % 2 == 0 && other % 2 == 0 {
            let mut pairs = SHUFFLED.to_vec();
            pairs.swap(one, other);
            pairs.swap(one + 1, other + 1);
            wrong.push(pairs);
            let mut doubled = SHUFFLED.to_vec();
            doubled.copy_within(other..other + 2, one);
            wrong.push(doubled);
        }
    }
    wrong
}

/// An index handed in is the section's, to the last entry, or it is 29; and 29
/// comes before 10.
#[test]
fn every_other_index_is_29() {
    let mut wrong = vec![vec![], SHUFFLED.repeat(2), vec![0; 14]];
    wrong.extend(changed_and_cut());
    wrong.extend(exchanged_and_doubled());
    for more in [&[0][..], &[0x310, 1], &[0x310, 0], &[u64::MAX, u64::MAX]] {
        wrong.push([&SHUFFLED[..], more].concat());
    }
    for index in wrong {
        for address in [0x100, 0x110, 0x300, 0x310, 0x200, 0, u64::MAX] {
            let answer = by_index(&shuffled(), &index, address);
            assert_eq!(answer, refusal(29, 0), "{index:x?}");
        }
    }
    for index in [&[0][..], &[0, 0]] {
        assert_eq!(by_index(&row_c(), index, 0), refusal(29, 0));
    }
    assert_eq!(by_index(&row_h(), &[], 0x1020), refusal(29, 0));
}

/// The right index of a section is that of another with the same addresses.
#[test]
fn an_index_is_right_by_its_entries_alone() {
    let other = at(&[0x1020]);
    let answer = by_index(&row_h(), &index_of(&other), 0x1020);
    assert_eq!(answer, by_address(&row_h(), 0x1020));
}

#[test]
fn the_sections_own_refusal_and_27_come_before_29() {
    for index in [&[][..], &[0x1020, 0], &[7]] {
        let damaged = with(row_h(), 128, 9);
        assert_eq!(by_index(&damaged, index, 0x1020), refusal(6, 128));
        assert_eq!(by_index(&row_h_1(), index, 0x20), refusal(27, 0));
        assert_eq!(by_index(&with(row_c(), 0, 1), index, 0), refusal(27, 0));
    }
}

/// With the right index a lookup is the question by address.
#[test]
fn the_right_index_gives_what_the_plain_walk_gives() {
    let mut random = Random(4);
    let mut found = 0;
    for _ in 0..2_000 {
        let section = random.section();
        if section[0] == 1 {
            continue;
        }
        let index = index_of(&section);
        let own = index.iter().step_by(2).copied();
        for address in own.flat_map(|own| [own, own + 1, own.wrapping_sub(1)]) {
            let plain = by_address(&section, address);
            assert_eq!(by_index(&section, &index, address), plain);
            found += u32::from(plain.is_ok());
        }
    }
    assert!(found > 2_000, "{found}");
}
