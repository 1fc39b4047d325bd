//! Many lookups in one call.

use super::tests::{index_of, shuffled, SHUFFLED};
use super::{all_by_index, by_index, fill_index, ANSWER};
use crate::fixtures::{refusal, row_c, row_h, row_h_1, with, Random};

/// The answers to these addresses, in a list that is longer by three.
fn answers(section: &[u8], index: &[u64], addresses: &[u64]) -> Vec<u64> {
    let mut answers = vec![9; ANSWER * addresses.len() + 3];
    let written = all_by_index(section, index, addresses, &mut answers);
    assert_eq!(written, Ok(5 * addresses.len() as u64));
    assert_eq!(answers.split_off(ANSWER * addresses.len()), [9; 3]);
    answers
}

#[test]
fn each_address_has_five_numbers_in_the_order_of_the_list() {
    let list = [0x300, 0x310, 0x101, 0x110, 0x300];
    let rows = [
        [0, 0, 1, 0, 3],
        [0, 0, 0, 0, 1],
        [10, 0, 0, 0, 0],
        [0, 0, 3, 2, 2],
        [0, 0, 1, 0, 3],
    ];
    assert_eq!(answers(&shuffled(), &SHUFFLED, &list), rows.concat());
    assert_eq!(answers(&row_c(), &[], &[0]), [10, 0, 0, 0, 0]);
    assert_eq!(answers(&shuffled(), &SHUFFLED, &[]), []);
}

#[test]
fn each_answer_is_that_of_the_single_lookup() {
    let mut random = Random(5);
    for _ in 0..500 {
        let section = random.section();
        if section[0] == 1 {
            continue;
        }
        let index = index_of(&section);
        let mut addresses: Vec<u64> = index.iter().step_by(2).copied().collect();
        addresses.extend((0..4).map(|_| random.below(0x9000)));
        let answers = answers(&section, &index, &addresses);
        for (row, address) in answers.chunks(ANSWER).zip(addresses) {
            let single = match by_index(&section, &index, address) {
                Ok(found) => [0, 0, found.record, found.function, found.sharing],
                Err(refusal) => [refusal.number, refusal.place, 0, 0, 0],
            };
            assert_eq!(row, single);
        }
    }
}

#[test]
fn a_list_of_answers_that_is_too_short_is_24_and_unchanged() {
    for room in 0..15 {
        let mut answers = vec![9; room];
        let written = all_by_index(&shuffled(), &SHUFFLED, &[1, 2, 3], &mut answers);
        assert_eq!(written, refusal(24, 0));
        assert_eq!(answers, vec![9; room]);
    }
    let none = all_by_index(&shuffled(), &SHUFFLED, &[], &mut []);
    assert_eq!(none, Ok(0));
}

/// 1 to 9, 27, 29, 24: also where no address is asked for.
#[test]
fn the_order_of_refusals() {
    for addresses in [&[][..], &[0x1020], &[1, 2]] {
        for room in [0, 4, 10] {
            let mut list = vec![9; room];
            let mut refused = |section: &[u8], index: &[u64]| {
                let written = all_by_index(section, index, addresses, &mut list);
                assert_eq!(list, vec![9; room]);
                written
            };
            let damaged = with(row_h(), 128, 9);
            for index in [&[][..], &[0x1020, 0], &[7]] {
                assert_eq!(refused(&damaged, index), refusal(6, 128));
                assert_eq!(refused(&row_h_1(), index), refusal(27, 0));
            }
            assert_eq!(refused(&row_h(), &[]), refusal(29, 0));
            assert_eq!(refused(&row_h(), &[0x1020]), refusal(29, 0));
            assert_eq!(refused(&row_h(), &[0x1020, 0, 0]), refusal(29, 0));
            assert_eq!(refused(&row_c(), &[0, 0]), refusal(29, 0));
            if room < ANSWER * addresses.len() {
                assert_eq!(refused(&row_h(), &[0x1020, 0]), refusal(24, 0));
            }
        }
    }
}

/// What one call has filled another reads.
#[test]
fn a_filled_list_is_an_index_only_as_far_as_it_is_written() {
    let mut list = [9; 20];
    let written = fill_index(&shuffled(), &mut list).unwrap() as usize;
    let mut answers = [0; 5];
    let mut ask = |index: &[u64]| all_by_index(&shuffled(), index, &[0x100], &mut answers);
    assert_eq!(ask(&list), refusal(29, 0));
    assert_eq!(ask(&list[..written]), Ok(5));
}
