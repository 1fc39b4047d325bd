//! Making, retiring and reading editions.

use super::*;
use crate::fixtures::refusal;

/// Settings with this count, AMD64 and version 3.
pub(super) fn counting(largest_count: u64) -> Settings {
    Settings {
        largest_count,
        machine: AMD64,
        version_1: false,
        version_3: true,
    }
}

/// A store on which 64 editions have been made, the edition of each number with
/// that number as its count.
fn full() -> Store {
    let mut store = Store::empty();
    for number in 1..=64 {
        assert_eq!(store.make(counting(number)), Ok(number));
    }
    store
}

/// The numbers of the live editions.
fn numbers(store: &Store) -> Vec<u64> {
    store.editions().iter().map(|own| own.number).collect()
}

/// Settings of which one is wrong, or more.
fn wrong() -> Vec<Settings> {
    let good = counting(256);
    let mut wrong = vec![];
    for largest_count in [0, 257, 258, 512, 1 << 16, (1 << 32) + 1, u64::MAX] {
        wrong.push(counting(largest_count));
    }
    for machine in [2, 3, 255, 256, 257, 1 << 32, (1 << 32) + 1, u64::MAX] {
        wrong.push(Settings { machine, ..good });
    }
    let version_3 = false;
    wrong.push(Settings { version_3, ..good });
    wrong.push(Settings {
        version_3,
        largest_count: 0,
        machine: 2,
        ..good
    });
    wrong
}

#[test]
fn the_first_edition_is_1_and_each_next_is_one_more() {
    let store = full();
    assert_eq!(numbers(&store), (1..=64).collect::<Vec<_>>());
    for number in 1..=64 {
        assert_eq!(store.read(number), Ok(counting(number)));
    }
    assert_eq!((Store::empty().greatest(), store.greatest()), (0, 64));
}

#[test]
fn settings_are_read_as_they_were_made() {
    let mut store = Store::empty();
    let mut made = vec![];
    for largest_count in [1, 2, 8, 255, 256] {
        for machine in [AMD64, AARCH64] {
            for (version_1, version_3) in [(true, false), (false, true), (true, true)] {
                let settings = Settings {
                    largest_count,
                    machine,
                    version_1,
                    version_3,
                };
                made.push((store.make(settings).unwrap(), settings));
            }
        }
    }
    for (number, settings) in made {
        assert_eq!(store.read(number), Ok(settings));
    }
}

#[test]
fn settings_that_cannot_be_are_51() {
    for settings in wrong() {
        let mut store = Store::empty();
        assert_eq!(store.make(settings), refusal(51, 0), "{settings:?}");
        assert_eq!(store, Store::empty());
    }
}

#[test]
fn a_full_store_is_30_until_an_edition_is_retired() {
    let mut store = full();
    for _ in 0..3 {
        assert_eq!(store.make(counting(1)), refusal(30, 0));
        assert_eq!(store, full());
    }
    for round in 1..=64 {
        assert_eq!(store.retire(round), Ok(()));
        assert_eq!(store.make(counting(7)), Ok(64 + round));
        assert_eq!(store.make(counting(7)), refusal(30, 0));
    }
    assert_eq!(numbers(&store), (65..=128).collect::<Vec<_>>());
}

/// Attempts that were refused leave no gap.
#[test]
fn a_refused_make_uses_no_number() {
    let mut store = full();
    for settings in wrong().into_iter().chain([counting(1)]) {
        assert!(store.make(settings).is_err());
    }
    store.retire(64).unwrap();
    assert_eq!(store.make(counting(1)), Ok(65));
}

/// The number of a retired edition isn't given again, also where it was the
/// greatest or the only one.
#[test]
fn a_retired_number_is_never_used_again() {
    let mut store = Store::empty();
    for number in 1..=200 {
        assert_eq!(store.make(counting(5)), Ok(number));
        assert_eq!(store.retire(number), Ok(()));
        assert_eq!((store.editions(), store.greatest()), (vec![], number));
    }
    assert!((0..=201).all(|number| store.read(number) == refusal(31, 0)));
}

#[test]
fn an_edition_is_retired_once() {
    for number in 1..=64 {
        let mut store = full();
        assert_eq!(store.retire(number), Ok(()));
        let left = store.clone();
        assert_eq!(store.retire(number), refusal(31, 0));
        assert_eq!(store.read(number), refusal(31, 0));
        assert_eq!(store, left);
        let others = (1..=64).filter(|other| *other != number);
        assert_eq!(numbers(&store), others.collect::<Vec<_>>());
    }
}

/// 0, numbers that haven't been used yet, and ones that only a narrower number
/// would take for a live one.
#[test]
fn unknown_editions_are_31() {
    let mut far = vec![0, 65, 66, LAST, LAST + 1, u64::MAX];
    for number in 1..=64 {
        far.extend([8, 16, 32, 63].map(|bit| number + (1 << bit)));
    }
    let mut store = full();
    for number in far {
        assert_eq!(store.read(number), refusal(31, 0), "{number}");
        assert_eq!(store.retire(number), refusal(31, 0), "{number}");
        assert_eq!(Store::empty().read(number), refusal(31, 0));
        assert_eq!(Store::empty().retire(number), refusal(31, 0));
    }
    assert_eq!(store, full());
}

/// 51, 32, 30, each with all that come after it.
#[test]
fn the_order_of_refusals() {
    let live: Vec<Edition> = (LAST - 63..=LAST)
        .map(|number| Edition {
            number,
            settings: counting(9),
        })
        .collect();
    let last = Store::set_up(LAST, &live).unwrap();
    let before = |store: &Store, settings, number| {
        let mut called = store.clone();
        assert_eq!(called.make(settings), refusal(number, 0));
        assert_eq!(&called, store);
    };
    let used_up = Store::set_up(LAST, &[]).unwrap();
    for settings in wrong() {
        for store in [&last, &full(), &used_up] {
            before(store, settings, 51);
        }
    }
    before(&last, counting(1), 32);
    before(&used_up, counting(1), 32);
    before(&full(), counting(1), 30);
}
