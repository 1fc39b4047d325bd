//! Stores that are set up with a past, and the end of the numbers.

use super::tests::counting;
use super::*;
use crate::fixtures::{refusal, Random};

fn edition(number: u64) -> Edition {
    let settings = counting(1 + number % 256);
    Edition { number, settings }
}

fn set_up(greatest: u64, numbers: impl IntoIterator<Item = u64>) -> Option<Store> {
    let live: Vec<Edition> = numbers.into_iter().map(edition).collect();
    Store::set_up(greatest, &live)
}

#[test]
fn a_store_is_set_up_as_it_is_asked_for() {
    let store = set_up(LAST, [7, LAST, 1]).unwrap();
    assert_eq!(store.editions(), [1, 7, LAST].map(edition));
    assert_eq!(store.greatest(), LAST);
    for number in [1, 7, LAST] {
        assert_eq!(store.read(number), Ok(edition(number).settings));
    }
    assert!([0, 2, LAST - 1].map(|number| store.read(number)) == [refusal(31, 0); 3]);
    assert_eq!(set_up(0, []), Some(Store::empty()));
}

#[test]
fn what_no_sequence_of_calls_leaves_is_not_set_up() {
    assert_eq!(set_up(LAST + 1, []), None);
    assert_eq!(set_up(u64::MAX, []), None);
    assert_eq!(set_up(0, [0]), None);
    assert_eq!(set_up(9, [0, 9]), None);
    assert_eq!(set_up(9, [10]), None);
    assert_eq!(set_up(9, [3, 4, 3]), None);
    assert_eq!(set_up(100, 1..=65), None);
    for settings in [counting(0), counting(257)] {
        let number = 1;
        assert_eq!(Store::set_up(1, &[Edition { number, settings }]), None);
    }
}

/// When the greatest was made it had a place, so that with it retired there are
/// at most 63.
#[test]
fn a_full_store_has_its_greatest() {
    assert_eq!(set_up(65, 1..=64), None);
    assert!(set_up(65, 2..=65).is_some());
    assert!(set_up(65, 1..=63).is_some());
    assert!(set_up(64, 1..=64).is_some());
}

/// Makes each number up to the greatest and retires it at once where it isn't
/// to be live. None where a place is missing.
fn by_calls(greatest: u64, live: &[Edition]) -> Option<Store> {
    let mut store = Store::empty();
    for number in 1..=greatest {
        let own = live.iter().find(|own| own.number == number);
        let settings = own.map_or(counting(1), |own| own.settings);
        assert_eq!(store.make(settings).ok()?, number);
        if own.is_none() {
            store.retire(number).unwrap();
        }
    }
    Some(store)
}

/// A store can be set up exactly where calls leave it.
#[test]
fn what_is_set_up_is_what_calls_leave() {
    let mut random = Random(9);
    let mut met = [0; 2];
    for nth in 0..4_000 {
        let greatest = nth % 80;
        let often = 1 + random.below(40);
        let numbers = (1..=greatest).filter(|_| random.below(often) > 0);
        let live: Vec<Edition> = numbers.map(edition).collect();
        let (store, left) = (Store::set_up(greatest, &live), by_calls(greatest, &live));
        let seen = |store: &Store| (store.greatest(), store.editions());
        assert_eq!(store.as_ref().map(seen), left.as_ref().map(seen));
        met[usize::from(store.is_some())] += 1;
    }
    assert!(met.iter().all(|met| *met >= 400), "{met:?}");
}

#[test]
fn the_last_number_is_given_and_none_after_it() {
    let mut store = set_up(LAST - 2, []).unwrap();
    assert_eq!(store.make(counting(1)), Ok(LAST - 1));
    assert_eq!(store.make(counting(2)), Ok(LAST));
    for _ in 0..3 {
        let before = store.clone();
        assert_eq!(store.make(counting(3)), refusal(32, 0));
        assert_eq!(store, before);
    }
    assert_eq!(store.read(LAST), Ok(counting(2)));
    assert_eq!(store.read(LAST + 1), refusal(31, 0));
    store.retire(LAST).unwrap();
    store.retire(LAST - 1).unwrap();
    assert_eq!(store.make(counting(3)), refusal(32, 0));
    assert_eq!((store.editions(), store.greatest()), (vec![], LAST));
}

/// Before the last number 30 is given, and after it 32, full or not.
#[test]
fn a_full_store_is_30_before_the_last_number_and_32_after_it() {
    let mut store = set_up(LAST - 1, LAST - 64..LAST).unwrap();
    assert_eq!(store.make(counting(1)), refusal(30, 0));
    store.retire(LAST - 30).unwrap();
    assert_eq!(store.make(counting(1)), Ok(LAST));
    assert_eq!(store.editions().len(), PLACES);
    assert_eq!(store.make(counting(1)), refusal(32, 0));
    store.retire(LAST - 1).unwrap();
    assert_eq!(store.make(counting(1)), refusal(32, 0));
}
