//! Stores that no calls leave: what the library answers to them, and that no file has one.

use super::*;

/// A number that matters to a place, mostly one that others have too.
fn number(rng: &mut Rng) -> u64 {
    let last = Editions::LAST;
    let small = rng.below(6) as u64;
    rng.pick(&[0, 0, small, small, small, last, last + 1, last + 2, 1 << 63])
}

/// A store of any content. Its places are few numbers many times, some with settings that can't be.
fn any_store(rng: &mut Rng) -> Store {
    let mut store = ffi::empty();
    store.greatest = rng.pick(&[0, 3, Editions::LAST - 1, Editions::LAST, u64::MAX]);
    let taken = rng.one_in(3);
    for place in &mut store.places {
        let own = number(rng);
        place.number = if taken { own.max(1) } else { own };
        place.settings = Settings {
            most: rng.pick(&[0, 1, 2, 256, 256, 257, u64::MAX]),
            machine: rng.pick(&[0, 0, 1, 1, 2]),
            version_1: rng.pick(&[0, 1, 1, 2]),
            version_3: rng.pick(&[0, 1, 1, 1 << 32]),
        };
    }
    store
}

/// Settings that an edition can be made with.
fn are_right(own: Settings) -> bool {
    let numbers = (1..=256).contains(&own.most) && own.machine <= 1;
    let flags = own.version_1 <= 1 && own.version_3 <= 1;
    numbers && flags && own.version_1 + own.version_3 > 0
}

/// Whether a place has the edition of that number.
fn has_edition(place: &Place, number: u64) -> bool {
    let known = (1..=Editions::LAST).contains(&number);
    known && place.number == number && are_right(place.settings)
}

/// The refusal's number, or 0.
fn number_of(verdict: &crate::ffi::Verdict) -> u64 {
    let accepted = verdict.accepted();
    accepted.map_or_else(|refusal| refusal.number(), |()| 0)
}

/// Reads and retires: the first place with the number is read, and all are freed. Gives the refusal.
fn read_and_retire(store: &Store, asked: u64) -> u64 {
    let own = store.places.iter().find(|place| has_edition(place, asked));
    let mut without = store.clone();
    let places = without.places.iter_mut();
    places
        .filter(|place| has_edition(place, asked))
        .for_each(|place| *place = Place::default());
    let (read, retired) = (ffi::read(store, asked), ffi::retire(store, asked));
    let expected = if own.is_some() { 0 } else { 31 };
    let told = [number_of(&read.verdict), number_of(&retired.verdict)];
    assert_eq!(told, [expected; 2], "{asked} of {store:?}");
    let settings = own.map(|own| own.settings).unwrap_or_default();
    assert_eq!(read.settings, settings, "{asked} of {store:?}");
    assert_eq!(retired.store, without, "{asked} of {store:?}");
    expected
}

/// Makes: a place is free by its number alone, and the new number follows the greatest. Gives the refusal.
fn make(store: &Store, settings: Settings) -> u64 {
    let made = ffi::make(store, settings);
    let mut with = store.clone();
    let free = with.places.iter_mut().find(|place| place.number == 0);
    let (expected, edition) = match free {
        _ if !are_right(settings) => (51, 0),
        _ if store.greatest >= Editions::LAST => (32, 0),
        None => (30, 0),
        Some(place) => {
            let number = store.greatest + 1;
            *place = Place { number, settings };
            with.greatest = number;
            (0, number)
        }
    };
    let told = (number_of(&made.verdict), made.edition);
    assert_eq!(told, (expected, edition), "{settings:?} of {store:?}");
    assert_eq!(made.store, with, "{settings:?} of {store:?}");
    expected
}

#[test]
fn any_store_is_answered_by_its_places() {
    let mut rng = Rng::new(26);
    let mut counts = BTreeMap::<u64, u64>::new();
    for _ in 0..50_000 {
        let store = any_store(&mut rng);
        let asked = number(&mut rng);
        let settings = store.places[rng.below(ffi::PLACES)].settings;
        for number in [read_and_retire(&store, asked), make(&store, settings)] {
            *counts.entry(number).or_default() += 1;
        }
    }
    for number in [0, 30, 31, 32, 51] {
        assert!(counts[&number] >= OFTEN, "{counts:?}");
    }
}

/// A store with a past that has taken and free places.
fn some_store(rng: &mut Rng) -> Editions {
    let kind = rng.pick(&Kind::ALL);
    let sequence = of_length(rng, kind, 0);
    let mut store = start(rng, &sequence);
    let length = rng.below(200);
    for (call, _) in of_length(rng, kind, length).calls {
        store = of_library(&store, call).1;
    }
    Editions { store }
}

#[test]
fn a_store_and_its_bytes_are_one() {
    let mut rng = Rng::new(27);
    for _ in 0..2_000 {
        let editions = some_store(&mut rng);
        let bytes = editions.to_bytes();
        assert_eq!(bytes.len(), Editions::BYTES);
        assert_eq!(Editions::from_bytes(&bytes), Ok(editions));
    }
}

/// One byte wrong, anywhere and by any bits, one missing or one too many.
#[test]
fn every_damaged_byte_is_seen() {
    let mut rng = Rng::new(28);
    let whole = some_store(&mut rng).to_bytes();
    for at in 0..whole.len() {
        for bits in [1, 2, 4, 8, 16, 32, 64, 128, 255, 1 + rng.below(255) as u8] {
            let mut bytes = whole.clone();
            bytes[at] ^= bits;
            let damage = Editions::from_bytes(&bytes).unwrap_err();
            let right = match at {
                0..8 => damage == Damage::Magic,
                8..12 => matches!(damage, Damage::Format(_)),
                12..16 => matches!(damage, Damage::Length(_)),
                _ => damage == Damage::Checksum,
            };
            assert!(right, "{damage:?} at {at}");
        }
        let cut = Editions::from_bytes(&whole[..at]).unwrap_err();
        match at {
            0..8 => assert_eq!(cut, Damage::Magic),
            _ => assert_eq!(cut, Damage::Length(at as u64)),
        }
    }
    for more in [&[0][..], &[9; 40]] {
        let bytes = [&whole[..], more].concat();
        let damage = Editions::from_bytes(&bytes);
        assert_eq!(damage, Err(Damage::Length(bytes.len() as u64)));
    }
}

/// The bytes of a store of any content, with a checksum that fits.
fn forged(store: Store) -> Vec<u8> {
    Editions { store }.to_bytes()
}

const RIGHT: Settings = Settings {
    most: 256,
    machine: 1,
    version_1: 1,
    version_3: 0,
};

/// A store whose first place is free and whose others have the editions 8 to 70.
fn nearly_full() -> Store {
    let mut store = ffi::empty();
    store.greatest = 70;
    for (nth, place) in store.places.iter_mut().enumerate().skip(1) {
        place.number = 7 + nth as u64;
        place.settings = RIGHT;
    }
    store
}

/// What can't stand in a place of that store: settings that can't be, a free place with settings, and
/// numbers over the greatest.
fn wrong_places(number: u64) -> Vec<Place> {
    let number = number.max(1);
    let rows = [
        [number, 0, 0, 1, 1],
        [number, 257, 0, 1, 1],
        [number, 1 << 32, 0, 1, 1],
        [number, 1, 2, 1, 1],
        [number, 1, 1 << 32, 1, 1],
        [number, 1, 0, 0, 0],
        [number, 1, 0, 2, 1],
        [number, 1, 0, 1, 2],
        [number, 1, 0, 1 << 8, 1],
        [0, 1, 0, 1, 1],
        [0, 0, 0, 0, 1],
        [71, 1, 0, 1, 1],
        [1 << 32 | 1, 1, 0, 1, 1],
    ];
    let place = |[number, most, machine, version_1, version_3]: [u64; 5]| Place {
        number,
        settings: Settings {
            most,
            machine,
            version_1,
            version_3,
        },
    };
    rows.map(place).to_vec()
}

/// Each field, with a checksum that fits.
#[test]
fn every_field_is_judged() {
    let store = nearly_full();
    assert!(Editions::from_bytes(&forged(store.clone())).is_ok());
    for nth in 0..ffi::PLACES {
        for place in wrong_places(store.places[nth].number) {
            let mut damaged = store.clone();
            damaged.places[nth] = place;
            let damage = Editions::from_bytes(&forged(damaged));
            assert_eq!(damage, Err(Damage::Place(nth)), "{place:?}");
        }
        // A number that stands in another place too.
        let other = if nth < 2 { 63 } else { nth - 1 };
        let mut twice = store.clone();
        twice.places[nth].settings = RIGHT;
        twice.places[nth].number = store.places[other].number;
        let damage = Editions::from_bytes(&forged(twice));
        assert_eq!(damage, Err(Damage::Place(nth.max(other))));
    }
}

#[test]
fn the_greatest_number_is_judged() {
    let mut store = ffi::empty();
    for greatest in [0, 1, 1 << 31, Editions::LAST] {
        store.greatest = greatest;
        assert!(Editions::from_bytes(&forged(store.clone())).is_ok());
    }
    for greatest in [1 << 32, (1 << 32) + 1, u64::MAX] {
        store.greatest = greatest;
        let damage = Editions::from_bytes(&forged(store.clone()));
        assert_eq!(damage, Err(Damage::Greatest));
    }
    // All places taken: the greatest took one of them.
    for (nth, place) in store.places.iter_mut().enumerate() {
        place.number = 1 + nth as u64;
        place.settings = RIGHT;
    }
    store.greatest = 64;
    assert!(Editions::from_bytes(&forged(store.clone())).is_ok());
    store.greatest = 65;
    let damage = Editions::from_bytes(&forged(store));
    assert_eq!(damage, Err(Damage::Full));
}

/// A store as calls leave it, or one with up to two changes.
fn nearly_right(rng: &mut Rng) -> Store {
    let Editions { mut store } = some_store(rng);
    for _ in 0..rng.below(3) {
        let nth = rng.below(ffi::PLACES);
        let other = store.places[rng.below(ffi::PLACES)];
        let place = &mut store.places[nth];
        match rng.below(8) {
            0 => store.greatest = store.greatest.wrapping_add(rng.pick(&[1, 2, u64::MAX])),
            1 => store.greatest = other.number,
            2 => *place = other,
            3 => place.number = rng.pick(&[0, 1, store.greatest, store.greatest.wrapping_add(1)]),
            4 => place.settings.most = rng.pick(&[0, 1, 256, 257]),
            5 => place.settings.machine = rng.below(3) as u64,
            6 => place.settings.version_1 = rng.below(3) as u64,
            _ => place.settings.version_3 = rng.below(3) as u64,
        }
    }
    store
}

/// Whether some calls leave it, by the second implementation. It has no free places of any content and no
/// versions but two flags.
fn calls_leave(store: &Store) -> bool {
    let mut live = vec![];
    for place in &store.places {
        let own = place.settings;
        match place.number {
            0 if *place == Place::default() => {}
            0 => return false,
            _ if own.version_1 > 1 || own.version_3 > 1 => return false,
            number => live.push(Edition {
                number,
                settings: as_second(as_made(own)),
            }),
        }
    }
    second::Store::set_up(store.greatest, &live).is_some()
}

/// The bytes of a store are taken exactly where some calls from the empty store leave it.
#[test]
fn bytes_are_taken_where_calls_leave_such_a_store() {
    let mut rng = Rng::new(29);
    let mut met = [0; 2];
    for _ in 0..40_000 {
        let store = nearly_right(&mut rng);
        let expected = calls_leave(&store);
        let taken = Editions::from_bytes(&forged(store.clone()));
        assert_eq!(taken.is_ok(), expected, "{taken:?} of {store:?}");
        met[usize::from(expected)] += 1;
    }
    assert!(met.iter().all(|met| *met >= 5_000), "{met:?}");
}
