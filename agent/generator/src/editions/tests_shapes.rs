//! What the sequences are made of.

use super::tests::{of_store, start};
use super::{of_length, sequence, settings, Answer, Call, Kind, LAST, PLACES};
use crate::Rng;

#[test]
fn a_seed_decides_every_sequence() {
    let sequences = |seed| {
        let mut rng = Rng::new(seed);
        (0..20).map(|_| sequence(&mut rng)).collect::<Vec<_>>()
    };
    assert_eq!(sequences(1), sequences(1));
    assert_ne!(sequences(1), sequences(2));
}

#[test]
fn lengths_are_as_asked_for() {
    let mut rng = Rng::new(1);
    for length in [0, 1, 2, 63, 64, 65, 300] {
        for kind in Kind::ALL {
            let sequence = of_length(&mut rng, kind, length);
            assert_eq!((sequence.calls.len(), sequence.kind), (length, kind));
        }
    }
}

/// Late and last sequences have a past; all others begin on an empty store.
#[test]
fn sequences_begin_as_their_kind_says() {
    let mut rng = Rng::new(2);
    let (mut full, mut partly, mut none) = (0, 0, 0);
    for nth in 0..3_000 {
        let kind = Kind::ALL[nth % Kind::ALL.len()];
        let sequence = of_length(&mut rng, kind, 0);
        match kind {
            Kind::Late => assert!((LAST - 90..=LAST).contains(&sequence.greatest)),
            Kind::Last => assert_eq!(sequence.greatest, LAST),
            _ => assert_eq!((sequence.greatest, sequence.live.len()), (0, 0)),
        }
        start(&sequence);
        match sequence.live.len() {
            0 => none += 1,
            PLACES => full += 1,
            _ => partly += 1,
        }
    }
    assert!([full, partly, none].iter().all(|met| *met >= 100));
}

/// How many calls are made on a full store and on one that holds nothing, and how many editions are
/// made after others were retired.
fn full_empty_again(rng: &mut Rng, kind: Kind) -> [u64; 3] {
    let sequence = of_length(rng, kind, 600);
    let mut store = start(&sequence);
    let mut met = [0; 3];
    for (call, _) in sequence.calls {
        let places = store.editions().len();
        met[0] += u64::from(places == PLACES);
        met[1] += u64::from(places == 0);
        let retired = store.greatest() > places as u64;
        let made = matches!(of_store(&mut store, call), Answer::Made(_));
        met[2] += u64::from(made && retired);
    }
    met
}

#[test]
fn stores_are_filled_and_emptied_and_filled_again() {
    let mut rng = Rng::new(3);
    for kind in Kind::ALL {
        let mut met = [0; 3];
        for _ in 0..20 {
            let more = full_empty_again(&mut rng, kind);
            met = std::array::from_fn(|nth| met[nth] + more[nth]);
        }
        let least = match kind {
            Kind::Young => [1_000, 20, 1_000],
            Kind::Full => [5_000, 0, 1_000],
            Kind::Tides => [500, 500, 1_000],
            Kind::Turning => [0, 100, 1_000],
            Kind::Late => [500, 500, 100],
            Kind::Last => [1_000, 1_000, 0],
        };
        let enough = met.into_iter().zip(least).all(|(met, least)| met >= least);
        assert!(enough, "{kind:?}: {met:?}");
    }
}

#[test]
fn settings_are_at_their_limits_and_past_them() {
    let mut rng = Rng::new(4);
    let (mut counts, mut machines, mut versions) = ([0; 5], [0; 3], [0; 4]);
    for nth in 0..20_000 {
        let settings = match nth % 2 {
            0 => settings::right(&mut rng),
            _ => settings::wrong(&mut rng),
        };
        assert_eq!(settings.are_right(), nth % 2 == 0, "{settings:?}");
        let count = match settings.largest_count {
            0 => 0,
            1 => 1,
            256 => 2,
            257 => 3,
            _ => 4,
        };
        counts[count] += 1;
        machines[settings.machine.min(2) as usize] += 1;
        versions[usize::from(settings.version_1) + 2 * usize::from(settings.version_3)] += 1;
    }
    let met = counts.into_iter().chain(machines).chain(versions);
    assert!(met.into_iter().all(|met| met >= 1_000), "{counts:?}");
}

/// Numbers that are asked for: 0, live, retired, one past the greatest, and past all numbers.
#[test]
fn numbers_of_every_sort_are_asked_for() {
    let mut rng = Rng::new(5);
    let mut met = [0; 5];
    for _ in 0..300 {
        let sequence = sequence(&mut rng);
        let mut store = start(&sequence);
        for (call, _) in sequence.calls {
            let live = |number| store.read(number).is_ok();
            if let Call::Retire(number) | Call::Read(number) = call {
                let sort = match number {
                    0 => 0,
                    _ if live(number) => 1,
                    _ if number <= store.greatest() => 2,
                    _ if number == store.greatest() + 1 => 3,
                    _ => 4,
                };
                met[sort] += 1;
            }
            of_store(&mut store, call);
        }
    }
    assert!(met.iter().all(|met| *met >= 500), "{met:?}");
}
