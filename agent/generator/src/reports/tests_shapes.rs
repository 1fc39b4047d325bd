//! What the reports are made of.

use super::{counts, of_length, report, section, Kind, Part, REFUSED, TOTALS};
use crate::frames::plain::first_pair;
use crate::{Rng, Version};
use reference::check;

#[test]
fn a_seed_decides_every_report() {
    let reports = |seed| {
        let mut rng = Rng::new(seed);
        (0..100).map(|_| report(&mut rng)).collect::<Vec<_>>()
    };
    assert_eq!(reports(1), reports(1));
    assert_ne!(reports(1), reports(2));
}

#[test]
fn lengths_and_answers_are_as_the_kind_says() {
    let mut rng = Rng::new(2);
    for length in [0, 1, 2, 5, 40] {
        for kind in Kind::ALL {
            for _ in 0..50 {
                let report = of_length(&mut rng, kind, length);
                assert_eq!((report.parts.len(), report.kind), (length, kind));
                let refused = report.answer().map(|answer| answer.refused.is_some());
                match kind {
                    Kind::Small | Kind::Exact => assert_eq!(refused, Some(false)),
                    Kind::Past => assert_eq!(refused, Some(length > 0)),
                    Kind::Any | Kind::Late => assert!(refused.is_some()),
                    Kind::Damaged => assert_eq!(refused.is_none(), length > 0),
                }
                let zeros = report.before == [0; TOTALS];
                let from_nothing = matches!(kind, Kind::Small | Kind::Any | Kind::Damaged);
                assert!(zeros || !from_nothing);
            }
        }
    }
}

/// Whole sections and those with a fault, of each version, as the check has them.
#[test]
fn parts_are_accepted_or_refused_as_they_say() {
    let mut rng = Rng::new(3);
    let (mut whole, mut refused, mut open) = ([0; 2], 0, [0; 2]);
    for _ in 0..2_000 {
        for Part { bytes, adds } in report(&mut rng).parts {
            let is_accepted = check(&bytes).is_ok();
            match adds {
                Some(REFUSED) => refused += 1,
                Some(_) => whole[usize::from(bytes[0] == 1)] += 1,
                None => open[usize::from(is_accepted)] += 1,
            }
            assert!(adds.is_none_or(|adds| (adds == REFUSED) != is_accepted));
        }
    }
    let met = [whole[0], whole[1], refused, open[0], open[1]];
    println!("{met:?}");
    assert!(met.iter().all(|met| *met >= 300), "{met:?}");
}

/// Statepoints and records that are just not, in both versions; with and without pairs, with over 256.
#[test]
fn records_are_at_the_edge_of_being_statepoints() {
    let mut rng = Rng::new(4);
    for version in Version::ALL {
        let (mut with, mut without, mut many, mut not) = (0, 0, 0, 0);
        for _ in 0..5_000 {
            let section = section(&mut rng, version);
            for record in &section.records {
                match first_pair(record).map(|first| (record.locations.len() - first) / 2) {
                    Some(0) => without += 1,
                    Some(257..) => many += 1,
                    Some(_) => with += 1,
                    None => not += 1,
                }
            }
        }
        let met = [with, without, many, not];
        println!("{version:?}: {met:?}");
        assert!(met.iter().all(|met| *met >= 30), "{met:?}");
    }
}

/// Every total is added to by some section, and stack sizes of one section alone pass 2^64 - 1.
#[test]
fn sections_add_to_every_total() {
    let mut rng = Rng::new(5);
    let (mut met, mut past) = ([0; TOTALS], 0);
    for nth in 0..4_000 {
        let adds = counts(&section(&mut rng, Version::ALL[nth % 2]));
        past += u64::from(adds.iter().any(|adds| *adds > u128::from(u64::MAX)));
        met = std::array::from_fn(|total| met[total] + u64::from(adds[total] > 0));
    }
    assert_eq!((met[0], met[1]), (4_000, 0));
    assert!(met[2..].iter().all(|met| *met >= 200), "{met:?}");
    assert!(past >= 200, "{past}");
}

/// No order is given twice where no two sections are alike.
#[test]
fn orders_are_all_there_are() {
    let mut rng = Rng::new(6);
    for length in 0..=5 {
        let mut report = of_length(&mut rng, Kind::Small, length);
        for (nth, part) in report.parts.iter_mut().enumerate() {
            part.bytes = vec![nth as u8];
        }
        let orders = report.orders();
        let mut lists: Vec<Vec<u8>> = orders
            .iter()
            .map(|order| order.parts.iter().map(|part| part.bytes[0]).collect())
            .collect();
        lists.sort();
        lists.dedup();
        let expected: usize = (1..=length).product();
        let all = |list: &Vec<u8>| (0..length).all(|nth| list.contains(&(nth as u8)));
        assert_eq!((lists.len(), orders.len()), (expected, expected));
        assert!(lists.iter().all(|list| list.len() == length && all(list)));
    }
}

#[test]
fn another_order_has_the_same_sections() {
    let mut rng = Rng::new(7);
    let mut moved = 0;
    for _ in 0..1_000 {
        let report = report(&mut rng);
        let other = report.reordered(&mut rng);
        moved += u64::from(other != report);
        let sorted = |parts: &[Part]| {
            let mut bytes: Vec<_> = parts.iter().map(|part| part.bytes.clone()).collect();
            bytes.sort();
            bytes
        };
        assert_eq!(sorted(&report.parts), sorted(&other.parts));
        assert_eq!(report.before, other.before);
    }
    assert!(moved >= 700, "{moved}");
}
