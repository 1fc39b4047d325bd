//! The same sections in every order, refused ones among them, and from many threads.

use crate::common::{count_parts, say, seed};
use crate::{numbers, of, run};
use generator::reports::{of_length, Answer, Kind, Report};
use generator::Rng;
use std::thread;
use treskibben::report::Totals;

/// How often each length from 0 to 5 is tried with each kind, and so how many orders there are of it.
const TIMES: u64 = 20;

/// What was met: orders without 34 and with, and among the first those of a list with a refused section, and of
/// one that ends at 2^64 - 1.
const MET: [&str; 4] = ["alike", "with 34", "with a refused section", "at the end"];

/// Every order of one list.
fn every_order(report: &Report, met: &mut [u64; MET.len()]) {
    let answer = run(report);
    let orders = report.orders();
    assert_eq!(orders.len(), (1..=report.parts.len()).product());
    for other in orders {
        let own = run(&other);
        let known = other.answer();
        assert!(known.is_none_or(|known| known == own), "{other:?}");
        met[usize::from(answer.refused.is_some())] += 1;
        let Answer { refused, totals } = answer;
        match refused {
            None => assert_eq!(own, answer, "{report:?}"),
            Some(_) => assert!(own.refused.is_some(), "{report:?}"),
        }
        met[2] += u64::from(refused.is_none() && totals[1] > report.before[1]);
        met[3] += u64::from(refused.is_none() && totals.contains(&u64::MAX));
    }
}

/// All orders of up to five sections of each kind. The totals are alike where none gave 34, and where one order
/// gave it, all do.
#[test]
fn every_order_of_up_to_five_sections() {
    let seed = seed("every order of up to five sections");
    let met = count_parts(seed, TIMES, |rng, met| {
        for kind in Kind::ALL {
            for length in 0..=5 {
                every_order(&of_length(rng, kind, length), met);
            }
        }
    });
    say(&format!("{:?}", MET.iter().zip(met).collect::<Vec<_>>()));
    let all: u64 = met[..2].iter().sum();
    assert_eq!(
        all,
        TIMES * Kind::ALL.len() as u64 * (1 + 1 + 2 + 6 + 24 + 120)
    );
    assert!(met.iter().all(|met| *met >= 1_000), "{met:?}");
}

/// Longer lists in other orders, from the same totals.
#[test]
fn longer_lists_in_other_orders() {
    let seed = seed("longer lists in other orders");
    let met = count_parts(seed, 100, |rng, met: &mut [u64; 2]| {
        for kind in Kind::ALL {
            let length = 6 + rng.below(30);
            let report = of_length(rng, kind, length);
            let answer = run(&report);
            for _ in 0..3 {
                let own = run(&report.reordered(rng));
                match answer.refused {
                    None => assert_eq!(own, answer, "{report:?}"),
                    Some(_) => assert!(own.refused.is_some(), "{report:?}"),
                }
                met[usize::from(answer.refused.is_some())] += 1;
            }
        }
    });
    say(&format!("longer lists: {met:?} without 34 and with"));
    assert!(met.iter().all(|met| *met >= 300), "{met:?}");
}

/// The totals of so many threads, each of which takes every so many-th section, joined.
fn by_threads(report: &Report, threads: usize) -> Result<Totals, u64> {
    let part = |first: usize| {
        let own = report.parts.iter().skip(first).step_by(threads);
        Totals::of(own.map(|part| &part.bytes)).map_err(|refusal| refusal.number())
    };
    let mut totals = of(report.before);
    thread::scope(|scope| {
        let workers: Vec<_> = (0..threads)
            .map(|first| scope.spawn(move || part(first)))
            .collect();
        for worker in workers {
            let own = worker.join().expect("no panic")?;
            totals.join(own).map_err(|refusal| refusal.number())?;
        }
        Ok(totals)
    })
}

/// What is counted on several threads at the same time is what is counted on one: a sum, or 34.
#[test]
fn threads_count_alike() {
    let mut rng = Rng::new(seed("reports on several threads"));
    let mut met = [0; 2];
    for nth in 0..600 {
        let kind = Kind::ALL[nth % Kind::ALL.len()];
        let report = of_length(&mut rng, kind, nth % 24);
        let answer = run(&report);
        let expected = match answer.refused {
            None => Ok(answer.totals),
            Some(_) => Err(34),
        };
        for threads in [1, 2, 3, 8] {
            let own = by_threads(&report, threads).map(numbers);
            assert_eq!(own, expected, "{threads} threads: {report:?}");
        }
        met[usize::from(answer.refused.is_some())] += 1;
    }
    assert!(met.iter().all(|met| *met >= 100), "{met:?}");
}
