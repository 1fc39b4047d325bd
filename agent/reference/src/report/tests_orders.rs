//! The order of sections, and reports in parts.

use super::tests::alone;
use super::*;
use crate::fixtures::*;
use crate::section::{encode, write, Version};

/// All orders of the numbers below `count`.
fn orders(count: usize) -> Vec<Vec<usize>> {
    let mut all = vec![vec![]];
    for last in 0..count {
        let longer = all.iter().flat_map(|order: &Vec<usize>| {
            (0..=order.len()).map(|at| {
                let mut order = order.clone();
                order.insert(at, last);
                order
            })
        });
        all = longer.collect();
    }
    all
}

/// The report of sections in an order.
fn in_order(before: Totals, sections: &[Vec<u8>], order: &[usize]) -> Report {
    report(before, order.iter().map(|&nth| sections[nth].as_slice()))
}

/// A section of either version, or one that is refused.
fn section(random: &mut Random) -> Vec<u8> {
    let mut section = random.section();
    match random.below(6) {
        0 => section.push(0),
        1 => section[3] = 1,
        2 => section = one_statepoint(random),
        _ => {}
    }
    section
}

/// A section with one function of unknown stack size and one statepoint.
fn one_statepoint(random: &mut Random) -> Vec<u8> {
    let version = [Version::One, Version::Three][random.below(2) as usize];
    let pairs = vec![(rsp(8), rsp(16)); random.below(4) as usize];
    let own = [function(0x1000, u64::MAX, 1)];
    write(version, &own, &[], &[statepoint(0, &pairs)])
}

/// Up to five sections.
fn sections(random: &mut Random) -> Vec<Vec<u8>> {
    (0..random.below(6)).map(|_| section(random)).collect()
}

/// The sums of what the sections add, each section by itself.
fn sums(sections: &[Vec<u8>]) -> [u64; TOTALS] {
    let mut sums = [0; TOTALS];
    for section in sections {
        let added = alone(section).numbers();
        sums = std::array::from_fn(|nth| sums[nth] + added[nth]);
    }
    sums
}

#[test]
fn there_are_so_many_orders() {
    let counts = [0, 1, 2, 3, 4, 5].map(|count| orders(count).len());
    assert_eq!(counts, [1, 1, 2, 6, 24, 120]);
}

/// In every order the totals are the sums of what each section adds.
#[test]
fn order_does_not_alter_totals() {
    let mut random = Random(10);
    let (mut reports, mut refused, mut accepted) = (0, 0, 0);
    for _ in 0..300 {
        let sections = sections(&mut random);
        let totals = Totals::of(sums(&sections));
        for order in orders(sections.len()) {
            let answer = in_order(Totals::default(), &sections, &order);
            assert_eq!((answer.refusal, answer.totals), (None, totals));
            reports += 1;
        }
        refused += totals.refused;
        accepted += totals.sections - totals.refused;
    }
    assert!(reports >= 5_000, "{reports}");
    assert!(refused >= 200 && accepted >= 200, "{refused}, {accepted}");
}

/// One total begins so high that it ends exactly at 2^64 - 1, and no order
/// gives 34; or one higher, and every order does, at the section that takes it
/// past the end.
#[test]
fn every_order_gives_34_or_none_does() {
    let mut random = Random(34);
    let mut tried = [0; TOTALS];
    for _ in 0..1_000 {
        let sections = sections(&mut random);
        let sums = sums(&sections);
        let nth = random.below(TOTALS as u64) as usize;
        if sums[nth] == 0 {
            continue;
        }
        let mut before = [0; TOTALS];
        before[nth] = u64::MAX - sums[nth];
        let exact = Totals::of(before);
        before[nth] += 1;
        let past = Totals::of(before);
        for order in orders(sections.len()) {
            let answer = in_order(exact, &sections, &order);
            assert_eq!(answer.refusal, None);
            assert_eq!(answer.totals.numbers()[nth], u64::MAX);
            let answer = in_order(past, &sections, &order);
            let position = last_that_adds(&sections, &order, nth);
            let added = answer.totals.sections - past.sections;
            let refusal = answer.refusal.expect("one more than there is room for");
            assert_eq!((refusal.number, added), (34, position as u64));
            assert_eq!(refusal.place, answer.totals.sections);
        }
        tried[nth] += 1;
    }
    assert!(tried.iter().all(|&tried| tried >= 10), "{tried:?}");
}

/// The position in the order of the last section that adds to a total.
fn last_that_adds(sections: &[Vec<u8>], order: &[usize], nth: usize) -> usize {
    let adds = |&section: &usize| alone(&sections[section]).numbers()[nth] > 0;
    order.iter().rposition(adds).expect("some section adds")
}

/// Where an order gives 34, another can end at another section; but none gives
/// none.
#[test]
fn the_position_and_the_totals_before_34_depend_on_the_order() {
    let most = encode(&[function(1, u64::MAX - 1, 0)], &[], &[]);
    let sections = [row_h(), most, vec![]];
    let mut positions: Vec<_> = orders(3)
        .iter()
        .map(|order| in_order(Totals::default(), &sections, order).refusal)
        .map(|refusal| refusal.expect("34 in every order").place)
        .collect();
    positions.sort();
    assert_eq!(positions, [1, 1, 2, 2, 2, 2]);
}

/// The totals that a list of sections leaves.
fn totals_of(before: Totals, sections: &[Vec<u8>]) -> Totals {
    report(before, sections.iter().map(Vec::as_slice)).totals
}

/// The totals of two parts, added, are those of the whole, wherever it is
/// parted; and a report that goes on from the first part's is too.
#[test]
fn parts_add_up_to_the_whole() {
    let mut random = Random(2);
    let none = Totals::default();
    let mut parts = 0;
    for _ in 0..500 {
        let sections = sections(&mut random);
        let whole = totals_of(none, &sections);
        for at in 0..=sections.len() {
            let (first, last) = sections.split_at(at);
            let half = totals_of(none, first);
            assert_eq!(half.and(totals_of(none, last)), Some(whole));
            assert_eq!(totals_of(half, last), whole);
            parts += 1;
        }
    }
    assert!(parts >= 1_000, "{parts}");
}
