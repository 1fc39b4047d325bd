//! Every way in which the index of a small section can be wrong by little.

use crate::asked::{Calls, Known};
use crate::common::say;
use generator::arranged::{self, Order};
use generator::indexes::right;
use generator::{asked, older, Case, Rng, Section};

/// Asks with an index all that is worth asking, in lists of exactly the room that is needed.
fn ask(section: &Section, index: &[u64]) -> u64 {
    let case = Case::known("small", section.encode(), 0, 0);
    let own = right(section);
    let mut addresses: Vec<u64> = own.iter().step_by(2).copied().collect();
    addresses.dedup();
    let beside = addresses.clone();
    addresses.extend(beside.iter().map(|own| own.wrapping_add(1)));
    addresses.extend([0, u64::MAX]);
    let calls = Calls {
        case: &case,
        known: Known::of(&case, section, index),
        index,
        addresses: &addresses,
    };
    calls.fill(own.len());
    let (number, _) = calls.find_all(5 * addresses.len());
    let single = calls.find(addresses[0]);
    assert!(single == number || (single, number) == (10, 0));
    number
}

/// All lists that are one small step from an index.
fn near(index: &[u64]) -> Vec<Vec<u64>> {
    let mut lists = vec![index.to_vec(), Vec::new()];
    for (nth, own) in index.iter().enumerate() {
        for other in [own.wrapping_add(1), own.wrapping_sub(1), own ^ 1 << 63, 0] {
            let mut changed = index.to_vec();
            changed[nth] = other;
            lists.push(changed);
        }
        lists.push(index[..nth].to_vec());
        lists.push([&index[..nth], &index[nth + 1..]].concat());
        lists.push([&index[..=nth], &index[nth..]].concat());
        for other in 0..nth {
            let mut exchanged = index.to_vec();
            exchanged.swap(nth, other);
            lists.push(exchanged);
        }
    }
    let (pairs, _) = index.as_chunks::<2>();
    for nth in 0..pairs.len() {
        lists.push([&pairs[..nth], &pairs[nth + 1..]].concat().concat());
        lists.push([&pairs[..=nth], &pairs[nth..]].concat().concat());
        for other in 0..nth {
            let mut exchanged = pairs.to_vec();
            exchanged.swap(nth, other);
            lists.push(exchanged.concat());
            let mut doubled = pairs.to_vec();
            doubled[nth] = doubled[other];
            lists.push(doubled.concat());
            let mut doubled = pairs.to_vec();
            doubled[other] = doubled[nth];
            lists.push(doubled.concat());
        }
    }
    for more in [&[0][..], &[u64::MAX], &[0, 0], &[u64::MAX, u64::MAX]] {
        lists.push([index, more].concat());
    }
    lists
}

#[test]
fn every_small_change_of_a_small_index() {
    let mut rng = Rng::new(1);
    let mut sections = asked::all();
    sections.extend(older::asked::all());
    for _ in 0..20 {
        sections.extend(Order::ALL.map(|order| arranged::section(&mut rng, order)));
    }
    let (mut accepted, mut refused) = (0, 0);
    for section in sections
        .iter()
        .filter(|section| section.records.len() <= 12)
    {
        let own = right(section);
        for index in near(&own) {
            let is = index == own && section.version.number() == 3;
            let number = ask(section, &index);
            assert_eq!(is, number == 0, "{number}");
            accepted += u64::from(is);
            refused += u64::from(!is);
        }
    }
    say(&format!(
        "{refused} indexes nearly right, {accepted} right ones"
    ));
}

/// Lists of every length up to more than is needed, for filling and for answers.
#[test]
fn lists_of_every_length() {
    let mut rng = Rng::new(2);
    for order in Order::ALL {
        let section = loop {
            let section = arranged::section(&mut rng, order);
            if section.records.len() <= 12 {
                break section;
            }
        };
        let (case, index) = (
            Case::known("small", section.encode(), 0, 0),
            right(&section),
        );
        let addresses = [0, index.first().copied().unwrap_or(1), u64::MAX];
        for count in 0..=3 {
            let calls = Calls {
                case: &case,
                known: Known::of(&case, &section, &index),
                index: &index,
                addresses: &addresses[..count],
            };
            for room in 0..index.len() + 4 {
                let number = calls.fill(room);
                assert_eq!(number, if room < index.len() { 24 } else { 0 });
            }
            for room in 0..20 {
                let (number, _) = calls.find_all(room);
                assert_eq!(number, if room < 5 * count { 24 } else { 0 });
            }
        }
    }
}
