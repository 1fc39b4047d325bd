//! The proved library against the second implementation, on millions of random sections of both
//! versions and on the edges of the rules.
//!
//! The random sections follow from a seed. It is printed; `TRESKIBBEN_SEED` sets it.

mod common;

use common::{assert_often, count_random, differ, nth_version, say, seed};
use generator::{aimed, case_in, edges, largest, older, Case, Rng, Version};

/// Sections in a run, made in parts that each have a source of random numbers.
const PARTS: u64 = 3_000;
const CASES_A_PART: u64 = 1_000;

/// How often each number was the answer, 0 to 9, where 0 is acceptance; for each version that sections
/// were made of.
const NUMBERS: usize = 10;
type Counts = [u64; 2 * NUMBERS];

/// Compares the two answers, and with the case's own where it has one. Gives the number. 5 and 8 are
/// never given of a section that states version 1.
fn compare(case: &Case) -> u64 {
    let library = match treskibben::check(&case.bytes) {
        Ok(()) => (0, 0),
        Err(refusal) => (refusal.number(), refusal.place()),
    };
    let second = match reference::section::check(&case.bytes) {
        Ok(()) => (0, 0),
        Err(refusal) => (refusal.number, refusal.place),
    };
    let known = case.answer.unwrap_or(second);
    if library != second || library != known {
        let answers = format!(
            "(number, place) by the library {library:?}, by the second implementation {second:?}, \
             known beforehand {:?}",
            case.answer
        );
        differ(case.name, &case.bytes, &answers);
    }
    if case.bytes.first() == Some(&1) && [5, 8].contains(&library.0) {
        differ(case.name, &case.bytes, &format!("{library:?} in version 1"));
    }
    library.0
}

#[test]
fn random_sections() {
    let compare = |rng: &mut Rng, counts: &mut Counts| {
        let version = rng.pick(&Version::ALL);
        let number = compare(&case_in(rng, version)) as usize;
        counts[NUMBERS * nth_version(version) + number] += 1;
    };
    let counts = count_random("random sections", PARTS, CASES_A_PART, compare);
    for (version, counts) in Version::ALL.into_iter().zip(counts.chunks(NUMBERS)) {
        say(&format!(
            "{} sections of version {}, {} accepted",
            counts.iter().sum::<u64>(),
            version.number(),
            counts[0]
        ));
        say(&format!("refused by 1 to 9: {:?}", &counts[1..]));
        assert!(counts.iter().sum::<u64>() >= 1_000_000);
        let numbers = [&[0], aimed::numbers(version)].concat();
        let own: Vec<u64> = numbers.iter().map(|nth| counts[*nth as usize]).collect();
        assert_often(&own, |nth| {
            format!("version {}, number {}", version.number(), numbers[nth])
        });
    }
}

#[test]
fn edges_of_the_rules() {
    let mut cases = 0;
    let mut count = |case: Case| {
        compare(&case);
        cases += 1;
    };
    edges::all(&mut count);
    older::edges::all(&mut count);
    say(&format!("{cases} sections at the edges of the rules"));
}

/// Every first byte but 1 and 3, whatever follows.
#[test]
fn no_other_version_is_read() {
    let mut rng = Rng::new(seed("other versions"));
    for version in (0..=255).filter(|version| ![1, 3].contains(version)) {
        for _ in 0..100 {
            let mut bytes = generator::case(&mut rng).bytes;
            bytes.resize(bytes.len().max(16), 0);
            bytes[0] = version;
            let case = Case::known("no version", bytes, 2, 0);
            assert_eq!(compare(&case), 2);
        }
    }
}

#[test]
fn largest_sections() {
    largest::all(seed("largest sections"), &mut |case| {
        compare(&case);
    });
}
